"""Shapes and words of a picture, and the columns that both kinds of picture have."""
from __future__ import annotations

import re
from html import escape
from typing import Optional

from accounts import Lost, lost_of, losses, some
from explained import FATES, Run
from inputs import Labels, number

# Chosen by search: people who do not see red, green or blue as others do tell any two of them apart.
COLOURS = {"sent": "#02217c", "unsent": "#5dc1f6", "rate": "#b93405", "traffic": "#fda31d", "aggregate": "#1e9350",
           "threshold": "#f1cf70", "nth": "#d9d9d9", "block": "#999999", "mode": "#575757",
           "lost": "#000000", "missing": "#be1ad5"}
WORDS = {"sent": "sent", "unsent": "qualified, not to be sent", "rate": "held back by rate", "traffic": "held back by traffic",
         "aggregate": "joined to a window", "threshold": "below its threshold", "nth": "not every nth",
         "block": "dropped by the state", "mode": "dropped by its mode"}
# On these a number is white.
DARK = {"sent", "rate", "mode", "aggregate"}
MARGIN = 14
# What no text of XML may have: most control characters, and halves of pairs, as names that are no UTF-8 give.
NOT_XML = re.compile("[^\t\n\r -\ud7ff\ue000-\ufffd\U00010000-\U0010ffff]")
GREY, FAINT, BLACK = "#444", "#666", "#222"


def short(value: float) -> str:
    """A coordinate, to a tenth."""
    return f"{value:.1f}".rstrip("0").rstrip(".")


def width_of(words: str, size: float) -> float:
    """About how wide words are, rather more than less."""
    return 0.62 * size * len(words)


def xml(words: str) -> str:
    """Words as a text of XML, with a mark in the place of each character that none may have."""
    return escape(NOT_XML.sub("\ufffd", words))


class Svg:
    def __init__(self, width: float):
        self.width = width
        self.parts: list[str] = []

    def add(self, part: str) -> None:
        self.parts.append(part)

    def text(self, x: float, y: float, words: str, size: float = 10, anchor: str = "start", colour: str = BLACK,
             bold: bool = False) -> None:
        if not words:
            return
        more = ("" if anchor == "start" else f' text-anchor="{anchor}"') + (' font-weight="bold"' if bold else "")
        self.add(f'<text x="{short(x)}" y="{short(y)}" font-size="{size}"{more} fill="{colour}">{xml(words)}</text>')

    def box(self, x: float, y: float, width: float, height: float, more: str) -> None:
        self.add(f'<rect x="{short(x)}" y="{short(y)}" width="{short(width)}" height="{short(height)}" {more}/>')

    def line(self, x1: float, y1: float, x2: float, y2: float, colour: str, more: str = "") -> None:
        self.add(f'<path d="M{short(x1)} {short(y1)}L{short(x2)} {short(y2)}" stroke="{colour}"{more}/>')

    def whole(self, height: float, title: str) -> str:
        style = "".join(f".{name}{{fill:{colour}}}" for name, colour in COLOURS.items())
        size = f"{short(self.width)} {short(height)}"
        head = (f'<svg xmlns="http://www.w3.org/2000/svg" viewBox="0 0 {size}" width="{short(self.width)}" height="{short(height)}" '
                f'font-family="DejaVu Sans, Verdana, Helvetica, Arial, sans-serif" role="img">\n'
                f"<title>{xml(title)}</title>\n<style>{style}</style>\n<rect width=\"100%\" height=\"100%\" fill=\"#fff\"/>\n")
        return head + "\n".join(self.parts) + "\n</svg>\n"


class Frame:
    """What stands around the lanes: heads, labels, numbers, legend and the sum."""

    def __init__(self, run: Run, labels: Labels, lost: Lost, title: str, lanes: float, inner: float, two_lines: bool):
        self.run, self.labels, self.lost, self.title, self.two_lines = run, labels, lost, title, two_lines
        self.left = 46 + max(90.0, *(self.label_width(event) for event in range(len(run.accounts)))) + MARGIN
        self.lanes = max(lanes, inner - self.left - 320)
        self.right = self.left + self.lanes
        self.columns = self.placed_columns()
        self.bar = self.right + 36 + 50 * len(self.columns)
        self.svg = Svg(self.bar + 118 + 62)

    def name_of(self, event: int) -> str:
        return f"{self.run.accounts[event].id}, {self.run.accounts[event].sensor}"

    def label_width(self, event: int) -> float:
        name, settings = self.name_of(event), self.labels.settings[event]
        return max(width_of(name, 9), width_of(settings, 9)) if self.two_lines else width_of(f"{name} · {settings}", 9)

    def placed_columns(self) -> list[tuple[str, str]]:
        """The columns of numbers: their heads and their colours."""
        columns = [("came", BLACK), ("sent", COLOURS["sent"])]
        if self.lost is not None:
            columns.append(("lost", COLOURS["lost"]))
        if self.run.total("missing"):
            columns.append(("no ctx", COLOURS["missing"]))
        return columns

    def heads(self) -> float:
        """Writes the title and the heads of the columns, and gives the place below them."""
        run, svg = self.run, self.svg
        ticks = [turn.tick for turn in run.turns]
        span = f", ticks {number(ticks[0])} to {number(ticks[-1])}" if ticks else ""
        ways = f"{some(run.total('came'), 'item')} came, {some(run.total('sent'), 'message')} sent"
        svg.text(MARGIN, 26, self.title, 16, bold=True)
        svg.text(svg.width - MARGIN, 26, f"{some(len(run.turns), 'turn')}{span} · {ways} · {losses(run)}", 11, "end", GREY)
        settings = ", settings" if any(self.labels.settings) else ""
        for x, words in ((MARGIN, "event"), (46, f"id, sensor{settings}"), (self.bar, "what became of them")):
            svg.text(x, 50, words, 9, colour=FAINT)
        for at, (head, _) in enumerate(self.columns, 1):
            svg.text(self.right + 20 + 50 * at, 50, head, 9, "end", FAINT)
        svg.text(svg.width - MARGIN, 50, "stored", 9, "end", FAINT)
        return 58

    def row(self, y: float, height: float, event: Optional[int]) -> None:
        """Writes the label of a lane and its numbers; those of all events where it is none."""
        svg, mid = self.svg, y + height / 2 + 3.5
        svg.text(MARGIN, mid, "all events" if event is None else str(event), 10, bold=True)
        if event is not None:
            name, settings = self.name_of(event), self.labels.settings[event]
            if self.two_lines:
                svg.text(46, mid - (6 if settings else 0), name, 9, colour=GREY)
                svg.text(46, mid + 6, settings, 9, colour=GREY)
            else:
                svg.text(46, mid, " · ".join(filter(None, (name, settings))), 9, colour=GREY)
        numbers = {head: self.number_of(head, event) for head, _ in self.columns}
        for at, (head, colour) in enumerate(self.columns, 1):
            if numbers[head] or head in ("came", "sent"):
                svg.text(self.right + 20 + 50 * at, mid, f"{numbers[head]:,}", 10, "end", colour, head != "came")
        self.share(y, height, event)
        if stored := self.number_of("stored", event):
            svg.text(svg.width - MARGIN, mid, f"{stored:,}", 10, "end")

    def number_of(self, name: str, event: Optional[int]) -> int:
        """A number of an event's account, or of all."""
        if name == "lost":
            return sum(map(len, self.lost or [])) if event is None else lost_of(self.lost, event)
        name = "missing" if name == "no ctx" else name
        return self.run.total(name) if event is None else self.run.accounts[event][name]

    def share(self, y: float, height: float, event: Optional[int]) -> None:
        """A bar of what became of the items."""
        high = min(11, height - 3)
        counts = {fate: self.number_of(fate, event) for fate in FATES}
        whole, x = max(1, sum(counts.values())), self.bar
        for fate in FATES:
            if counts[fate]:
                width = 118 * counts[fate] / whole
                self.svg.box(x, y + (height - high) / 2, width, high, f'class="{fate}"')
                x += width

    def legend(self, y: float, marks: list[tuple[str, str, str]], notes: str) -> float:
        """Writes what the colours and marks say, the sum and the notes, and gives the place below them."""
        shapes = {"square": "M0 -9h11v11h-11z", "hang": "M0 -9h11v5h-11z", "under": "M0 -2h11v4h-11z", "down": "M0 -8h10l-5 9z"}
        entries = [(fate, "square", f"{WORDS[fate]} {self.run.total(fate):,}") for fate in FATES if self.run.total(fate)]
        x = float(MARGIN)
        for name, shape, words in entries + marks:
            width = 16 + width_of(words, 10) + 10
            if x + width > self.svg.width - MARGIN and x > MARGIN:
                x, y = MARGIN, y + 18
            self.svg.add(f'<path class="{name}" d="{shapes[shape]}" transform="translate({short(x)} {short(y)})"/>')
            self.svg.text(x + 16, y, words)
            x += width
        self.svg.text(MARGIN, y + 20, self.sum(), 9, colour=FAINT)
        self.svg.text(MARGIN, y + 34, notes, 9, colour=FAINT)
        return y + 46

    def sum(self) -> str:
        """The law of the accounts, with this run's numbers."""
        run = self.run
        fates = " + ".join(f"{run.total(fate):,} {fate}" for fate in FATES if run.total(fate)) or "0"
        waiting = f" In open windows at the end: {run.total('open'):,}." if run.total("open") else ""
        return f"{run.total('came'):,} came + {some(run.total('closed'), 'closed window')} = {fates}.{waiting}"
