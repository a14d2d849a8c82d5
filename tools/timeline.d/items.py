"""The picture of a short run: each item is a mark in its event's lane, in the order of the journal."""
from __future__ import annotations

from dataclasses import dataclass
from typing import Optional

from accounts import Lost
from explained import Item, Mode, Run, State
from inputs import Labels, number
from svg import BLACK, COLOURS, DARK, FAINT, GREY, Frame, short, width_of

# A run with more items and turns, or with more events, is drawn by bars.
MOST_MARKS, MOST_EVENTS = 110, 24
ROW = 40
SHORT = {"OFF": "off", "BRIEF": "brief", "DETAILED": "detailed", "BRIEF_BYPASSING_FILTERS": "brief!",
         "DETAILED_BYPASSING_FILTERS": "detailed!"}


@dataclass(frozen=True)
class Lossy:
    """A lost report, which stands before the turn that counts it."""
    event: int
    count: int


def is_short(run: Run, lost: Lost) -> bool:
    marks = len(run.steps) + len(run.turns) + sum(map(len, lost or []))
    return marks <= MOST_MARKS and len(run.accounts) <= MOST_EVENTS


def parts_of(run: Run, lost: Lost) -> list[list[object]]:
    """What stands from left to right, by turn: the number of the turn, its steps, and the reports that were lost after it."""
    steps: list[list[object]] = [[], *([turn] for turn in range(len(run.turns)))]
    for turn, step in run.steps:
        steps[turn + 1].append(step)
    for turn, reports in enumerate(lost or []):
        steps[turn] += [Lossy(*report) for report in reports]
    return steps


def columns_of(parts: list[list[object]], cell: float, run: Run) -> list[object]:
    """The same in columns. Those of a turn are as many as its tick needs room; nothing stands in some."""
    columns: list[object] = []
    for turn, part in enumerate(parts, -1):
        room = (width_of(number(run.turns[turn].tick), 9) + 8) / cell if turn >= 0 else 0
        columns += part + [None] * (int(room + 0.99) - len(part))
    return columns


class Items:
    def __init__(self, run: Run, labels: Labels, lost: Lost, title: str):
        self.run, self.labels = run, labels
        parts = parts_of(run, lost)
        self.cell = max(9.0, min(30.0, 900 / max(1, sum(map(len, parts)))))
        self.columns = columns_of(parts, self.cell, run)
        self.frame = Frame(run, labels, lost, title, max(420, self.cell * len(self.columns)), 0, True)
        self.svg = self.frame.svg
        y = self.frame.heads()
        self.has_state = any(isinstance(step, State) for step in self.columns)
        self.state_at = y
        y += 20 if self.has_state else 0
        # A row for each kind of loss that there is: its colour, and what each turn counts.
        kinds = {"lost": [turn.lost_reports for turn in run.turns], "missing": [turn.lost_contexts for turn in run.turns]}
        self.losses = {name: counts for name, counts in kinds.items() if any(counts)}
        self.loss_at = y
        y += 12 * len(self.losses)
        self.turn_at, self.top = y, y + 18
        self.bottom = self.top + ROW * len(run.accounts)
        # Where the last label of a mode ends, by event.
        self.labelled: dict[int, float] = {}

    def lane(self, event: int) -> float:
        return self.top + ROW * event

    def draw(self) -> str:
        for event in range(len(self.run.accounts)):
            if event % 2 == 0:
                self.svg.box(self.frame.left, self.lane(event), self.frame.lanes, ROW, 'fill="#f6f6f6"')
            self.frame.row(self.lane(event), ROW, event)
        self.draw_turns()
        self.draw_windows()
        self.draw_states()
        self.draw_marks()
        marks = [("lost", "down", "lost reports, counted by the turn")] if self.run.lost_reports() else []
        marks += [("missing", "down", "lost contexts")] if self.run.lost_contexts() else []
        y = self.frame.legend(self.bottom + 24, marks, self.notes())
        return self.svg.whole(y, self.frame.title)

    def notes(self) -> str:
        items = [step for step in self.columns if isinstance(step, Item)]
        words = "A square is a report"
        words += ", a circle is what the manager tells itself" if any(item.kind == "I" for item in items) else ""
        words += ", a diamond is what a window gave when it closed" if any(item.kind == "W" for item in items) else ""
        words += ", an open square is a lost report" if any(isinstance(step, Lossy) for step in self.columns) else ""
        bypasses = any(isinstance(step, Mode) and SHORT[step.mode].endswith("!") for step in self.columns)
        words += ". The number is the count"
        words += ", and a bar below says that the context was lost" if any(item.missing for item in items) else ""
        return f"{words}.{' A mode with ! bypasses the filters.' if bypasses else ''}"

    def x(self, column: int) -> float:
        return self.frame.left + self.cell * column

    def draw_turns(self) -> None:
        """A line at each turn, with its tick, and what it counts as lost."""
        svg = self.svg
        svg.text(self.frame.left - 8, self.turn_at + 13, "tick of the turn", 9, "end", FAINT)
        places = {step: self.x(at) for at, step in enumerate(self.columns) if isinstance(step, int)}
        for turn, x in places.items():
            svg.line(x + 0.5, self.turn_at + 4, x + 0.5, self.bottom, "#aaa", ' stroke-width="0.8"')
            svg.text(x + 4, self.turn_at + 13, number(self.run.turns[turn].tick), 9, colour=GREY)
        for row, (name, counts) in enumerate(self.losses.items()):
            self.draw_losses(self.loss_at + 12 * row + 9, name, [(places[turn], count) for turn, count in enumerate(counts) if count])

    def draw_losses(self, y: float, name: str, counts: list[tuple[float, int]]) -> None:
        """A mark for each turn that counts losses, with their number where there is room."""
        free = 0.0
        for x, count in counts:
            self.svg.add(f'<path class="{name}" d="M{short(x - 4)} {short(y - 7)}h9l-4.5 7z"/>')
            if x >= free:
                self.svg.text(x + 8, y, f"{count:,}", 9, colour=COLOURS[name], bold=True)
                free = x + 12 + width_of(f"{count:,}", 9)

    def draw_windows(self) -> None:
        """A line from the first report of a window to what it gave, or to the end where it is still open."""
        first: dict[int, float] = {}
        for column, step in enumerate(self.columns):
            if not isinstance(step, Item):
                continue
            middle, y = self.x(column) + self.cell / 2, self.lane(step.event) + ROW / 2
            if step.kind == "W" and step.event in first:
                self.svg.line(first.pop(step.event), y, middle, y, COLOURS["aggregate"], ' stroke-width="2"')
            if step.fate == "aggregate":
                first.setdefault(step.event, middle)
        for event, x in first.items():
            y = self.lane(event) + ROW / 2
            self.svg.line(x, y, self.frame.right, y, COLOURS["aggregate"], ' stroke-width="2" stroke-dasharray="4 3"')

    def draw_states(self) -> None:
        """The band of the state, where it changes."""
        if not self.has_state:
            return
        changes = [(self.x(at) + self.cell / 2, step.state) for at, step in enumerate(self.columns) if isinstance(step, State)]
        starts = [(self.frame.left, self.labels.state), *changes]
        draw_band(self.frame, self.state_at, starts)

    def draw_marks(self) -> None:
        for column, step in enumerate(self.columns):
            if isinstance(step, Item):
                self.draw_item(self.x(column) + self.cell / 2, step)
            elif isinstance(step, Lossy):
                self.draw_lost(self.x(column) + self.cell / 2, step)
            elif isinstance(step, Mode):
                self.draw_mode(column, step)

    def draw_item(self, x: float, item: Item) -> None:
        svg, y, size = self.svg, self.lane(item.event) + ROW / 2, min(self.cell - 2, 19)
        said = {"W": "what a window gave", "I": "the manager itself", "R": "call {1} of caller {0}".format(*item.call or (0, 0))}
        svg.add(f"<g><title>{said[item.kind]}: count {item.count}, {item.fate}{', stored' if item.stored else ''}</title>")
        if item.kind == "W":
            half = short(size / 2 + 2)
            svg.add(f'<path class="{item.fate}" d="M{short(x)} {short(y)}m0 -{half}l{half} {half}l-{half} {half}l-{half} -{half}z"/>')
        elif item.kind == "I":
            svg.add(f'<circle class="{item.fate}" cx="{short(x)}" cy="{short(y)}" r="{short(size / 2)}"/>')
        else:
            svg.box(x - size / 2, y - size / 2, size, size, f'class="{item.fate}" rx="2"')
        if item.missing:
            svg.box(x - size / 2, y + size / 2 + 2, size, 3, 'class="missing"')
        self.draw_count(x, y, item.count, size, "#fff" if item.fate in DARK else BLACK)
        svg.add("</g>")

    def draw_count(self, x: float, y: float, count: int, size: float, colour: str) -> None:
        letters = min(9, int(2 * (size - 1) / width_of(str(count), 1)) / 2)
        if letters >= 5:
            self.svg.text(x, y + 0.35 * letters, str(count), letters, "middle", colour)

    def draw_lost(self, x: float, report: Lossy) -> None:
        y, size = self.lane(report.event) + ROW / 2, min(self.cell - 3, 17)
        self.svg.box(x - size / 2, y - size / 2, size, size, f'fill="#fff" stroke="{COLOURS["lost"]}"')
        if size >= 12:
            self.draw_count(x, y, report.count, size, COLOURS["lost"])

    def draw_mode(self, column: int, step: Mode) -> None:
        x, y = self.x(column) + self.cell / 2, self.lane(step.event)
        self.svg.line(x, y + 2, x, y + ROW - 2, "#555", ' stroke-dasharray="2 2"')
        is_low = x < self.labelled.get(step.event, 0)
        self.svg.text(x + 3, y + (ROW - 2 if is_low else 9), SHORT[step.mode], 8, colour=GREY)
        self.labelled[step.event] = 0 if is_low else x + 5 + width_of(SHORT[step.mode], 8)


def draw_band(frame: Frame, y: float, starts: list[tuple[float, Optional[int]]]) -> None:
    """The states from left to right, each from where it starts."""
    frame.svg.text(14, y + 10, "state", 10, colour=GREY)
    for (x, state), (end, _) in zip(starts, [*starts[1:], (frame.right, None)]):
        shade = "#fff" if state is None else ("#f0f0f0", "#d2d2d2", "#bebebe", "#e2e2e2")[state % 4]
        frame.svg.box(x, y, end - x, 13, f'fill="{shade}" stroke="#888" stroke-width="0.5"')
        words = "?" if state is None else str(state)
        if end - x > width_of(words, 9) + 2:
            frame.svg.text((x + end) / 2, y + 10, words, 9, "middle", BLACK)


def draw_items(run: Run, labels: Labels, lost: Lost, title: str) -> str:
    return Items(run, labels, lost, title).draw()
