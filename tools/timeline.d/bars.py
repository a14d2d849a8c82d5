"""The picture of a long run: a lane for each event, with stacked bars of what became of its items, over the ticks."""
from __future__ import annotations

from collections import Counter
from dataclasses import dataclass, field
from typing import Optional

from accounts import Lost
from explained import FATES, Run, State
from inputs import Labels, number
from items import draw_band
from svg import COLOURS, FAINT, Frame, short, width_of

# The least width of a bar, and how wide the lanes are at least together with the labels before them.
BAR, INNER = 4, 1400
# With more events than these, each lane is lower, and those of which nothing came have none.
MOST_LANES = 60


class Axis:
    """Which bar a turn belongs to: by its tick, or by its number where the ticks crowd."""

    def __init__(self, run: Run, left: float, width: float):
        ticks = [turn.tick for turn in run.turns] or [0]
        most = int(width // BAR)
        self.left = left
        self.bins = min(most, max(len(ticks), 1)) if len(ticks) > 1 else 1
        self.values = ticks
        used = len({self.bin(turn) for turn in range(len(ticks))})
        self.by_tick = 3 * used >= min(len(set(ticks)), most)
        if not self.by_tick:
            self.values = list(range(len(ticks)))
        self.bar = width / self.bins

    def bin(self, turn: int) -> int:
        low, high = self.values[0], self.values[-1]
        return (self.values[turn] - low) * self.bins // (high - low + 1)

    def middle(self, bin_: int) -> float:
        return self.left + (bin_ + 0.5) * self.bar

    def marks(self) -> list[tuple[float, str]]:
        """The places below the lanes that get a number."""
        low, high = self.values[0], self.values[-1]
        step = 1
        while (high - low) // step > 10:
            step = step * 5 // 2 if str(step)[0] == "2" else step * 2
        first = -(-low // step) * step
        at = (self.middle((value - low) * self.bins // (high - low + 1)) for value in range(first, high + 1, step))
        return [(x, number(value)) for x, value in zip(at, range(first, high + 1, step))]


@dataclass
class Bars:
    """What one lane holds, by bar: how many items of each fate, lost reports and lost contexts."""
    fates: dict[int, Counter] = field(default_factory=dict)
    lost: Counter = field(default_factory=Counter)
    missing: set[int] = field(default_factory=set)

    def add(self, bin_: int, fate: str) -> None:
        self.fates.setdefault(bin_, Counter())[fate] += 1

    def most(self) -> int:
        return max((sum(self.fates.get(bin_, Counter()).values()) + self.lost[bin_] for bin_ in {*self.fates, *self.lost}), default=0)


class Long:
    def __init__(self, run: Run, labels: Labels, lost: Lost, title: str):
        self.run, self.labels, self.lost = run, labels, lost
        self.frame = Frame(run, labels, lost, title, 620, INNER, False)
        self.svg = self.frame.svg
        self.axis = Axis(run, self.frame.left, self.frame.lanes)
        self.row = 26 if len(run.accounts) <= MOST_LANES else 13
        self.whole, self.lanes = self.counted()

    def counted(self) -> tuple[Bars, list[Bars]]:
        """The bars of all events together, and of each."""
        whole, lanes = Bars(), [Bars() for _ in self.run.accounts]
        for turn, item in self.run.items():
            bin_ = self.axis.bin(turn)
            for bars in (whole, lanes[item.event]):
                bars.add(bin_, item.fate)
                if item.missing:
                    bars.missing.add(bin_)
        for turn, reports in enumerate(self.lost or []):
            for event, _ in reports:
                for bars in (whole, lanes[event]):
                    bars.lost[self.axis.bin(turn)] += 1
        return whole, lanes

    def draw(self) -> str:
        run, y = self.run, self.frame.heads()
        y = self.strip(y, "lost reports", "lost", [turn.lost_reports for turn in run.turns])
        y = self.strip(y, "lost contexts", "missing", [turn.lost_contexts for turn in run.turns])
        y = self.states(y)
        top = y
        if len(run.accounts) > 1:
            self.lane(y, 52, None, self.whole)
            y += 56
        for event, bars in self.shown():
            self.lane(y, self.row, event, bars)
            y += self.row
        y = self.ticks(top, y)
        y = self.frame.legend(y, self.legend_marks(), self.notes())
        return self.svg.whole(y, self.frame.title)

    def shown(self) -> list[tuple[int, Bars]]:
        """The events that have a lane, with what it holds."""
        is_long = len(self.lanes) > MOST_LANES
        return [(event, bars) for event, bars in enumerate(self.lanes) if bars.most() or not is_long]

    def strip(self, y: float, label: str, name: str, numbers: list[int]) -> float:
        """What the turns count as lost, where they do; gives the place below."""
        by_bin: Counter = Counter()
        for turn, count in enumerate(numbers):
            by_bin[self.axis.bin(turn)] += count
        if not any(numbers):
            return y
        svg, most = self.svg, max(by_bin.values())
        svg.box(self.frame.left, y, self.frame.lanes, 22, 'fill="#fafafa"')
        svg.text(14, y + 15, f"{label}  {sum(numbers):,}", 10, colour=COLOURS[name], bold=True)
        self.path(name, ((bin_, y, max(2.5, 21 * count / most)) for bin_, count in sorted(by_bin.items()) if count))
        svg.text(self.frame.right + 4, y + 9, f"≤ {most:,}", 7, colour=FAINT)
        return y + 24

    def states(self, y: float) -> float:
        steps = [(self.axis.bin(turn), step.state) for turn, step in self.run.steps if isinstance(step, State)]
        changes = [(self.frame.left + bin_ * self.axis.bar, state) for bin_, state in steps]
        if not changes:
            return y + 4
        draw_band(self.frame, y, [(self.frame.left, self.labels.state), *changes])
        return y + 20

    def path(self, name: str, bars) -> None:
        """Bars of one colour: each has its bin, its top and its height."""
        gap = 0.0 if self.axis.bar < 8 else 1.5
        width = min(self.axis.bar - gap, 26)
        lefts = ((self.axis.middle(bin_) - width / 2, y, height) for bin_, y, height in bars)
        parts = [f"M{short(x)} {short(y)}h{short(width)}v{short(height)}h-{short(width)}z" for x, y, height in lefts]
        if parts:
            self.svg.add(f'<path class="{name}" d="{"".join(parts)}"/>')

    def lane(self, y: float, height: float, event: Optional[int], bars: Bars) -> None:
        svg, frame = self.svg, self.frame
        svg.add(f"<g><title>{'all events' if event is None else f'event {event}, {frame.name_of(event)}'}</title>")
        if event is not None and event % 2 == 0:
            svg.box(frame.left, y, frame.lanes, height, 'fill="#f6f6f6"')
        frame.row(y, height, event)
        most, top = bars.most(), y + 2
        room = height - (6 if self.run.lost_contexts() else 3)
        if most:
            svg.text(frame.right + 4, y + 9, f"≤ {most:,}", 7, colour=FAINT)
            self.stacks(top, room, most, bars)
        svg.line(frame.left, y + height - 0.5, frame.right, y + height - 0.5, "#ddd", ' stroke-width="0.7"')
        svg.add("</g>")

    def stacks(self, top: float, room: float, most: int, bars: Bars) -> None:
        """The bars of a lane, from its bottom up; the lost reports hang from its top."""
        unit = room / most
        heights: dict[int, float] = dict.fromkeys(bars.fates, 0.0)
        for fate in FATES:
            drawn = []
            for bin_ in sorted(bars.fates):
                height = bars.fates[bin_][fate] * unit
                if height:
                    heights[bin_] += height
                    drawn.append((bin_, top + room - heights[bin_], height))
            self.path(fate, drawn)
        self.path("lost", ((bin_, top, count * unit) for bin_, count in sorted(bars.lost.items()) if count))
        self.path("missing", ((bin_, top + room + 0.5, 2.5) for bin_ in sorted(bars.missing)))

    def ticks(self, top: float, y: float) -> float:
        svg, frame, free = self.svg, self.frame, self.frame.left - 6
        for x, words in self.axis.marks():
            svg.line(x, top, x, y + 4, "#000", ' stroke-opacity="0.15" stroke-width="0.6"')
            if x - width_of(words, 9) / 2 >= free:
                svg.text(x, y + 14, words, 9, "middle", FAINT)
                free = x + width_of(words, 9) / 2 + 6
        svg.text(frame.left - 8, y + 14, "tick" if self.axis.by_tick else "turn", 9, "end", FAINT)
        return y + 38

    def legend_marks(self) -> list[tuple[str, str, str]]:
        marks = [("lost", "hang", "lost reports, which hang from a lane's top")] if self.lost and any(self.lost) else []
        return marks + ([("missing", "under", "below a bar: a report lost its context")] if self.run.total("missing") else [])

    def notes(self) -> str:
        unit = "" if self.axis.bins >= len(self.run.turns) else " A bar is of several turns."
        empty = len(self.lanes) - len(self.shown())
        unit += f" Nothing came of {empty} further events." if empty else ""
        words = "A bar tells what came in its turns, and what became of it."
        return f"{words} Each lane has its own height: ≤ is what its highest bar tells.{unit}"


def draw_bars(run: Run, labels: Labels, lost: Lost, title: str) -> str:
    return Long(run, labels, lost, title).draw()
