"""The accounts of a run, as a table and as lines of JSON."""
from __future__ import annotations

import json
from typing import Optional

from explained import COLUMNS, Run

Lost = Optional[list[list[tuple[int, int]]]]


def lost_of(lost: Lost, event: int) -> int:
    """How many lost reports are of an event."""
    return sum(one == event for turn in lost or [] for one, _ in turn)


def some(count: int, noun: str) -> str:
    return f"{count:,} {noun}{'' if count == 1 else 's'}"


def losses(run: Run) -> str:
    """What the turns tell of losses, in words."""
    told = [(run.lost_reports(), "report"), (run.lost_contexts(), "context")]
    words = " and ".join(some(count, noun) for count, noun in told if count)
    return f"{words} lost" if words else "nothing lost"


def table(run: Run, lost: Lost) -> str:
    """The accounts in aligned columns; a column of zeros is left out."""
    shown = [name for name in COLUMNS if run.total(name)]
    rows = [["event", "id", "sensor", *shown]]
    rows += [[str(event), str(it.id), str(it.sensor), *(str(it[name]) for name in shown)] for event, it in enumerate(run.accounts)]
    rows.append(["all", "", "", *(str(run.total(name)) for name in shown)])
    if lost is not None:
        counts = [lost_of(lost, event) for event in range(len(run.accounts))]
        for row, word in zip(rows, ["lost", *map(str, counts), str(sum(counts))]):
            row.append(word)
    widths = [max(map(len, column)) for column in zip(*rows)]
    lines = ["  ".join(word.rjust(width) for word, width in zip(row, widths)) for row in rows]
    rule = "-" * len(lines[0])
    return "\n".join([lines[0], rule, *lines[1:-1], rule, lines[-1], f"{some(len(run.turns), 'turn')}, {losses(run)}"]) + "\n"


def json_lines(run: Run, lost: Lost) -> str:
    """A line for each event, and one for the run, whose `event` is null."""
    rows = []
    for event, account in enumerate(run.accounts):
        row = {"event": event, "id": account.id, "sensor": account.sensor, **account.numbers}
        rows.append(row if lost is None else {**row, "lost": lost_of(lost, event)})
    ticks = [turn.tick for turn in run.turns] or [None]
    rows.append({"event": None, "turns": len(run.turns), "first_tick": ticks[0], "last_tick": ticks[-1],
                 **{name: run.total(name) for name in COLUMNS}, "lost_reports": run.lost_reports(),
                 "lost_contexts": run.lost_contexts(), "lost_calls": len(run.losses)})
    return "".join(json.dumps(row, separators=(",", ":")) + "\n" for row in rows)
