"""The tables of tools/commands.d and tools/first_faults.d. The first line of each says how many cases it has."""
from __future__ import annotations

import re
from pathlib import Path
from typing import Iterator, Optional


def lines_of(table: Path) -> Iterator[tuple[int, str]]:
    """The lines of a table, with their numbers, without empty ones and those that begin with `#`."""
    lines = enumerate(table.read_text().split("\n"), 1)
    return ((number, line) for number, line in lines if line and not line.startswith("#"))


def number_fault(table: Path, number: int) -> Optional[str]:
    """What is wrong where the table's first line does not say that it has so many cases."""
    first = f"# {number} cases"
    begins = table.read_text().partition("\n")[0]
    return None if begins == first else f"{table.name} begins with `{begins[:40]}`, and has {number} cases"
