"""What the tools over the repository share: its crates, its pages, and the parts of pages that a tool makes."""
from __future__ import annotations

import re
import sys
from dataclasses import dataclass
from pathlib import Path
from typing import Callable, Iterator

TOP = Path(__file__).resolve().parent.parent
PAGES = ("README.md", "CHANGELOG.md", "docs/*.md", "c/README.md", "wireshark/README.md", "examples/*/README.md", "crates/*/README.md")


@dataclass(frozen=True)
class Crate:
    """A crate of crates.txt: its layer, as `2 Shared rings`, and the crates that its line names."""

    name: str
    layer: str
    stands_on: tuple[str, ...]

    def files(self, pattern: str) -> list[Path]:
        """Its files of a pattern, sorted."""
        return sorted((TOP / "crates" / self.name).glob(pattern))

    def root(self) -> Path:
        """The file whose head says what the crate is."""
        src = TOP / "crates" / self.name / "src"
        return src / ("lib.rt" if (src / "lib.rt").is_file() else "main.rt")


def crates() -> list[Crate]:
    """The crates of crates.txt, in its order."""
    layer, found = "", []
    for line in (TOP / "crates.txt").read_text().splitlines():
        title = re.fullmatch(r"# (\d+ .+)", line)
        row = re.match(r"(\w+)[^:#]*:([^#]*)", line)
        if title:
            layer = title[1]
        elif row:
            found.append(Crate(row[1], layer, tuple(row[2].split())))
    return found


def pages() -> Iterator[Path]:
    """The pages, README.md first."""
    for pattern in PAGES:
        yield from sorted(TOP.glob(pattern))


@dataclass(frozen=True)
class Part:
    """A part of a page that a tool makes. It stands between two comments, the first of which names the tool."""

    page: str
    tool: str
    text: str

    def page_with_it(self) -> str:
        """The page with this text in the part's place."""
        begin, end = f"<!-- {self.tool} makes what follows -->\n", "<!-- made until here -->"
        before, found, after = (TOP / self.page).read_text().partition(begin)
        _, ends, after = after.partition(end)
        if not found or not ends:
            sys.exit(f"{self.tool}: {self.page} has no part that it makes")
        return f"{before}{begin}\n{self.text.strip()}\n\n{end}{after}"

    def faults(self) -> Iterator[str]:
        """What is wrong where the page has another text."""
        new, old = self.page_with_it().splitlines(), (TOP / self.page).read_text().splitlines()
        for sign, lines, others in (("has not", new, {*old}), ("has", old, {*new})):
            yield from (f"{self.page} {sign}: {line}" for line in lines if line not in others)
        if new != old and {*new} == {*old}:
            yield f"{self.page} has the lines of {self.tool} in another order or number"


def run(parts: list[Part], faults: Callable[[], Iterator[str]]) -> int:
    """Prints the parts; or by `write` puts them into their pages; or by `check` compares, with other faults."""
    words = sys.argv[1:]
    if not words:
        print(*(part.text for part in parts), sep="\n")
    elif words == ["write"]:
        for part in parts:
            (TOP / part.page).write_text(part.page_with_it())
    elif words == ["check"]:
        lost = [*faults(), *(fault for part in parts for fault in part.faults())]
        print(*lost, f"{0 if lost else 1} passed, {len(lost)} failed", sep="\n")
        return 1 if lost else 0
    else:
        sys.exit(f"usage: {parts[0].tool} [write | check]")
    return 0
