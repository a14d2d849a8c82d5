"""docs/CONFIGURATION.md as data: the members of each object, the faults with their examples, whole configurations."""

from __future__ import annotations

import json
import re
from dataclasses import dataclass
from typing import Any, Iterator, NamedTuple

from facts import Facts, Key, Span, Unreadable, exception, row, said, text_of

PAGE = "docs/CONFIGURATION.md"

# Each object of a configuration, and the heading under which the page has its members.
HEADINGS = {
    "top": "Top members",
    "class": "A class",
    "rate": "Rate and traffic",
    "traffic": "Rate and traffic",
    "internal": "Internal",
    "event": "Event members",
    "aggregate": "Aggregate",
    "threshold": "Threshold",
}

# The kinds of members as the page says them, and as crates/config_json does. Every other kind is that of an object.
KINDS = {
    "whole number": "Whole",
    "whole number or null": "WholeOrNull",
    "true or false": "Truth",
    "text": "Text",
    "list of whole numbers": "Wholes",
}

# How many ranges the page has to give of a member of a kind that lists no choices.
RANGES = {"Whole": 1, "Text": 1, "Wholes": 2, "List": 1}

# What stands in a column of defaults and is no JSON.
DEFAULTS = {"empty": "[]", "empty object": "{}"}

NUMBER = r"(\d[\d,]*(?:\^\d+)?)"


def number(text: str) -> int:
    """A number as the page writes it: 1,024 or 2^62."""
    base, _, power = text.replace(",", "").partition("^")
    return int(base) ** int(power or 1)


def spans_in(text: str) -> tuple[Span, ...]:
    """The ranges that a text names, as `1 to 32` or `at most 4`, in its order."""
    found = re.finditer(rf"{NUMBER} to {NUMBER}|[Aa]t most {NUMBER}", text)
    return tuple(Span(0, number(it[3])) if it[3] else Span(number(it[1]), number(it[2])) for it in found)


def plain(cell: str) -> str:
    """A cell without its links."""
    return re.sub(r"\[([^]]*)\]\([^)]*\)", r"\1", cell)


def bare(cell: str) -> str:
    """A cell without its links and the marks of code."""
    return plain(cell).replace("`", "")


class Cells(dict[str, str]):
    """The cells of a row, by the heads of their columns."""

    def __missing__(self, head: str) -> str:
        raise Unreadable(f"{PAGE} has a table without a column {head}, of {self}")


class Table(NamedTuple):
    heading: str
    above: str  # what stands between the heading, or the table before, and this table
    head: list[str]
    rows: list[Cells]


def tables_of(text: str) -> Iterator[Table]:
    heading, above, lines = "", "", []
    for line in [*text.splitlines(), ""]:
        if line.startswith("|"):
            lines.append([cell.strip() for cell in line.removeprefix("|").removesuffix("|").split("|")])
            continue
        if lines:
            head = [bare(cell) for cell in lines[0]]
            yield Table(heading, above, head, [Cells(zip(head, cells)) for cells in lines[2:]])
            above, lines = "", []
        if line.startswith("#"):
            heading, above = line.lstrip("# "), ""
        else:
            above += line + "\n"


@dataclass(frozen=True)
class Member:
    name: str
    kind: str  # as crates/config_json names it
    part: str | None  # the object that it is or may be, or that its elements are
    is_required: bool
    default: Any  # where it is not required
    spans: tuple[Span, ...]  # of the number; or of the length, and then of the elements
    choices: tuple[int | str, ...]  # all that it may be, where the page lists that
    exception: tuple[int, int] | None  # the only number that it may be under a profile, and that profile
    words: str

    @property
    def is_second(self) -> bool:
        """It stands only in form 2."""
        return self.words.startswith("Only in form 2.")


def kind_of(words: str) -> tuple[str, str | None]:
    """The kind that the page names, and the object within it."""
    if words in KINDS:
        return KINDS[words], None
    found = re.fullmatch(r"(list of )?(\w+?)( or null)?", words)
    part = found and {"classes": "class", "events": "event"}.get(found[2], found[2])
    if part not in HEADINGS:
        raise Unreadable(f"{PAGE} has a kind `{words}`, which is none")
    return "List" if found[1] else "ObjectOrNull" if found[3] else "Object", part


def choices_of(limits: str, effects: dict[str, str]) -> tuple[int | str, ...]:
    """All that a member may be, by its column of ranges and its table of effects, if it has one."""
    numbers = re.fullmatch(rf"{NUMBER} or {NUMBER}", limits)
    if numbers:
        return number(numbers[1]), number(numbers[2])
    return tuple(effects) or tuple(re.findall(r'"(\w+)"', limits))


def words_of(cells: Cells, kind: str, effects: dict[str, str]) -> str:
    """What an editor shows of a member: its meaning, with what a schema cannot say of a list or of a name's effect."""
    if "Meaning" not in cells:
        return f"The event reports {plain(cells['The event reports']).rstrip('.')}."
    more = [f"{plain(cells['Range']).capitalize()}."] if kind == "Wholes" else []
    return " ".join([plain(cells["Meaning"]), *more, *(f"{name}: {effect}" for name, effect in effects.items())])


def member_of(cells: Cells, effects: dict[str, str]) -> Member:
    """The member of a row, and what each of its names does, if the page lists that."""
    (kind, part), default, limits = kind_of(plain(cells["Kind"])), bare(cells["Default"]), bare(cells.get("Range", ""))
    is_required, under = default == "required", re.search(r"; (\d+) under profile (\d+)", limits)
    try:
        value = None if is_required else json.loads(DEFAULTS.get(default, default))
    except ValueError:
        raise Unreadable(f"{PAGE} has a default `{default}`, which is none") from None
    name, spans, choices = bare(cells["Member"]), spans_in(limits), choices_of(limits, effects)
    if not choices and len(spans) != RANGES.get(kind, 0):
        raise Unreadable(f"{PAGE} has the range `{limits}` of {name}, which is none of its kind")
    return Member(
        name=name,
        kind=kind,
        part=part,
        is_required=is_required,
        default=value,
        spans=spans,
        choices=choices,
        exception=(int(under[1]), int(under[2])) if under else None,
        words=words_of(cells, kind, effects),
    )


def of_all_members(above: str) -> dict[str, str]:
    """What the text above a table says of each member in it, in place of a column."""
    each = re.search(r"Each member is a ([\w ]+), and (\w+) by default\.", above)
    if each:
        return {"Kind": each[1], "Default": each[2]}
    return {"Default": "required"} if re.search(r"\b(All|Both) members are required\b", above) else {}


class Example(NamedTuple):
    """A configuration that the page gives, and what the program answers it."""

    fault: int
    text: str
    answer: str


class Page:
    def __init__(self) -> None:
        self.text = text_of(PAGE)
        self.tables = list(tables_of(self.text))
        self.objects = {name: self._members(name) for name in HEADINGS}
        self.files: list[str] = re.findall(r"```json\n(.*?)```", self._section("Examples"), re.S)
        self.fault_rows = self._table("Faults", "N").rows
        self.unsaid_table = self._table("What no schema says", "N")
        if len(self.files) < 2:
            raise Unreadable(f"{PAGE} has no configurations under Examples")

    def _section(self, heading: str) -> str:
        return self.text.partition(f"\n## {heading}\n")[2].partition("\n## ")[0]

    def _table(self, heading: str, first: str) -> Table:
        """The table under the heading whose first column has this head."""
        for table in self.tables:
            if table.heading == heading and table.head[0] == first:
                return table
        raise Unreadable(f"{PAGE} has no table of {first} under {heading}")

    def _effects(self, heading: str, name: str) -> dict[str, str]:
        """What each name that the member may have does, none where there is no table of it."""
        rows = next((it.rows for it in self.tables if it.heading == heading and it.head == [name, "Effect"]), [])
        return {bare(cells[name]): plain(cells["Effect"]) for cells in rows}

    def _members(self, name: str) -> dict[str, Member]:
        """The members of an object, in their order."""
        heading = HEADINGS[name]
        table = self._table(heading, "Object" if name in ("rate", "traffic") else "Member")
        above = of_all_members(table.above)
        rows = [Cells(above | cells) for cells in table.rows if bare(cells.get("Object", name)) == name]
        if not rows:
            raise Unreadable(f"{PAGE} has no member of {name} under {heading}")
        members = (member_of(cells, self._effects(heading, bare(cells["Member"]))) for cells in rows)
        return {member.name: member for member in members}

    def promise(self) -> str:
        """What a configuration that fits may be refused for all the same, in the words of the page."""
        rows = (f"{cells['N']}: {plain(cells['What'])}" for cells in self.unsaid_table.rows)
        return " ".join([*plain(self.unsaid_table.above).split(), *rows])

    def completed(self, tree: dict[str, Any], name: str = "top") -> dict[str, Any]:
        """An object with every member written, what was left out by its default."""

        def member_in(member: Member) -> Any:
            value = tree.get(member.name, member.default)
            if member.part and isinstance(value, list):
                return [self.completed(element, member.part) for element in value]
            return self.completed(value, member.part) if isinstance(value, dict) else value

        return {member.name: member_in(member) for member in self.objects[name].values()}

    def faults(self) -> list[Example]:
        """The example of each fault."""
        return list(map(self._example, self.fault_rows))

    def unsaid(self) -> list[Example]:
        """The example of each fault that no schema says."""
        return list(map(self._example, self.unsaid_table.rows))

    def _example(self, cells: Cells) -> Example:
        text, base = cells["Example"].strip("`"), self.files[0].strip()
        whole = {"whole file": text, "top": f"{base[:-1]},{text}}}", "event": f"{base[:-3]},{text}}}]}}"}
        if cells["Written into"] not in whole:
            raise Unreadable(f"{PAGE} writes the example of fault {cells['N']} into `{cells['Written into']}`")
        return Example(int(cells["N"]), whole[cells["Written into"]], bare(cells["Answer"]))

    def facts(self) -> Facts:
        """What the page says of each member and of each fault, to be compared with others."""
        facts: Facts = {}
        for name, members in self.objects.items():
            facts[Key(name, "members")] = ", ".join(members)
            for member in members.values():
                facts |= facts_of(f"{name} {member.name}", member)
        for cells in self.fault_rows:
            if spans := set(spans_in(cells["How to mend it"])):
                facts[Key(f"fault {cells['N']}", "ranges")] = said(sorted(spans))
        return facts


def facts_of(where: str, member: Member) -> Facts:
    """What the page says of a member."""
    facts = {Key(where, "row"): row(member.kind, member.is_required, member.is_second)}
    if not member.is_required:
        facts[Key(where, "default")] = json.dumps(member.default)
    if member.spans:
        facts[Key(where, "range")] = said(member.spans)
    if member.choices:
        facts[Key(where, "choices")] = said(member.choices)
    if member.exception:
        facts[Key(where, "exception")] = exception(*member.exception)
    return facts
