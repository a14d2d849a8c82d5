"""What the code and the definitions say of the configuration. Proofs tie them together; this reads each of them."""

from __future__ import annotations

import json
import re
from typing import Iterator, NamedTuple

from facts import Facts, Key, Source, Span, Unreadable, exception, row, said, text_of

CODE_TABLES = "crates/config_json/src/tables.rt"
TABLES = "crates/config_json/specs/Tables.antt"
SHAPE = "crates/config_json/specs/Shape.antt"
MEMBERS = "crates/config_json/specs/Members.antt"
MODES = "crates/ids_types/specs/ModeNames.antt"
LIMITS = "crates/ids_config/src/limits.rt"
CHECKS = [f"crates/ids_config/src/{name}.rt" for name in ("config", "layout", "events")]


class Row(NamedTuple):
    """A member in a table of the code or of the definitions."""

    name: str
    kind: str
    is_required: bool
    is_second: bool = False


Rows = dict[str, list[Row]]


def find(pattern: str, text: str, path: str) -> re.Match[str]:
    """The one place where the text has this."""
    found = list(re.finditer(pattern, text, re.S | re.M))
    if len(found) != 1:
        raise Unreadable(f"{path} has {len(found)} places, and not one, of {pattern}")
    return found[0]


def rows_in(text: str) -> list[Row]:
    """The rows that a text has, of the code or of the definitions."""
    found = re.findall(r'\b(must|may)(?:!\(| \(codes )"(\w+)"(?:, |\) kinds\.)(\w+)', text)
    return [Row(name, kind, need == "must") for need, name, kind in found]


def rows_of_code() -> Rows:
    """The tables of crates/config_json/src/tables.rt."""
    text = text_of(CODE_TABLES)
    rows = {name.lower(): rows_in(body) for name, body in re.findall(r"const (\w+): [^=]*= \[(.*?)\];", text, re.S)}
    for name in ("top", "event"):
        macro = find(rf"macro_rules! {name} \{{(.*?)^\}}", text, CODE_TABLES)[1]
        before, _, after = macro.partition("$($row,)*")
        first, second = (
            rows_in(find(rf"const {const}: [^=]*= {name}!\((.*?)\);", text, CODE_TABLES)[1])
            for const in (name.upper(), name.upper() + "_2")
        )
        between = [it for it in first if it in second]
        between += [it._replace(is_second=True) for it in second if it not in first]
        rows[name] = [*rows_in(before), *between, *rows_in(after)]
    return rows


def rows_of_definitions() -> Rows:
    """The tables of crates/config_json/specs/Tables.antt, with the names of windows out of Shape.antt."""
    text, shape = text_of(TABLES), text_of(SHAPE)

    def table(name: str) -> str:
        return find(rf"^{name}_table(?: \w+)* =(.*?)(?=\n\n|\Z)", text, TABLES)[1]

    rows = {name: rows_in(table(name)) for name in ("top", "class", "event", "aggregate", "internal")}
    for name in ("top", "event"):
        second = rows_in(find(r"since_second form (\(.*?\) kinds\.\w+)\)", table(name), TABLES)[1])
        rows[name] = [it._replace(is_second=it in second) for it in rows[name]]
    for number, name in re.findall(r'window_table \(codes "(\w+)"\)\)+ \(codes "(\w+)"\)', shape):
        rows[name] = rows_in(table("window").replace("must name", f'must (codes "{number}")'))
    return rows


def facts_of_rows(rows: Rows) -> Facts:
    facts: Facts = {}
    for name, members in rows.items():
        facts[Key(name, "members")] = ", ".join(member.name for member in members)
        for member in members:
            facts[Key(f"{name} {member.name}", "row")] = row(member.kind, member.is_required, member.is_second)
    return facts


class Range(NamedTuple):
    """A range that the code checks, and the number of its fault."""

    fault: int
    where: str
    spans: tuple[Span, ...]


class Checks:
    """The checks of crates/ids_config/src."""

    def __init__(self, rows: Rows) -> None:
        self.rows = rows
        self.text = text_of(*CHECKS)
        self.limits = {
            name: int(most.replace("_", "")) << int(shift or 0)
            for name, most, shift in re.findall(r"const (\w+): \w+ = ([\d_]+)(?: << (\d+))?;", text_of(LIMITS))
        }

    def _find(self, pattern: str) -> re.Match[str]:
        return find(pattern, self.text, "crates/ids_config/src")

    def _span(self, least: str, most: str) -> Span:
        if most not in self.limits:
            raise Unreadable(f"{LIMITS} has no {most}")
        return Span(int(least), self.limits[most])

    def _member(self, name: str, index: int) -> str:
        """The name of the member with this index in an object."""
        if len(self.rows.get(name, [])) <= index:
            raise Unreadable(f"{CODE_TABLES} has no member {index} of {name}")
        return self.rows[name][index].name

    def ranges(self) -> Iterator[Range]:
        yield from self._numbers()
        yield from self._windows()
        yield from self._lists()

    def _numbers(self) -> Iterator[Range]:
        """The numbers that stand in an object itself."""
        greatest = self.greatest_version()[3]
        checks = re.findall(r"in_range\((\d+), (\d+), (\w+(?:\(profile\))?), (parts|event|class)\.(\w+)\)", self.text)
        for fault, least, most, held_in, name in checks:
            place = "top" if held_in == "parts" else held_in
            member = self._member(place, int(name)) if name.isdigit() else name
            most = most.replace("max_version(profile)", greatest)
            yield Range(int(fault), f"{place} {member}", (self._span(least, most),))

    def _windows(self) -> Iterator[Range]:
        """The numbers of limits and filters."""
        interval = self._span(*self._find(r"in_range\(number, (\d+), (\w+), interval\)").groups())
        joined = self._find(r"check_interval\((\d+), aggregate\.interval\)")
        yield Range(int(joined[1]), "aggregate interval", (interval,))
        limit = self._find(r"check_window\((\d+), (\d+), (\w+), limit\)")
        threshold = self._find(r"check_window\((\d+), (\d+), (\w+), event\.threshold\)")
        limited = re.findall(r"check_limit\(parts\.(\w+)\)", self.text)
        for name, found in [*((name, limit) for name in limited), ("threshold", threshold)]:
            yield Range(int(found[1]), f"{name} interval", (interval,))
            yield Range(int(found[1]), f"{name} {self._member(name, 1)}", (self._span(*found.groups()[1:]),))

    def _lists(self) -> Iterator[Range]:
        """The lengths of lists, and the elements of `block`."""
        classes = self._find(r"asks\((\d+), classes\.len\(\) <= (\w+)\)")
        yield Range(int(classes[1]), "top classes", (self._span("0", classes[2]),))
        events = self._find(r"asks\((\d+), !events\.is_empty\(\) && events\.len\(\) <= (\w+)\)")
        yield Range(int(events[1]), "top events", (self._span("1", events[2]),))
        block = self._find(r"asks\((\d+), block\.len\(\) <= (\w+) && rises\(block\)\)")
        state = self._find(r"let mut least = (\d+);\s*for &state in block \{\s*if state < least \|\| state > (\w+) \{")
        yield Range(int(block[1]), "event block", (self._span("0", block[2]), self._span(*state.groups())))

    def greatest_version(self) -> re.Match[str]:
        """A profile, the greatest version under it, and the name of the greatest one elsewhere."""
        return self._find(r"if profile == (\d+) \{ (\d+) \} else \{ (\w+) \}")

    def facts(self) -> Facts:
        ranges = list(self.ranges())
        profile, version, _ = self.greatest_version().groups()
        facts = {Key(it.where, "range"): said(it.spans) for it in ranges}
        for fault in sorted({it.fault for it in ranges}):
            spans = {span for it in ranges if it.fault == fault for span in it.spans}
            facts[Key(f"fault {fault}", "ranges")] = said(sorted(spans))
        return facts | {Key("event version", "exception"): exception(int(version), int(profile))}


def mode_names() -> dict[str, str]:
    """The names of modes in texts, by their names in the code."""
    return dict(re.findall(r'^mode_name (\w+) = codes "(\w+)"', text_of(MODES), re.M))


def modes_read() -> list[str]:
    """The names in texts that name a mode."""
    listed = find(r"^all_modes = (.*?) ∷ \[\]", text_of(MODES), MODES)[1]
    return [mode_names().get(mode, mode) for mode in listed.split(" ∷ ")]


def default_in(value: str) -> str | None:
    """The default of a member that is read so, as JSON; None where it has none."""
    given = re.match(r"(?:whole|truth)_or (\w+) ", value)
    mode = re.match(r"unwrap_or \(option_and_then mode_named .*\) modes\.(\w+)$", value)
    if mode:
        return json.dumps(mode_names().get(mode[1]))
    if re.match(r"map \w+ \(list_at ", value):
        return "[]"
    if re.match(r"option_map .*\(object_at |internal_at ", value):
        return "null"
    return given and given[1]


def defaults(rows: Rows) -> Facts:
    """The defaults that crates/config_json/specs/Members.antt gives to members which may be left out."""
    text = text_of(MEMBERS)
    profile = find(r"^profile_in forms\.Second tree = (.*?)$", text, MEMBERS)[1]
    internal = find(r"^internal_at name tree = (.*?)$", text, MEMBERS)[1]
    found = {("top", "profile"): default_in(profile)}
    if internal == 'option_and_then (whole_at name) (object_at (codes "internal") tree)':
        found["top", "internal"] = "{}"
    for name, part in (("top", "parts_in"), ("event", "event_in")):
        body = find(rf"^{part} tree = record \{{(.*?)^\}}", text, MEMBERS)[1]
        for value in re.findall(r"^  \w+ = (.*\(codes .*);$", body, re.M):
            within = "internal" if value.startswith("internal_at ") else name
            found[within, re.findall(r'codes "(\w+)"', value)[-1]] = default_in(value)
    optional = [(name, it.name) for name, members in rows.items() for it in members if not it.is_required]
    return {Key(f"{name} {member}", "default"): found.get((name, member)) or "none" for name, member in optional}


def choices() -> Facts:
    """The names and the numbers among which a member chooses."""
    contexts = find(r"^last_named name =(.*?)\n\n", text_of(MEMBERS), MEMBERS)[1]
    forms = find(r"^form_numbered number =(.*?)\n\n", text_of(TABLES), TABLES)[1]
    return {
        Key("event mode", "choices"): said(modes_read()),
        Key("aggregate context", "choices"): said(re.findall(r'codes "(\w+)"', contexts)),
        Key("top form", "choices"): said(re.findall(r"number == (\d+)", forms)),
    }


def sources() -> Iterator[Source]:
    rows = rows_of_code()
    yield Source(CODE_TABLES, {"members", "row"}, facts_of_rows(rows))
    yield Source(TABLES, {"members", "row"}, facts_of_rows(rows_of_definitions()))
    yield Source("crates/ids_config/src", {"range", "ranges", "exception"}, Checks(rows).facts())
    yield Source(MEMBERS, {"default"}, defaults(rows))
    yield Source("their definition", {"choices"}, choices())
