"""Configurations at and past each edge of the page's tables, and what a built program says of them."""

from __future__ import annotations

import json
import os
import subprocess
import tempfile
from concurrent.futures import ThreadPoolExecutor
from pathlib import Path
from typing import Any, Iterable, Iterator, NamedTuple

from facts import TOP
from page import PAGE, Member, Page

# Values that most members may not be.
STRANGE = [None, True, "x", 7, -1, 0.5, [], {}, [None], [[]], [{}], ["x"], 2**64]

# In place of a value: the member is left out.
ABSENT = object()

# So many events are there where the index of one is tried, because an index that no event has is no fault to a schema.
MOST_EVENTS = 256


class Trial(NamedTuple):
    name: str  # where it stands, or how it differs from one that is taken
    text: str


class Answer(NamedTuple):
    status: int
    text: str
    written: str  # the configuration that `migrate` wrote


def base(form: int) -> dict[str, Any]:
    """A configuration that has each object."""
    filters = {"aggregate": {"interval": 5, "context": "LAST"}, "threshold": {"interval": 5, "count": 9}}
    return {
        "form": form,
        "instance": 18,
        "classes": [{"size": 8, "number": 2}],
        "rate": {"interval": 5, "events": 9},
        "traffic": {"interval": 5, "bytes": 9},
        "internal": {},
        "events": [{"id": 42, "sensor": 3, **filters}, {"id": 1, "sensor": 0}],
    }


# Where the configuration above has each object.
PATHS: dict[str, list[str | int]] = {
    "top": [],
    "class": ["classes", 0],
    "rate": ["rate"],
    "traffic": ["traffic"],
    "internal": ["internal"],
    "event": ["events", 0],
    "aggregate": ["events", 0, "aggregate"],
    "threshold": ["events", 0, "threshold"],
}


def changed(form: int, path: list[str | int], value: Any) -> Trial:
    """The configuration with another value at this place."""
    tree = held_in = base(form)
    if path[0] == "internal":
        tree["events"] = of_length("events", MOST_EVENTS)
    for step in path[:-1]:
        held_in = held_in[step]
    if value is ABSENT:
        held_in.pop(path[-1], None)
    else:
        held_in[path[-1]] = value
    shown = "left out" if value is ABSENT else json.dumps(value)
    shown = shown if len(shown) <= 60 else f"{shown[:60]}.. ({len(value)} elements)"
    return Trial(f"form {form}, /{'/'.join(map(str, path))} {shown}", json.dumps(tree))


def about(*edges: int) -> list[int]:
    """The numbers at these edges, and the next ones that can be written as whole numbers."""
    return sorted({number for edge in edges for number in (edge - 1, edge, edge + 1) if number >= 0})


def of_length(name: str, length: int) -> list[Any]:
    """So many classes or events."""
    return [{"size": 1 + index, "number": 1} if name == "classes" else {"id": index, "sensor": 0} for index in range(length)]


def values_of(page: Page, member: Member) -> Iterator[Any]:
    """What a member is tried to be."""
    yield from [ABSENT, *STRANGE]
    if member.choices:
        for choice in member.choices:
            yield from about(choice) if isinstance(choice, int) else (choice, choice.lower(), f"{choice} ", choice[:-1])
    elif member.kind == "Whole":
        yield from about(*member.spans[0])
    elif member.kind == "WholeOrNull":
        yield from about(0, MOST_EVENTS - 1)
    elif member.kind == "Truth":
        yield from (True, False, "true", 0)
    elif member.kind == "Wholes":
        length, element = member.spans
        yield from ([number] for number in about(*element))
        yield from (list(range(element.least, element.least + number)) for number in about(*length))
        yield [element.most, element.most]
    elif member.kind == "List":
        yield from (of_length(member.name, number) for number in about(*member.spans[0]))


def of_profiles(form: int) -> Iterator[Trial]:
    """Each version under each profile."""
    for profile in (ABSENT, 0, 1, 2, 3):
        for version in (ABSENT, 0, 1, 255, 256):
            tree = base(form)
            tree |= {} if profile is ABSENT else {"profile": profile}
            tree["events"][1] |= {} if version is ABSENT else {"version": version}
            said = (f"{name} {it}" for name, it in (("profile", profile), ("version", version)) if it is not ABSENT)
            yield Trial(f"form {form}, {' and '.join(said) or 'without either'}", json.dumps(tree))


def trials(page: Page) -> Iterator[Trial]:
    """For each form, each object with a member more, and each member with each of its values."""
    yield from (Trial(f"the whole file {json.dumps(value)}", json.dumps(value)) for value in STRANGE)
    for form in page.objects["top"]["form"].choices:
        for name, path in PATHS.items():
            yield changed(form, [*path, "x"], 1)
            yield from (changed(form, path, value) for value in STRANGE if name in ("class", "event"))
            for member in page.objects[name].values():
                yield from (changed(form, [*path, member.name], value) for value in values_of(page, member))
        yield from of_profiles(form)


def stored_in(page: Page) -> Iterator[Trial]:
    """The whole configurations of the page and of examples/, which are as they are."""
    yield from (Trial(f"{PAGE}, configuration {number}", text) for number, text in enumerate(page.files, 1))
    for path in sorted(TOP.glob("examples/*/config.json")):
        yield Trial(str(path.relative_to(TOP)), path.read_text(encoding="utf-8"))


def answers(program: Path, texts: Iterable[str]) -> list[Answer]:
    """What the program says of each configuration, and writes of those that it takes."""
    with tempfile.TemporaryDirectory() as folder, ThreadPoolExecutor(len(os.sched_getaffinity(0))) as pool:

        def answer(index: int, text: str) -> Answer:
            config, new = Path(folder, f"{index}.json"), Path(folder, f"{index}.new")
            config.write_text(text, encoding="utf-8")
            how: dict[str, Any] = {"stdin": subprocess.DEVNULL, "capture_output": True, "timeout": 600}
            ran = subprocess.run([program, "migrate", config, new], **how)
            written = new.read_text(encoding="utf-8") if ran.returncode == 0 else ""
            told = f" with {ran.stderr!r} on standard error" if ran.stderr else ""
            return Answer(-1 if told else ran.returncode, ran.stdout.decode().strip() + told, written)

        return list(pool.map(answer, *zip(*enumerate(texts))))
