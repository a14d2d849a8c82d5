"""What a page or a source says of the configuration, in words that can be compared."""

from __future__ import annotations

from pathlib import Path
from typing import Iterable, Iterator, NamedTuple

TOP = Path(__file__).resolve().parents[2]


class Unreadable(Exception):
    """A page or a source does not have what is looked for in it."""


class Span(NamedTuple):
    least: int
    most: int

    def __str__(self) -> str:
        return f"{self.least} to {self.most}"


class Key(NamedTuple):
    """What a fact is about: an object, a member as `event nth`, or a fault; and what of it."""

    where: str
    what: str

    def __str__(self) -> str:
        return f"{self.what} of {self.where}"


Facts = dict[Key, str]


class Source(NamedTuple):
    """What some files say, and what they are asked for."""

    files: str
    asked: set[str]
    facts: Facts


def row(kind: str, is_required: bool, is_second: bool) -> str:
    """What a table says of a member beside its name."""
    return f"{kind}, {'required' if is_required else 'not required'}{', only in form 2' if is_second else ''}"


def exception(most: int, profile: int) -> str:
    return f"{most} under profile {profile}"


def text_of(*paths: str) -> str:
    try:
        return "\n".join((TOP / path).read_text(encoding="utf-8") for path in paths)
    except OSError as error:
        raise Unreadable(str(error)) from None


def said(values: Iterable[object]) -> str:
    return ", ".join(map(str, values))


def differences(page: str, facts: Facts, source: Source) -> Iterator[str]:
    """Where the page and a source differ in what the source is asked for, a line each."""
    ours = {key: fact for key, fact in facts.items() if key.what in source.asked}
    for key in {**ours, **source.facts}:
        one, other = ours.get(key, "none"), source.facts.get(key, "none")
        if one != other:
            yield f"the {key}: {page} has {one}, {source.files} has {other}"
