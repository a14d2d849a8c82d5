"""Judges the bytes of a configuration as the program does: by the schema, and by what no schema says."""

from __future__ import annotations

import json
import math
import re
from typing import Any, Iterator

from facts import text_of
from judging import faults, refuse_constant, shown

SCHEMA = "docs/config.schema.json"
MOST_BYTES, MOST_LEVELS = 1_048_576, 127
STRING = re.compile(r'"(?:[^"\\]|\\.)*"', re.S)


class Unwhole(float):
    """A number with a point or an exponent, or -0: no whole number."""

    def __init__(self, text: str) -> None:
        self.text = text


def number_of(text: str) -> int | Unwhole:
    if math.isinf(float(text)):
        raise ValueError(f"no float can hold {text[:20]}..")
    return int(text) if re.fullmatch(r"-?[0-9]+", text) and text != "-0" else Unwhole(text)


def value_of(text: bytes) -> Any:
    """The value of a JSON text. The earlier copies of a name have to be values too, and Python looks at less of them."""
    decoded = text.decode("utf-8")
    value = json.loads(decoded, parse_int=number_of, parse_float=number_of, parse_constant=refuse_constant)
    for string in STRING.findall(decoded):
        if re.search("[\ud800-\udfff]", json.loads(string)):
            raise ValueError(f"{string[:40]} has half of a surrogate pair")
    levels = 0
    for bracket in re.findall(r"[][{}]", STRING.sub("", decoded)):
        levels += 1 if bracket in "[{" else -1
        if levels > MOST_LEVELS:
            raise ValueError(f"it is nested deeper than {MOST_LEVELS} levels")
    return value


def unwhole(value: Any, place: str = "") -> Iterator[str]:
    if isinstance(value, Unwhole):
        yield f"{place}: {value.text} is no whole number"
    members = value.items() if isinstance(value, dict) else enumerate(value) if isinstance(value, list) else ()
    for name, member in members:
        yield from unwhole(member, f"{place}/{name}")


def falls(place: str, numbers: list[int]) -> Iterator[str]:
    """The fault of a list that does not rise."""
    yield from [f"{place}: {after} stands after {before}" for before, after in zip(numbers, numbers[1:]) if before >= after][:1]


def unsaid(config: dict[str, Any]) -> Iterator[str]:
    """The faults that no schema says, of a configuration that fits it."""
    yield from falls("/classes", [each["size"] for each in config.get("classes", [])])
    for i, event in enumerate(config["events"]):
        yield from falls(f"/events/{i}/block", event.get("block", []))
    places = {name: place for name, place in config.get("internal", {}).items() if place is not None}
    for name, place in places.items():
        if place >= len(config["events"]):
            yield f"/internal/{name}: there is no event {shown(place)}"
        elif list(places.values()).count(place) > 1:
            yield f"/internal/{name}: another one has the event {place} too"


def faults_of_config(text: bytes) -> list[str]:
    """What is wrong with a configuration; nothing exactly where the program takes it."""
    if len(text) > MOST_BYTES:
        return [f"/: has {len(text)} bytes, more than {MOST_BYTES}"]
    try:
        config = value_of(text)
    except (ValueError, RecursionError) as error:
        return [f"/: is no JSON: {error}"]
    return list(faults(json.loads(text_of(SCHEMA)), config)) or list(unwhole(config)) or list(unsaid(config))
