"""Judges a value by a schema of the few keywords that the configuration's has."""

from __future__ import annotations

import json
import math
from typing import Any, Callable, Iterator

# What says nothing of a value, or is looked at beside another keyword.
SILENT = {"$schema", "title", "description", "default", "additionalProperties", "then", "else"}

Faults = Iterator[str]


def is_integer(value: Any) -> bool:
    """A schema takes 64.0 for an integer too."""
    return is_number(value) and math.isfinite(value) and value == int(value)


def is_number(value: Any) -> bool:
    return isinstance(value, (int, float)) and not isinstance(value, bool)


TYPES: dict[str, Callable[[Any], bool]] = {
    "object": lambda it: isinstance(it, dict),
    "array": lambda it: isinstance(it, list),
    "string": lambda it: isinstance(it, str),
    "boolean": lambda it: isinstance(it, bool),
    "null": lambda it: it is None,
    "integer": is_integer,
}


def is_same(one: Any, other: Any) -> bool:
    """Two values are one; true is not 1. It is called for plain values alone."""
    return isinstance(one, bool) == isinstance(other, bool) and one == other


def shown(value: Any) -> str:
    text = json.dumps(value, ensure_ascii=False)
    return text if len(text) <= 40 else text[:40] + ".."


def of_type(types: str | list[str], value: Any, place: str) -> Faults:
    types = [types] if isinstance(types, str) else types
    if not any(TYPES[name](value) for name in types):
        yield f"{place}: {shown(value)} is no {' and no '.join(types)}"


def of_enum(choices: list[Any], value: Any, place: str) -> Faults:
    if not any(is_same(value, choice) for choice in choices):
        yield f"{place}: {shown(value)} is none of {', '.join(map(shown, choices))}"


def of_const(only: Any, value: Any, place: str) -> Faults:
    if not is_same(value, only):
        yield f"{place}: {shown(value)} is not {shown(only)}"


def of_minimum(least: int, value: Any, place: str) -> Faults:
    if is_number(value) and value < least:
        yield f"{place}: {shown(value)} is below {least}"


def of_maximum(most: int, value: Any, place: str) -> Faults:
    if is_number(value) and value > most:
        yield f"{place}: {shown(value)} is above {most}"


def of_min_items(least: int, value: Any, place: str) -> Faults:
    if isinstance(value, list) and len(value) < least:
        yield f"{place}: has {len(value)} elements, fewer than {least}"


def of_max_items(most: int, value: Any, place: str) -> Faults:
    if isinstance(value, list) and len(value) > most:
        yield f"{place}: has {len(value)} elements, more than {most}"


def of_unique_items(is_asked: bool, value: Any, place: str) -> Faults:
    for index, element in enumerate(value if is_asked and isinstance(value, list) else []):
        if any(is_same(element, other) for other in value[:index]):
            yield f"{place}: {shown(element)} stands there twice"


def of_items(schema: Any, value: Any, place: str) -> Faults:
    for index, element in enumerate(value if isinstance(value, list) else []):
        yield from faults(schema, element, f"{place.rstrip('/')}/{index}")


def of_required(names: list[str], value: Any, place: str) -> Faults:
    for name in names if isinstance(value, dict) else []:
        if name not in value:
            yield f"{place}: {name} is missing"


def of_properties(schemas: dict[str, Any], value: Any, place: str) -> Faults:
    for name, member in value.items() if isinstance(value, dict) else []:
        if name in schemas:
            yield from faults(schemas[name], member, f"{place.rstrip('/')}/{name}")


KEYWORDS: dict[str, Callable[[Any, Any, str], Faults]] = {
    "type": of_type,
    "enum": of_enum,
    "const": of_const,
    "minimum": of_minimum,
    "maximum": of_maximum,
    "minItems": of_min_items,
    "maxItems": of_max_items,
    "uniqueItems": of_unique_items,
    "items": of_items,
    "required": of_required,
    "properties": of_properties,
}


def faults(schema: Any, value: Any, place: str = "/") -> Faults:
    """What of the value does not fit the schema, each with its place as a path from the top."""
    if isinstance(schema, bool):
        if not schema:
            yield f"{place}: does not belong here"
        return
    for keyword, said in schema.items():
        if keyword in KEYWORDS:
            yield from KEYWORDS[keyword](said, value, place)
        elif keyword == "if":
            branch = "else" if any(faults(said, value)) else "then"
            yield from faults(schema.get(branch, True), value, place)
        elif keyword not in SILENT:
            raise ValueError(f"the judge does not know the keyword {keyword}")
    if schema.get("additionalProperties") is False and isinstance(value, dict):
        yield from (f"{place}: no member {name} is known" for name in value if name not in schema["properties"])


def refuse_constant(name: str) -> Any:
    raise ValueError(f"{name} is no value")


def faults_of_text(schema: Any, text: str | bytes) -> list[str]:
    """The same of a text, which may be no JSON at all."""
    try:
        decoded = text.decode("utf-8") if isinstance(text, bytes) else text
        value = json.loads(decoded, parse_constant=refuse_constant)
    except (ValueError, RecursionError) as error:
        return [f"/: is no JSON: {error}"]
    return list(faults(schema, value))
