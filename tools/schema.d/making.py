"""The schema of the configuration, draft 2020-12, out of the page."""

from __future__ import annotations

import json
from typing import Any, Callable

from page import Member, Page

Schema = dict[str, Any]

# The types of members that have members of their own.
OBJECTS = {"Object": "object", "ObjectOrNull": ["object", "null"]}


def whole(least: int, most: int) -> Schema:
    return {"type": "integer", "minimum": least, "maximum": most}


def of_kind(page: Page, member: Member) -> Schema:
    """What a member may be."""
    kind, spans = member.kind, member.spans
    if member.choices:
        return {"type": "string" if kind == "Text" else "integer", "enum": list(member.choices)}
    if kind == "Whole":
        return whole(*spans[0])
    if kind == "WholeOrNull":
        return {**whole(0, page.objects["top"]["events"].spans[0].most - 1), "type": ["integer", "null"]}
    if kind == "Truth":
        return {"type": "boolean"}
    if kind == "Wholes":
        return {"type": "array", "maxItems": spans[0].most, "uniqueItems": True, "items": whole(*spans[1])}
    if kind == "List":
        least = {"minItems": spans[0].least} if spans[0].least else {}
        return {"type": "array", **least, "maxItems": spans[0].most, "items": of_object(page, member.part)}
    return {**of_object(page, member.part), "type": OBJECTS[kind]}


def of_member(page: Page, member: Member) -> Schema:
    default = {} if member.is_required else {"default": member.default}
    return {"description": member.words, **default, **of_kind(page, member)}


def of_object(page: Page, name: str) -> Schema:
    members = page.objects[name]
    required = [member.name for member in members.values() if member.is_required]
    return {
        "type": "object",
        **({"required": required} if required else {}),
        "properties": {member.name: of_member(page, member) for member in members.values()},
        "additionalProperties": False,
    }


def restricted(page: Page, name: str, more: Callable[[Member], Schema | bool | None]) -> Schema:
    """What more is said of some members of an object, and of the objects within it."""
    properties: dict[str, Schema | bool] = {}
    for member in page.objects[name].values():
        said = more(member)
        within = restricted(page, member.part, more) if said is None and member.part else {}
        if within:
            said = {"type": "array", "items": within} if member.kind == "List" else {**within, "type": OBJECTS[member.kind]}
        if said is not None:
            properties[member.name] = said
    return {"type": "object", "properties": properties} if properties else {}


def of_form_1(page: Page) -> Schema:
    """What more is said of a file that has not form 2."""
    return restricted(page, "top", lambda member: False if member.is_second else None)


def of_form_2(page: Page) -> Schema:
    """What more is said of a file of form 2: under a profile some members may be but one number."""
    exceptions = [it.exception for members in page.objects.values() for it in members.values() if it.exception]
    if not exceptions:
        return {}
    _, profile = exceptions[0]
    return {
        "if": {"properties": {"profile": {"const": profile}}, "required": ["profile"]},
        "then": restricted(page, "top", lambda member: {"const": member.exception[0]} if member.exception else None),
    }


def schema_of(page: Page) -> Schema:
    """The whole schema. The forms have the same members but for some, so that each is said once: which form a file has
    selects what more is said. So a validator names the member that does not fit, and not the form that it tried."""
    return {
        "$schema": "https://json-schema.org/draft/2020-12/schema",
        "title": "Configuration of idsm",
        "description": page.promise(),
        **of_object(page, "top"),
        "if": {"properties": {"form": {"const": 2}}, "required": ["form"]},
        "then": of_form_2(page),
        "else": of_form_1(page),
    }


def written(schema: Schema) -> str:
    return json.dumps(schema, indent=2, ensure_ascii=False) + "\n"
