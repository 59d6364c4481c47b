"""The form of an instance, as instance.schema.json says it, and a test of values under such a schema."""
from __future__ import annotations

import json
import os
import re
from typing import Any

from .faults import Fault

HERE = os.path.dirname(os.path.abspath(__file__))
KINDS: dict[str, type] = {"object": dict, "array": list, "string": str, "integer": int, "boolean": bool}

with open(os.path.join(HERE, "instance.schema.json"), encoding="utf-8") as _file:
    SCHEMA: dict[str, Any] = json.load(_file)
SHIP: dict[str, Any] = SCHEMA["properties"]["ships"]["items"]
MOST_SHIPS: int = SCHEMA["properties"]["ships"]["maxItems"]

Place = tuple[str | int, ...]


def check(value: Any, schema: Any, place: Place = ()) -> None:
    """Raises the first fault of a value under a schema, for the words of a schema that ours uses."""
    if schema is False:
        raise Fault(place, "this member isn't allowed here")
    if "$ref" in schema:
        check(value, SCHEMA["definitions"][schema["$ref"].rpartition("/")[2]], place)
        return
    kind = KINDS.get(schema.get("type"), object)
    if not is_kind(value, kind):
        raise Fault(place, f"{json.dumps(value)} is no {schema['type']}")
    if "enum" in schema and value not in schema["enum"] or "const" in schema and value != schema["const"]:
        raise Fault(place, f"{json.dumps(value)} is none of {schema.get('enum', schema.get('const'))}")
    if isinstance(value, dict):
        check_members(value, schema, place)
    elif isinstance(value, list):
        check_items(value, schema, place)
    elif "pattern" in schema and not re.fullmatch(schema["pattern"], value):
        raise Fault(place, no_name(value))
    elif "minimum" in schema and not schema["minimum"] <= value <= schema["maximum"]:
        raise Fault(place, f"{value} isn't from {schema['minimum']} to {schema['maximum']}")


def is_kind(value: Any, kind: type) -> bool:
    """Whether a value is of this kind. In Python a truth value is a number too."""
    return isinstance(value, kind) and not (kind is int and isinstance(value, bool))


def no_name(value: str) -> str:
    odd = "".join(dict.fromkeys(re.sub("[ -~]", "", value)))
    return (f"{json.dumps(value, ensure_ascii=False)} is no name of 1 to 40 plain characters"
            + (f": it has {json.dumps(odd, ensure_ascii=False)}" if odd else ""))


def check_items(value: list[Any], schema: Any, place: Place) -> None:
    """Raises the first fault of a list."""
    if not schema.get("minItems", 0) <= len(value) <= schema.get("maxItems", len(value)):
        raise Fault(place, f"there are {len(value)} items, and not {schema['minItems']} to {schema['maxItems']}")
    for number, item in enumerate(value):
        check(item, schema.get("items", {}), (*place, number))


def check_members(value: dict[str, Any], schema: Any, place: Place) -> None:
    """Raises the first fault of an object."""
    for member in value:
        if member not in schema.get("properties", {}) and schema.get("additionalProperties") is False:
            raise Fault((*place, member), "there is no such member")
    for member in schema.get("required", []):
        if member not in value:
            raise Fault((*place, member), "this member is missing")
    for member, inner in schema.get("properties", {}).items():
        if member in value:
            check(value[member], inner, (*place, member))
    if "if" in schema:
        try:
            check(value, schema["if"], place)
            then = "then"
        except Fault:
            then = "else"
        check(value, schema[then], place)
