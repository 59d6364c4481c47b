"""What two days' inputs have that differs, in the words of an instance."""
from __future__ import annotations

import json
from typing import Any

# The most differences that are told one by one.
MOST = 60


def differences(one: str, other: str) -> list[str]:
    """Each member of two instances that differs, as `fleet: 9, then 10`; ships are matched by their names, so are waypoints."""
    found: list[str] = []
    _walk("", json.loads(one), json.loads(other), found)
    return found if len(found) <= MOST else [*found[:MOST], f"and {len(found) - MOST} more"]


def _name(item: Any) -> str | None:
    return str(item["name"]) if isinstance(item, dict) and "name" in item else None


def _walk(place: str, one: Any, other: Any, found: list[str]) -> None:
    if one == other:
        return
    if isinstance(one, dict) and isinstance(other, dict):
        for member in dict.fromkeys([*one, *other]):
            _walk(f"{place} {member}".strip(), one.get(member), other.get(member), found)
    elif isinstance(one, list) and isinstance(other, list) and all(_name(item) for item in [*one, *other]):
        before, after = ({_name(item): item for item in items} for items in (one, other))
        for name in dict.fromkeys([*before, *after]):
            if name not in after or name not in before:
                found.append(f"{place}: {name} only in the {'first' if name in before else 'second'}")
            else:
                _walk(f"{place.removesuffix('s')} {name}", before[name], after[name], found)
    else:
        found.append(f"{place}: {_short(one)}, then {_short(other)}")


def _short(value: Any) -> str:
    text = "nothing" if value is None else value if isinstance(value, str) else json.dumps(value)
    return text if len(text) <= 60 else f"{text[:57]}..."
