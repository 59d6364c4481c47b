"""Variants of a day: instances that differ from it in one thing, with their names."""
from __future__ import annotations

import copy
import re
from collections.abc import Callable, Iterator
from typing import Any

from .faults import Refused

Day = dict[str, Any]
Variant = tuple[str, Day]


def changed(day: Day, change: Callable[[Day], None]) -> Day:
    """A copy of the day, changed."""
    other = copy.deepcopy(day)
    change(other)
    return other


def deepened(day: Day, place: int, centimetres: int) -> Day:
    """The day with so much more depth at a waypoint."""
    def dredge(other: Day) -> None:
        other["waypoints"][place]["depth"] += centimetres
    return changed(day, dredge)


def delayed(day: Day, ship: int, slots: int) -> Day:
    """The day on which a ship can sail only so many slots later than it could."""
    def delay(other: Day) -> None:
        other["ships"][ship]["earliest"] += slots
    return changed(day, delay)


def with_fleet(day: Day, tugs: int) -> Day:
    return {**day, "fleet": tugs}


def with_less_separation(day: Day, less: int) -> Day:
    """The day with every separation so many slots less, but at least 1."""
    return {**day, "separation": [[max(1, slots - less) for slots in row] for row in day["separation"]]}


def items_of(day: Day, kind: str, value: str) -> tuple[list[tuple[int, str]], int]:
    """The places and names of the items of a list, all or the one that is named before a colon, and the number."""
    name, colon, number = value.rpartition(":")
    if not re.fullmatch("[0-9]{1,4}", number):
        raise Refused(f"{value}: a number is missing")
    found = [(place, item["name"]) for place, item in enumerate(day[kind]) if not colon or item["name"] == name]
    if not found:
        raise Refused(f"{value}: the day has no such name")
    return found, int(number)


def fleets(day: Day, value: str) -> Iterator[Variant]:
    """Other numbers of tugs."""
    found = re.fullmatch(r"([0-9]{1,4})(?:\.\.([0-9]{1,4}))?", value)
    if not found:
        raise Refused(f"fleet={value} is no number of tugs, as 7 or 4..8")
    for fleet in range(int(found[1]), int(found[2] or found[1]) + 1):
        if fleet != day["fleet"]:
            yield f"fleet {fleet}", with_fleet(day, fleet)


def deeper(day: Day, value: str) -> Iterator[Variant]:
    """Deeper waypoints."""
    found, centimetres = items_of(day, "waypoints", value)
    for place, name in found:
        yield f"{name} {centimetres} cm deeper", deepened(day, place, centimetres)


def later(day: Day, value: str) -> Iterator[Variant]:
    """Later ships."""
    found, slots = items_of(day, "ships", value)
    for ship, name in found:
        yield f"{name} {slots} slots later", delayed(day, ship, slots)


def closer(day: Day, value: str) -> Iterator[Variant]:
    """Less separation."""
    if not re.fullmatch("-[0-9]{1,3}", value):
        raise Refused(f"separation={value} is no number of slots less, as -1")
    yield f"separation {value[1:]} less", with_less_separation(day, int(value[1:]))


KINDS: dict[str, Callable[[Day, str], Iterator[Variant]]] = {
    "fleet": fleets, "deeper": deeper, "later": later, "separation": closer}


def variants_of(day: Day, words: list[str]) -> list[Variant]:
    """Each variant's name and instance, the day as it is first."""
    if not words:
        words = [f"fleet={max(0, day['fleet'] - 2)}..{day['fleet'] + 2}", "deeper=10", "later=4", "separation=-1"]
    variants = [("as it is", day)]
    for word in words:
        kind, equals, value = word.partition("=")
        if kind not in KINDS or not equals:
            raise Refused(f"{word} is no variant")
        variants += KINDS[kind](day, value)
    return variants
