"""Changes of a day as a planner words them, each of which makes one instance or, of all ships or waypoints in turn, several.

    fleet=6, fleet=+1, fleet=4..8           other numbers of tugs
    depth.Bar=+10, depth.Bar=1410           this waypoint is deeper or shallower by so many centimetres, or so deep
    depth=+10                               so with each waypoint in turn
    close=14:00-16:00, close.Bar=..         the port, a waypoint or a ship is closed then, every day; or once, as in
                                            close.Bar=15 Mar 14:00 to 15 Mar 16:00
    later.Curlew=1:00, later=0:30           this ship, or each in turn, can sail only so much later than she could, in hours and minutes
    deep.Curlew=17.80                       the ship's greatest draft, in metres
    tugs.Curlew=2                           the ship's tugs
    separation=-0:15                        every separation is so much less, but at least a slot
    without.Curlew                          this ship doesn't sail, and no turn or call of hers holds
"""
from __future__ import annotations

import re
from collections.abc import Callable, Iterator
from fractions import Fraction

from .base import LAST_PASS
from .clock import Clock
from .faults import Refused
from .folder import one_of
from .kinds import Day, Variant, changed, deepened, delayed, with_fleet, with_less_separation
from .slots import CLOCK, closed_of

USUAL = ["fleet=-1", "fleet=+1", "depth=+10"]


def third(day: Day, clock: Clock) -> Day:
    """The day in the third version, in which something can be closed. Heights of the first two are those at the beginning of a slot."""
    if day["version"] == 3:
        return day
    front = {"version": 3, "start": clock.at(0), "slots": day["slots"], "slot_minutes": day["slot_minutes"], "heights": "start", "closed": []}
    return {**front, **day, **front, "waypoints": [{**one, "closed": []} for one in day["waypoints"]],
            "ships": [{**ship, "may_stay": ship.get("may_stay", False), "closed": []} for ship in day["ships"]], "after": []}


def whole(text: str, what: str) -> int:
    if not re.fullmatch("[0-9]{1,5}", text):
        raise Refused(f"{text} is no {what}")
    return int(text)


def slots_in(text: str, clock: Clock) -> int:
    """The slots of hours and minutes, rounded up."""
    found = re.fullmatch("([0-9]{1,3}):([0-5][0-9])", text)
    if not found:
        raise Refused(f"{text} is no number of hours and minutes, such as 1:30")
    return -(-(int(found[1]) * 60 + int(found[2])) // clock.minutes)


def chosen(name: str, day: Day, kind: str) -> list[int]:
    """The items of a list, all or the one that is named."""
    names = [item["name"] for item in day[kind]]
    return [one_of(name, names, kind.removesuffix("s"))] if name else list(range(len(names)))


def fleets(name: str, value: str, day: Day, clock: Clock) -> Iterator[Variant]:
    """Other numbers of tugs."""
    span = re.fullmatch(r"([0-9]{1,4})\.\.([0-9]{1,4})", value)
    if name:
        raise Refused(f"fleet.{name}: the fleet has no name")
    if span:
        numbers = range(int(span[1]), int(span[2]) + 1)
    else:
        more = value[:1] in ("+", "-")
        number = whole(value.lstrip("+-") if more else value, "number of tugs, as 7, +1 or 4..8")
        number = day["fleet"] + (number if value[0] == "+" else -number) if more else number
        numbers = range(max(0, number), max(0, number) + 1)
    for number in numbers:
        if number != day["fleet"]:
            yield f"{number} tug{'' if number == 1 else 's'}", with_fleet(day, number)


def depths(name: str, value: str, day: Day, clock: Clock) -> Iterator[Variant]:
    """Deeper or shallower waypoints."""
    for place in chosen(name, day, "waypoints"):
        point = day["waypoints"][place]
        number = whole(value.lstrip("+-"), "depth in centimetres, as +10 or 1410")
        more = number * (-1 if value[0] == "-" else 1) if value[0] in "+-" else number - point["depth"]
        if point["depth"] + more < 0:
            raise Refused(f"depth.{point['name']}={value}: that is below 0")
        yield f"{point['name']} {abs(more)} cm {'deeper' if more >= 0 else 'shallower'}", deepened(day, place, more)


def times_of(value: str, clock: Clock, end: int) -> list[dict[str, int]]:
    """The closed slots of two times: of every day, or once where they have dates."""
    hyphens = [found.start() for found in re.finditer("-", value)]
    pairs = [value.split(" to ", 1)] if " to " in value else [[value[:place], value[place + 1:]] for place in hyphens[:8]]
    for first, last in ([one.strip() for one in pair] for pair in pairs):
        if CLOCK.fullmatch(first) and CLOCK.fullmatch(last):
            return closed_of(first, last, clock.start, clock.minutes, end)
        try:
            begin = clock.minute(first)
            ends = clock.minute(last, begin)
        except Refused:
            continue
        if ends <= begin:
            raise Refused(f"{last} isn't after {first}")
        low, high = max(0, clock.slot_at(begin)), min(end, clock.slot_from(ends) - 1)
        return [{"from": low, "to": high}] if low <= high else []
    raise Refused(f"{value} isn't two times, such as 14:00-16:00 or 15 Mar 14:00 to 15 Mar 16:00")


def closings(name: str, value: str, day: Day, clock: Clock) -> Iterator[Variant]:
    """The port, a waypoint or a ship closed from one time to another."""
    slots = clock.slots - 1
    if not name:
        times = times_of(value, clock, slots)
        def shut_port(other: Day) -> None:
            other["closed"] += times
        yield f"port closed {value}", changed(third(day, clock), shut_port)
        return
    points, ships = ([item["name"] for item in day[kind]] for kind in ("waypoints", "ships"))
    try:
        place, kind, end, names = one_of(name, points, "waypoint"), "waypoints", LAST_PASS, points
    except Refused:
        place, kind, end, names = one_of(name, ships, "waypoint or ship"), "ships", slots, ships
    times = times_of(value, clock, end)

    def shut(other: Day) -> None:
        other[kind][place]["closed"] += times
    yield f"{names[place]} closed {value}", changed(third(day, clock), shut)


def later(name: str, value: str, day: Day, clock: Clock) -> Iterator[Variant]:
    """Ships that can sail only later than they could."""
    for ship in chosen(name, day, "ships"):
        yield f"{day['ships'][ship]['name']} {value} later", delayed(day, ship, slots_in(value, clock))


def with_member(day: Day, ship: int, member: str, value: int) -> Day:
    def change(other: Day) -> None:
        other["ships"][ship][member] = value
    return changed(day, change)


def deep(name: str, value: str, day: Day, clock: Clock) -> Iterator[Variant]:
    """A ship with another greatest draft."""
    ship = one_of(name, [one["name"] for one in day["ships"]], "ship")
    if not re.fullmatch(r"[0-9]{1,2}(?:[.,][0-9]{1,2})?", value):
        raise Refused(f"{value} is no draft in metres, such as 17.80")
    yield f"{day['ships'][ship]['name']} to {value} m", with_member(day, ship, "deep", int(Fraction(value.replace(",", ".")) * 100))


def tugs(name: str, value: str, day: Day, clock: Clock) -> Iterator[Variant]:
    """A ship with another number of tugs."""
    ship = one_of(name, [one["name"] for one in day["ships"]], "ship")
    number = whole(value, "number of tugs")
    yield f"{day['ships'][ship]['name']} with {number} tug{'' if number == 1 else 's'}", with_member(day, ship, "tugs", number)


def closer(name: str, value: str, day: Day, clock: Clock) -> Iterator[Variant]:
    """Less separation everywhere."""
    if name or not value.startswith("-"):
        raise Refused(f"separation={value} is no time less, as -0:15")
    yield f"separation {value[1:]} less", with_less_separation(day, slots_in(value[1:], clock))


def without(name: str, day: Day) -> Variant:
    """The day without a ship, and the turns and calls that she was part of."""
    ship = one_of(name, [one["name"] for one in day["ships"]], "ship")

    def kept(items: list[dict[str, int]], members: tuple[str, str]) -> list[dict[str, int]]:
        left = [item for item in items if all(item[member] != ship for member in members)]
        return [{**item, **{member: item[member] - (item[member] > ship) for member in members}} for item in left]

    other = {**day, "ships": [one for number, one in enumerate(day["ships"]) if number != ship],
             "berths": kept(day["berths"], ("outgoing", "incoming"))}
    if "after" in day:
        other["after"] = kept(day["after"], ("first", "second"))
    return f"without {day['ships'][ship]['name']}", other


CHANGES: dict[str, Callable[[str, str, Day, Clock], Iterator[Variant]]] = {
    "fleet": fleets, "depth": depths, "close": closings, "later": later, "deep": deep, "tugs": tugs, "separation": closer}


def changes_of(words: list[str], day: Day, clock: Clock) -> list[Variant]:
    """What each word changes, with its name; without words a tug less, a tug more and ten centimetres at each waypoint."""
    found: list[Variant] = []
    for word in words or USUAL:
        front, equals, value = word.rpartition("=")
        kind, _, name = (front or value).partition(".")
        if not equals and kind == "without" and name:
            found.append(without(name, day))
        elif kind in CHANGES and equals and value:
            found += CHANGES[kind](name, value.strip(), day, clock)
        else:
            raise Refused(f"{word} is no change: {', '.join(CHANGES)} or without, as depth.Bar=+10")
    return found
