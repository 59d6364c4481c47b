"""The base file of a port: an instance without version and ships, with names where an instance has places, and times for slots."""
from __future__ import annotations

import json
from dataclasses import dataclass
from typing import Any

from .dates import ORDERS, minute_of
from .faults import Fault, Refused, Told, Wrong
from .schema import SCHEMA, SHIP, Place, check
from .slots import closed_of, in_slots

PLAIN = ["slots", "slot_minutes", "waypoints", "sections", "separation", "turnaround", "fleet"]
MEMBERS = ["start", *PLAIN, "classes", "berths", "routes"]
# The greatest slot in which a waypoint may be closed: ships pass it after the last slot too.
LAST_PASS = 1534
ANY_NAME = {"$ref": "#/definitions/name"}
TIMES = {"type": "array", "items": {"type": "object", "additionalProperties": False, "required": ["from", "to"],
                                    "properties": {"from": {"type": "string"}, "to": {"type": "string"}}}}
LISTS = {"type": "object", "additionalProperties": False,
         "properties": {"feet": {"type": "boolean"}, "one_clock": {"type": "boolean"}}}

Members = dict[str, Any]


@dataclass(frozen=True)
class Port:
    """What a base file says: the members that an instance has too, the minute at which slot 0 begins, the names of what has some,
    each route with places for names, the berths, and what closes the port and each waypoint; the order of dates in tables;
    whether the instance has the third version, whatever is in the table; the list of waters of each waypoint that names one, and
    whether lists are in feet, or of one clock though they look otherwise."""
    members: Members
    start: int
    names: dict[str, list[str]]
    routes: dict[str, Members]
    berths: list[Members]
    closed: list[dict[str, int]]
    waypoints: list[list[dict[str, int]]]
    order: str | None
    third: bool
    lists: dict[str, str]
    feet: bool
    one_clock: bool

    @property
    def minutes(self) -> int:
        """The length of a slot."""
        return int(self.members["slot_minutes"])

    @property
    def slots(self) -> int:
        return int(self.members["slots"])


def place_of(name: str, names: list[str], place: Place, kind: str) -> int:
    if name not in names:
        raise Fault(place, f"{json.dumps(name)} is no {kind}")
    return names.index(name)


def names_of(items: list[Any], place: Place) -> list[str]:
    """The names of items, each of which may stand once."""
    names = [item["name"] if isinstance(item, dict) else item for item in items]
    for number, name in enumerate(names):
        if name in names[:number]:
            raise Fault((*place, number), f"{json.dumps(name)} stands there twice")
    return names


def named(least: int, **kinds: Any) -> Members:
    """The schema of a list of objects with a name and these members."""
    return {"type": "array", "minItems": least, "maxItems": 200, "items": {
        "type": "object", "additionalProperties": False, "required": ["name", *kinds], "properties": {"name": ANY_NAME, **kinds}}}


def by_name(member: str, inner: str) -> Members:
    """The schema of a route or a channel, with a name where an instance has a place."""
    items = SHIP["properties"][member]["items"]
    return {"type": "array", "items": {**items, "properties": {**items["properties"], inner: ANY_NAME}}}


def base_schema() -> Members:
    """The schema of a base file, with those of an instance in it."""
    properties = SCHEMA["properties"]
    waypoints = {"type": "array", "minItems": 1, "maxItems": 16, "items": {
        "type": "object", "additionalProperties": False, "required": ["name", "depth"],
        "properties": {"name": ANY_NAME, "depth": properties["waypoints"]["items"]["properties"]["depth"], "closed": TIMES,
                       "tide": {"type": "string"}}}}
    return {"type": "object", "additionalProperties": False, "required": MEMBERS, "properties": {
        **{member: properties[member] for member in PLAIN}, "start": {"type": "string"}, "closed": TIMES,
        "heights": {"type": "string", "enum": ["start", "least"]}, "waypoints": waypoints,
        "classes": {"type": "array", "items": ANY_NAME, "minItems": 1, "maxItems": 8},
        "berths": named(0, clear=properties["berths"]["items"]["properties"]["clear"]),
        "routes": named(1, route=by_name("route", "waypoint"), channel=by_name("channel", "section")),
        "dates": {"type": "string", "enum": list(ORDERS)}, "tides": LISTS}}


BASE_SCHEMA = base_schema()


def route_of(route: Members, names: dict[str, list[str]], place: Place) -> Members:
    """A route and its channel with places instead of names."""
    passes = [{**item, "waypoint": place_of(item["waypoint"], names["waypoints"], (*place, "route", number, "waypoint"), "waypoint")}
              for number, item in enumerate(route["route"])]
    channel = [{**item, "section": place_of(item["section"], names["sections"], (*place, "channel", number, "section"), "section")}
               for number, item in enumerate(route["channel"])]
    for member, value in (("route", passes), ("channel", channel)):
        check(value, SHIP["properties"][member], (*place, member))
    for number, item in enumerate(channel):
        if item["leave"] <= item["enter"]:
            raise Fault((*place, "channel", number, "leave"), "it isn't above enter")
    if len({item["section"] for item in channel}) < len(channel):
        raise Fault((*place, "channel"), "a section stands there twice")
    return {"route": passes, "channel": sorted(channel, key=section_of)}


def section_of(item: Members) -> int:
    return int(item["section"])


def closed_at(items: list[Members], place: Place, start: int, length: int, end: int) -> list[dict[str, int]]:
    """The closed slots of a list in a base file, up to the slot `end`; faults name the place."""
    found: list[dict[str, int]] = []
    for number, item in enumerate(items):
        try:
            found += closed_of(item["from"], item["to"], start, length, end)
        except Refused as cause:
            raise Fault((*place, number), f"{cause}") from None
    return found


def without_remarks(value: Any) -> Any:
    """A value without the members that begin with #, which say nothing."""
    if isinstance(value, dict):
        return {name: without_remarks(inner) for name, inner in value.items() if not name.startswith("#")}
    return [without_remarks(item) for item in value] if isinstance(value, list) else value


def start_of(text: str) -> int:
    """The minute, from year 1, of `start`."""
    try:
        day, clock = text.split(" ")
        return minute_of(day, clock)
    except (Refused, ValueError):
        raise Fault(("start",), f"{json.dumps(text)} is no time such as 2027-03-14 03:40") from None


def check_classes(base: Members) -> None:
    """Refuses a separation of another size than there are classes."""
    count = len(base["classes"])
    rows: list[tuple[Place, list[Any]]] = [(("separation",), base["separation"])]
    rows += [(("separation", number), row) for number, row in enumerate(base["separation"])]
    for place, row in rows:
        if len(row) != count:
            raise Fault(place, f"there are {len(row)} items, and {count} classes")


def port_of(base: Any, order: str | None, day: int | None = None) -> Port:
    """What a base file says. `order` is that of dates, if it isn't the file's; on another day slot 0 has the same time of the day."""
    base = without_remarks(base)
    length = base.get("slot_minutes") if isinstance(base, dict) else None
    if isinstance(length, int) and length > 0:
        base = in_slots(base, length)
    check(base, BASE_SCHEMA)
    names = {member: names_of(base[member], (member,)) for member in ("waypoints", "sections", "classes", "berths", "routes")}
    check_classes(base)
    start = start_of(base["start"])
    start = start if day is None else day + start % (24 * 60)
    routes = {route["name"]: route_of(route, names, ("routes", number)) for number, route in enumerate(base["routes"])}
    length = base["slot_minutes"]
    closed = closed_at(base.get("closed", []), ("closed",), start, length, base["slots"] - 1)
    passes = [closed_at(item.get("closed", []), ("waypoints", number, "closed"), start, length, LAST_PASS)
              for number, item in enumerate(base["waypoints"])]
    third = "heights" in base or "closed" in base or any("closed" in item for item in base["waypoints"])
    members = {**{member: base[member] for member in PLAIN}, "heights": base.get("heights", "least"),
               "waypoints": [{"name": item["name"], "depth": item["depth"]} for item in base["waypoints"]]}
    lists = {item["name"]: item["tide"] for item in base["waypoints"] if "tide" in item}
    said = base.get("tides", {})
    return Port(members, start, names, routes, base["berths"], closed, passes, order or base.get("dates"), third, lists,
                said.get("feet", False), said.get("one_clock", False))


def at_place(name: str, fault: Fault) -> Wrong:
    return Wrong(Told(name, fault.cause, place=".".join(map(str, fault.place)) or "root"))


def members_of(pairs: list[tuple[str, Any]]) -> Members:
    """An object of JSON, each of whose members may stand there once; remarks as often as they like."""
    members = dict(pairs)
    if len(members) < len(pairs):
        names = [name for name, _ in pairs if not name.startswith("#")]
        for number, name in enumerate(names):
            if name in names[:number]:
                raise Fault((name,), "this member stands there twice")
    return members


def read_port(name: str, text: str, order: str | None, day: int | None = None) -> Port:
    """What a base file says, or why it says nothing."""
    try:
        base = json.loads(text, object_pairs_hook=members_of)
    except Fault as cause:
        raise at_place(name, cause) from None
    except json.JSONDecodeError as fault:
        raise Wrong(Told(name, fault.msg, row=fault.lineno)) from None
    except (ValueError, RecursionError):
        raise Wrong(Told(name, "a number is too long, or lists stand too deep in each other", place="root")) from None
    try:
        return port_of(base, order, day)
    except Fault as cause:
        raise at_place(name, cause) from None
    except RecursionError:
        raise Wrong(Told(name, "lists stand too deep in each other", place="root")) from None
