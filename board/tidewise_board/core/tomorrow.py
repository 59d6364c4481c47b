"""Tomorrow: what the next day takes over of a plan and of what has happened, and what it can't while instances know no ships under way."""
from __future__ import annotations

import copy
import json
from dataclasses import dataclass, field
from datetime import datetime, timedelta
from typing import Any

from ..library import port as port_script
from .days import Source, sheet_of
from .facts import Port
from .happened import Closed, Event, NotBefore, Stays, TugsBack, TugsOut, most_out, tugs

MINUTES_A_DAY = 1440
START = "%Y-%m-%d %H:%M"


@dataclass
class Rolled:
    """Tomorrow's day: what it takes over, what a planner has to look at, and what can't be taken over, in sentences. Without `blocked`
    there is a source, unless no ship is left."""
    name: str
    taken: list[str] = field(default_factory=list)
    noted: list[str] = field(default_factory=list)
    blocked: list[str] = field(default_factory=list)
    source: Source | None = None


def rolled(day: str, instance: str, port: Port, timetable: list[int], events: list[Event], source: Source | None) -> Rolled:
    """Rolls a plan one day on. `instance` is the day's own, without what was closed since; `source` has the tide as a planner wrote it."""
    shift = slots_of_a_day(port)
    made: dict[str, Any] = copy.deepcopy(json.loads(instance))
    found = Rolled(next_name(day, port))
    if shift * port.minutes != MINUTES_A_DAY:
        found.blocked.append(f"a day is no whole number of slots of {port.minutes} minutes")
        return found
    stays = {one.ship for one in events if isinstance(one, Stays)}
    left = []
    for place, (ship, slot) in enumerate(zip(made["ships"], timetable)):
        if ship["name"] in stays or slot >= port.slots or slot >= shift:
            left.append(place)
        elif slot + reach(made, ship) > shift:
            found.blocked.append(f"{ship['name']} sails at {port.clock(slot)} and is still under way when tomorrow begins")
    berths_and_turns(found, made, port, timetable, left)
    fleet_and_closings(found, made, port, events)
    ships(found, made, port, timetable, events, left)
    if port.start:
        made["start"] = (datetime.strptime(port.start, START) + timedelta(days=1)).strftime(START)
    if not left:
        found.noted.append("no ship of this plan is left for tomorrow: begin it with tomorrow's own files")
    elif not found.blocked:
        found.source = source_of_tomorrow(found, made, source)
    return found


def slots_of_a_day(port: Port) -> int:
    return MINUTES_A_DAY // port.minutes


def next_name(day: str, port: Port) -> str:
    if not port.start:
        return f"{day}, the next day"
    return f"{day}, {datetime.strptime(port.start, START) + timedelta(days=1):%Y-%m-%d}"


def reach(instance: dict[str, Any], ship: dict[str, Any]) -> int:
    """The slots after her own in which a ship may still hinder another one: passes, sections, tugs, and the separation from the next."""
    return max([int(leg["offset"]) + 1 for leg in ship["route"]] + [int(leg["leave"]) for leg in ship["channel"]]
               + [int(ship["job"]) + int(instance["turnaround"][ship["direction"]]) if ship["tugs"] else 0]
               + [int(slots) for slots in instance["separation"][ship["class"]]])


def berths_and_turns(found: Rolled, made: dict[str, Any], port: Port, timetable: list[int], left: list[int]) -> None:
    """Keeps the pairs whose two ships are both left; a pair of which one has gone must be settled before tomorrow begins."""
    shift = slots_of_a_day(port)
    new = {place: number for number, place in enumerate(left)}
    for kind, first, second, gap in (("berths", "outgoing", "incoming", "clear"), ("after", "first", "second", "gap")):
        kept = []
        for pair in made.get(kind, []):
            one, other = pair[first], pair[second]
            if one in new and other in new:
                kept.append({**pair, first: new[one], second: new[other]})
            elif other in new and timetable[one] + pair[gap] > shift:
                found.blocked.append(f"{port.ships[other]} waits for {port.ships[one]}, {port.clock(timetable[one])}, into tomorrow")
            elif one in new:
                found.noted.append(f"{port.ships[other]} has gone before {port.ships[one]}: their pair is left out")
        if kind in made:
            made[kind] = kept


def fleet_and_closings(found: Rolled, made: dict[str, Any], port: Port, events: list[Event]) -> None:
    """Lessens the fleet by the tugs that are out until further notice, and moves what is closed to tomorrow's slots."""
    shift = slots_of_a_day(port)
    for one in events:
        if isinstance(one, TugsOut) and one.last is not None and one.last > shift:
            found.blocked.append(f"{one.said(port.clock)}: the program knows no hours of tugs yet")
        elif isinstance(one, Closed) and one.last > shift:
            found.noted.append(f"{one.said(port.clock)}: tell it again tomorrow")
        elif isinstance(one, TugsBack) and one.slot > shift:
            found.blocked.append(f"{one.said(port.clock)}: the program knows no hours of tugs yet")
    standing: list[Event] = [one for one in events if isinstance(one, TugsBack) or isinstance(one, TugsOut) and one.last is None]
    out = most_out(standing, shift, shift + 1)
    if out:
        made["fleet"] = max(0, made["fleet"] - out)
        found.taken.append(f"{tugs(out)} out until further notice: tomorrow's fleet is {made['fleet']}")
    for place in [made, *made["waypoints"], *made["ships"]]:
        if "closed" in place:
            place["closed"] = [{"from": max(0, one["from"] - shift), "to": one["to"] - shift} for one in place["closed"] if one["to"] >= shift]


def ships(found: Rolled, made: dict[str, Any], port: Port, timetable: list[int], events: list[Event], left: list[int]) -> None:
    """Moves the windows of the ships that are left, to tomorrow's slots."""
    shift, kept = slots_of_a_day(port), []
    for place in left:
        ship = made["ships"][place]
        first = max([ship["earliest"], *(one.slot for one in events if isinstance(one, NotBefore) and one.ship == ship["name"])])
        over = ship["latest"] < shift
        ship["earliest"], ship["latest"] = (0, port.slots - 1) if over else (max(0, first - shift), ship["latest"] - shift)
        if over:
            found.noted.append(f"{ship['name']}: her window ended today; tomorrow she may sail in any slot until you say another one")
        planned = timetable[place]
        found.taken.append(f"{ship['name']}, who stays today" if planned >= port.slots or planned < shift else
                           f"{ship['name']}, planned for {port.clock(planned)}: tomorrow's plan may choose another time")
        kept.append(ship)
    made["ships"] = kept


def source_of_tomorrow(found: Rolled, made: dict[str, Any], source: Source | None) -> Source:
    """A whole instance, with the tide as it was printed, since that has its dates; a table of slots is today's alone."""
    columns, rows = sheet_of(made)
    new = Source(True, str(port_script.text_of(made)) + "\n", columns, rows)
    if source is not None and source.table is None:
        new.lists, new.dates = source.lists, source.dates
        found.taken.append("the tide as it was printed")
    else:
        new.table = ""
        found.noted.append("the tide table is today's: put in tomorrow's")
    return new
