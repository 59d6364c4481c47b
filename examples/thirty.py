#!/usr/bin/env python3
"""Makes three days of a port with thirty ships.

    python3 thirty.py instance > thirty.json
    python3 thirty.py tides > thirty-tides.csv

The seed is fixed, so both are the same at each run. Twenty ships go out and ten come in, over six high waters. Each
ship has a day of its own in which it must sail, and the ships that come in take the berths of ships that go out.
"""
import json
import random
import sys

SEED = 30
DAYS = 3
SLOTS_OF_DAY = 96
SLOTS = DAYS * SLOTS_OF_DAY
# From one water to the next: six hours and a quarter, in slots of fifteen minutes.
TIDE = 25
WAYPOINTS = [("Berth", 1850), ("Basin", 1520), ("Channel", 1460), ("Bar", 1440)]
# The slots after a ship's own in which it is at each waypoint.
OUTWARD = [0, 1, 3, 6]
CLEARANCE = [60, 100, 120, 140]
BIRDS = """Albatross Bittern Curlew Dunlin Egret Fulmar Gannet Heron Ibis Jacana Kestrel Lapwing Merlin Noddy Osprey
Petrel Quail Redshank Skua Tern Umbrette Vireo Whimbrel Xenops Yaffle Zosterops Avocet Brent Crake Dotterel""".split()


def height(water, waypoint):
    """The height of a water at a waypoint: low and high in turn, with the greatest range on the second day."""
    springs = [0, 10, 25, 35, 30, 15, 5][water // 2]
    return (385 + springs if water % 2 else 70 - springs // 2) - 5 * waypoint


def tides():
    """The waters at each waypoint, past the last slot in which a ship can be on its way."""
    yield "water," + ",".join(name for name, _ in WAYPOINTS)
    for water in range((SLOTS + OUTWARD[-1]) // TIDE + 2):
        yield ",".join(str(value) for value in [water * TIDE, *(height(water, place) for place in range(len(WAYPOINTS)))])


def route(outgoing):
    last = OUTWARD[-1]
    passes = [{"waypoint": place, "offset": offset if outgoing else last - offset, "clearance": clearance}
              for place, (offset, clearance) in enumerate(zip(OUTWARD, CLEARANCE))]
    return passes if outgoing else passes[::-1]


def ship(name, number, draw):
    """The ship of this number: of each three, two go out and the last one comes in."""
    outgoing = number % 3 != 2
    day = number * DAYS // len(BIRDS)
    light = draw.randrange(900, 1101, 10)
    return {
        "name": name,
        "direction": "outgoing" if outgoing else "incoming",
        "class": draw.randrange(2),
        "earliest": day * SLOTS_OF_DAY,
        "latest": (day + 1) * SLOTS_OF_DAY - 1,
        "tpc": draw.randrange(600, 1201, 10),
        "light": light,
        "deep": light + draw.randrange(500, 701, 10) if outgoing else light,
        "route": route(outgoing),
        "channel": [{"section": 0, "enter": 1, "leave": 5}],
        "tugs": draw.randrange(1, 4),
        "job": draw.randrange(3, 6),
    }


def instance():
    draw = random.Random(SEED)
    ships = [ship(name, number, draw) for number, name in enumerate(BIRDS)]
    # Each third ship comes in, and takes the berth of the one two before it.
    berths = [{"outgoing": number - 2, "incoming": number, "clear": 6} for number in range(2, len(ships), 3)]
    return {
        "version": 1, "slots": SLOTS, "slot_minutes": 15,
        "waypoints": [{"name": name, "depth": depth} for name, depth in WAYPOINTS],
        "sections": ["Narrows"],
        "separation": [[3, 4], [2, 3]],
        "turnaround": {"outgoing": 2, "incoming": 1}, "fleet": 9,
        "ships": ships,
        "berths": berths,
    }


def text_of(port):
    """The JSON of a port, with each ship and each other member on a line of its own."""
    lines = [f'"{name}":{compact(value)}' for name, value in port.items() if name != "ships"]
    ships = ",\n  ".join(compact(one) for one in port["ships"])
    return "{" + ",\n ".join([*lines, f'"ships":[\n  {ships}]']) + "}"


def compact(value):
    return json.dumps(value, separators=(",", ":"))


def main(words):
    if words == ["instance"]:
        print(text_of(instance()))
    elif words == ["tides"]:
        print("\n".join(tides()))
    else:
        sys.exit(__doc__)


if __name__ == "__main__":
    main(sys.argv[1:])
