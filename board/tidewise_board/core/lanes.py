"""Who lies at which berth from when to when, by the program's `table` of a plan and the day's own lists of berths."""
from __future__ import annotations

import json
from dataclasses import dataclass
from typing import Any

from .program import Program
from .runs import Inputs


@dataclass(frozen=True)
class Stay:
    """A hull at a berth, in slots from slot 0. No `first`: she lay there before the day; no `last`: she lies there after it."""
    name: str
    first: float | None
    last: float | None
    ship: int
    sails: int | None


@dataclass(frozen=True)
class Lane:
    """A berth, with the stays there in order. The port needs `clear` slots between two of them."""
    name: str
    clear: int | None
    stays: list[Stay]


def lanes(program: Program, inputs: Inputs, table: list[dict[str, str]], berths: dict[int, str]) -> list[Lane]:
    """The lanes of a plan. `berths` has the berth's name of each ship where the day's sources name one; else the ships that the instance
    sets after each other at a berth have a lane, named by a number."""
    data: dict[str, Any] = json.loads(program.store.get(inputs.instance))
    rows = {int(row["ship"]): row for row in table}
    same = {pair["second"]: pair["first"] for pair in data.get("after", [])}
    groups = _groups(data, berths, same)
    found = []
    for name, ships in groups:
        clear = max((pair["clear"] for pair in data["berths"] if pair["outgoing"] in ships), default=None)
        stays = [stay for ship in ships if (stay := _stay(data, rows, ship, same)) is not None]
        found.append(Lane(name, clear, sorted(stays, key=lambda stay: (stay.first if stay.first is not None else -1, stay.ship))))
    return found


def _groups(data: dict[str, Any], berths: dict[int, str], same: dict[int, int]) -> list[tuple[str, list[int]]]:
    """The ships of each berth: by its name, or else joined by the instance's pairs; then one lane for each ship that has none."""
    lane = dict(berths)
    pairs = [(pair["outgoing"], pair["incoming"]) for pair in data["berths"]] + [(first, second) for second, first in same.items()]
    count = 0
    for one, other in pairs:
        if one not in lane and other not in lane:
            count += 1
            lane[one] = lane[other] = f"Berth {count}"
        elif one in lane and other in lane:
            # Two groups that a pair joins are one berth, unless the sources name two.
            if lane[one] != lane[other] and one not in berths and other not in berths:
                lane = {ship: lane[one] if name == lane[other] else name for ship, name in lane.items()}
        else:
            lane[one] = lane[other] = lane.get(one, lane.get(other, ""))
    return [(name, [ship for ship in lane if lane[ship] == name]) for name in dict.fromkeys(lane[ship] for ship in sorted(lane))]


def _stay(data: dict[str, Any], rows: dict[int, dict[str, str]], ship: int, same: dict[int, int]) -> Stay | None:
    """The stay that ends with an outgoing ship's sailing, or that begins with an incoming one's last pass. A ship that came in to sail
    again has one stay, that of her sailing."""
    one, row = data["ships"][ship], rows.get(ship, {})
    slot = int(row["slot"]) if row.get("slot") else None
    if one["direction"] == "outgoing":
        first = _arrives(data, rows, same[ship]) if ship in same else None
        if ship in same and first is None:
            return None
        return Stay(hull(one["name"], data["ships"][same[ship]]["name"]) if ship in same else one["name"], first, slot, ship, slot)
    if slot is None or ship in same.values():
        return None
    return Stay(one["name"], _arrives(data, rows, ship), None, ship, slot)


def hull(leaves: str, comes: str) -> str:
    """The name of a ship that comes in and sails again: without the word for which of the two it is, where that is all that differs."""
    bare = leaves.removesuffix(" out")
    return bare if bare == comes.removesuffix(" in") else leaves


def _arrives(data: dict[str, Any], rows: dict[int, dict[str, str]], ship: int) -> int | None:
    """The slot of an incoming ship's last pass: her sailing and the greatest offset of her route."""
    row = rows.get(ship, {})
    if not row.get("slot"):
        return None
    return int(row["slot"]) + max(int(leg["offset"]) for leg in data["ships"][ship]["route"])
