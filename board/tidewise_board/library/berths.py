"""Who comes to a berth after whom: its turns are the ships that name it, in the order of their rows."""
from __future__ import annotations

import json
from typing import Any

from .base import Port
from .faults import Told, Wrong
from .heads import Row
from .ships import Pair, Ship


def berths_of(rows: list[Row], ships: list[Ship], port: Port, after: list[Pair], name: str) -> list[dict[str, int]]:
    """The pairs of ships of each berth, where one leaves it and the next one goes to it."""
    turns: dict[str, list[int]] = {berth["name"]: [] for berth in port.berths}
    for number, row in enumerate(rows):
        berth = row.cells.get("berth", "")
        if not berth:
            continue
        if berth not in turns:
            raise Wrong(Told(name, f"{json.dumps(berth)} is no berth of the port", row=row.number, column=row.head("berth")))
        turns[berth].append(number)
    found = []
    for item in port.berths:
        for outgoing, incoming in pairs_of(turns[item["name"]], rows, ships, after, name):
            found.append({"outgoing": outgoing, "incoming": incoming, "clear": item["clear"]})
    return found


def pairs_of(turns: list[int], rows: list[Row], ships: list[Ship], after: list[Pair], name: str) -> list[tuple[int, int]]:
    """The pairs of one berth. Of two ships without a call between them the outgoing one leaves first, whatever the order of rows."""
    def leaves(number: int) -> bool:
        return bool(ships[number]["direction"] == "outgoing")

    if len(turns) == 2 and leaves(turns[1]) and not leaves(turns[0]):
        one_call = any((pair.first, pair.second) == (turns[0], turns[1]) for pair in after)
        return [] if one_call else [(turns[1], turns[0])]
    for before, number in zip(turns, turns[1:]):
        if leaves(before) == leaves(number):
            direction = ships[number]["direction"]
            raise Wrong(Told(name, f"a second {direction} ship of this berth", row=rows[number].number,
                             column=rows[number].head("berth")))
    return [(before, number) for before, number in zip(turns, turns[1:]) if leaves(before)]


def calls_of(ships: list[Ship], after: list[Pair]) -> list[tuple[int, int]]:
    """The pairs of movements that are one call: one comes in, and the other sails after it."""
    def direction(number: int) -> Any:
        return ships[number]["direction"]

    return [(pair.first, pair.second) for pair in after
            if (direction(pair.first), direction(pair.second)) == ("incoming", "outgoing")]
