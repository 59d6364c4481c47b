"""Ships of a table: a row for each movement, by the members of an instance."""
from __future__ import annotations

import json
import re
from dataclasses import dataclass
from typing import Any

from .base import Port, place_of
from .dates import minute_at, shortened
from .faults import Fault, Refused, Told, Wrong
from .folding import folded
from .heads import NUMBERS, Row, Table
from .schema import MOST_SHIPS, SHIP, check
from .slots import closed_of, slots_of

NEEDED = ["name", "direction", "class", "earliest", "latest", "tpc", "light", "deep", "route", "tugs", "job"]
THIRD = ["closed", "after", "gap"]
COLUMNS = [*NEEDED, "berth", "may_stay", *THIRD]
# The columns that aren't a member of a ship.
BESIDE = ("berth", "after", "gap")

Ship = dict[str, Any]


@dataclass(frozen=True)
class Pair:
    """Two ships of which the second sails some slots after the first, and the row that says so."""
    first: int
    second: int
    gap: int

    def members(self) -> dict[str, int]:
        return {"first": self.first, "second": self.second, "gap": self.gap}


def slot_of(text: str, port: Port, member: str) -> int:
    """The slot of a date and a time; that of an empty cell is the first or the last one."""
    last = port.slots - 1
    if not text:
        return 0 if member == "earliest" else last
    minute, more = minute_at(text, port.order)
    seconds = (minute - port.start) * 60 + more
    length = port.minutes * 60
    slot = max(0, -(-seconds // length)) if member == "earliest" else min(last, seconds // length)
    if not 0 <= slot <= last:
        raise Refused("no slot is left: it is after the last slot" if member == "earliest" else "it is before slot 0")
    return slot


def closed_in(text: str, port: Port) -> list[dict[str, int]]:
    """The closed slots of a cell."""
    found: list[dict[str, int]] = []
    for part in text.split("|") if text else []:
        first, middle, last = part.partition(" to ")
        if not middle:
            raise Refused(f"{json.dumps(part.strip())} has no to between two times")
        found += closed_of(first.strip(), last.strip(), port.start, port.minutes, port.slots - 1, port.order)
    return found


def number_in(column: str, row: Row, port: Port) -> int:
    """The number in a cell. What an incoming ship may leave out is 0, or her `light` draft."""
    text = row.cells[column]
    if not text and column in ("tpc", "deep") and row.cells["direction"].lower() == "incoming":
        return 0 if column == "tpc" else number_in("light", row, port)
    if column == "job":
        text = str(slots_of(text, port.minutes, True))
    if not re.fullmatch("[0-9]{1,9}", text):
        raise Refused(f"{json.dumps(text)} is no whole number of {NUMBERS[column]}")
    return int(text)


def cell_of(column: str, row: Row, port: Port) -> Any:
    """The value of a member of a ship, from its cell."""
    text = row.cells[column]
    if column in ("earliest", "latest"):
        return slot_of(text, port, column)
    if column == "class":
        return place_of(text, port.names["classes"], (), "class of the port")
    if column == "route":
        place_of(text, port.names["routes"], (), "route of the port")
        return port.routes[text]["route"]
    if column == "may_stay":
        if text.lower() not in ("yes", "no"):
            raise Refused("it is neither yes nor no")
        return text.lower() == "yes"
    if column == "closed":
        return closed_in(text, port)
    if column in NUMBERS:
        return number_in(column, row, port)
    if column == "name":
        return folded(text).strip()
    return text.lower() if column == "direction" else text


def ship_of(row: Row, port: Port) -> Ship:
    """A ship, by the members of an instance; faults name the column."""
    ship: Ship = {}
    for column in (column for column in COLUMNS if column in row.cells and column not in BESIDE):
        try:
            ship[column] = cell_of(column, row, port)
        except (Refused, Fault) as cause:
            raise Fault((column,), f"{cause}") from None
    ship["channel"] = port.routes[row.cells["route"]]["channel"]
    check(ship, SHIP)
    for low, high in (("earliest", "latest"), ("light", "deep")):
        if ship[high] < ship[low]:
            raise Fault((high,), f"{ship[high]} is below {low}, which is {ship[low]}")
    return ship


def ships_in(rows: list[Row], port: Port, name: str) -> tuple[list[Ship], list[Told]]:
    """The ships of some rows, and hints on their names; one fault is told of each row."""
    ships: list[Ship] = []
    told: list[Told] = []
    faults: list[Told] = []
    if not 1 <= len(rows) <= MOST_SHIPS:
        raise Wrong(Told(name, f"there are {len(rows)} ships, and not 1 to {MOST_SHIPS}", row=2, column="name"))
    for row in rows:
        try:
            ship = ship_of(row, port)
            if ship["name"] in [other["name"] for other in ships]:
                raise Fault(("name",), "there is a ship of this name already")
            ships.append(ship)
            told += hints_on(row, ship["name"], name)
        except Fault as fault:
            column = str(fault.place[0])
            faults.append(Told(name, fault.cause + unit_of(row, column), row=row.number, column=row.head(column)))
    if faults:
        raise Wrong(*faults)
    return ships, told


def unit_of(row: Row, column: str) -> str:
    """The unit of the numbers in a fault, where the head has another one."""
    return f" {NUMBERS[column]}" if column in NUMBERS and row.head(column).lower() != column else ""


def hints_on(row: Row, said: str, name: str) -> list[Told]:
    """What looks wrong about a ship's name."""
    def hint(cause: str) -> Told:
        return Told(name, cause, row=row.number, column=row.head("name"), hint=True)

    told = [] if said == row.cells["name"] else [hint(f"{row.cells['name']} is written {said}")]
    return told + ([hint(f"a spreadsheet takes {said} for a formula")] if said[0] in "=+-@" else [])


def gap_of(text: str, length: int) -> int:
    """The slots of hours and minutes, rounded up."""
    slots = slots_of(text, length, True)
    if not isinstance(slots, int):
        raise Refused(f"{json.dumps(shortened(text))} is no number of hours and minutes, such as 18:00")
    return slots


def after_of(rows: list[Row], ships: list[Ship], port: Port, name: str) -> list[Pair]:
    """The ships that sail after others."""
    names, found = [ship["name"] for ship in ships], []
    for second, row in enumerate(rows):
        other, gap = folded(row.cells.get("after", "")).strip(), row.cells.get("gap", "")

        def wrong(column: str, said: str, row: Row = row) -> Wrong:
            return Wrong(Told(name, said, row=row.number, column=row.head(column)))

        if not other and gap:
            raise wrong("gap", "no ship is named in the column after")
        if not other:
            continue
        if other not in names or names.index(other) == second:
            raise wrong("after", f"{json.dumps(other)} is no other ship of the table")
        first = names.index(other)
        try:
            slots = gap_of(gap, port.minutes) + max(item["offset"] for item in ships[first]["route"])
        except Refused as cause:
            raise wrong("gap", f"{cause}") from None
        if slots > 512:
            raise wrong("gap", f"these are {slots} slots after {other}, and not 0 to 512")
        found.append(Pair(first, second, slots))
    return found


def movements_of(table: Table) -> list[Row]:
    """The rows of a table with a row for each movement."""
    for column in NEEDED:
        if not table.has(column):
            raise Fault((table.head_row, column), "this column is missing")
    return list(table.rows())
