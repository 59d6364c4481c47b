"""A line-up with a row for each call: a ship arrives, loads at a berth and sails. It is two movements."""
from __future__ import annotations

from dataclasses import dataclass

from .base import Port
from .dates import minute_at
from .faults import Fault, Refused, Told, Wrong
from .heads import Row, Table
from .ships import gap_of

CALL_NEEDED = ["name", "class", "tpc", "light", "deep"]
CALL_COLUMNS = [*CALL_NEEDED, "arrives", "arrives by", "berth", "loads", "sails", "sails by", "arrival draft", "tugs", "tugs in",
                "tugs out", "job", "job in", "job out", "route in", "route out", "closed", "may_stay"]
# A ship that is at her berth when the plan begins has no time of arrival, and one that stays beyond its end none of sailing.
NONE = ("-", "alongside")
SUFFIXES = {"incoming": " in", "outgoing": " out"}


@dataclass(frozen=True)
class Movements:
    """The rows of both movements of each call, and what is told of those that lie outside the plan."""
    rows: list[Row]
    hints: list[Told]


def check_columns(table: Table) -> None:
    """Refuses a head without what each call needs."""
    for column in CALL_NEEDED:
        if not table.has(column):
            raise Fault((table.head_row, column), "this column is missing")
    for column in ("tugs", "job"):
        if not table.has(column) and not (table.has(f"{column} in") and table.has(f"{column} out")):
            raise Fault((table.head_row, column), "this column is missing")


def movements_of_calls(table: Table, port: Port) -> Movements:
    """The movements of all calls; one fault is told of each row."""
    check_columns(table)
    rows: list[Row] = []
    hints: list[Told] = []
    faults: list[Told] = []
    for row in table.rows():
        try:
            made, told = movements(row, port, table.name)
            rows += made
            hints += told
        except Fault as fault:
            faults.append(Told(table.name, fault.cause, row=row.number, column=row.head(str(fault.place[0]))))
    if faults:
        raise Wrong(*faults)
    return Movements(rows, hints + early_turns(rows, port, table.name))


def early_turns(rows: list[Row], port: Port, name: str) -> list[Told]:
    """Hints on calls that arrive before one that has the berth first."""
    hints: list[Told] = []
    latest: dict[str, int] = {}
    for row in rows:
        berth, minute = row.cells["berth"], minutes_in(row, "earliest", port)
        if not berth or minute is None or row.cells["direction"] != "incoming":
            continue
        if minute < latest.get(berth, minute):
            hints.append(Told(name, f"she arrives before the ship above her that has {berth} first: turns are in the order of the rows",
                              row=row.number, column=row.head("earliest"), hint=True))
        latest[berth] = max(minute, latest.get(berth, minute))
    return hints


def movements(row: Row, port: Port, name: str) -> tuple[list[Row], list[Told]]:
    """The movements of a call that lie within the plan, and hints on the others."""
    def hint(column: str, said: str) -> Told:
        return Told(name, said, row=row.number, column=row.head(column), hint=True)

    comes, sails = (row.cells.get(column, "").lower() not in NONE for column in ("arrives", "sails"))
    if comes and begins_late(row, "arrives", port):
        return [], [hint("arrives", "she arrives after the last slot: this call isn't planned")]
    made = [movement(row, "incoming", port)] if comes else []
    if not sails:
        return made, []
    if begins_late(row, "sails", port) or comes and loads_beyond(row, port, made[0]):
        return made, [hint("sails" if "sails" in row.cells else "loads", "she sails after the last slot: that isn't planned")]
    late = [hint("sails by", "she can't be loaded by then")] if comes and loaded_late(row, port, made[0]) else []
    leaving = movement(row, "outgoing", port)
    if comes:
        leaving.cells.update({"after": made[0].cells["name"], "gap": row.cells.get("loads", "") or "0:00"})
    return [*made, leaving], late


def minutes_in(row: Row, column: str, port: Port) -> int | None:
    """The minute from slot 0 of a cell with a date and a time; None of an empty one."""
    text = row.cells.get(column, "")
    if not text or text.lower() in NONE:
        return None
    try:
        minute, seconds = minute_at(text, port.order)
    except Refused as cause:
        raise Fault((column,), f"{cause}") from None
    return minute - port.start + (seconds > 0)


def begins_late(row: Row, column: str, port: Port) -> bool:
    """Whether a movement can begin in none of the slots, since its time is after the last one."""
    minute = minutes_in(row, column, port)
    return minute is not None and -(-minute // port.minutes) >= port.slots


def loads_beyond(row: Row, port: Port, incoming: Row) -> bool:
    """Whether loading ends after the last slot, however early the ship comes in."""
    return loaded(row, port, incoming) >= port.slots


def loaded_late(row: Row, port: Port, incoming: Row) -> bool:
    """Whether loading ends after the time by which she has to sail."""
    last = minutes_in(row, "sails by", port)
    return last is not None and loaded(row, port, incoming) > last // port.minutes


def loaded(row: Row, port: Port, incoming: Row) -> int:
    """The first slot in which a ship can sail, however early she comes in."""
    arrives = max(0, minutes_in(row, "arrives", port) or 0)
    try:
        gap = gap_of(row.cells.get("loads", "") or "0:00", port.minutes)
    except Refused as cause:
        raise Fault(("loads",), f"{cause}") from None
    route = port.routes.get(incoming.cells["route"], {"route": [{"offset": 0}]})["route"]
    return int(-(-arrives // port.minutes) + gap + max(item["offset"] for item in route))


def movement(row: Row, direction: str, port: Port) -> Row:
    """One of the two movements of a call, as a row of a table with a row for each movement."""
    side = "in" if direction == "incoming" else "out"
    first, last = ("arrives", "arrives by") if direction == "incoming" else ("sails", "sails by")
    draft = "arrival draft" if direction == "incoming" and row.cells.get("arrival draft") else "light"
    source = {"name": "name", "class": "class", "earliest": first, "latest": last, "light": draft, "berth": "berth",
              "deep": draft if direction == "incoming" else "deep", "tugs": either(row, "tugs", side),
              "job": either(row, "job", side), "route": f"route {side}", "closed": "closed", "after": "name", "gap": "loads"}
    if "may_stay" in row.cells:
        source["may_stay"] = "may_stay"
    cells = {column: row.cells.get(head, "") for column, head in source.items()}
    cells.update({"name": cells["name"] + SUFFIXES[direction], "direction": direction, "after": "", "gap": "",
                  "tpc": "" if direction == "incoming" else row.cells["tpc"], "route": cells["route"] or side})
    cells["earliest"] = "" if cells["earliest"].lower() in NONE else cells["earliest"]
    return Row(row.number, cells, {column: row.head(head) for column, head in {**source, "tpc": "tpc"}.items()})


def either(row: Row, column: str, side: str) -> str:
    """The column of one movement, or that of both."""
    return f"{column} {side}" if row.cells.get(f"{column} {side}") else column
