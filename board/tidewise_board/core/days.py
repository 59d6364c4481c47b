"""A day's sources, as a planner writes them, and the two files that the program reads. Faults are told at their cell."""
from __future__ import annotations

import csv
import io
import json
import re
from dataclasses import asdict, dataclass, field, replace
from typing import Any

from ..library import port as port_script
from ..library.base import start_of
from ..library.dates import ORDERS
from ..library.faults import Fault as Misplaced
from ..library.faults import Refused, Wrong
from ..library.faults import Told as At
from ..library.heads import Row, cells_of, column_of, under_head
from ..library.linted import sentence_of
from ..library.tides import Listing, Options, listing_of, table_of
from .program import Program, Text
from .reading import Fault, faults_of
from .variants import clock_of

# The members of a ship that a sheet over a whole instance shows.
MEMBERS = ["name", "direction", "class", "earliest", "latest", "tpc", "light", "deep", "tugs", "job", "may_stay"]
MOST_TEXT = 4 << 20


class NoDay(Exception):
    """The files that were dropped are no day."""


@dataclass
class Told:
    """A fault or a hint: `where` is ships, port, tide or day; a row of the sheet counts from 0; `place` is that in the JSON, as
    waypoints.1.depth."""
    where: str
    said: str
    hint: bool = False
    row: int | None = None
    column: str | None = None
    place: str | None = None


@dataclass
class Source:
    """What a planner writes. `base` is the PORT.json of port.py, or a whole instance, whose ships the sheet then shows. `origins` has for
    each row the place of its ship in that instance, -1 of a new one; without it each row has its own place."""
    whole: bool
    base: str
    columns: list[str]
    rows: list[list[str]]
    table: str | None = None
    lists: list[dict[str, str]] = field(default_factory=list)
    dates: str | None = None
    origins: list[int] | None = None

    def bytes(self) -> bytes:
        return json.dumps(asdict(self), ensure_ascii=False).encode()


@dataclass
class Made:
    instance: str | None
    tides: str | None
    told: list[Told]
    rows: list[Row] = field(default_factory=list)

    @property
    def good(self) -> bool:
        return self.instance is not None and self.tides is not None and all(one.hint for one in self.told)


def source_of(data: object) -> Source:
    """A source from the bytes that the browser sent, or the store kept; `ValueError` for anything else."""
    if not isinstance(data, dict):
        raise ValueError("no source")

    def text(value: object) -> str:
        if not isinstance(value, str) or len(value) > MOST_TEXT:
            raise ValueError("no text, or too long")
        return value

    try:
        rows = [[text(cell) for cell in row] for row in data["rows"]]
        columns = [text(cell) for cell in data["columns"]]
        lists = [{name: text(one.get(name, "")) for name in ("waypoint", "text", "differences")} for one in data["lists"]]
        dates, origins = data.get("dates"), data.get("origins")
        if origins is not None and (len(origins) != len(rows) or not all(type(one) is int for one in origins)):
            raise ValueError("origins aren't one for each row")
        source = Source(bool(data["whole"]), text(data["base"]), columns, rows, None if data["table"] is None else text(data["table"]),
                        lists, dates if dates in ("dmy", "mdy", "ymd") else None, origins)
    except (TypeError, KeyError, AttributeError) as cause:
        raise ValueError(f"no source: {cause}") from None
    if len(rows) > 200 or len(columns) > 60 or len(lists) > 16 or any(len(row) > 60 for row in rows):
        raise ValueError("too many rows, columns or lists")
    return source


def cell_of(value: object) -> str:
    return value if isinstance(value, str) else json.dumps(value)


def sheet_of(instance: dict[str, Any]) -> tuple[list[str], list[list[str]]]:
    """The sheet of a whole instance."""
    ships = instance["ships"]
    columns = [member for member in MEMBERS if any(member in ship for ship in ships)]
    return columns, [[cell_of(ship.get(member, "")) for member in columns] for ship in ships]


def classify(name: str, text: str) -> str:
    """What a dropped file is."""
    start = text.lstrip("\ufeff \r\n\t")
    if start.startswith("{"):
        try:
            members = json.loads(start)
        except (ValueError, RecursionError):
            raise NoDay(f"{name} is no JSON") from None
        return "instance" if "ships" in members else "port"
    head = start.partition("\n")[0].lower()
    if head.startswith(("slot,", "water,", '"slot"', '"water"')):
        return "table"
    if is_line_up(start):
        return "ships"
    if re.search(r"[0-9]{1,2}:?[0-9]{2}[\s,;]+-?[0-9]+[.,][0-9]", start):
        return "list"
    raise NoDay(f"{name} is none of: ships (CSV with columns), a port or an instance (JSON), a tide table (CSV), printed waters")


def is_line_up(text: str) -> bool:
    """Whether a text is a table of ships, with a row for each movement or for each call."""
    try:
        rows = under_head(cells_of(text))
    except Misplaced:
        return False
    columns = {column_of(head)[0] for head in rows[0][1]} if rows else set()
    return "name" in columns and bool(columns & {"direction", "arrives", "sails", "loads"})


def dropped(files: list[tuple[str, str]]) -> Source:
    """The source that some files make together."""
    found: dict[str, tuple[str, str]] = {}
    lists: list[tuple[str, str]] = []
    for name, text in files:
        kind = classify(name, text)
        if kind == "list":
            lists.append((name, text))
        elif kind in found:
            raise NoDay(f"{name} and {found[kind][0]} are both a file of this kind")
        else:
            found[kind] = (name, text)
    if "instance" in found:
        try:
            columns, rows = sheet_of(json.loads(found["instance"][1]))
        except (KeyError, TypeError, AttributeError):
            raise NoDay(f"{found['instance'][0]} has no list of ships") from None
        source = Source(True, found["instance"][1], columns, rows)
    elif "port" in found and "ships" in found:
        columns, *rows = [cells for _, cells in under_head(cells_of(found["ships"][1].lstrip("\ufeff")))]
        source = Source(False, found["port"][1], columns, [row + [""] * (len(columns) - len(row)) for row in rows if any(row)])
    else:
        raise NoDay("an instance, or a port and a table of ships, is needed")
    if "table" in found:
        source.table = found["table"][1]
    else:
        source.lists = lists_of(source, lists)
    return source


def waypoints_of(source: Source) -> list[str]:
    try:
        return [cell_of(item["name"]) for item in json.loads(source.base)["waypoints"]]
    except (ValueError, KeyError, TypeError, RecursionError):
        return []


def lists_of(source: Source, files: list[tuple[str, str]]) -> list[dict[str, str]]:
    """Printed waters for each waypoint: the file that the port names or that has its name, or else the next one."""
    rest, texts, found = list(files), dict(files), []
    said = tides_said(source)
    for waypoint in waypoints_of(source):
        name, differences = said.get(waypoint, ("", ""))
        named = [(name, texts[name])] if name in texts else [one for one in files if waypoint.lower() in one[0].lower()] or rest[:1]
        if named and named[0] in rest:
            rest.remove(named[0])
        found.append({"waypoint": waypoint, "text": named[0][1] if named else "", "differences": differences if name in texts else ""})
    return found


def tides_said(source: Source) -> dict[str, tuple[str, str]]:
    """The file and the differences of each waypoint whose `tide` the port says, as `Bar.txt+24m*1.03-5cm`."""
    found = {}
    for item in json.loads(source.base)["waypoints"] if waypoints_of(source) else []:
        parts = re.fullmatch(r"(.+?\.(?:txt|csv))(.*)", str(item.get("tide", "")), re.IGNORECASE)
        if parts:
            found[str(item["name"])] = (parts[1], parts[2])
    return found


def ships_text(source: Source) -> str:
    out = io.StringIO(newline="")
    csv.writer(out, lineterminator="\n").writerows([source.columns, *source.rows])
    return out.getvalue()


def number_or_text(cell: str) -> object:
    """The value that a cell says: JSON where it is a number or a truth value; else a text, which the program refuses where it wants none."""
    lowered = cell.strip().lower()
    if re.fullmatch(r"-?[0-9]{1,18}", lowered):
        return int(lowered)
    return {"true": True, "yes": True, "false": False, "no": False}.get(lowered, cell.strip())


def whole_instance(source: Source) -> str:
    """A whole instance with the ships of the sheet. A ship keeps its route and channel, and its pairs with other ships; a new one has
    the route of the first ship of its direction, and no pair. Pairs of a ship that was removed go with it."""
    base = json.loads(source.base)
    old = base["ships"]
    origins = source.origins if source.origins is not None else list(range(len(source.rows)))
    origins = [origin if 0 <= origin < len(old) else -1 for origin in origins]
    ships = []
    for origin, cells in zip(origins, source.rows, strict=True):
        values = dict(zip(source.columns, cells))
        like = [ship for ship in old if ship.get("direction") == values.get("direction")] or old
        ship = dict(old[origin] if origin >= 0 else like[0])
        for column, cell in values.items():
            ship[column] = cell.strip() if column in ("name", "direction") else number_or_text(cell)
        ships.append(ship)
    paired = {member: _renumbered(base[member], origins, len(old)) for member in ("berths", "after") if member in base}
    return str(port_script.text_of({**base, "ships": ships, **paired})) + "\n"


def _renumbered(pairs: Any, origins: list[int], many: int) -> Any:
    """Pairs of ships by their new places. One that names no ship of the old instance stays, so that the program refuses it."""
    place = {origin: new for new, origin in enumerate(origins) if origin >= 0}
    if not isinstance(pairs, list) or place == {new: new for new in range(many)}:
        return pairs
    found = []
    for pair in pairs:
        named = [name for name in ("outgoing", "incoming", "first", "second") if type(pair.get(name)) is int and 0 <= pair[name] < many]
        if all(pair[name] in place for name in named):
            found.append({**pair, **{name: place[pair[name]] for name in named}})
    return found


@dataclass(frozen=True)
class Written:
    """The instance of a source, and the row of each ship where it was made of a table; or None and what is refused."""
    text: str | None
    told: list[Told]
    rows: list[Row] = field(default_factory=list)


def instance_text(source: Source) -> Written:
    """The instance of a source, or what the library refuses."""
    if source.whole:
        try:
            return Written(whole_instance(source), [])
        except (ValueError, KeyError, TypeError, IndexError, AttributeError, RecursionError) as cause:
            return Written(None, [Told("port", f"the instance can't be read: {cause}")])
    try:
        made = port_script.made_of(("ships", ships_text(source)), ("port", source.base), source.dates)
    except Wrong as wrong:
        return Written(None, list(map(told_of, wrong.told)))
    except Refused as cause:
        return Written(None, [Told("day", f"{cause}")])
    return Written(port_script.text_of(made.instance) + "\n", list(map(told_of, made.hints)), made.rows)


def berths_of(source: Source) -> dict[int, str]:
    """The berth of each ship by the day's table, where it names one."""
    return {ship: row.cells["berth"] for ship, row in enumerate(instance_text(source).rows) if row.cells.get("berth")}


def told_of(one: At) -> Told:
    """What the library tells, at its cell. Its rows count from 1, the header among them."""
    if one.file == "ships":
        return Told("ships", one.said, one.hint, one.row - 2 if one.row and one.row > 1 else None, one.column)
    if one.file != "port":
        return Told("day", f"{one}", one.hint)
    place = one.place if one.place is None or re.fullmatch(r"[a-z_]+(?:\.[a-z0-9_]+)*", one.place) else None
    return Told("port", f"{one}".removeprefix("port, "), one.hint, place=place)


def tides_text(source: Source, instance: str | None) -> tuple[str | None, list[Told]]:
    """The tide table of a source: as it is, or of printed waters by tides.py."""
    if source.table is not None:
        return source.table, []
    try:
        base = json.loads(source.base)
        start, minutes, said = start_of(base["start"]), int(base["slot_minutes"]), base.get("tides") or {}
        heights = json.loads(instance).get("heights") if instance else base.get("heights")
        order = source.dates or (base["dates"] if base.get("dates") in ORDERS else None)
        options = Options(order, bool(said.get("feet")), heights == "start", bool(said.get("one_clock")))
    except (ValueError, KeyError, TypeError, AttributeError, RecursionError, Misplaced):
        return None, [Told("tide", "printed waters need the port's start and slot_minutes")]
    try:
        lists = [listing(one) for one in source.lists]
        return "\n".join(table_of(lists, start, minutes, options)) + "\n", []
    except (Refused, UnicodeError, ZeroDivisionError) as cause:
        return None, [Told("tide", f"{cause}")]


def listing(one: dict[str, str]) -> Listing:
    """A list of waters, with its differences; it is called by its waypoint."""
    waypoint = one["waypoint"]
    change = listing_of(f"{waypoint}=list{one['differences'].strip()}").change
    return Listing(waypoint, waypoint, waypoint, change, one["text"].encode())


def in_words(fault: Fault, instance: str) -> Fault:
    """A hint as a sentence. On a day that doesn't say when it begins, a hint on the tide keeps its slots."""
    if not fault.hint:
        return fault
    try:
        day = json.loads(instance)
        clock = clock_of(day)
    except (ValueError, KeyError, TypeError, Refused):
        return fault
    if fault.place == "tides" and "start" not in day:
        return fault
    return replace(fault, said=sentence_of(fault.said, clock) or fault.said)


def placed(fault: Fault, source: Source, rows: list[Row]) -> Told:
    """A fault of the program at its cell: its ships count from 0, and a row of a table may be none of them, or two."""
    found = re.fullmatch(r"ships\.([0-9]+)(?:\.([a-z_]+))?.*", fault.place)
    if found and int(found[1]) < len(rows):
        row = rows[int(found[1])]
        return Told("ships", fault.said, fault.hint, row.number - 2, row.head(found[2] or "name"))
    if found:
        ship, column = int(found[1]), found[2] if found[2] in source.columns else None
        return Told("ships", fault.said, fault.hint, ship if ship < len(source.rows) else None, column)
    if fault.place == "tides":
        return Told("tide", fault.said, fault.hint)
    return Told("port", fault.said, fault.hint, place=fault.place)


def make(source: Source, program: Program) -> Made:
    """The two files of a source, and all that is told of them: by the scripts, and by the program's own `lint`."""
    written = instance_text(source)
    instance, told = written.text, list(written.told)
    tides, more = tides_text(source, instance)
    told += more
    if instance is None or tides is None:
        return Made(instance, tides, told)
    store = program.store
    said = program.ask("lint", Text(store.put(instance.encode()), "day.json"), Text(store.put(tides.encode()), "tides.csv"))
    told += [placed(in_words(fault, instance), source, written.rows) for fault in faults_of(said.output)]
    return Made(instance, tides, told, written.rows)
