"""A folder that is a port: port.json, a table of ships, printed tides and a log; and where a day's files lie in it.

    PORT/port.json     the base file, as `python3 port.py --help` says. `dates` holds of all tables and lists; `tides` may have `feet` and
                       `one_clock`, which are true or false; a waypoint may have `tide`, a file of tides/ with its differences, as
                       "Bar.txt+24m*1.03-5cm". Without that its list is the file of tides/ that has its name.
    PORT/ships.csv     the line-up, a row for each movement or each call; under another name, the only other CSV file of the folder
    PORT/tides/        printed lists; or PORT/tides.csv instead, a tide table in the program's own form
    PORT/log.csv       what happened, in three columns: written, who, said
    PORT/day/DATE/     what is made of it; DATE is that of slot 0
"""
from __future__ import annotations

import os
import stat
from collections.abc import Callable
from dataclasses import dataclass, field, replace
from typing import TypeVar

from .base import Port, read_port
from .clock import Clock
from .dates import DAY, day_of
from .faults import Refused, Told, Wrong, in_folder
from .heads import Row, cells_of
from .port import Made, made_of, text_of
from .tides import Listing, Options, listing_of, table_of
from .waters import Change

PORT, SHIPS, TABLE, LISTS, LOG = "port.json", "ships.csv", "tides.csv", "tides", "log.csv"
Found = TypeVar("Found")
LOG_HEAD = ["written", "who", "said"]
MOST_BYTES = 4 << 20

__all__ = ["Call", "Clock", "Folder", "LogLine", "Looked", "Names", "Told", "Wrong", "find", "look", "read"]


@dataclass(frozen=True)
class Names:
    """What has a name in an instance, by its number, and the tugs that there are."""
    ships: list[str]
    directions: list[str]
    sections: list[str]
    waypoints: list[str]
    classes: list[str]
    berths: list[str]
    fleet: int


@dataclass(frozen=True)
class Call:
    """A ship that comes in and sails again: its name, and the numbers of its two movements."""
    name: str
    incoming: int
    outgoing: int


@dataclass(frozen=True)
class LogLine:
    """A line of the log: its row, when it was written and by whom, and the sentence."""
    row: int
    written: str
    who: str
    said: str


@dataclass(frozen=True)
class Folder:
    """A port and its day, read without a fault: the files that were read, by their paths in the folder; the program's two inputs; names,
    calls and times; hints; the log, the oldest line first; and the file of the line-up, with each ship's row of it."""
    root: str
    day: str
    sources: dict[str, bytes]
    instance: str
    tides: str
    port: Names
    clock: Clock
    calls: list[Call]
    told: list[Told]
    log: list[LogLine]
    ships_file: str
    rows: list[Row]

    @property
    def day_folder(self) -> str:
        """Where the day's files lie. It may not be there yet."""
        return os.path.join(self.root, "day", self.day)

    def ship_of(self, text: str) -> int:
        """The number of the ship of this name: as written, or in other letters' case, or the only one that begins so."""
        return one_of(text, self.port.ships, "ship")

    def ships_of(self, text: str) -> list[int]:
        """The numbers of a call's two movements, by its name, or else that of the ship of this name."""
        try:
            call = self.calls[one_of(text, [call.name for call in self.calls], "call")]
        except Refused:
            return [self.ship_of(text)]
        return [call.incoming, call.outgoing]


@dataclass(frozen=True)
class Looked:
    """All that is told of a folder, and the folder if nothing of that is a fault."""
    told: list[Told]
    folder: Folder | None


@dataclass
class Reading:
    """What was read so far: the files, and what is told of them."""
    root: str
    sources: dict[str, bytes] = field(default_factory=dict)
    told: list[Told] = field(default_factory=list)

    def tried(self, read: Callable[..., Found], *words: object) -> Found | None:
        """What a part of the folder says; where it is refused, that is told."""
        try:
            return read(*words)
        except Wrong as wrong:
            self.told += wrong.told
        except Refused as cause:
            self.told.append(Told(PORT, f"{cause}"))
        return None

    def text(self, name: str) -> str:
        """A file's text, without a byte order mark."""
        data = self.bytes(name)
        try:
            return data.decode("utf-8-sig")
        except UnicodeDecodeError:
            raise Wrong(Told(name, "this isn't text in UTF-8; a spreadsheet saves that as CSV UTF-8")) from None

    def bytes(self, name: str) -> bytes:
        """A file's bytes, which are kept as one that was read."""
        path = os.path.join(self.root, name)
        try:
            # A pipe would never end.
            if not stat.S_ISREG(os.stat(path).st_mode):
                raise Wrong(Told(name, "this is no file"))
            with open(path, "rb") as file:
                data = file.read(MOST_BYTES + 1)
        except OSError as fault:
            raise Wrong(Told(name, fault.strerror or "it can't be read")) from None
        if len(data) > MOST_BYTES:
            raise Wrong(Told(name, "this file has more than 4 MB"))
        self.sources[name] = data
        return data


def one_of(text: str, names: list[str], kind: str) -> int:
    """The number of a name: as written, in other letters' case, or the only one that begins so."""
    wanted = text.strip()
    lower = wanted.lower()
    for fits in ([name == wanted for name in names], [name.lower() == lower for name in names],
                 [name.lower().startswith(lower) for name in names]):
        found = [number for number, fit in enumerate(fits) if fit]
        if len(found) == 1 and wanted:
            return found[0]
        if len(found) > 1:
            raise Refused(f"{wanted} may be {', '.join(names[number] for number in found[:6])}: which {kind}?")
    raise Refused(f"{wanted} is no {kind} of this day")


def find(path: str) -> str:
    """The folder itself, or that which it lies in, that has a port.json."""
    root = os.path.realpath(path)
    while not os.path.isfile(os.path.join(root, PORT)):
        above = os.path.dirname(root)
        if above == root or not os.path.isdir(path):
            raise Wrong(Told(path, "there is no port.json: `tw init FOLDER` makes a port to begin with"))
        root = above
    return root


def day_minute(day: str | None) -> int | None:
    """The minute, from year 1, at which a date begins."""
    return None if day is None else day_of(day).toordinal() * DAY


def ships_name(root: str) -> str:
    """The name of the table of ships."""
    others = sorted(name for name in os.listdir(root) if name.lower().endswith(".csv") and name not in (TABLE, LOG))
    if SHIPS in others or not others:
        return SHIPS
    if len(others) > 1:
        raise Wrong(Told(SHIPS, f"it isn't there; the line-up may be {', '.join(others[:6])}: call one of them ships.csv"))
    return others[0]


def list_name(waypoint: str, files: list[str]) -> str:
    """The file of tides/ that has a waypoint's name, or the only one that has it within its name."""
    wanted, stems = waypoint.lower(), [os.path.splitext(name)[0].lower() for name in files]
    for fits in ([stem == wanted for stem in stems], [wanted in stem for stem in stems]):
        found = [name for name, fit in zip(files, fits) if fit]
        if len(found) == 1:
            return found[0]
    raise Wrong(Told(LISTS, f"no list is that of {waypoint}: call it {waypoint}.txt, or name one by \"tide\" in port.json"))


def listing(waypoint: str, port: Port, files: list[str], reading: Reading) -> Listing:
    """The list of a waypoint, with its differences."""
    said = port.lists.get(waypoint)
    found = (listing_of(f"{waypoint}={said}") if said is not None
             else Listing(waypoint, list_name(waypoint, files), "", Change()))
    if os.path.basename(found.path) != found.path or found.path in ("", ".", ".."):
        raise Wrong(Told(PORT, f"the tide of {waypoint} is no file of tides/: {found.path}"))
    name = f"{LISTS}/{found.path}"
    return Listing(waypoint, name, name, found.change, reading.bytes(name))


def line_up(reading: Reading, base: str, begin: int | None) -> Made:
    """The instance of the base file and the table of ships."""
    ships = ships_name(reading.root)
    return made_of((ships, reading.text(ships)), (PORT, base), None, begin)


def tides_of(reading: Reading, port: Port) -> str:
    """The tide table: as it is, or made of printed lists."""
    if os.path.exists(os.path.join(reading.root, TABLE)):
        return reading.text(TABLE)
    try:
        files = sorted(name for name in os.listdir(os.path.join(reading.root, LISTS)) if not name.startswith("."))
    except OSError:
        raise Wrong(Told(LISTS, "there are no tides: put a printed list for each waypoint there")) from None
    listings = [listing(waypoint, port, files, reading) for waypoint in port.names["waypoints"]]
    options = Options(port.order, port.feet, port.members["heights"] == "start", port.one_clock)
    return "\n".join(table_of(listings, port.start, port.minutes, options)) + "\n"


def log_of(reading: Reading) -> list[LogLine]:
    """The lines of the log; none where there is no log."""
    if not os.path.exists(os.path.join(reading.root, LOG)):
        return []
    rows = cells_of(reading.text(LOG))
    if not rows or rows[0][:3] != LOG_HEAD:
        raise Wrong(Told(LOG, f"the head is no {','.join(LOG_HEAD)}", row=1))
    lines = []
    for number, row in enumerate(rows[1:], 2):
        if any(row):
            if len(row) != len(LOG_HEAD):
                raise Wrong(Told(LOG, f"this row has {len(row)} cells, and not {len(LOG_HEAD)}", row=number))
            lines.append(LogLine(number, *row))
    return lines


def names_of(made: Made) -> Names:
    ships = made.instance["ships"]
    return Names([ship["name"] for ship in ships], [ship["direction"] for ship in ships], made.port.names["sections"],
                 made.port.names["waypoints"], made.port.names["classes"], made.port.names["berths"], made.instance["fleet"])


def calls_in(made: Made) -> list[Call]:
    ships = made.instance["ships"]
    return [Call(ships[incoming]["name"].removesuffix(" in"), incoming, outgoing) for incoming, outgoing in made.calls]


def look(root: str, day: str | None = None) -> Looked:
    """All that is told of a port's folder, and what it says if there is no fault. `day` is the date of slot 0, as 2027-03-15; without
    it that is what port.json says."""
    reading = Reading(root)
    begin = day_minute(day)
    base = reading.tried(reading.text, PORT)
    port = None if base is None else reading.tried(read_port, PORT, base, None, begin)
    made = None if port is None else reading.tried(line_up, reading, base, begin)
    tides = None if port is None else reading.tried(tides_of, reading, port)
    log = reading.tried(log_of, reading)
    if made is not None:
        reading.told += made.hints
    reading.told = [replace(told, said=in_folder(told.said)) for told in reading.told]
    if made is None or tides is None or log is None:
        return Looked(reading.told, None)
    clock = Clock(made.port.start, made.port.minutes, made.port.slots, made.port.order)
    return Looked(reading.told, Folder(root, clock.at(0)[:10], reading.sources, text_of(made.instance) + "\n", tides, names_of(made), clock,
                                       calls_in(made), reading.told, log, ships_name(root), made.rows))


def read(root: str, day: str | None = None) -> Folder:
    """A port's folder without a fault; `Wrong` has all that are told."""
    looked = look(root, day)
    if looked.folder is None:
        raise Wrong(*(one for one in looked.told if not one.hint))
    return looked.folder
