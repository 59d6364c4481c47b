"""The log of a port's folder, log.csv, and the day's events in its store, which follow it."""
from __future__ import annotations

import csv
import fcntl
import io
import json
import os
import sqlite3
from collections.abc import Iterator
from contextlib import contextmanager
from datetime import datetime

from ..core.facts import Port
from ..core.happened import Event, kept_of
from ..core.plans import events_of, own_inputs
from ..core.runs import Runs
from ..core.underway import Watch
from ..library.clock import Clock
from ..library.dates import DAY
from ..library.faults import Refused, Told, Wrong
from ..library.folder import LOG, LOG_HEAD
from .common import Place
from .laid import write
from .sentences import Reader

# What a spreadsheet takes for a formula where a cell begins so.
FORMULA = "=+-@\t\r'"
FROM_LOG = "log"


def now_minute(clock: Clock, text: str | None, after: int = 0) -> int:
    """The minute, from slot 0, that it is: as somebody says, or else by this machine's clock; 0 before the day begins. `after` is where a
    time without a date is looked for."""
    if text is not None:
        minute = clock.minute(text, after)
        if not 0 <= minute < clock.end:
            raise Refused(f"{text} isn't within the day, which goes from {clock.at(0)} to {clock.at(clock.slots)}")
        return minute
    moment = datetime.now()
    minute = moment.toordinal() * DAY + moment.hour * 60 + moment.minute - clock.start
    if minute >= clock.end:
        raise Refused(f"by this machine's clock the day is over, since {clock.at(clock.slots)}: say by --now what time it is")
    return max(0, minute)


def reader_of(place: Place, runs: Runs, plan: sqlite3.Row, now: int) -> Reader:
    """Reads sentences by the plan that stands."""
    clock, timetable = place.folder.clock, runs.timetable(plan["run"]) or []
    return Reader(place.folder, {name: slot * clock.minutes for name, slot in zip(place.folder.port.ships, timetable) if slot < clock.slots}, now)


def logged(place: Place, reader: Reader) -> list[Event]:
    """The events that the log says, the oldest first; `Wrong` at the first line that says none."""
    found = []
    for line in place.folder.log:
        try:
            found.append(reader.in_slots(reader.read(line.said)))
        except Refused as cause:
            raise Wrong(Told(LOG, f"{cause}", row=line.row, column="said")) from None
    return found


def follow_log(place: Place, plan: sqlite3.Row, events: list[Event]) -> None:
    """Makes the day's events in the store those of the log; what was told on the page stays."""
    wanted = [json.dumps(kept_of(event)) for event in events]
    with place.store.change() as db:
        rows = db.execute("SELECT id, line FROM event WHERE day = ? AND source = ? ORDER BY id", (plan["day"], FROM_LOG)).fetchall()
        same = 0
        while same < min(len(rows), len(wanted)) and rows[same]["line"] == wanted[same]:
            same += 1
        for row in rows[same:]:
            db.execute("DELETE FROM event WHERE id = ?", (row["id"],))
        for line in wanted[same:]:
            db.execute("INSERT INTO event(day, plan, line, source) VALUES (?, ?, ?, ?)", (plan["day"], plan["id"], line, FROM_LOG))


def watch_of(place: Place, runs: Runs, plan: sqlite3.Row, port: Port, now: int) -> Watch:
    """The plan that stands and all that was told of its day, by the log and on the page."""
    run = runs.get(plan["run"])
    return Watch(place.program, own_inputs(place.store, run), port, runs.timetable(plan["run"]) or [], events_of(place.store, plan["day"]), now)


@contextmanager
def written_alone(root: str) -> Iterator[None]:
    """Two who write in the log at once do so one after the other."""
    os.makedirs(os.path.join(root, ".tw"), exist_ok=True)
    with open(os.path.join(root, ".tw", "log.lock"), "a", encoding="ascii") as lock:
        fcntl.flock(lock, fcntl.LOCK_EX)
        yield


def safe(cell: str) -> str:
    """A cell that no spreadsheet takes for a formula: a sentence on a ship may begin with `ship`, and nobody's name needs such a letter."""
    return f"ship {cell}" if cell[:1] in FORMULA else cell


def note(root: str, who: str, said: str) -> None:
    """Adds a line to the log, which is whole at every moment: the new one takes the place of the old one."""
    path = os.path.join(root, LOG)
    row = io.StringIO(newline="")
    csv.writer(row, lineterminator="\n").writerow([f"{datetime.now():%Y-%m-%d %H:%M}", who.lstrip(FORMULA) or "somebody", safe(said)])
    try:
        with open(path, "rb") as file:
            before = file.read()
    except FileNotFoundError:
        before = ",".join(LOG_HEAD).encode() + b"\n"
    end = b"" if before.endswith(b"\n") else b"\n"
    write(path, before + end + row.getvalue().encode(), os.stat(path).st_mode & 0o777 if os.path.exists(path) else 0o644)
