"""`tw check`: what is wrong with a port's folder, or looks wrong, and where."""
from __future__ import annotations

import shutil
import sqlite3
import tempfile

import click

from ..core.program import Draft
from ..core.store import Store
from ..library.faults import Refused, Told
from ..library.folder import LOG, Folder, find, look
from ..library.linted import told_of
from .common import port_options, program_of, say, say_json, store_of
from .sentences import Reader

# The program's own status for a bad input.
BAD_INPUT = 4


@click.command("check")
@port_options
def command(folder: str, day: str | None, as_json: bool, program: str) -> int:
    """Reads all of a port's folder, and says what is wrong at file, row and column, and what looks wrong.

    With --json: `told`, a list of `file`, `row`, `column`, `place`, `said` and `hint`; and `day`, `ships` and `slots`, or null where
    something is wrong. The status is 0 where nothing is wrong, and 4 where something is; hints don't count.

    \b
    Example: tw check east-port
    """
    looked = look(find(folder), day)
    told = looked.told + (logged(looked.folder) + linted(looked.folder, program) if looked.folder else [])
    wrong = any(not one.hint for one in told)
    port = None if wrong else looked.folder
    if as_json:
        say_json({"told": [members_of(one) for one in told], "day": port.day if port else None,
                  "ships": len(port.port.ships) if port else None, "slots": port.clock.slots if port else None})
    else:
        for one in told:
            say(f"{'hint: ' if one.hint else ''}{one}")
        if port:
            say(summary(port, bool(told)))
    return BAD_INPUT if wrong else 0


def members_of(told: Told) -> dict[str, object]:
    return {"file": told.file, "row": told.row, "column": told.column, "place": told.place, "said": told.said, "hint": told.hint}


def summary(folder: Folder, hints: bool) -> str:
    return (f"{'nothing wrong' if hints else 'clean'}: {len(folder.port.ships)} movements from {folder.clock.at(0)} to "
            f"{folder.clock.at(folder.clock.slots)}, {len(folder.port.waypoints)} waypoints, {folder.port.fleet} tugs")


def logged(folder: Folder) -> list[Told]:
    """What is wrong with the sentences of the log."""
    reader, told = Reader(folder, {}, 0), []
    for line in folder.log:
        try:
            reader.read(line.said)
        except Refused as cause:
            told.append(Told(LOG, f"{cause}", row=line.row, column="said"))
    return told


def linted(folder: Folder, program: str) -> list[Told]:
    """What the program says of the day."""
    if shutil.which(program) is None:
        return [Told("port.json", f"{program} can't be run, so the program wasn't asked: name it by --program or TIDEWISE", hint=True)]
    words = "lint", Draft(folder.instance.encode(), "day.json"), Draft(folder.tides.encode(), "tides.csv")
    try:
        said = program_of(program, store_of(folder.root)).ask(*words)
    except (OSError, sqlite3.OperationalError):
        # A folder in which nothing can be written is checked all the same.
        with tempfile.TemporaryDirectory() as room:
            said = program_of(program, Store(room)).ask(*words)
    return told_of(said.output, folder)
