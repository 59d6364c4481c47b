"""A port's day in its store: its row, the inputs that a plan froze, and how its answers are said by the port's own clock."""
from __future__ import annotations

import getpass
import json
import sqlite3
from contextlib import suppress
from dataclasses import dataclass
from typing import Any

from ..core.days import dropped
from ..core.facts import Port, port_of
from ..core.plans import last_plan
from ..core.program import Failed, Text
from ..core.reading import Unread, Verdict, faults_of, tenths
from ..core.runs import Inputs, Runs
from ..core.shown import build_words, shown, table_of
from ..core.store import Damaged
from ..library.clock import Clock
from ..library.faults import Told, Wrong
from .common import Place, say, say_rows

OPTIMAL, INFEASIBLE, UNFINISHED = 0, 1, 2
STATUS = {"optimal": OPTIMAL, "infeasible": INFEASIBLE, "unfinished": UNFINISHED}
SENSE = {"outgoing": "out", "incoming": "in"}


@dataclass(frozen=True)
class Dated(Port):
    """A port whose times are said with their date where it isn't that of slot 0."""
    dates: Clock | None = None

    def clock(self, slot: int) -> str:
        return self.dates.short(slot) if self.dates else super().clock(slot)


@dataclass(frozen=True)
class Frozen:
    """The numbers of a day and of its frozen inputs in the store, and these inputs."""
    day: int
    input: int
    inputs: Inputs


def user() -> str:
    """Who is at this terminal, as the system knows it."""
    try:
        return getpass.getuser()
    except (KeyError, OSError):
        return "somebody"


def day_number(place: Place) -> int | None:
    """The number of the day in the store, if anything was planned on it."""
    row = place.store.row("SELECT id FROM day WHERE name = ?", place.folder.day)
    return row["id"] if row else None


def dated(place: Place, instance: str) -> Dated:
    """The port of an instance of this day, with its dates."""
    port = port_of(place.program, instance)
    members: dict[str, Any] = {**vars(port), "dates": place.folder.clock}
    return Dated(**members)


def source_of(place: Place) -> bytes:
    """What the page needs to show the day, and each file of the folder as it was read."""
    folder = place.folder
    source = json.loads(dropped([("day.json", folder.instance), ("tides.csv", folder.tides)]).bytes())
    return json.dumps({**source, "files": {name: data.decode("utf-8", "replace") for name, data in folder.sources.items()}}).encode()


def freeze(place: Place) -> Frozen:
    """Keeps the day's inputs as they are now."""
    store, folder = place.store, place.folder
    with store.change() as db:
        inputs = Inputs(store.put(folder.instance.encode()), store.put(folder.tides.encode()))
        source = store.put(source_of(place))
        day = day_number(place)
        if day is None:
            day = store.insert("INSERT INTO day(name, draft) VALUES (?, ?)", folder.day, source)
        db.execute("UPDATE day SET draft = ? WHERE id = ?", (source, day))
        db.execute("INSERT OR IGNORE INTO input(day, source, instance, tides) VALUES (?, ?, ?, ?)", (day, source, inputs.instance, inputs.tides))
        row = store.row("SELECT id FROM input WHERE day = ? AND source = ? AND instance = ? AND tides = ?", day, source, inputs.instance,
                        inputs.tides)
    assert row is not None
    return Frozen(day, row["id"], inputs)


def check(place: Place) -> None:
    """`Wrong` where the program refuses the day, with its own words and the ship's name."""
    store, folder = place.store, place.folder
    said = place.program.ask("lint", Text(store.put(folder.instance.encode()), "day.json"), Text(store.put(folder.tides.encode()), "tides.csv"))
    faults = [fault for fault in faults_of(said.output) if not fault.hint]
    if faults:
        raise Wrong(*(Told("the day", fault.said, place=fault.place) for fault in faults))


def standing(place: Place) -> sqlite3.Row | None:
    """The day's plan that counts: the last one."""
    day = day_number(place)
    return None if day is None else last_plan(place.store, day)


def sailings_of(runs: Runs, run: sqlite3.Row, port: Port) -> list[dict[str, Any]]:
    """The rows of the program's table, with times by the port's clock, drafts in metres and cargo in tonnes."""
    found = []
    for row in table_of(runs, run):
        slot = int(row["slot"]) if row["slot"] else None
        found.append({"ship": row["name"], "direction": row["direction"], "slot": slot, "time": None if slot is None else port.clock(slot),
                      "draft_m": int(row["draft cm"]) / 100 if row["draft cm"] else None,
                      "cargo_t": tenths(row["cargo t"]) / 10 if row["cargo t"] else 0.0, "limit": row["limiting waypoint"]})
    return found


def say_sailings(rows: list[dict[str, Any]]) -> None:
    cells = [["sails", "ship", "", "draft m", "cargo t", "limited by"]]
    for row in rows:
        cells.append([row["time"] or "stays", row["ship"], SENSE.get(row["direction"], row["direction"]),
                      "" if row["draft_m"] is None else f"{row['draft_m']:.2f}", f"{row['cargo_t']:,.1f}", row["limit"] or ""])
    say_rows(cells, frozenset({0, 3, 4}))


def figures(said: Verdict | None) -> dict[str, Any]:
    """Cargo and bound in tonnes, and how many ships a repair moves."""
    return {"cargo_t": None if said is None or said.cargo is None else said.cargo / 10,
            "bound_t": None if said is None or said.bound is None else said.bound / 10, "moved": None if said is None else said.moved}


def fresh(runs: Runs, number: int) -> None:
    """Asks `verify` of a run's bytes now, so that no answer counts which somebody put into the folder. What is wrong is told by `shown`."""
    with suppress(Unread, Failed, Damaged, OSError):
        runs.verdict(number, True)


def answer_of(place: Place, runs: Runs, number: int) -> dict[str, Any]:
    """What is said of a run, as docs/TW.md has it; `verify` is asked anew, whatever stands in the folder."""
    fresh(runs, number)
    now, run = shown(runs, number), runs.get(number)
    port = dated(place, run["instance"])
    said = runs.verdict(number) if now["verdict"] else None
    return {"day": place.folder.day, "headline": now["headline"], "seal": now["seal"], "verdict": now["verdict"], "meaning": now["meaning"],
            **figures(said), "fault": now["fault"], "seconds": now["seconds"], "certificate": run["cert"],
            "program": {"version": place.program.version, "sha256": place.program.digest, "said": build_words(place.program)},
            "sailings": sailings_of(runs, run, port) if now["timetable"] is not None else []}


def status_of(answer: dict[str, Any]) -> int:
    """The program's own status for a verdict; that of a refused certificate where there is none."""
    word = (answer["verdict"] or "").partition(" ")[0]
    return STATUS.get(word, 5)


def say_answer(answer: dict[str, Any]) -> None:
    say(answer["headline"])
    if answer["fault"]:
        say(f"but: {answer['fault']}")
    if answer["meaning"]:
        say(answer["meaning"])
    if answer["sailings"]:
        say()
        say_sailings(answer["sailings"])
