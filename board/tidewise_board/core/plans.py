"""A day's plans: the runs that were made its plan, in a row; how one is made so, and how one is published."""
from __future__ import annotations

import json
import sqlite3
from collections.abc import Sequence

from .bundle import calendar, packed, readme, words_of
from .deeds import did
from .facts import Port, port_of
from .happened import Event, event_of, kept_of
from .program import Text
from .runs import Inputs, Runs, inputs_of
from .shown import picture_words, shown, table_of
from .store import Store
from .variants import START


class NoPlan(ValueError):
    """There is no such plan, or a run can't be one; the text says why."""


def plans_of(store: Store, day: int) -> list[sqlite3.Row]:
    """The plans of a day, the first one first."""
    return store.rows("SELECT * FROM plan WHERE day = ? ORDER BY number", day)


def plan_of(store: Store, number: int) -> sqlite3.Row:
    plan = store.row("SELECT * FROM plan WHERE id = ?", number)
    if plan is None:
        raise NoPlan(f"there is no plan {number}")
    return plan


def last_plan(store: Store, day: int) -> sqlite3.Row | None:
    return store.row("SELECT * FROM plan WHERE day = ? ORDER BY number DESC LIMIT 1", day)


def told_of(store: Store, day: int) -> list[sqlite3.Row]:
    """All events of a day that stand, as they were told; a repair doesn't end them."""
    return store.rows("SELECT * FROM event WHERE day = ? ORDER BY id", day)


def events_of(store: Store, day: int) -> list[Event]:
    return [event_of(json.loads(row["line"])) for row in told_of(store, day)]


def own_inputs(store: Store, run: sqlite3.Row) -> Inputs:
    """The inputs that a planner gave, without what was closed since."""
    frozen = store.row("SELECT instance, tides FROM input WHERE id = ?", run["input"]) if run["input"] else None
    return Inputs(frozen["instance"], frozen["tides"]) if frozen else Inputs(run["instance"], run["tides"])


def same_clock(one: Port, other: Port) -> bool:
    return (one.start or START, one.minutes) == (other.start or START, other.minutes)


def accept(runs: Runs, number: int, who: str, events: Sequence[Event] | None = None) -> sqlite3.Row:
    """Makes the timetable of a run its day's plan, and returns this. `events` are what it takes into account: all that were told of the
    day, unless they are given. A run that is the last plan already stays so."""
    store, run = runs.store, runs.get(number)
    if runs.verdict(number) is None or shown(runs, number)["timetable"] is None:
        raise NoPlan("there is no verified timetable")
    last = last_plan(store, run["day"])
    if last is not None and last["run"] == number:
        return last
    told = events_of(store, run["day"]) if events is None else events
    if last is not None and told:
        before = runs.get(last["run"])
        if not same_clock(port_of(runs.program, before["instance"]), port_of(runs.program, run["instance"])):
            raise NoPlan("what has happened was told in the clock of the last plan, and this one begins at another time or has other slots")
    with store.change():
        count = (last["number"] if last is not None else 0) + 1
        plan = store.insert("INSERT INTO plan(day, number, run, events) VALUES (?, ?, ?, ?)", run["day"], count, number,
                            json.dumps([kept_of(one) for one in told]))
        did(store, run["day"], who, f"made it plan {count}: {run['label']}")
    return plan_of(store, plan)


def files_of(runs: Runs, plan: sqlite3.Row, title: str) -> dict[str, bytes]:
    """The files of a bundle but for its sums."""
    program, store, run = runs.program, runs.store, runs.get(plan["run"])
    line = runs.line_of(run, run["cert"])
    inputs, port = inputs_of(run), port_of(program, run["instance"])
    files = {"day.json": store.get(run["instance"]), "tides.csv": store.get(run["tides"]), "certificate": store.get(run["cert"]),
             "picture.svg": program.ask(*picture_words(run)).output.encode(),
             "table.csv": program.ask("table", *inputs.form(), *inputs.words(), Text(run["cert"], "cert")).output.encode()}
    if run["plan"]:
        files["plan.txt"] = store.get(run["plan"])
    sailings = calendar(port, table_of(runs, run), line, run["cert"])
    if sailings is not None:
        files["sailings.ics"] = sailings.encode()
    source = store.row("SELECT source, instance FROM input WHERE id = ?", run["input"]) if run["input"] else None
    # A source makes the day's own instance: where something was closed since, this is another one.
    if source and source["instance"] == run["instance"]:
        files["source.json"] = store.get(source["source"])
    files["README.txt"] = readme(title, line, program.version, program.digest, program.trusted, words_of(files)).encode()
    return files


def publish(runs: Runs, plan: sqlite3.Row, who: str) -> sqlite3.Row:
    """Verifies the very bytes of a plan once more, and freezes it with its bundle; a plan that was published stays as it is."""
    if plan["frozen"]:
        return plan
    store, day = runs.store, runs.store.row("SELECT name FROM day WHERE id = ?", plan["day"])
    said, now = runs.verdict(plan["run"], True), shown(runs, plan["run"])
    if said is None or said.cargo is None or now["timetable"] is None:
        raise NoPlan(now["fault"] or "verify doesn't take this certificate")
    title = f"Plan {plan['number']} of {day['name'] if day else ''}, {plan['made']}"
    bundle = store.put(packed(files_of(runs, plan, title)))
    issued = store.row("SELECT count(*) AS count FROM plan WHERE day = ? AND frozen IS NOT NULL", plan["day"])
    with store.change() as db:
        db.execute("UPDATE plan SET bundle = ?, frozen = datetime('now') WHERE id = ? AND frozen IS NULL", (bundle, plan["id"]))
        did(store, plan["day"], who, f"issued plan {plan['number']} as issue {(issued['count'] if issued else 0) + 1}")
    return plan_of(store, plan["id"])
