"""The day as it is sailed: plans in a row, what happens, what breaks, and the repair."""
from __future__ import annotations

import json
import sqlite3
from dataclasses import asdict
from typing import Any

from flask import Blueprint, abort, render_template, request

from .app import board, said, whole
from .day import day_of
from .names import noted, who
from ..core import plans
from ..core.changes import changes, signed
from ..core.deeds import deeds_of, makers_of
from ..core.facts import port_of
from ..core.happened import event_of, kept_of
from ..core.shown import shown, table_of
from ..core.underway import Watch

pages = Blueprint("underway", __name__)
REPAIR_BUDGET = 20000
MOST_EVENTS = 200


def plan_of(number: int) -> sqlite3.Row:
    try:
        return plans.plan_of(board().store, number)
    except plans.NoPlan:
        abort(404)


def watch_of(plan: sqlite3.Row, now: int) -> Watch:
    here = board()
    inputs = plans.own_inputs(here.store, here.runs.get(plan["run"]))
    port = port_of(here.program, inputs.instance)
    return Watch(here.program, inputs, port, here.runs.timetable(plan["run"]) or [], plans.events_of(here.store, plan["day"]), whole(now, 0, port.slots - 1))


@pages.post("/api/run/<int:number>/accept")
def accept(number: int) -> Any:
    """Makes the timetable of a run the day's plan."""
    return {"plan": plans.accept(board().runs, number, who())["id"]}


@pages.post("/api/plan/<int:number>/keep")
def keep(number: int) -> Any:
    """Puts down that a repair was looked at, and the plan kept."""
    plan = plan_of(number)
    noted(plan["day"], f"kept plan {plan['number']}, and not its repair")
    return {}


@pages.get("/day/<int:number>/underway")
def underway(number: int) -> str:
    here = board()
    rows = plans.plans_of(here.store, number)
    port = port_of(here.program, plans.own_inputs(here.store, here.runs.get(rows[-1]["run"])).instance) if rows else None
    makers = makers_of(here.store, number)
    shown_plans = [{"plan": plan, "run": shown(here.runs, plan["run"]), "maker": makers.get(plan["number"], "")} for plan in rows]
    return render_template("underway.html", day=day_of(number), plans=shown_plans, port=port, page="underway",
                           deeds=deeds_of(here.store, number), clock=[port.clock(slot) for slot in range(port.slots + 1)] if port else [])


def answer_of(plan: sqlite3.Row, watch: Watch) -> dict[str, Any]:
    """The events so far, and what each breaks."""
    rows, broken = plans.told_of(board().store, plan["day"]), watch.broken()
    return {"events": [{"id": row["id"], "said": event.said(watch.port.clock), "broken": state, "before": row["plan"] != plan["id"],
                        "made": row["made"]} for row, event, state in zip(rows, watch.events, broken[1:])],
            "broken": broken[-1], "noted": watch.noted(), "last": max([0, *watch.sailed_slots()])}


@pages.get("/api/plan/<int:number>/events")
def events(number: int) -> Any:
    plan = plan_of(number)
    return answer_of(plan, watch_of(plan, request.args.get("now", 0, int)))


@pages.post("/api/plan/<int:number>/events")
def tell(number: int) -> Any:
    """Takes a new event, only if the program does; or takes one back."""
    here, plan, asked = board(), plan_of(number), said()
    watch = watch_of(plan, asked.get("now", 0))
    if "undo" in asked:
        undo(plan, whole(asked["undo"], 1, 1 << 60), watch)
    else:
        event = event_of(asked)
        why = watch.refusal(event)
        if why is not None or len(watch.events) >= MOST_EVENTS:
            return {"error": why or f"no more than {MOST_EVENTS} events"}, 409
        with here.store.change():
            here.store.insert("INSERT INTO event(day, plan, line) VALUES (?, ?, ?)", plan["day"], number, json.dumps(kept_of(event)))
            noted(plan["day"], f"told: {event.said(watch.port.clock)}")
    return answer_of(plan, watch_of(plan, asked.get("now", 0)))


def undo(plan: sqlite3.Row, number: int, watch: Watch) -> None:
    row = board().store.row("SELECT * FROM event WHERE id = ? AND day = ?", number, plan["day"])
    if row is None:
        abort(404)
    if row["source"] is not None:
        raise ValueError(f"this was noted by `tw log`: take its line out of {row['source']}.csv")
    with board().store.change() as db:
        db.execute("DELETE FROM event WHERE id = ?", (number,))
        noted(plan["day"], f"took back: {event_of(json.loads(row['line'])).said(watch.port.clock)}")


@pages.post("/api/plan/<int:number>/repair")
def repair(number: int) -> Any:
    """Proves the best plan that the events leave, with no ship before now and the pins of this plan held."""
    here, plan, asked = board(), plan_of(number), said()
    run = here.runs.get(plan["run"])
    watch = watch_of(plan, asked.get("now", 0))
    made = watch.repair({int(ship): slot for ship, slot in json.loads(run["pins"]).items()})
    begun = here.runs.begin(run["day"], made.inputs, "repair", f"repair of plan {plan['number']}", REPAIR_BUDGET, run["input"], plan["run"],
                            made.pins)
    return {"run": begun, "noted": made.noted}


@pages.get("/api/plan/<int:number>/changes/<int:other>")
def changed(number: int, other: int) -> Any:
    """Who sails at another time, or with another cargo, in another run of the day."""
    here, plan = board(), plan_of(number)
    run, new = here.runs.get(plan["run"]), here.runs.get(other)
    if new["day"] != plan["day"]:
        abort(404)
    port = port_of(here.program, new["instance"])
    found = changes(port, table_of(here.runs, run), table_of(here.runs, new), port_of(here.program, run["instance"]))
    return {"rows": [{**asdict(one), "difference": signed(one.difference) if one.difference else ""} for one in found],
            "total": signed(sum(one.difference for one in found))}
