"""The control room's wall: the plan in force, for who only looks on."""
from __future__ import annotations

from typing import Any

from flask import Blueprint, abort, redirect, render_template

from .app import board
from .day import day_of
from .publish import issue_of, port_and_rows
from ..core import plans
from ..core.happened import Sailed
from ..core.shown import build_words, shown

pages = Blueprint("wall", __name__)


@pages.get("/wall")
def newest() -> Any:
    """The day whose plan was accepted last."""
    row = board().store.row("SELECT day FROM plan ORDER BY id DESC")
    return redirect(f"/wall/{row['day']}", 303) if row else render_template("wall.html", day=None)


@pages.get("/wall/<int:number>")
def wall(number: int) -> str:
    return render_template("wall.html", day=day_of(number))


@pages.get("/api/wall/<int:number>")
def seen(number: int) -> Any:
    """The plan in force, who sails next, and what has happened."""
    here = board()
    plan = plans.last_plan(here.store, number)
    if plan is None:
        abort(404)
    run = shown(here.runs, plan["run"])
    port, rows = port_and_rows(here.runs.get(plan["run"]))
    events = plans.events_of(here.store, number)
    gone = {one.ship for one in events if isinstance(one, Sailed)}
    issue = issue_of(plan)
    return {"run": run["id"], "plan": plan["number"], "issue": issue.number if plan["frozen"] else None, "headline": run["headline"],
            "seal": run["seal"], "start": port.start, "minutes": port.minutes, "slots": port.slots, "build": build_words(here.program),
            "clock": [port.clock(slot) for slot in range(port.slots)], "pins": run["pins"],
            "events": [event.said(port.clock) for event in reversed(events)],
            "rows": [{"slot": row.slot, "sails": row.sails, "name": row.name, "sense": row.sense, "draft": row.draft, "tugs": row.tugs,
                      "passes": [list(one) for one in row.passes], "gone": row.name in gone} for row in rows]}
