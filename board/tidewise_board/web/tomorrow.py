"""Tomorrow: a plan is rolled one day on."""
from __future__ import annotations

import json
from typing import Any

from flask import Blueprint, abort, render_template

from .app import board
from .day import day_of
from .names import noted
from ..core import plans
from ..core.days import source_of
from ..core.facts import port_of
from ..core.tomorrow import Rolled, rolled

pages = Blueprint("tomorrow", __name__)


def roll_of(number: int) -> Rolled | None:
    """What tomorrow would take over of a day's last plan; None where it has none."""
    here, day = board(), day_of(number)
    last = plans.last_plan(here.store, number)
    if last is None:
        return None
    run = here.runs.get(last["run"])
    instance = plans.own_inputs(here.store, run).instance
    frozen = here.store.row("SELECT source FROM input WHERE id = ?", run["input"]) if run["input"] else None
    source = source_of(json.loads(here.store.get(frozen["source"]))) if frozen else None
    return rolled(day["name"], here.store.get(instance).decode(), port_of(here.program, instance), here.runs.timetable(run["id"]) or [],
                  plans.events_of(here.store, number), source)


@pages.get("/day/<int:number>/tomorrow")
def tomorrow(number: int) -> str:
    return render_template("tomorrow.html", day=day_of(number), rolled=roll_of(number), page="tomorrow")


@pages.post("/api/day/<int:number>/roll")
def roll(number: int) -> Any:
    """Makes tomorrow's day, or says what it can't take over and makes none."""
    here, found = board(), roll_of(number)
    if found is None:
        abort(404)
    if found.source is None:
        return {"error": "; ".join([*found.blocked, *found.noted])}, 409
    with here.store.change():
        made = here.store.insert("INSERT INTO day(name, draft) VALUES (?, ?)", found.name[:80], here.store.put(found.source.bytes()))
        noted(number, f"rolled it on to {found.name}")
        noted(made, f"began it from {day_of(number)['name']}")
    return {"day": made}
