"""A plan: its picture with a layer over it, pins, what-ifs, and two plans beside each other."""
from __future__ import annotations

import json
import sqlite3
from dataclasses import replace
from typing import Any

from flask import Blueprint, Response, abort, render_template

from .day import day_of
from ..core import race
from ..core.facts import facts, port_of
from ..core.pins import bare_of, held_of, pinned, why_not
from ..core.program import Text
from ..core.runs import ENDED, Inputs, inputs_of
from ..core.shown import picture_words, root_of, seal, shown, worth
from .app import board, said, whole
from ..core.wishes import wishes_of

pages = Blueprint("plans", __name__)


def run_of(number: int) -> sqlite3.Row:
    try:
        return board().runs.get(number)
    except KeyError:
        abort(404)


@pages.get("/day/<int:day>/plan/<int:number>")
def plan_page(day: int, number: int) -> str:
    run = run_of(number)
    if run["day"] != day:
        abort(404)
    port = port_of(board().program, run["instance"])
    return render_template("plan.html", day=day_of(day), run=number, page="plan", names={"ships": port.ships, "waypoints": port.waypoints})


@pages.get("/picture/<int:number>.svg")
def picture(number: int) -> Response:
    """The picture of a run's certificate, by `chart`, which checks it as `verify` does."""
    run = run_of(number)
    if run["cert"] is None:
        abort(404)
    drawn = board().program.ask(*picture_words(run))
    if drawn.status > 2:
        abort(404)
    return Response(drawn.output, mimetype="image/svg+xml", headers={
        "Content-Security-Policy": "default-src 'none'; style-src 'unsafe-inline'; frame-ancestors 'none'"})


@pages.get("/picture/<int:number>/clash.svg")
def clash_picture(number: int) -> Response:
    """The day with the restrictions that clash in red, which `chart clash` draws where no ship is held and nothing has happened."""
    run, here = run_of(number), board()
    if run["clash"] is None or run["plan"] is not None:
        abort(404)
    found = json.loads(here.store.get(run["clash"]))
    if not found["holds"]:
        abort(404)
    drawn = here.program.ask("chart", "clash", *inputs_of(run).form(), *inputs_of(run).words(), Text(found["clash"], "clash.txt"),
                             Text(found["cert"], "cert"))
    return Response(drawn.output, mimetype="image/svg+xml") if drawn.status < 3 else Response(status=404)


@pages.get("/api/run/<int:number>/facts")
def slots(number: int) -> Any:
    run, here = run_of(number), board()
    timetable = here.runs.timetable(number)
    if timetable is None or here.runs.verdict(number) is None:
        return {"ships": []}
    root = root_of(here.runs, run)
    bare = bare_of(here.store, root)
    wishes, withdrawn = wishes_of(bare) if bare else ([], 0)
    return Response(facts(here.program, inputs_of(run), timetable, wishes, withdrawn), mimetype="application/json")


@pages.post("/api/run/<int:number>/pin")
def pin(number: int) -> Any:
    """Proves the day again with these ships held; the wish is that all others stay where this plan has them."""
    here, run, asked = board(), run_of(number), said()
    timetable = here.runs.timetable(number)
    port = port_of(here.program, run["instance"])
    if run["state"] not in ENDED or timetable is None:
        raise ValueError("only a plan with a timetable can be touched")
    pins = {whole(int(ship), 0, len(port.ships) - 1): whole(slot, 0, port.slots) for ship, slot in dict(asked.get("pins", {})).items()}
    root = root_of(here.runs, run)
    if not pins and root["pins"] == "{}":
        return {"run": root["id"]}
    text = pinned(timetable, pins, bare_of(here.store, root))
    label = ", ".join(f"{port.ships[ship]} at {port.clock(slot)}" for ship, slot in sorted(pins.items())) or "no ship held"
    # A touch of an infeasible answer begins from the plan before it.
    inputs = Inputs(run["instance"], run["tides"], here.store.put(text.encode()))
    again = here.store.row("SELECT id FROM run WHERE day = ? AND base = ? AND plan = ? AND instance = ? AND tides = ? AND program = ?"
                           " AND state = 'done' AND kind = 'pin'", run["day"], number, inputs.plan, inputs.instance, inputs.tides,
                           here.program.digest)
    budget = whole(asked.get("budget", 20000), 1, 100000)
    return {"run": again["id"] if again else race.join(
        here.runs, lambda: here.runs.begin(run["day"], inputs, "pin", label, budget, run["input"], number, pins))}


@pages.post("/api/run/<int:number>/resume")
def resume(number: int) -> Any:
    """Goes on with an unfinished answer: from its certificate, or, where ships are held or something has happened, from the beginning
    with a greater budget, since the program takes up no repair."""
    here, run = board(), run_of(number)
    verdict = here.runs.verdict(number)
    if verdict is None or verdict.closed or run["kind"] not in ("plan", "pin", "repair"):
        raise ValueError("only an unfinished plan, pin or repair can go on")
    budget = whole(said().get("budget"), 1, 100000)
    if run["plan"] is None:
        return {"run": here.runs.begin(run["day"], inputs_of(run), "plan", f"{run['label']}, gone on", budget, run["input"], number)}
    pins = {int(ship): slot for ship, slot in json.loads(run["pins"]).items()}
    inputs = replace(inputs_of(run), bare=held_of(here.store, run))
    return {"run": race.join(here.runs, lambda: here.runs.begin(run["day"], inputs, run["kind"], run["label"], budget, run["input"], run["base"],
                                                                pins))}


@pages.get("/api/run/<int:number>/why")
def why(number: int) -> Any:
    """Why nothing fits: the restrictions that clash, in the port's own words."""
    here, run = board(), run_of(number)
    said_now = here.runs.verdict(number)
    if said_now is None or said_now.word != "infeasible":
        return {"holds": False, "said": "something fits", "kept": []}
    kept = here.store.row("SELECT clash FROM run WHERE id = ?", number)
    if kept and kept["clash"]:
        return json.loads(here.store.get(kept["clash"]))
    answer = why_not(here.program, inputs_of(run), {int(ship): slot for ship, slot in json.loads(run["pins"]).items()})
    with here.store.change() as db:
        db.execute("UPDATE run SET clash = ? WHERE id = ?", (here.store.put(json.dumps(answer).encode()), number))
    return answer


@pages.get("/api/day/<int:number>/answers")
def answers(number: int) -> Any:
    """The plans and pins of a day, the latest first."""
    here, rows = board(), []
    for run in here.store.rows("SELECT id FROM run WHERE day = ? AND kind IN ('plan', 'pin', 'repair') ORDER BY id DESC LIMIT 40", number):
        one = shown(here.runs, run["id"])
        rows.append({name: one[name] for name in ("id", "kind", "label", "headline", "difference", "ended", "word", "base", "seal")})
    return {"rows": rows}
