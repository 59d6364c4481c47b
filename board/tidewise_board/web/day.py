"""A day: its ships, its tide, its port, and the run that plans it."""
from __future__ import annotations

import json
from dataclasses import asdict
from typing import Any

from flask import Blueprint, Response, abort, redirect, render_template, request

from ..core import race
from ..core.days import MOST_TEXT, Made, NoDay, Source, Told, dropped, make, source_of, waypoints_of
from ..core.facts import port_of, said_of
from ..core.program import Text
from ..core.reading import windows_of
from ..core.runs import Inputs
from ..core.shown import shown
from ..library.heads import Row
from .app import Board, board, said, whole

pages = Blueprint("days", __name__)


def day_of(number: int) -> dict[str, Any]:
    day = board().store.row("SELECT * FROM day WHERE id = ?", number)
    if day is None:
        abort(404)
    return dict(day)


def latest(number: int) -> int | None:
    """The run of a day that was begun last, by a planner's own hand."""
    row = board().store.row("SELECT max(id) AS id FROM run WHERE day = ? AND kind IN ('plan', 'pin', 'repair')", number)
    return row["id"] if row else None


def running(number: int) -> int | None:
    """The plan of a day that is under way, the first run of its race."""
    here = board()
    for row in here.store.rows("SELECT id FROM run WHERE day = ? AND kind = 'plan' AND base IS NULL ORDER BY id DESC LIMIT 5", number):
        if row["id"] in here.runs.races or here.runs.get(row["id"])["state"] in ("waiting", "running"):
            return int(row["id"])
    return None


def standing(number: int) -> int | None:
    """The run of a day's last accepted plan, or else its last plan: never a pin that was only tried."""
    row = board().store.row("SELECT run FROM plan WHERE day = ? ORDER BY number DESC", number)
    if row is None:
        row = board().store.row("SELECT max(id) AS run FROM run WHERE day = ? AND kind = 'plan'", number)
    return row["run"] if row else None


def kept(here: Board, made: Made) -> tuple[str, str]:
    assert made.instance is not None and made.tides is not None
    return here.store.put(made.instance.encode()), here.store.put(made.tides.encode())


def answer_of(here: Board, made: Made) -> dict[str, Any]:
    """What the page says of a source: faults at their cells, and the day without a plan, drawn by the program."""
    answer: dict[str, Any] = {"good": made.good, "told": [asdict(one) for one in made.told], "picture": None}
    if made.good:
        instance, tides = kept(here, made)
        # A certificate without lines: the program draws tide, windows and drafts of the day.
        empty = here.store.put(b"cert 3\n")
        drawn = here.program.ask("chart", "port", Text(instance, "day.json"), Text(tides, "tides.csv"), Text(empty, "cert"))
        answer["picture"] = drawn.output if drawn.status == 2 else None
        answer["told"] += [asdict(one) for one in without_slots(here, instance, tides, made.rows)]
    return answer


def without_slots(here: Board, instance: str, tides: str, rows: list[Row]) -> list[Told]:
    """A hint at each ship that can't sail in any slot, with why."""
    port, found = port_of(here.program, instance), []
    windows = windows_of(here.program.ask("windows", "port", Text(instance, "day.json"), Text(tides, "tides.csv")).output)
    for ship, stretches in enumerate(windows):
        if any(one.kind == "from" for one in stretches):
            continue
        why = "; ".join(dict.fromkeys(said_of(one.kind, one.said, port.clock) for one in stretches))[:200]
        row, column = (rows[ship].number - 2, rows[ship].head("name")) if rows else (ship, "name")
        found.append(Told("ships", f"{port.ships[ship]} can't sail in any slot: {why}", True, row, column))
    return found


@pages.get("/")
def days() -> str:
    here = board()
    rows = []
    for day in here.store.rows("SELECT * FROM day ORDER BY id DESC"):
        run = standing(day["id"])
        plans = here.store.row("SELECT count(*) AS n, sum(frozen IS NOT NULL) AS frozen FROM plan WHERE day = ?", day["id"])
        rows.append({"day": day, "run": shown(here.runs, run) if run else None, "plans": plans})
    return render_template("days.html", rows=rows, page="days")


@pages.post("/api/days")
def new_day() -> Any:
    files = []
    for file in request.files.getlist("files"):
        data = file.read(MOST_TEXT + 1)
        if len(data) > MOST_TEXT:
            raise ValueError(f"{file.filename} has more than 4 MB")
        try:
            files.append((str(file.filename), data.decode("utf-8-sig")))
        except UnicodeDecodeError:
            raise ValueError(f"{file.filename} isn't text in UTF-8") from None
    try:
        source = dropped(files)
    except NoDay as cause:
        raise ValueError(f"{cause}") from None
    name = next((name.rsplit(".", 1)[0] for name, text in files if text.lstrip().startswith("{")), "day")
    name = plain(name) or "day"
    here = board()
    number = here.store.insert("INSERT INTO day(name, draft) VALUES (?, ?)", name, here.store.put(source.bytes()))
    return {"day": number}


def plain(name: str) -> str:
    """A day's name, of at most 80 letters that are seen."""
    return "".join(letter for letter in name if letter.isprintable()).strip()[:80]


@pages.post("/api/day/<int:number>/name")
def rename(number: int) -> Any:
    """Gives a day another name; its plans and runs keep theirs."""
    day_of(number)
    name = plain(str(said().get("name", "")))
    if not name:
        raise ValueError("a day has a name")
    with board().store.change() as db:
        db.execute("UPDATE day SET name = ? WHERE id = ?", (name, number))
    return {"name": name}


@pages.post("/api/day/<int:number>/copy")
def copy(number: int) -> Any:
    """A new day with the same sources, as a beginning; plans aren't copied."""
    day = day_of(number)
    return {"day": board().store.insert("INSERT INTO day(name, draft) VALUES (?, ?)", plain(f"{day['name'][:75]} copy"), day["draft"])}


def source(day: dict[str, Any]) -> Source:
    return source_of(json.loads(board().store.get(day["draft"])))


@pages.get("/day/<int:number>/latest")
def latest_plan(number: int) -> Any:
    run = latest(number)
    return redirect(f"/day/{number}/plan/{run}" if run else f"/day/{number}", 303)


@pages.get("/day/<int:number>")
def day_page(number: int) -> str:
    day = day_of(number)
    here, draft = board(), source(day)
    return render_template("day.html", day=day, source=asdict(draft), waypoints=waypoints_of(draft), page="day", run=latest(number), running=running(number),
                           first=answer_of(here, make(draft, here.program)))


@pages.post("/api/day/<int:number>/draft")
def draft(number: int) -> Any:
    """Keeps what a planner wrote, good or not, and says what is wrong with it."""
    day_of(number)
    here, written = board(), source_of(said())
    name = here.store.put(written.bytes())
    with here.store.change() as db:
        db.execute("UPDATE day SET draft = ? WHERE id = ?", (name, number))
    return answer_of(here, make(written, here.program))


@pages.post("/api/day/<int:number>/plan")
def plan(number: int) -> Any:
    """Freezes the inputs, and begins a run; with `race` one on each idle processor, if the first doesn't end soon."""
    day, here, asked = day_of(number), board(), said()
    budget = whole(asked.get("budget"), 1, 100000)
    made = make(source(day), here.program)
    if not made.good:
        return {"error": "the day has faults", "told": [asdict(one) for one in made.told]}, 409
    instance, tides = kept(here, made)
    with here.store.change() as db:
        db.execute("INSERT OR IGNORE INTO input(day, source, instance, tides) VALUES (?, ?, ?, ?)", (number, day["draft"], instance, tides))
    row = here.store.row("SELECT id FROM input WHERE day = ? AND source = ? AND instance = ? AND tides = ?", number, day["draft"],
                         instance, tides)
    inputs, frozen = Inputs(instance, tides), row["id"] if row else None
    if asked.get("race") is True:
        return {"run": race.begin(here.runs, number, inputs, day["name"], budget, frozen)}
    return {"run": here.runs.begin(number, inputs, "plan", day["name"], budget, frozen)}


@pages.get("/api/run/<int:number>")
def run(number: int) -> Any:
    return shown(board().runs, number)


@pages.get("/api/run/<int:number>/progress")
def progress(number: int) -> Any:
    """What a run has written so far, from a point on: light enough to be asked for ten times a second. Of a race `now` has the greatest
    cargo and the least bound of its searches, and `run` is the one that stands at its end."""
    here = board()
    run, follower = here.runs.get(number), here.runs.followers.get(number)
    points = [point.listed() for point in follower.points] if follower else json.loads(run["series"])
    ended = run["state"] not in ("waiting", "running") and number not in here.runs.races
    at_work = [one for one in race.members(here.runs, number) if one in here.runs.followers] if not ended else []
    return {"state": run["state"], "ended": ended, "points": points, "searches": len(at_work),
            "run": race.winner(here.runs, number) if ended else number, "now": race.now(here.runs, at_work)}


@pages.post("/api/run/<int:number>/stop")
def stop(number: int) -> Any:
    race.stop(board().runs, number)
    return {}


@pages.get("/object/<name>")
def text(name: str) -> Response:
    """An input or an output, by its SHA-256."""
    here = board()
    if here.store.row("SELECT 1 FROM object WHERE hash = ?", name) is None:
        abort(404)
    answer = Response(here.store.get(name), mimetype="text/plain")
    answer.headers["Cache-Control"] = "private, max-age=31536000, immutable"
    return answer

