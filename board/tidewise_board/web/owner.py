"""The owner: what all days carried, what a tug, ten centimetres or an hour was worth, and plans by hand beside those of the program."""
from __future__ import annotations

import csv
import io
import sqlite3
from collections.abc import Iterator
from typing import Any

from flask import Blueprint, Response, abort, render_template

from .app import board, said
from .day import day_of
from .names import noted, who
from .whatifs import begin, listed, words_of
from ..core.changes import signed
from ..core.facts import Port, port_of
from ..core.hand import ByHand, judged, slots_of
from ..core.issue import cell
from ..core.reading import tonnes
from ..core.runs import Inputs, flat_problem
from ..core.shown import build_words, seal, shown
from ..library.trying import USUAL
from ..library.trying import USUAL

pages = Blueprint("owner", __name__)


@pages.get("/owner")
def owner() -> str:
    return render_template("owner.html", page="owner")


def planned_days() -> Iterator[tuple[sqlite3.Row, sqlite3.Row]]:
    """Each day with its last plan of unchanged wishes, that is without pins and events."""
    here = board()
    for day in here.store.rows("SELECT * FROM day ORDER BY id"):
        run = run_of_day(day["id"])
        if run is not None:
            yield day, run


def run_of_day(day: int) -> sqlite3.Row | None:
    return board().store.row("SELECT * FROM run WHERE day = ? AND kind = 'plan' AND verdict IS NOT NULL ORDER BY id DESC", day)


@pages.get("/api/owner")
def days() -> Any:
    """For each day its last plan, what was asked of its variants, and its last plan by hand."""
    here = board()
    return {"rows": [row for row in (row_of(day, run) for day, run in planned_days()) if row is not None], "build": build_words(here.program)}


def row_of(day: sqlite3.Row, run: sqlite3.Row) -> dict[str, Any] | None:
    here = board()
    verdict = here.runs.verdict(run["id"])
    plan = shown(here.runs, run["id"])
    if verdict is None or verdict.cargo is None or plan["cargo"] is None:
        return None
    hand = last_hand(day["id"], run)
    return {"day": day["id"], "name": day["name"], "made": day["made"], "run": run["id"], "cargo": plan["cargo"], "bound": plan["bound"],
            "headline": plan["headline"], "seal": seal(here.program.trusted, verdict), "whatifs": listed(run["id"])["rows"],
            "hand": None if hand is None else {"cargo": hand.cargo, "permitted": hand.permitted, "breaks": len(hand.broken),
                                               "more": signed(plan["cargo"] - hand.cargo)}}


def last_hand(day: int, run: sqlite3.Row) -> ByHand | None:
    """The last plan by hand of a day, judged over the inputs of this run; None where there is none, or it is one of another line-up."""
    here = board()
    kept = here.store.row("SELECT text FROM hand WHERE day = ? ORDER BY id DESC", day)
    if kept is None:
        return None
    port = port_of(here.program, run["instance"])
    try:
        return judged(here.program, Inputs(run["instance"], run["tides"]), port, slots_of(here.store.get(kept["text"]).decode(), port))
    except ValueError:
        return None


@pages.post("/api/owner/whatif")
def everywhere() -> Any:
    """Asks the same of every day: a tug more and less and ten centimetres more, and these changes, in the words of `tw try`."""
    words = words_of(said().get("changes", []))
    return {"runs": [run for _, plan in list(planned_days()) for run in begin(plan, [*USUAL, *words])]}


@pages.post("/api/owner/hand/<int:number>")
def by_hand(number: int) -> Any:
    """Judges and prices a plan that was made by hand, beside the program's plan of the same day."""
    here, day, run = board(), day_of(number), run_of_day(number)
    if run is None:
        abort(404)
    text = str(said().get("text", ""))
    port, inputs = port_of(here.program, run["instance"]), Inputs(run["instance"], run["tides"])
    hand = judged(here.program, inputs, port, slots_of(text, port))
    with here.store.change():
        here.store.insert("INSERT INTO hand(day, who, text) VALUES (?, ?, ?)", number, who(), here.store.put(text.encode()))
        noted(number, "put in a plan by hand")
    plan, values = shown(here.runs, run["id"]), flat_problem(here.program, inputs)
    own = plan["timetable"] or []
    rows = [{"ship": name, "hand": sails(port, one), "program": sails(port, other), "hand_cargo": tonnes(values.cargo_of(ship, one)),
             "program_cargo": tonnes(values.cargo_of(ship, other))} for ship, (name, one, other) in enumerate(zip(port.ships, hand.timetable, own))]
    return {"day": day["name"], "broken": hand.broken, "permitted": hand.permitted, "cargo": tonnes(hand.cargo), "headline": plan["headline"],
            "seal": plan["seal"], "more": signed(plan["cargo"] - hand.cargo), "rows": rows}


def sails(port: Port, slot: int) -> str:
    return port.clock(slot) if slot < port.slots else "stays"


@pages.get("/owner.csv")
def table() -> Response:
    """A row for each day, and one for each variant of it; cargo in tonnes."""
    out = io.StringIO(newline="")
    writer = csv.writer(out, lineterminator="\n")
    writer.writerow(["day", "made", "variant", "cargo t", "at most t", "difference t", "said"])
    for row in days()["rows"]:
        name, hand = cell(row["name"]), row["hand"]
        writer.writerow([name, row["made"], "", plain(row["cargo"]), plain(row["bound"]), "", row["headline"]])
        if hand is not None:
            writer.writerow([name, row["made"], "by hand", plain(hand["cargo"]), "", plain(hand["cargo"] - row["cargo"]),
                             "permitted" if hand["permitted"] else f"breaks {hand['breaks']} rules"])
        for one in row["whatifs"]:
            writer.writerow([name, row["made"], cell(one["label"]), "", "", plain(one["tenths"]), one["difference"] or one["word"]])
    return Response(out.getvalue(), mimetype="text/csv", headers={"Content-Disposition": 'attachment; filename="days.csv"'})


def plain(tenths: int | None) -> str:
    """Tonnes with one decimal, as a spreadsheet reads them."""
    return "" if tenths is None else f"{'-' if tenths < 0 else ''}{abs(tenths) // 10}.{abs(tenths) % 10}"
