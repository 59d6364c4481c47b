"""What-ifs of a plan: variants of its day, each planned and verified for itself."""
from __future__ import annotations

import json
import sqlite3
from typing import Any

from flask import Blueprint

from ..core.runs import ENDED, Inputs
from ..core.shown import root_of, seal, worth
from ..core.variants import variants
from ..library.faults import Refused
from .app import board, said
from .plan import run_of

pages = Blueprint("whatifs", __name__)
BUDGET = 20000
# The most changes of one request, and the longest.
MOST = 40
LONGEST = 200


@pages.post("/api/run/<int:number>/whatif")
def ask(number: int) -> Any:
    return {"runs": begin(root_of(board().runs, run_of(number)), words_of(said().get("changes", [])))}


def begin(run: sqlite3.Row, words: list[str]) -> list[int]:
    """Begins a run for each variant of a run's day that wasn't asked for before; without words, of the usual ones."""
    instance = json.loads(board().store.get(run["instance"]))
    try:
        found = variants(instance, words)
    except Refused as cause:
        raise ValueError(f"{cause}") from None
    if run["plan"] and any(len(json.loads(changed)["ships"]) != len(instance["ships"]) for _, changed in found):
        raise ValueError("on a day under way no ship can be left out: its plan has a line for each")
    return [begun(run, label, changed) for label, changed in found]


def words_of(asked: object) -> list[str]:
    if not isinstance(asked, list) or len(asked) > MOST or not all(isinstance(word, str) and 0 < len(word) <= LONGEST for word in asked):
        raise ValueError(f"changes are at most {MOST} texts, such as depth.Bar=+10")
    return asked


def begun(run: sqlite3.Row, label: str, changed: str) -> int:
    here = board()
    inputs = Inputs(here.store.put(changed.encode()), run["tides"], run["plan"])
    again = here.store.row("SELECT id FROM run WHERE kind = 'whatif' AND base = ? AND instance = ? AND program = ?", run["id"],
                           inputs.instance, here.program.digest)
    return int(again["id"]) if again else here.runs.begin(run["day"], inputs, "whatif", label, BUDGET, None, run["id"])


@pages.get("/api/run/<int:number>/whatifs")
def listed(number: int) -> Any:
    """The variants of a plan, with what each is worth."""
    here = board()
    root = root_of(here.runs, run_of(number))
    base, rows = here.runs.verdict(root["id"]), []
    for run in here.store.rows("SELECT * FROM run WHERE base = ? AND kind = 'whatif' ORDER BY id", root["id"]):
        verdict = here.runs.verdict(run["id"])
        rows.append({"label": run["label"], "ended": run["state"] in ENDED, "word": verdict.word if verdict else run["fault"] or "",
                     "difference": worth(base, verdict, here.program.trusted), "run": run["id"],
                     "tenths": verdict.cargo - base.cargo if verdict and base and verdict.cargo is not None and base.cargo is not None
                     and verdict.word == base.word == "optimal" else None,
                     "seal": seal(here.program.trusted, base, verdict), "base": root["id"], "cert": run["cert"]})
    return {"rows": rows}
