"""Two plans beside each other, of the same day or of two days."""
from __future__ import annotations

import sqlite3
from typing import Any

from flask import Blueprint, redirect, render_template

from ..core.changes import depth, sails
from ..core.differences import differences
from ..core.facts import Port, port_of
from ..core.shown import shown, table_of, worth
from .app import board
from .plan import run_of

pages = Blueprint("compare", __name__)
# The most answers that a plan can be compared with.
MOST = 80


@pages.get("/day/<int:day>/compare/<int:one>/<int:other>")
def of_a_day(day: int, one: int, other: int) -> Any:
    return redirect(f"/compare/{one}/{other}", 303)


@pages.get("/compare/<int:one>/<int:other>")
def compare(one: int, other: int) -> str:
    """Ships are matched by their names."""
    here = board()
    runs = [run_of(one), run_of(other)]
    both = [shown(here.runs, run["id"]) for run in runs]
    verdicts = [here.runs.verdict(run["id"]) if said["word"] else None for run, said in zip(runs, both)]
    instances = [here.store.get(run["instance"]).decode() for run in runs]
    told = differences(*instances)
    if runs[0]["tides"] != runs[1]["tides"]:
        told.append("another tide table")
    return render_template("compare.html", day=None, page="compare", runs=both, rows=rows_of(runs), told=told, choices=choices(),
                           days=[here.store.row("SELECT id, name FROM day WHERE id = ?", run["day"]) for run in runs],
                           difference=worth(verdicts[0], verdicts[1], here.program.trusted))


def rows_of(runs: list[sqlite3.Row]) -> list[dict[str, Any]]:
    """A row for each ship of the two: when she sails, her draft and her cargo; nothing where she isn't in that day."""
    here, plans = board(), []
    for run in runs:
        port = port_of(here.program, run["instance"])
        table = {int(row["ship"]): row for row in table_of(here.runs, run)}
        plans.append({name: cell(port, table.get(ship, {})) for ship, name in enumerate(port.ships)})
    names = list(dict.fromkeys(name for plan in plans for name in plan))
    return [{"name": name, "cells": (cells := [plan.get(name) for plan in plans]), "moved": moved(cells)} for name in names]


def cell(port: Port, row: dict[str, str]) -> dict[str, str]:
    return {"clock": sails(row, port), "draft": depth(row), "cargo": row.get("cargo t", "")}


def moved(cells: list[dict[str, str] | None]) -> str:
    """What a ship's row says beside her name."""
    one, other = cells
    if one is None or other is None:
        return "only in the second" if one is None else "only in the first"
    return "moved" if one["clock"] != other["clock"] else ""


def choices() -> list[dict[str, Any]]:
    """The answers of all days that a plan can be compared with, the latest first."""
    rows = board().store.rows("SELECT run.id, run.kind, run.label, day.name FROM run JOIN day ON day.id = run.day"
                              " WHERE kind IN ('plan', 'pin', 'repair', 'whatif') AND verdict IS NOT NULL ORDER BY run.id DESC LIMIT ?", MOST)
    return [{"id": row["id"], "said": f"{row['id']}: {row['name']}"
             + ("" if row["label"] == row["name"] else f", {'hold ' if row['kind'] == 'pin' else ''}{row['label']}")} for row in rows]
