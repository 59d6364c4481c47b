"""The berths of a plan: a lane for each."""
from __future__ import annotations

import json
from dataclasses import asdict
from typing import Any

from flask import Blueprint

from ..core.days import berths_of, source_of
from ..core.facts import port_of
from ..core.lanes import lanes
from ..core.runs import inputs_of
from ..core.shown import table_of
from .app import Board, board
from .plan import run_of

pages = Blueprint("berths", __name__)


@pages.get("/api/run/<int:number>/berths")
def berths(number: int) -> Any:
    """Lanes with stays in slots, and when each slot begins, one more than the slots."""
    here, run = board(), run_of(number)
    port = port_of(here.program, run["instance"])
    found = lanes(here.program, inputs_of(run), table_of(here.runs, run), named(here, run["input"]))
    return {"slots": port.slots, "clock": [port.clock(slot) for slot in range(port.slots + 1)],
            "lanes": [{"name": lane.name, "clear": lane.clear, "stays": [{**asdict(stay), "said": said(port, stay)} for stay in lane.stays]}
                      for lane in found]}


def said(port: Any, stay: Any) -> str:
    """A stay in words."""
    came = f"comes to the berth {port.clock(stay.first)}" if stay.first is not None else "lies there from before the day"
    left = f"sails {port.clock(stay.last)}" if stay.last is not None else "lies there after the day"
    return f"{stay.name}: {came}, {left}"


def named(here: Board, frozen: int | None) -> dict[int, str]:
    """The berth of each ship by the day's sheet, where it has such a column."""
    row = here.store.row("SELECT source FROM input WHERE id = ?", frozen)
    return berths_of(source_of(json.loads(here.store.get(row["source"])))) if row else {}
