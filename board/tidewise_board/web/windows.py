"""Windows of a ship: when she may sail, to which draft, and the other way round."""
from __future__ import annotations

from typing import Any

from flask import Blueprint, abort, render_template, request

from ..core.days import make
from ..core.facts import Port, port_of, said_of
from ..core.loading import centimetres, loading, to_load
from ..core.reading import Stretch, flat_of, tonnes, windows_of
from ..core.runs import Inputs
from .app import Board, board
from .day import day_of, kept, source

pages = Blueprint("windows", __name__)


def inputs_of_day(number: int) -> Inputs | None:
    """What the day's draft makes, if it has no fault."""
    here = board()
    made = make(source(day_of(number)), here.program)
    return Inputs(*kept(here, made)) if made.good else None


@pages.get("/day/<int:number>/windows")
def windows_page(number: int) -> str:
    here, day, inputs = board(), day_of(number), inputs_of_day(number)
    if inputs is None:
        return render_template("windows.html", day=day, page="windows", good=False)
    port = port_of(here.program, inputs.instance)
    told = windows_of(here.program.ask("windows", "port", *inputs.words()).output)
    ships = [row_of(port, ship, stretches) for ship, stretches in enumerate(told)]
    return render_template("windows.html", day=day, page="windows", good=True, ships=ships, clock=[port.clock(slot) for slot in range(port.slots)])


def row_of(port: Port, ship: int, stretches: list[Stretch]) -> dict[str, Any]:
    """When a ship may sail and with which drafts, and when she can't and why, in words."""
    shut = [f"{span(port, one.first, one.last)}: {said_of(one.kind, one.said, port.clock)}" for one in stretches if one.kind != "from"]
    return {"name": port.ships[ship], "direction": port.directions[ship], "can": [window(port, one) for one in stretches if one.kind == "from"],
            "not": shut}


def span(port: Port, first: int, last: int) -> str:
    return port.clock(first) if first == last else f"{port.clock(first)} to {port.clock(last)}"


def window(port: Port, one: Stretch) -> str:
    """A line `from` of `windows` in words."""
    least, greatest = one.drafts
    drafts = f"{greatest / 100:.2f} m" if least == greatest else f"{least / 100:.2f} to {greatest / 100:.2f} m"
    return f"{span(port, one.first, one.last)}, {drafts}{', never full' if one.said.endswith(' short') else ''}"


@pages.get("/api/day/<int:number>/windows/<int:ship>")
def curve(number: int, ship: int) -> Any:
    """Each slot of a ship's own window: the draft with which she sails, the greatest that the water allows, the cargo, or why not."""
    here, inputs, port = known(number, ship)
    at = loading(here.program, inputs, ship)
    values = flat_of(here.program.ask("flatten", *inputs.words()).output).values[ship]
    return {"name": port.ships[ship], "outgoing": port.directions[ship] == "outgoing", "clock": [port.clock(slot) for slot in range(port.slots)],
            "at": [{"slot": one.slot, "draft": one.draft, "allowed": one.allowed, "why": one.why,
                    "said": said_at(port, ship, one.slot, one.draft, one.why, values[one.slot])} for one in at]}


def said_at(port: Port, ship: int, slot: int, draft: int | None, why: str, value: int | None) -> str:
    """What a ship that sails in a slot has loaded, in words."""
    head = f"{port.ships[ship]} at {port.clock(slot)}: "
    if draft is None or value is None:
        return head + (why or "she can't sail")
    return head + f"{draft / 100:.2f} m" + (f", {tonnes(value)} t" if port.directions[ship] == "outgoing" else ", comes in")


@pages.get("/api/day/<int:number>/windows/<int:ship>/to")
def to(number: int, ship: int) -> Any:
    """When a ship may sail with a draft, given in metres."""
    here, inputs, port = known(number, ship)
    draft = centimetres(request.args.get("draft", ""))
    found = to_load(here.program, inputs, ship, draft)
    when = ", and ".join(span(port, first, last) for first, last in found)
    return {"draft": draft, "slots": found, "said": f"{port.ships[ship]} with {draft / 100:.2f} m: " + (f"sails {when}" if found else "in no slot")}


def known(number: int, ship: int) -> tuple[Board, Inputs, Port]:
    """The inputs and the port of a day that has no fault and such a ship."""
    here, inputs = board(), inputs_of_day(number)
    if inputs is None:
        raise ValueError("the day has faults: mend them first, on the page Day")
    port = port_of(here.program, inputs.instance)
    if ship >= len(port.ships):
        abort(404)
    return here, inputs, port
