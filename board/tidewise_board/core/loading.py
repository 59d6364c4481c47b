"""To which draft a ship may load for each slot, and in which slots she may sail with a draft: by the program's own `windows`.

The program is asked of copies of the ship, each with one slot or one draft, in an instance without other ships. So no rule of the port
stands here, and what other ships need isn't looked at. Drafts are in centimetres."""
from __future__ import annotations

import json
import re
from collections.abc import Iterable
from dataclasses import dataclass
from typing import Any

from .facts import port_of, said_of
from .program import Draft, Program, Text
from .reading import Stretch, windows_of
from .runs import Inputs

# The most ships of an instance, and the drafts that an instance may name.
MOST_SHIPS = 40
DEEPEST = 10000


@dataclass(frozen=True)
class At:
    """A slot of a ship: the draft with which she sails, and the greatest that the water allows; or why she can't sail."""
    slot: int
    draft: int | None
    allowed: int | None
    why: str

    def listed(self) -> list[int | str | None]:
        return [self.slot, self.draft, self.allowed, self.why]


def _windows(program: Program, base: dict[str, Any], tides: str, copies: Iterable[dict[str, Any]]) -> list[list[Stretch]]:
    """The windows of copies of ships, as many as an instance takes at once."""
    found: list[list[Stretch]] = []
    ships = [{**ship, "name": f"copy {number}"} for number, ship in enumerate(copies)]
    for first in range(0, len(ships), MOST_SHIPS):
        changed = {**base, "ships": ships[first:first + MOST_SHIPS], "berths": []}
        if "after" in changed:
            changed["after"] = []
        said = program.ask("windows", "port", Draft(json.dumps(changed).encode(), "day.json"), Text(tides, "tides.csv"))
        if said.status:
            raise ValueError(said.output.strip())
        found += windows_of(said.output)
    return found


def _ship(program: Program, inputs: Inputs, ship: int) -> tuple[dict[str, Any], dict[str, Any]]:
    base: dict[str, Any] = json.loads(program.store.get(inputs.instance))
    if not 0 <= ship < len(base["ships"]):
        raise KeyError(f"ship {ship}")
    return base, base["ships"][ship]


def loading(program: Program, inputs: Inputs, ship: int) -> list[At]:
    """Each slot of a ship's own window."""
    noted = program.noted("loading 2", inputs.instance, inputs.tides, str(ship))
    if noted is None:
        noted = json.dumps([one.listed() for one in _told(program, inputs, ship)])
        program.note(noted, "loading 2", inputs.instance, inputs.tides, str(ship))
    return [At(*one) for one in json.loads(noted)]


def _told(program: Program, inputs: Inputs, ship: int) -> list[At]:
    base, one = _ship(program, inputs, ship)
    slots, clock = range(one["earliest"], one["latest"] + 1), port_of(program, inputs.instance).clock
    own = _windows(program, base, inputs.tides, ({**one, "earliest": slot, "latest": slot} for slot in slots))
    # An incoming ship sails with one draft: so what the water allows is asked of one that goes out by the same route.
    free = {**one, "direction": "outgoing", "light": 0, "deep": DEEPEST}
    deepest = _windows(program, base, inputs.tides, ({**free, "earliest": slot, "latest": slot} for slot in slots))
    found = []
    for slot, (sails,), (most,) in zip(slots, own, deepest, strict=True):
        why = "" if sails.kind == "from" else said_of(sails.kind, sails.said, clock)
        found.append(At(slot, _draft(sails), _draft(most), why))
    return found


def _draft(stretch: Stretch) -> int | None:
    """The greatest draft with which she sails in a stretch; None of one in which she can't."""
    return stretch.drafts[1] if stretch.kind == "from" else None


def when(program: Program, inputs: Inputs, ship: int, draft: int) -> list[Stretch]:
    """The slots in which a ship may sail with just this draft, and why not in the others; `ValueError` for a draft that she never has."""
    base, one = _ship(program, inputs, ship)
    if not one["light"] <= draft <= one["deep"]:
        raise ValueError(f"{one['name']} sails with {one['light'] / 100:.2f} to {one['deep'] / 100:.2f} m, never with {draft / 100:.2f} m")
    return _windows(program, base, inputs.tides, [{**one, "light": draft, "deep": draft}])[0]


def to_load(program: Program, inputs: Inputs, ship: int, draft: int) -> list[tuple[int, int]]:
    """The first and the last slot of each stretch in which a ship may sail with this draft."""
    return [(one.first, one.last) for one in when(program, inputs, ship, draft) if one.kind == "from"]


def centimetres(text: str) -> int:
    """Metres as a person writes them, 17.80 or 17,8, in whole centimetres; `ValueError` for anything else."""
    found = re.fullmatch(r"([0-9]{1,2})(?:[.,]([0-9]{1,2}))?", text.strip())
    if not found:
        raise ValueError(f"{text!r} is no draft in metres, such as 17.80")
    return int(found[1]) * 100 + int((found[2] or "").ljust(2, "0"))
