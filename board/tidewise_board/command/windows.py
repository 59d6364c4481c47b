"""`tw windows`: when each ship may sail by itself, and with which draft."""
from __future__ import annotations

import json
import re
from fractions import Fraction
from typing import Any

import click

from ..core.facts import said_of
from ..core.loading import to_load
from ..core.program import Draft, Text
from ..core.reading import Stretch, windows_of
from ..core.runs import Inputs
from ..library.clock import Clock
from ..library.faults import Refused
from .common import Place, asking_options, place_of, say, say_json, ship_names

# A stretch outside a ship's own window, of which the program says nothing.
OWN = "own"


@click.command("windows")
@click.argument("ships", nargs=-1, metavar="[SHIP ..]", shell_complete=ship_names)
@click.option("--draft", metavar="METRES", help="When each may sail with this draft, as 17.80.")
@click.option("--at", "time", metavar="TIME", help="With which draft each may sail at this time, as 14:05 or 15 Mar 02:00.")
@asking_options
def command(ships: tuple[str, ...], draft: str | None, time: str | None, **asked: Any) -> int:
    """Says when each SHIP, or each ship of the day, may sail, with which draft, and why she can't at other times. Other ships, berths
    and tugs aren't looked at. Times are those at which slots begin, from the first to the last slot of each stretch. A call's name
    is that of both its movements.

    With --json: a list of `ship`, `direction`, `stretches` and, of a ship that goes out, `load`. A stretch has `from` and `to` and
    either `least_m` and `greatest_m`, drafts in metres, and `full`, or `why`; `load` has `draft_m` and `times`.

    \b
    Example: tw windows Corvo --draft 17.80
    """
    place = place_of(asked["folder"], asked["day"], asked["program"])
    wanted = None if draft is None else centimetres(draft)
    numbers = [number for name in ships for number in place.folder.ships_of(name)] or list(range(len(place.folder.port.ships)))
    windows = Windows(place, None if time is None else slot_of(time, place.folder.clock))
    answers = [windows.answer(number, wanted) for number in numbers]
    if asked["as_json"]:
        say_json([answer.members() for answer in answers])
        return 0
    for answer in answers:
        for line in answer.lines():
            say(line)
    return 0


def centimetres(text: str) -> int:
    """Metres, as 17.80 or 17,8, in whole centimetres."""
    found = re.fullmatch(r"[0-9]{1,2}(?:[.,][0-9]{1,2})?", text)
    if not found:
        raise Refused(f"{text} is no draft in metres, such as 17.80")
    return int(Fraction(text.replace(",", ".")) * 100)


def metres(draft: int) -> str:
    return f"{draft / 100:.2f}"


def instance_of(text: str) -> dict[str, Any]:
    found: dict[str, Any] = json.loads(text)
    return found


def slot_of(time: str, clock: Clock) -> int:
    """The slot in which a time lies; `Refused` where it is outside the day."""
    slot = clock.slot_at(clock.minute(time))
    if not 0 <= slot < clock.slots:
        raise Refused(f"{time} isn't from {clock.at(0)} to {clock.at(clock.slots)}")
    return slot


class Answer:
    """What is said of a ship: her stretches, and when she may load to a draft, in centimetres."""

    def __init__(self, ship: dict[str, Any], stretches: list[Stretch], clock: Clock) -> None:
        self.ship, self.stretches, self.clock = ship, stretches, clock
        self.draft: int | None = None
        self.times: list[tuple[int, int]] = []

    @property
    def greatest(self) -> int | None:
        """The greatest draft with which she may sail in some slot."""
        return max((one.drafts[1] for one in self.stretches if one.kind == "from"), default=None)

    def members(self) -> dict[str, Any]:
        """The answer as JSON."""
        found = {"ship": self.ship["name"], "direction": self.ship["direction"], "stretches": list(map(self.stretch, self.stretches))}
        if self.draft is not None:
            found["load"] = {"draft_m": self.draft / 100, "times": [self.between(*times) for times in self.times]}
        return found

    def between(self, first: int, last: int) -> dict[str, Any]:
        return {"from": self.clock.at(first), "to": self.clock.at(last)}

    def stretch(self, one: Stretch) -> dict[str, Any]:
        """A stretch as JSON."""
        if one.kind != "from":
            return {**self.between(one.first, one.last), "why": why_not(one, self.clock)}
        least, greatest = one.drafts
        return {**self.between(one.first, one.last), "least_m": least / 100, "greatest_m": greatest / 100, "full": one.said.endswith(" full")}

    def lines(self) -> list[str]:
        """The answer in lines."""
        ship = self.ship
        drafts = metres(ship["light"]) if ship["direction"] == "incoming" else f"{metres(ship['light'])} to {metres(ship['deep'])}"
        lines = [f"{ship['name']}, {ship['direction']}, {drafts} m"]
        for one in self.stretches:
            lines.append(f"  {self.said(one.first, one.last)}  {drafts_said(one) if one.kind == 'from' else why_not(one, self.clock)}")
        if self.draft is not None:
            full = " (full)" if self.draft == ship["deep"] else ""
            lines.append(f"  to load to {metres(self.draft)}{full}: "
                         + (", ".join(self.said(*times) for times in self.times) or "never" + self.most()))
        return lines

    def most(self) -> str:
        return "" if self.greatest is None else f", at most {metres(self.greatest)}"

    def said(self, first: int, last: int) -> str:
        return self.clock.short(first) + ("" if first == last else f" to {self.clock.short(last)}")


def why_not(one: Stretch, clock: Clock) -> str:
    """Why she can't sail in a stretch."""
    return one.said if one.kind == OWN else said_of(one.kind, one.said, clock.short)


def drafts_said(one: Stretch) -> str:
    least, greatest = one.drafts
    return f"{metres(least)} to {metres(greatest)} m" if least < greatest else f"{metres(greatest)} m"


class Windows:
    """The program's windows of all ships; with a slot, those of this slot alone. The inputs are the folder's, unless others are given."""

    def __init__(self, place: Place, slot: int | None, inputs: Inputs | None = None) -> None:
        self.place, self.slot = place, slot
        folder, store = place.folder, place.store
        self.inputs = inputs or Inputs(store.put(folder.instance.encode()), store.put(folder.tides.encode()))
        self.instance = store.get(self.inputs.instance).decode()
        said = place.program.ask("windows", "port", *self.inputs.words())
        if said.status:
            raise Refused(said.output.strip())
        self.stretches = windows_of(said.output)
        self.ships: list[dict[str, Any]] = instance_of(self.instance)["ships"]

    def answer(self, ship: int, draft: int | None) -> Answer:
        """What is said of a ship, and of a draft in centimetres, if one is asked for."""
        here = self.ships[ship]
        if self.slot is not None:
            return Answer(here, self.at(ship, self.slot), self.place.folder.clock)
        answer = Answer(here, self.stretches[ship], self.place.folder.clock)
        answer.draft = self.asked(answer, draft)
        if answer.draft is not None and answer.draft <= (answer.greatest or 0):
            answer.times = to_load(self.place.program, self.inputs, ship, answer.draft)
        return answer

    def asked(self, answer: Answer, draft: int | None) -> int | None:
        """The draft that is asked for; without one the greatest with which an outgoing ship can sail."""
        here = answer.ship
        if draft is None or here["direction"] == "incoming":
            return None if here["direction"] == "incoming" else answer.greatest
        if not here["light"] <= draft <= here["deep"]:
            raise Refused(f"{here['name']} sails with {metres(here['light'])} to {metres(here['deep'])} m, never with {metres(draft)} m")
        return draft

    def at(self, ship: int, slot: int) -> list[Stretch]:
        """What the program says of one slot of a ship."""
        here = self.ships[ship]
        if not here["earliest"] <= slot <= here["latest"]:
            clock = self.place.folder.clock
            own = f"her own window is {clock.short(here['earliest'])} to {clock.short(here['latest'])}"
            return [Stretch(OWN, slot, slot, own)]
        changed = instance_of(self.instance)
        changed["ships"][ship].update({"earliest": slot, "latest": slot})
        day, tides = Draft(json.dumps(changed).encode(), "day.json"), Text(self.inputs.tides, "tides.csv")
        said = self.place.program.ask("windows", "port", day, tides)
        if said.status:
            raise Refused(said.output.strip())
        return windows_of(said.output)[ship]
