"""`tw why`: why nothing fits, or what keeps a ship from sailing at a time."""
from __future__ import annotations

import json
from dataclasses import dataclass
from typing import Any

import click

from ..core.facts import Port, in_words, matrix, said_of
from ..core.pins import why_not
from ..core.plans import own_inputs
from ..core.reading import clash_of, flat_of, restrictions_of, timetable_of, windows_of
from ..core.runs import Inputs
from ..core.wishes import Wish, wishes_of
from ..library.clock import Clock
from ..library.faults import Refused
from .common import Place, asking_options, in_tonnes, place_of, say, say_json, ship_names, warn
from .day import dated, standing
from .windows import Windows, slot_of, why_not as not_there

FITS, CLASHES, UNFINISHED = 0, 1, 2


@click.command("why")
@click.argument("ship", required=False, shell_complete=ship_names)
@click.argument("time", required=False)
@asking_options
def command(ship: str | None, time: str | None, folder: str, day: str | None, as_json: bool, program: str) -> int:
    """Says why nothing fits on the day: which restrictions can't be met together, and when ships could sail without one of them.

    With SHIP and TIME: the draft and the cargo with which she would sail then, or what forbids it; and which restrictions would break if the
    other ships kept their times of the day's plan.

    With --json: `fits`, `holds`, `said` and `kept`, a list of `said` and `without`; or `ship`, `time`, `sails`, `draft_m`, `cargo_t`,
    `why`, `plan`, `planned` (her time in it) and `broken`. Drafts are in metres, cargo is in tonnes. Without words the status is that of
    `clash`: 0 where something fits, 1 where nothing does, 2 where that wasn't found out.

    \b
    Example: tw why Corvo 14:05
    """
    place = place_of(folder, day, program)
    if ship is None:
        return say_clash(clash(place), as_json)
    if time is None:
        raise Refused("a time is missing: tw why SHIP TIME")
    here = at_time(place, place.folder.ship_of(ship), slot_of(time, place.folder.clock))
    if as_json:
        say_json(here)
    else:
        say_time(here)
    return 0


def inputs_of(place: Place) -> Inputs:
    return Inputs(place.store.put(place.folder.instance.encode()), place.store.put(place.folder.tides.encode()))


def clash(place: Place) -> dict[str, Any]:
    """Which restrictions can't be met together; each with slots that meet the others."""
    inputs = inputs_of(place)
    told = why_not(place.program, inputs, {})
    answer: dict[str, Any] = {"fits": told["said"].startswith("met "), "holds": told["holds"], "said": told["said"], "kept": []}
    if not told["holds"]:
        return answer
    port, found = dated(place, inputs.instance), clash_of(place.store.get(told["clash"]).decode())
    lines = restrictions_of(place.program.ask("explain", "port", *inputs.words()).output)
    for number in found.kept:
        without = {port.ships[ship]: port.clock(slot) for ship, slot in enumerate(found.drops.get(number, []))
                   if slot < port.slots and concerned(ship, found.kept, lines)}
        shut = never(place, inputs, lines[number], port)
        answer["kept"].append({"said": in_words(lines[number], port) + shut, "without": without})
    return answer


def concerned(ship: int, kept: list[int], lines: list[str]) -> bool:
    """Whether one of the restrictions is on this ship."""
    for number in kept:
        kind, *words = lines[number].split(" ")
        if kind != "tugs" and str(ship) in words[:1 if kind == "window" else 2]:
            return True
    return False


def never(place: Place, inputs: Inputs, line: str, port: Port) -> str:
    """Of a ship that can sail in none of her slots, why not."""
    kind, *words = line.split(" ")
    if kind != "window":
        return ""
    stretches = windows_of(place.program.ask("windows", "port", *inputs.words()).output)[int(words[0])]
    if any(one.kind == "from" for one in stretches):
        return ""
    return ": she can't sail at all: " + "; ".join(dict.fromkeys(said_of(one.kind, one.said, port.clock) for one in stretches))


def say_clash(answer: dict[str, Any], as_json: bool) -> int:
    """Prints the clash, and returns the status."""
    if as_json:
        say_json(answer)
    elif answer["fits"]:
        say("Something fits: `tw plan` finds the best of it.")
    elif not answer["holds"]:
        say(f"The program didn't find out: {answer['said']}")
    else:
        say("These can't be met together:")
        for number, one in enumerate(answer["kept"], 1):
            say(f"{number:3}. {one['said']}")
            times = ", ".join(f"{ship} {time}" for ship, time in one["without"].items())
            if times:
                say(f"     without it: {times}")
        say("Change one of them, and plan again; what isn't named here may clash too.")
    return FITS if answer["fits"] else CLASHES if answer["holds"] else UNFINISHED


@dataclass(frozen=True)
class Against:
    """The day's plan, with which a sailing is compared: its number, inputs and slots, what it leaves each ship, and tugs that are out."""
    number: int
    inputs: Inputs
    slots: list[int]
    wishes: list[Wish]
    out: int


def against(place: Place) -> Against | None:
    """The day's last plan, if it is one of the ships that are in the folder."""
    plan = standing(place)
    run = None if plan is None else place.store.row("SELECT * FROM run WHERE id = ?", plan["run"])
    slots = timetable_of(place.store.get(run["cert"])) if run is not None and run["cert"] else None
    if plan is None or run is None or slots is None:
        return None
    if names_in(place, run["instance"]) != place.folder.port.ships:
        warn("The plan has other ships: `tw plan` makes one of those that are there now.")
        return None
    if own_inputs(place.store, run) != inputs_of(place):
        warn(f"The files were changed since plan {plan['number']}; this is said of the plan's.")
    wishes, out = wishes_of(place.store.get(run["plan"]).decode()) if run["plan"] else ([], 0)
    return Against(plan["number"], Inputs(run["instance"], run["tides"]), slots, wishes, out)


def at_time(place: Place, ship: int, slot: int) -> dict[str, Any]:
    """What is said of a ship in a slot: by the day's plan, with what has happened, or else by the folder's files."""
    plan, clock = against(place), place.folder.clock
    inputs = plan.inputs if plan else inputs_of(place)
    (stretch,) = Windows(place, slot, inputs).at(ship, slot)
    sails = stretch.kind == "from"
    flat = flat_of(place.program.ask("flatten", *inputs.words()).output)
    gone = gone_by(plan, ship, slot, clock) if plan else None
    answer: dict[str, Any] = {
        "ship": place.folder.port.ships[ship], "time": clock.at(slot), "sails": sails and not gone,
        "draft_m": stretch.drafts[1] / 100 if sails else None, "cargo_t": in_tonnes(flat.values[ship][slot]) if sails else None,
        "why": gone or (None if sails else not_there(stretch, clock)), "plan": None, "planned": None, "broken": None}
    if plan and answer["sails"]:
        answer.update(compared(place, plan, ship, slot))
    return answer


def gone_by(plan: Against, ship: int, slot: int, clock: Clock) -> str | None:
    """What has happened that forbids her this slot."""
    wish = plan.wishes[ship] if plan.wishes else None
    if wish is not None and wish.first is None:
        return f"she has sailed at {clock.short(wish.slot)}"
    if wish is not None and wish.first is not None and slot < wish.first:
        return f"she can't sail before {clock.short(wish.first)}"
    return None


def compared(place: Place, plan: Against, ship: int, slot: int) -> dict[str, Any]:
    """What would break in the day's plan."""
    port = dated(place, plan.inputs.instance)
    lines = restrictions_of(place.program.ask("explain", "port", *plan.inputs.words()).output)
    broken = matrix(place.program, plan.inputs, plan.slots, ship, port.slots, plan.out)[slot]
    return {"plan": plan.number, "planned": None if plan.slots[ship] >= port.slots else place.folder.clock.at(plan.slots[ship]),
            "broken": [in_words(lines[number], port) for number in broken]}


def names_in(place: Place, instance: str) -> list[str]:
    return [ship["name"] for ship in json.loads(place.store.get(instance))["ships"]]


def say_time(here: dict[str, Any]) -> None:
    """Prints what is said of a ship and a time."""
    if not here["sails"]:
        say(f"{here['ship']} can't sail at {here['time']}: {here['why']}")
        return
    say(f"{here['ship']} may sail at {here['time']} with {here['draft_m']:.2f} m"
        + (f" and {here['cargo_t']:,.1f} t" if here["cargo_t"] else ""))
    if here["plan"] is None:
        say("There is no plan of the day yet with which that could be compared.")
    elif not here["broken"]:
        say(f"In plan {here['plan']} nothing is in her way.")
    else:
        say(f"In plan {here['plan']} these would break:")
        for line in here["broken"]:
            say(f"  {line}")
