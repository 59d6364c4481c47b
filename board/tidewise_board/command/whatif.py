"""`tw try`: what changes of the day would be worth."""
from __future__ import annotations

import json
import signal
import sys
from typing import Any, NoReturn

import click

from ..core.reading import Verdict, tonnes
from ..core.shown import headline, triple
from ..core.worth import Planned, Planning
from ..library.bars import Bar, bars
from ..library.faults import Refused
from ..library.port import text_of
from ..library.results import limits
from ..library.trying import __doc__ as changes
from ..library.trying import changes_of
from ..library.whatif import processors
from .common import Place, asking_options, in_tonnes, place_of, say, say_json, say_rows, terminal

BUDGET = 100000
HEAD = ["change", "result", "tonnes", "at most", "difference", "seconds"]
RIGHT = frozenset({2, 3, 4, 5})
RESULTS = {"optimal": "best", "infeasible": "nothing fits", "unfinished": "perhaps more"}
HELP = f"""Says what each CHANGE would be worth: the day as it is and with each change is planned by a run of its own, and compared as
`verify` says. Where one isn't closed within the limit, the difference is a range. Without changes they are a tug less, a tug more, and ten
centimetres at each waypoint.

\b
{(changes or '').partition(chr(10) + chr(10))[2]}
With --json: `day`, `headline`, and `changes`, a list of `change`, `result`, `refused`, `cargo_t`, `bound_t`, `least_t`, `most_t` and
`seconds`; the cargo, its bound and the difference, from `least_t` to `most_t`, in tonnes.

\b
Example: tw try fleet=6 depth.Bar=+10 close.Bar=14:00-16:00
"""


@click.command("try", help=HELP)
@click.argument("words", nargs=-1, metavar="[CHANGE ..]")
@click.option("--limit", type=click.FloatRange(min=0.1), default=60.0, show_default=True, help="Seconds of each run, by the clock.")
@click.option("--at-once", type=click.IntRange(min=1), default=processors(), help="Runs at the same time; as many as there are processors.")
@click.option("--svg", is_flag=True, help="Print a picture with bars.")
@asking_options
def command(words: tuple[str, ...], limit: float, at_once: int, svg: bool, **asked: Any) -> int:
    place = place_of(asked["folder"], asked["day"], asked["program"])
    day = json.loads(place.folder.instance)
    variants = [("as it is", day), *changes_of(list(words), day, place.folder.clock)]
    planned = plan(place, [f"{text_of(instance)}\n" for _, instance in variants], limit, at_once)
    if planned[0].verdict is None:
        raise Refused(f"the day as it is can't be planned: {planned[0].refused}")
    worth = Worth(place, [name for name, _ in variants], planned, planned[0].verdict)
    if asked["as_json"]:
        say_json(worth.members())
    elif svg:
        click.echo(bars(worth.title, worth.bars()))
    else:
        say(worth.title)
        say_rows([HEAD, *worth.rows()], RIGHT)
    return 0


def ended(number: int, _: object) -> NoReturn:
    sys.exit(128 + number)


def plan(place: Place, instances: list[str], limit: float, at_once: int) -> list[Planned]:
    """Plans all instances. However this is ended, so are its runs."""
    def done(count: int) -> None:
        if terminal():
            click.echo(f"\r{count} of {len(instances)} planned ", nl=count == len(instances), err=True)

    before = {number: signal.signal(number, ended) for number in (signal.SIGTERM, signal.SIGHUP)}
    planning = Planning(place.program, place.folder.tides, limit, BUDGET)
    try:
        return planning.all(instances, at_once, done)
    finally:
        planning.close()
        for number, handler in before.items():
            signal.signal(number, handler)


class Worth:
    """The day as it is and its changes, with what `verify` says of each."""

    def __init__(self, place: Place, names: list[str], planned: list[Planned], base: Verdict) -> None:
        self.place, self.names, self.planned, self.base = place, names, planned, base
        self.title = f"{place.folder.day} as it is. {headline(base, place.program.trusted)}"

    def limits(self, said: Verdict | None) -> tuple[int | None, int | None]:
        """By how much a change carries at least and at most more, as far as the two verdicts tell."""
        return limits(triple(self.base), triple(said))

    def difference(self, said: Verdict | None) -> str:
        """What a change carries more, in tonnes: a number, or its limits."""
        least, most = self.limits(said)
        if least is not None and most is not None:
            return signed(least) if least == most else f"{signed(least)} to {signed(most)}"
        return f"at least {signed(least)}" if least is not None else f"at most {signed(most)}" if most is not None else ""

    @staticmethod
    def result(one: Planned) -> str:
        return RESULTS[one.verdict.word] if one.verdict else one.refused

    def rows(self) -> list[list[str]]:
        """The table, a row for each change."""
        rows = []
        for number, (name, one) in enumerate(zip(self.names, self.planned)):
            said = one.verdict
            bound = None if said is None or said.bound == said.cargo else said.bound
            rows.append([name, self.result(one), "" if said is None or said.cargo is None else tonnes(said.cargo),
                         "" if bound is None else tonnes(bound), self.difference(said) if number else "", f"{one.seconds:.1f}"])
        return rows

    def members(self) -> dict[str, Any]:
        """The same as JSON."""
        found = []
        for name, one in zip(self.names, self.planned):
            said, (least, most) = one.verdict, self.limits(one.verdict)
            found.append({"change": name, "result": said.word if said else None, "refused": one.refused or None,
                          "cargo_t": in_tonnes(said.cargo if said else None),
                          "bound_t": in_tonnes(said.bound if said else None), "least_t": in_tonnes(least), "most_t": in_tonnes(most),
                          "seconds": round(one.seconds, 2)})
        return {"day": self.place.folder.day, "headline": headline(self.base, self.place.program.trusted), "changes": found}

    def bars(self) -> list[Bar]:
        return [Bar(name, *self.limits(one.verdict), self.difference(one.verdict) or self.result(one))
                for name, one in zip(self.names[1:], self.planned[1:])]


def signed(value: int) -> str:
    return f"{'+' if value > 0 else ''}{tonnes(value)}"
