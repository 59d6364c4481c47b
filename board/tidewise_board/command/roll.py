"""`tw roll`: what the next day takes over of this one."""
from __future__ import annotations

import json
from datetime import date, timedelta

import click

from ..core.days import source_of
from ..core.facts import port_of
from ..core.plans import events_of, own_inputs
from ..core.runs import Runs
from ..core.tomorrow import Rolled, rolled
from ..library.dates import day_of
from ..library.faults import Refused
from .book import follow_log, logged, reader_of
from .common import INSIDE, JSON, PROGRAM, Place, place_of, say, say_json
from .day import standing

BLOCKED = 4
UNTIL = "an instance can't have ships under way yet, so nothing of this can be taken over, and no folder was made"


def rolled_on(place: Place) -> Rolled:
    """What tomorrow takes over of the plan that stands, and what it can't."""
    plan = standing(place)
    if plan is None:
        raise Refused("there is no plan of this day yet: `tw plan` makes one")
    runs = Runs(place.store, place.program, second=False, own=False)
    follow_log(place, plan, logged(place, reader_of(place, runs, plan, 0)))
    run = runs.get(plan["run"])
    own = own_inputs(place.store, run)
    frozen = place.store.row("SELECT source FROM input WHERE id = ?", run["input"])
    source = source_of(json.loads(place.store.get(frozen["source"]))) if frozen else None
    return rolled(place.folder.day, place.store.get(own.instance).decode(), port_of(place.program, own.instance), runs.timetable(run["id"]) or [],
                  events_of(place.store, plan["day"]), source)


def next_date(day: str) -> str:
    return f"{date.fromisoformat(day) + timedelta(days=1)}"


@click.command(name="roll")
@click.argument("to", metavar="DATE")
@INSIDE
@click.option("--day", metavar="DATE", help="Roll the day of this date on, and not that of port.json.")
@JSON
@PROGRAM
def command(to: str, folder: str, day: str | None, as_json: bool, program: str) -> int:
    """Says what the day of DATE, which is the next one, takes over of this day's plan. Where a ship is still under way, or anything else
    reaches into it that an instance can't say yet, it says what that is, and stops with status 4.

    Where nothing does, the next day is planned by itself: put its ships into ships.csv, and `tw plan --day DATE`.

    \b
    Example: tw roll 2027-03-15
    """
    place = place_of(folder, day, program)
    if str(day_of(to)) != next_date(place.folder.day):
        raise Refused(f"the day after {place.folder.day} is {next_date(place.folder.day)}")
    found = rolled_on(place)
    if as_json:
        say_json({"day": place.folder.day, "next": next_date(place.folder.day), "blocked": found.blocked, "taken": found.taken, "noted": found.noted})
    else:
        for head, lines in (("can't be taken over:", found.blocked), ("is left for the next day:", found.taken), ("note:", found.noted)):
            for line in lines:
                say(f"{head} {line}")
        say(UNTIL if found.blocked else f"nothing of {place.folder.day} reaches into the next day: put its ships into ships.csv, and"
                                        f" `tw plan --day {next_date(place.folder.day)}`")
    return BLOCKED if found.blocked else 0
