"""`tw accept` makes a repair the plan."""
from __future__ import annotations

import json

import click

from ..core.happened import event_of, kept_of
from ..core.plans import accept, events_of
from ..core.runs import Runs
from ..library.faults import Refused
from .book import follow_log, logged, reader_of
from .common import alone, near, place_of, port_options, say, say_json
from .day import answer_of, say_answer, standing, status_of, user
from .plan import laid


@click.command(name="accept")
@port_options
@click.option("--who", metavar="NAME", help="Who does so; without it your user's name.")
def command(folder: str, day: str | None, as_json: bool, program: str, who: str | None) -> int:
    """Makes the last repair the day's plan, and lays its files in FOLDER/day/DATE. What was published of the day stays as it is.

    It is refused where something was noted since `tw replan`.

    \b
    Example: tw accept
    """
    place = place_of(folder, day, program)
    plan = standing(place)
    if plan is None:
        raise Refused("there is no plan of this day yet: `tw plan` makes one")
    with alone(place.store):
        runs = Runs(place.store, place.program, second=False)
        try:
            repair = place.store.row("SELECT run.id, told.events FROM run JOIN told ON told.run = run.id WHERE run.day = ? AND run.base = ?"
                                     " ORDER BY run.id DESC LIMIT 1", plan["day"], plan["run"])
            if repair is None:
                raise Refused(f"there is no repair of plan {plan['number']}: `tw replan` makes one")
            follow_log(place, plan, logged(place, reader_of(place, runs, plan, 0)))
            if json.loads(repair["events"]) != [kept_of(one) for one in events_of(place.store, plan["day"])]:
                raise Refused("something was noted, or taken back, since: `tw replan` again")
            made = accept(runs, repair["id"], who or user(), [event_of(one) for one in json.loads(repair["events"])])
            answer = {"plan": made["number"], **answer_of(place, runs, repair["id"]), "files": laid(place, runs, made),
                      "folder": place.folder.day_folder}
        finally:
            runs.close()
    if as_json:
        say_json(answer)
    else:
        say_answer(answer)
        say()
        say(f"plan {answer['plan']}, in {near(answer['folder'])}: {', '.join(answer['files'])}")
    return status_of(answer)
