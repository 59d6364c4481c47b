"""`tw publish`: the plan as one file, which anybody can check."""
from __future__ import annotations

import os

import click

from ..core.plans import plan_of, publish
from ..core.runs import Runs
from ..library.faults import Refused
from .common import alone, near, place_of, port_options, say, say_json
from .day import answer_of, standing, status_of, user
from .laid import write_new


@click.command(name="publish")
@port_options
@click.option("--who", metavar="NAME", help="Who does so; without it your user's name.")
def command(folder: str, day: str | None, as_json: bool, program: str, who: str | None) -> int:
    """Puts the day's plan into a zip: inputs, certificate, picture, table, calendar, their sums, and which program said so. The
    certificate is verified once more, and by the second checker.

    FOLDER/day/DATE/plan-N.zip has the same bytes whenever it is made of the same plan, and is never overwritten.

    \b
    Example: tw publish && tw verify day/2027-03-14/plan-1.zip
    """
    place = place_of(folder, day, program)
    plan = standing(place)
    if plan is None:
        raise Refused("there is no plan of this day yet: `tw plan` makes one")
    with alone(place.store):
        runs = Runs(place.store, place.program, second=False)
        try:
            runs.second_now(plan["run"])
            answer = answer_of(place, runs, plan["run"])
            if answer["fault"]:
                raise Refused(f"this isn't published: {answer['fault']}")
            made = publish(runs, plan, who or user())
        finally:
            runs.close()
        path = os.path.join(place.folder.day_folder, f"plan-{plan['number']}.zip")
        os.makedirs(place.folder.day_folder, exist_ok=True)
        write_new(path, place.store.get(made["bundle"]))
    made = plan_of(place.store, plan["id"])
    if as_json:
        say_json({"day": place.folder.day, "plan": plan["number"], "file": path, "sha256": made["bundle"], "published": made["frozen"],
                  "headline": answer["headline"], "verdict": answer["verdict"]})
    else:
        say(f"{near(path)}: {answer['headline']}")
        say(f"sha256 {made['bundle']}")
    return status_of(answer)
