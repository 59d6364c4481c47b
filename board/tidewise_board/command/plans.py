"""`tw plans`: the day's plans, one after the other."""
from __future__ import annotations

import json
from typing import Any

import click

from ..core.happened import event_of
from ..core.plans import plans_of
from ..core.runs import Runs
from ..core.shown import build_words, shown
from .common import Place, place_of, port_options, say, say_json, say_rows
from .day import dated, day_number, figures, fresh


def listed(place: Place) -> list[dict[str, Any]]:
    runs, found = Runs(place.store, place.program, second=False, own=False), []
    for plan in plans_of(place.store, day_number(place) or 0):
        fresh(runs, plan["run"])
        now, run = shown(runs, plan["run"]), runs.get(plan["run"])
        clock = dated(place, run["instance"]).clock
        found.append({"plan": plan["number"], "made": plan["made"], "published": plan["frozen"], "headline": now["headline"], "verdict": now["verdict"],
                      "fault": now["fault"], **figures(runs.verdict(plan["run"]) if now["verdict"] else None),
                      "events": [event_of(one).said(clock) for one in json.loads(plan["events"])]})
    return found


@click.command(name="plans")
@port_options
def command(folder: str, day: str | None, as_json: bool, program: str) -> int:
    """Lists the day's plans, the last of which counts: what `verify` says of each, when it was made (UTC), what had happened, and whether
    it was published.

    \b
    Example: tw plans
    """
    place = place_of(folder, day, program)
    found = listed(place)
    if as_json:
        say_json({"day": place.folder.day, "program": build_words(place.program), "plans": found})
        return 0
    if not found:
        say("no plan yet: `tw plan` makes one")
        return 0
    say_rows([["plan", "made", "", "published"],
              *([str(one["plan"]), one["made"], one["headline"] if not one["fault"] else f"{one['headline']} ({one['fault']})", one["published"] or ""]
                for one in found)], frozenset({0}))
    for line in found[-1]["events"]:
        say(f"plan {found[-1]['plan']} knows: {line}")
    return 0
