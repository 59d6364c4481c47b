"""`tw plan`: from a port's folder to a verified plan."""
from __future__ import annotations

import os
import shlex
import sqlite3
from dataclasses import dataclass
from typing import Any

import click

from ..core import race
from ..core.parts import Share
from ..core.pins import why_not
from ..core.plans import accept, files_of, last_plan, told_of
from ..core.reading import Unread, Verdict
from ..core.runs import BUDGETS, Runs
from ..core.store import Damaged
from ..library.faults import Refused
from .common import Place, alone, near, place_of, port_options, say, say_json
from .day import INFEASIBLE, Frozen, answer_of, check, day_number, freeze, say_answer, status_of, user
from .following import ended_by_signals, follow
from .laid import lay
from .shared import in_parts, joined, make_array

BUDGET = BUDGETS[-1]
LIMIT = 60.0
# The lemmas of the first search before a split, how many parts there are for each processor, and at most.
PRELUDE = 300
PARTS_EACH = 4
MOST_PARTS = 1024


@dataclass(frozen=True)
class Wanted:
    """How the planner wants the day to be searched: seconds and lemmas at most, whether anew, in how many parts, and whether these become
    an array of Slurm or are joined from one."""
    limit: float
    budget: int
    anew: bool
    parts: int | None
    prelude: int
    slurm: str | None
    join: str | None

    def share(self) -> Share:
        return Share(self.parts or PARTS_EACH * len(os.sched_getaffinity(0)), self.prelude, self.budget)


def rank(said: Verdict | None) -> tuple[bool, int, int]:
    """How good a verdict is: closed ones first, then the greatest cargo, then the least bound."""
    if said is None:
        return False, -1, 0
    return said.closed, -1 if said.cargo is None else said.cargo, 0 if said.bound is None else -said.bound


def verdict(runs: Runs, number: int, fresh: bool = False) -> Verdict | None:
    """What `verify` says of a run; None where that can't be said, since what is kept was changed."""
    try:
        return runs.verdict(number, fresh)
    except (Damaged, Unread, OSError):
        return None


def same_inputs(runs: Runs, plan: sqlite3.Row, frozen: Frozen) -> bool:
    run = runs.get(plan["run"])
    return (run["instance"], run["tides"], run["plan"]) == (frozen.inputs.instance, frozen.inputs.tides, None)


def kept_before(runs: Runs, frozen: Frozen) -> sqlite3.Row | None:
    """The day's last plan, if it is one of these very inputs that no search can better."""
    last = last_plan(runs.store, frozen.day)
    if last is None or not same_inputs(runs, last, frozen):
        return None
    said = verdict(runs, last["run"], True)
    return last if said is not None and said.closed else None


def search(runs: Runs, frozen: Frozen, label: str, wanted: Wanted) -> int:
    """Plans the day by as many seeds as there are processors, and returns the run that stands for them."""
    with ended_by_signals() as ended:
        leader = race.begin(runs, frozen.day, frozen.inputs, label, wanted.budget, frozen.input)
        follow(runs, leader, wanted.limit, ended)
    return race.winner(runs, leader)


def made_plan(runs: Runs, frozen: Frozen, number: int) -> sqlite3.Row:
    """Makes the run the day's plan, unless the last one is of the same inputs and as good."""
    last = last_plan(runs.store, frozen.day)
    if last is not None and same_inputs(runs, last, frozen) and rank(verdict(runs, last["run"])) >= rank(verdict(runs, number)):
        return last
    return accept(runs, number, user())


def laid(place: Place, runs: Runs, plan: sqlite3.Row) -> list[str]:
    """Lays the files of a plan in its day's folder, and returns their names."""
    title = f"Plan {plan['number']} of {place.folder.day}, {plan['made']}"
    return lay(place.folder.day_folder, files_of(runs, plan, title))


def no_events(place: Place) -> None:
    day = day_number(place)
    if place.folder.log or day is not None and told_of(place.store, day):
        raise Refused("the day is under way: `tw replan` repairs its plan by what has happened; `tw plan --anew` plans it as if nothing had")


def search_as(place: Place, runs: Runs, frozen: Frozen, wanted: Wanted) -> int:
    """Searches as the planner wants it, and returns the run that stands for it."""
    label = f"plan of {place.folder.day}"
    if wanted.join is not None:
        return joined(place, runs, frozen, wanted.join)
    if wanted.parts is not None:
        return in_parts(runs, frozen, f"{label}, in parts", wanted.limit, wanted.share())
    return search(runs, frozen, label, wanted)


def planned(place: Place, wanted: Wanted) -> dict[str, Any]:
    """Plans the day, and returns the answer."""
    frozen = freeze(place)
    runs = Runs(place.store, place.program, at_once=1, second=False)
    try:
        plan = kept_before(runs, frozen)
        number = plan["run"] if plan else search_as(place, runs, frozen, wanted)
        answer: dict[str, Any] = {"plan": None, "files": [], "folder": None, "clash": [], **answer_of(place, runs, number)}
        if answer["sailings"]:
            plan = plan or made_plan(runs, frozen, number)
            if plan["run"] != number:
                answer.update(answer_of(place, runs, plan["run"]))
            answer.update(plan=plan["number"], files=laid(place, runs, plan), folder=place.folder.day_folder)
        elif status_of(answer) == INFEASIBLE:
            answer["clash"] = why_not(place.program, frozen.inputs, {})["kept"]
        return answer
    finally:
        runs.close()


def say_plan(answer: dict[str, Any]) -> None:
    say_answer(answer)
    if answer["clash"]:
        say("these can't be met together, and `tw why` says more:")
    for line in answer["clash"]:
        say(f"  {line}")
    if answer["plan"] is not None:
        say()
        say(f"plan {answer['plan']}, in {near(answer['folder'])}: {', '.join(answer['files'])}")


def array_made(place: Place, path: str, program: str, wanted: Wanted, as_json: bool) -> int:
    begun = make_array(place, path, program, wanted.share())
    if as_json:
        say_json({"day": place.folder.day, "array": begun.folder, "parts": begun.count})
    else:
        say(f"{near(begun.folder)}: {begun.count} parts")
        say(f"submit them by `sbatch --wait array.sh` there, and then `tw plan --join {shlex.quote(near(begun.folder))}`")
    return 0


@click.command(name="plan")
@port_options
@click.option("--limit", type=click.FloatRange(0.1, 864000), default=LIMIT, show_default=True, metavar="SECONDS",
              help="End the search after so many seconds, and keep what it has found.")
@click.option("--budget", type=click.IntRange(1, BUDGET), default=BUDGET, show_default=True, metavar="LEMMAS", help="The most lemmas of each search.")
@click.option("--anew", is_flag=True, help="Plan the day as if nothing had happened on it.")
@click.option("--parts", type=click.IntRange(1, MOST_PARTS), metavar="N", help="Split the day into so many parts at most, for one that takes minutes.")
@click.option("--prelude", type=click.IntRange(1, BUDGET), default=PRELUDE, show_default=True, metavar="LEMMAS",
              help="The most lemmas of the first search, before a split.")
@click.option("--slurm", metavar="ARRAY", type=click.Path(), help="Make the folder ARRAY with the parts as a job array of Slurm, and plan nothing.")
@click.option("--join", metavar="ARRAY", type=click.Path(), help="Join what the tasks of such an array have left into a plan.")
def command(folder: str, day: str | None, as_json: bool, program: str, **given: Any) -> int:
    """Plans the day of the port in FOLDER: reads it, proves the best plan, verifies that, and lays its files in FOLDER/day/DATE.

    Idle processors search by other ways; the first proof ends them all. Ctrl-C ends the search too, and what it has found by then is
    verified and kept. The status is 0 where the plan is the best, 1 where nothing fits, 2 where the search ended before a proof.

    \b
    Example: tw plan --limit 20 myport
    """
    wanted = Wanted(**given)
    place = place_of(folder, day, program)
    check(place)
    if wanted.slurm is not None:
        return array_made(place, wanted.slurm, program, wanted, as_json)
    if not wanted.anew:
        no_events(place)
    with alone(place.store):
        answer = planned(place, wanted)
    say_json(answer) if as_json else say_plan(answer)
    return status_of(answer)
