"""`tw replan`: the best plan that what has happened leaves."""
from __future__ import annotations

import json
import sqlite3
from typing import Any

import click

from ..core import race
from ..core.changes import changes
from ..core.happened import Sailed, kept_of
from ..core.pins import why_not
from ..core.plans import own_inputs
from ..core.runs import BUDGETS, Runs
from ..core.shown import table_of, worth
from ..core.underway import Watch
from ..library.dates import written
from ..library.faults import Refused
from .book import follow_log, logged, now_minute, reader_of, watch_of
from .common import Place, alone, place_of, port_options, say, say_json
from .day import INFEASIBLE, answer_of, dated, figures, say_answer, standing, status_of
from .following import ended_by_signals, follow

BUDGET = BUDGETS[-1]
LIMIT = 60.0


def watched(place: Place, runs: Runs, plan: sqlite3.Row, now: str | None) -> Watch:
    """The day under way: the plan that stands, what was told, and the slot from which ships may still sail."""
    clock = place.folder.clock
    follow_log(place, plan, logged(place, reader_of(place, runs, plan, 0)))
    port = dated(place, own_inputs(place.store, runs.get(plan["run"])).instance)
    first = watch_of(place, runs, plan, port, 0)
    sailed = max([0, *(one.slot for one in first.events if isinstance(one, Sailed))])
    minute = now_minute(clock, now, sailed * clock.minutes)
    return watch_of(place, runs, plan, port, min(clock.slots - 1, clock.slot_from(minute)))


def repaired(place: Place, runs: Runs, plan: sqlite3.Row, watch: Watch, limit: float) -> tuple[int, list[str]]:
    """Proves the repair, and returns its run and what has to be said of it."""
    run = runs.get(plan["run"])
    made = watch.repair({int(ship): slot for ship, slot in json.loads(run["pins"]).items()})
    with ended_by_signals() as ended:
        leader = race.join(runs, lambda: runs.begin(run["day"], made.inputs, "repair", f"repair of plan {plan['number']}", BUDGET, run["input"],
                                                    plan["run"], made.pins))
        follow(runs, leader, limit, ended)
    number = race.winner(runs, leader)
    place.store.insert("INSERT INTO told(run, events) VALUES (?, ?)", number, json.dumps([kept_of(one) for one in watch.events]))
    return number, made.noted


def answered(place: Place, runs: Runs, plan: sqlite3.Row, watch: Watch, number: int, noted: list[str]) -> dict[str, Any]:
    run, before = runs.get(number), runs.get(plan["run"])
    old = runs.verdict(plan["run"])
    answer: dict[str, Any] = {"plan": plan["number"], "now": written(place.folder.clock.start + watch.now * place.folder.clock.minutes),
                              **answer_of(place, runs, number), "before": {"verdict": before["verdict"], **figures(old)}, "noted": noted,
                              "moves": [], "difference": "", "clash": []}
    if answer["sailings"]:
        found = changes(dated(place, run["instance"]), table_of(runs, before), table_of(runs, run), dated(place, before["instance"]))
        answer["moves"] = [{"ship": one.ship, "before": one.before, "after": one.after, "difference_t": one.difference / 10} for one in found]
        answer["difference"] = worth(old, runs.verdict(number), place.program.trusted)
    elif status_of(answer) == INFEASIBLE:
        answer["clash"] = why_not(place.program, watch.repair({}).inputs, {})["kept"]
    return answer


def say_replan(answer: dict[str, Any]) -> None:
    say_answer({**answer, "sailings": []})
    for line in answer["noted"]:
        say(f"note: {line}")
    if answer["clash"]:
        say("these can't be met together:")
    for line in answer["clash"]:
        say(f"  {line}")
    if not answer["sailings"]:
        return
    say()
    for move in answer["moves"]:
        gain = "" if not move["difference_t"] else f", {move['difference_t']:+,.1f} t"
        say(f"{move['ship']}: {move['before']} → {move['after']}{gain}" if move["before"] != move["after"] else f"{move['ship']}: {move['after']}{gain}")
    if not answer["moves"]:
        say("nobody moves")
    say(f"{answer['before']['cargo_t']:,.1f} t before, {answer['cargo_t']:,.1f} t after: {answer['difference']}")
    say("`tw accept` makes it the plan")


@click.command(name="replan")
@port_options
@click.option("--now", metavar="TIME", help="What time it is by the port's clock; without it this machine's clock tells.")
@click.option("--limit", type=click.FloatRange(0.1, 864000), default=LIMIT, show_default=True, metavar="SECONDS",
              help="End the search after so many seconds, and keep what it has found.")
def command(folder: str, day: str | None, as_json: bool, program: str, now: str | None, limit: float) -> int:
    """Repairs the plan by what log.csv says has happened: who moves, from when to when, and what that costs. `tw accept` then makes it
    the plan.

    Of all plans that are still possible it carries the most, and of those that do it moves the fewest ships. Nothing is put before the
    time that it is now, and what has sailed stays. The status is that of `tw plan`.

    \b
    Example: tw replan --now 13:45
    """
    place = place_of(folder, day, program)
    plan = standing(place)
    if plan is None:
        raise Refused("there is no plan of this day yet: `tw plan` makes one")
    with alone(place.store):
        runs = Runs(place.store, place.program, at_once=1, second=False)
        try:
            watch = watched(place, runs, plan, now)
            number, noted = repaired(place, runs, plan, watch, limit)
            answer = answered(place, runs, plan, watch, number, [*changed(place, runs, plan), *noted])
        finally:
            runs.close()
    if as_json:
        say_json(answer)
    else:
        say_replan(answer)
    return status_of(answer)


def changed(place: Place, runs: Runs, plan: sqlite3.Row) -> list[str]:
    """Whether the folder's files say something else than when the plan was made."""
    own = own_inputs(place.store, runs.get(plan["run"]))
    same = place.store.get(own.instance) == place.folder.instance.encode() and place.store.get(own.tides) == place.folder.tides.encode()
    return [] if same else [f"the folder's files were changed since plan {plan['number']} was made; its repair takes them as they were then"]
