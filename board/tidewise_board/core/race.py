"""A race: several searches of one day at once, each by its own seed. The first that closes the day ends the others."""
from __future__ import annotations

import os
import threading
import time
from collections.abc import Callable

from .program import Failed
from .reading import Unread
from .runs import Inputs, Runs
from .store import Damaged

# Seconds that the first search has for itself: most days are planned within them.
HEAD_START = 1.0
BEAT = 0.05


def idle(runs: Runs) -> int:
    """How many processors of this machine nobody is using, at least one: neither runs of the board nor, by the load of the last minute,
    anything else."""
    busy = max(len(runs.followers), int(os.getloadavg()[0]))
    return max(1, len(os.sched_getaffinity(0)) - busy)


def begin(runs: Runs, day: int, inputs: Inputs, label: str, budget: int, input_id: int | None = None) -> int:
    """Begins the search without a seed, and after its head start one on each idle processor. Returns the number of the first."""
    return join(runs, lambda: runs.begin(day, inputs, "plan", label, budget, input_id))


def join(runs: Runs, first: Callable[[], int]) -> int:
    """The same of a run of any kind, which `first` begins; it is no run that goes on from a certificate."""
    with runs.lock:
        leader = first()
        runs.races.add(leader)
    threading.Thread(target=_race, args=(runs, leader), name=f"race-{leader}", daemon=True).start()
    return leader


def members(runs: Runs, leader: int) -> list[int]:
    """The runs of a race, the first one first; of a run that began none, the run alone."""
    return [leader, *(row["id"] for row in runs.store.rows("SELECT id FROM run WHERE race = ? AND id <> ? ORDER BY id", leader, leader))]


def winner(runs: Runs, leader: int) -> int:
    """The run that stands for a race that has ended: the one that isn't of kind `race`."""
    row = runs.store.row("SELECT id FROM run WHERE race = ? AND kind <> 'race'", leader)
    return int(row["id"]) if row else leader


def now(runs: Runs, numbers: list[int]) -> list[float | int | None] | None:
    """How far several searches are together, as they claim: seconds and lemmas of the first, the greatest cargo, the least bound."""
    points = [follower.now() for number in numbers if (follower := runs.followers.get(number)) is not None]
    if not points:
        return None
    best = max((point.best for point in points if point.best is not None), default=None)
    bound = min((point.bound for point in points if point.bound is not None), default=None)
    return [*points[0].listed()[:2], best, bound]


def stop(runs: Runs, leader: int) -> None:
    """Stops all searches of a race; what each wrote is verified."""
    for number in members(runs, leader):
        runs.stop(number)


def _race(runs: Runs, leader: int) -> None:
    try:
        if not _early(runs, leader):
            run = runs.get(leader)
            for seed in range(1, idle(runs) + 1):
                runs.begin_seeded(run, seed)
            _follow(runs, leader)
        settle(runs, leader)
    finally:
        runs.races.discard(leader)


def _early(runs: Runs, leader: int) -> bool:
    """Whether the first search ended within its head start, was stopped, or the board ends."""
    end = None
    while True:
        state = runs.get(leader)["state"]
        if runs.over(leader) or leader in runs.asked or runs.ending:
            return True
        if state == "running":
            end = end or time.monotonic() + HEAD_START
            if time.monotonic() > end:
                return False
        time.sleep(BEAT)


def _follow(runs: Runs, leader: int) -> None:
    """Waits for all searches, and stops the rest once one has closed the day."""
    while True:
        numbers = members(runs, leader)
        open_now = [number for number in numbers if not runs.over(number)]
        if not open_now:
            return
        if leader in runs.asked or runs.ending or any(_closed(runs, number) for number in numbers if number not in open_now):
            for number in open_now:
                runs.stop(number)
        time.sleep(BEAT)


def _closed(runs: Runs, number: int) -> bool:
    rank = _rank(runs, number)
    return rank is not None and rank[0]


def _rank(runs: Runs, number: int) -> tuple[bool, int, int] | None:
    """How good an ended run is: closed ones first, then the greatest cargo, then the least bound."""
    try:
        verdict = runs.verdict(number)
    except (Unread, Failed, Damaged, OSError):
        return None
    if verdict is None:
        return None
    return verdict.closed, verdict.cargo if verdict.cargo is not None else -1, -verdict.bound if verdict.bound is not None else -(1 << 62)


def settle(runs: Runs, leader: int) -> int:
    """Lets the best run of a race stand, and returns its number; the others stay as they are, under another kind. The second checker is
    asked of it alone."""
    ranked = [(rank, -number) for number in members(runs, leader) if (rank := _rank(runs, number)) is not None]
    before = winner(runs, leader)
    best = -max(ranked)[1] if ranked else before
    if best != before:
        kind = runs.get(before)["kind"]
        with runs.store.change() as db:
            db.execute("UPDATE run SET kind = 'race', race = ? WHERE id = ?", (leader, before))
            db.execute("UPDATE run SET kind = ? WHERE id = ?", (kind, best))
    runs.second_opinion(best)
    return best


def take_up(runs: Runs) -> None:
    """Settles the races that an earlier board left under way."""
    for row in runs.store.rows("SELECT DISTINCT race FROM run WHERE race IS NOT NULL AND state = 'interrupted'"):
        settle(runs, row["race"])
