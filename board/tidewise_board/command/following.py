"""A search as it runs: how far it is, on a terminal, and its end at a limit or where somebody asks for it."""
from __future__ import annotations

import signal
import sys
import time
from collections.abc import Iterator
from contextlib import contextmanager
from types import FrameType

from ..core import race
from ..core.reading import tonnes
from ..core.runs import Runs
from .common import terminal

# How often a search is looked at, in seconds: often at first, since most days are planned at once.
BEATS = (0.01, 0.1)
WIDTH = 78


class Ended:
    """Whether somebody asked for the end: Ctrl-C, a closed terminal, or `kill`."""

    def __init__(self) -> None:
        self.asked = False

    def ask(self, number: int, frame: FrameType | None) -> None:
        self.asked = True


@contextmanager
def ended_by_signals() -> Iterator[Ended]:
    """What would end `tw` asks for the end of its runs instead, so that what they have found is kept."""
    ended = Ended()
    before = {one: signal.signal(one, ended.ask) for one in (signal.SIGINT, signal.SIGTERM, signal.SIGHUP)}
    try:
        yield ended
    finally:
        for one, handler in before.items():
            signal.signal(one, handler)


def gap_words(best: int | None, bound: int | None) -> str:
    """How far a search is, as it claims: the best cargo, the bound, and what may be missing. Values are tenths of a tonne."""
    said = "no plan yet" if best is None else f"best {tonnes(best)} t"
    if bound is not None:
        said += f", at most {tonnes(bound)} t"
    if best is not None and bound:
        said += f", gap {max(0, bound - best) / bound:.2%}"
    return said


def whole(value: float | int | None) -> int | None:
    return None if value is None else int(value)


def follow(runs: Runs, leader: int, limit: float, ended: Ended) -> None:
    """Waits for a race or a single run, and stops it at the limit, in seconds, or where that was asked for. On a terminal a line on standard
    error says how far it is."""
    began, shown = time.monotonic(), False
    while leader in runs.races or not runs.over(leader):
        past = time.monotonic() - began
        if ended.asked or past > limit:
            race.stop(runs, leader)
        if terminal() and (now := race.now(runs, race.members(runs, leader))):
            sys.stderr.write(f"\r{f'{past:5.0f} s  {gap_words(whole(now[2]), whole(now[3]))}':<{WIDTH}}")
            sys.stderr.flush()
            shown = True
        time.sleep(BEATS[past > 1])
    if shown:
        sys.stderr.write(f"\r{'':<{WIDTH}}\r")
        sys.stderr.flush()
    trouble = runs.trouble(leader)
    if trouble is not None:
        raise trouble
