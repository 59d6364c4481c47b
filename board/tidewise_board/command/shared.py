"""A day that is shared out: in parts on this machine, or as an array of Slurm, and what its tasks leave."""
from __future__ import annotations

import os
import shutil
import time

from ..core.parts import DAY, SPLIT, START, TIDES, Begun, Share, Work, begin, join, search, write_array
from ..core.runs import Runs
from ..library.faults import Refused
from .common import Place, warn
from .day import Frozen
from .following import ended_by_signals

KEPT = (DAY, TIDES, SPLIT, START)
# The most parts that are named where they are missing.
MOST_NAMED = 20


def in_parts(runs: Runs, frozen: Frozen, label: str, limit: float, share: Share) -> int:
    """Plans the day in parts, as many at once as there are processors, and returns the run that stands for them."""
    began = time.monotonic()
    number, folder = runs.begin_by_hand(frozen.day, frozen.inputs, label, share.budget, frozen.input)
    with ended_by_signals() as ended:
        work = Work(runs.program, folder, lambda: ended.asked or time.monotonic() - began > limit)
        try:
            begun = begin(work, runs.store.get(frozen.inputs.instance), runs.store.get(frozen.inputs.tides), share)
            if begun.count:
                search(work, begun, share, len(os.sched_getaffinity(0)))
                join(work, begun.count)
        finally:
            stopped = work.ended()
            work.close()
            runs.end_by_hand(number, not stopped)
    return number


def make_array(place: Place, path: str, program: str, share: Share) -> Begun:
    """Makes a folder with the day's parts and the script of their array; it must not be there yet, since two arrays in one folder would
    write the same names."""
    found = shutil.which(program)
    try:
        os.mkdir(path)
    except FileExistsError:
        raise Refused(f"{path} is there already: name a folder that is to be made") from None
    try:
        with ended_by_signals() as ended:
            work = Work(place.program, os.path.abspath(path), lambda: ended.asked)
            try:
                begun = begin(work, place.folder.instance.encode(), place.folder.tides.encode(), share)
            finally:
                work.close()
        if ended.asked:
            raise Refused("ended before there were parts")
        if not begun.count:
            raise Refused(f"the first search closes this day, with {share.prelude} lemmas or less: plan it without an array")
        for name in os.listdir(path):
            if name not in KEPT:
                os.unlink(os.path.join(path, name))
        write_array(begun, os.path.realpath(found or program), share)
        return begun
    except BaseException:
        shutil.rmtree(path)
        raise


def parts_in(place: Place, path: str) -> int:
    """How many parts an array has; `Refused` where it is no array of this day as it is now."""
    for name, data in ((DAY, place.folder.instance), (TIDES, place.folder.tides)):
        with open(os.path.join(path, name), "rb") as file:
            if file.read() != data.encode():
                raise Refused(f"{path} is an array of another day, or the port's files were changed since")
    with open(os.path.join(path, SPLIT), "rb") as file:
        return file.read().split(b"\n").count(b"p")


def joined(place: Place, runs: Runs, frozen: Frozen, path: str) -> int:
    """Joins what the tasks of an array have left, and returns the run that stands for them. A part without a certificate stays open."""
    count = parts_in(place, path)
    names = [f"part-{part}.cert" for part in range(1, count + 1)]
    missing = [str(part) for part, name in enumerate(names, 1) if not os.path.exists(os.path.join(path, name))]
    if missing:
        warn(f"no certificate yet of part {', '.join(missing[:MOST_NAMED])}{' ..' if len(missing) > MOST_NAMED else ''}: open")
    number, folder = runs.begin_by_hand(frozen.day, frozen.inputs, f"plan of {place.folder.day}, in parts", 1, frozen.input)
    work = Work(runs.program, folder, lambda: False)
    done = False
    try:
        for name in [*KEPT, *names]:
            if os.path.exists(os.path.join(path, name)):
                shutil.copyfile(os.path.join(path, name), os.path.join(folder, name))
        join(work, count)
        done = True
    finally:
        work.close()
        runs.end_by_hand(number, done)
    return number
