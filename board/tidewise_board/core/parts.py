"""One hard day in parts: a first timetable, a split of what is left, the parts side by side or as an array of Slurm, and their certificates
joined into one, which `verify` checks like any other. Nothing is asked of the parts but their certificates."""
from __future__ import annotations

import os
import re
import shlex
import shutil
import subprocess
import time
from collections.abc import Callable
from dataclasses import dataclass
from pathlib import Path

from .program import NO_ENVIRONMENT, Failed, Program
from .progress import whole_lines
from .runs import end

# Statuses of the program: the day is closed, or its budget was spent.
CLOSED, OPEN = (0, 1), 2
BEAT = 0.05
STEP_PATIENCE = 3600
SPLIT, START, PRELUDE, PROOF, CERTS = "split", "start", "prelude", "proof", "certs"
DAY, TIDES = "day.json", "tides.csv"
SUBJECT = ("port", DAY, TIDES)
ARRAY = """#!/bin/bash
#SBATCH --job-name=tidewise-part
#SBATCH --array=1-{count}
#SBATCH --ntasks=1
#SBATCH --output=part-%a.out
# The parts of one hard day, a task for each. Submit it in its folder, which all nodes see, by `sbatch --wait array.sh`; the program must be the
# same on each node. `tw plan --join FOLDER` makes one certificate of what the tasks leave. A part that spends its budget isn't a failed task.
[ -n "${{SLURM_JOB_ID:-}}" ] || cd "$(dirname "$0")" || exit 9
n=$SLURM_ARRAY_TASK_ID
[ -f {split} ] || {{ echo "there is no {split} in $PWD: is this the folder of array.sh?" >&2; exit 6; }}
# Each array writes to names of its own, and a whole certificate then takes its place.
mine=part-$n-${{SLURM_ARRAY_JOB_ID:-$$}}.tmp
{program} part port {day} {tides} {split} "$n" {start} {budget} "$mine"
status=$?
[ $status = 0 ] || [ $status = 2 ] || {{ rm -f "$mine"; exit $status; }}
mv -- "$mine" "part-$n.cert"
"""


@dataclass(frozen=True)
class Share:
    """How a day is shared out: how many parts at most, the lemmas of the first search and those of each part."""
    parts: int
    prelude: int
    budget: int


@dataclass(frozen=True)
class Begun:
    """A day that was shared out in a folder: how many parts there are, 0 where the first search has closed it."""
    folder: str
    count: int


class Work:
    """Runs of the program in one folder, all of which end with it."""

    def __init__(self, program: Program, folder: str, ended: Callable[[], bool]) -> None:
        self.program, self.folder, self.ended = program, folder, ended
        self.running: dict[int, subprocess.Popen[bytes]] = {}

    def path(self, name: str) -> str:
        return os.path.join(self.folder, name)

    def start(self, words: list[str], output: str) -> subprocess.Popen[bytes]:
        with open(self.path(output), "wb") as file:
            return subprocess.Popen([self.program.path, *words], cwd=self.folder, stdin=subprocess.DEVNULL, stdout=file, stderr=subprocess.DEVNULL,
                                    env=NO_ENVIRONMENT, umask=0o077, start_new_session=True)

    def step(self, words: list[str], output: str) -> int:
        """One run to its end; it is ended where that was asked for."""
        process = self.start(words, output)
        self.running[0] = process
        began = time.monotonic()
        asked = None
        while process.poll() is None:
            if self.ended() or time.monotonic() - began > STEP_PATIENCE:
                asked = asked or time.monotonic()
                end(process, asked)
            time.sleep(BEAT)
        del self.running[0]
        return process.returncode

    def close(self) -> None:
        began = time.monotonic()
        while any(process.poll() is None for process in self.running.values()):
            for process in self.running.values():
                end(process, began)
            time.sleep(BEAT)
        self.running.clear()

    def said(self, name: str) -> str:
        with open(self.path(name), encoding="utf-8", errors="replace") as file:
            return file.read().strip()


def begin(work: Work, instance: bytes, tides: bytes, share: Share) -> Begun:
    """Searches for a first timetable, and splits what is left into parts. The certificate of that search is the day's own until there is a
    better one; there are no parts where it has closed the day."""
    Path(work.path(DAY)).write_bytes(instance)
    Path(work.path(TIDES)).write_bytes(tides)
    status = work.step(["prove", *SUBJECT, str(share.prelude), PRELUDE], "report")
    if status in CLOSED:
        os.replace(work.path(PRELUDE), work.path(PROOF))
        return Begun(work.folder, 0)
    if status != OPEN and not (status < 0 and work.ended()):
        raise Failed(f"prove ended with status {status}: {work.said('report')}")
    whole_lines(work.path(PRELUDE))
    shutil.copyfile(work.path(PRELUDE), work.path(PROOF))
    last = re.findall(rb"^t [0-9 ]+\n", Path(work.path(PRELUDE)).read_bytes(), re.MULTILINE)
    # Each part goes on from the best timetable alone: its certificate is the shorter, and so is the joined one.
    Path(work.path(START)).write_bytes(b"cert 3\n" + b"".join(last[-1:]))
    if work.ended():
        return Begun(work.folder, 0)
    status = work.step(["split", *SUBJECT, str(share.parts), START, SPLIT], "said")
    if status < 0 and work.ended():
        return Begun(work.folder, 0)
    if status != 0:
        raise Failed(f"split ended with status {status}: {work.said('said')}")
    return Begun(work.folder, Path(work.path(SPLIT)).read_bytes().split(b"\n").count(b"p"))


def search(work: Work, begun: Begun, share: Share, processes: int) -> None:
    """The parts side by side. What one leaves that was ended is kept by its whole lines."""
    waiting, asked = list(range(1, begun.count + 1)), None
    while waiting or work.running:
        if work.ended():
            asked = asked or time.monotonic()
            waiting.clear()
            for process in work.running.values():
                end(process, asked)
        while waiting and len(work.running) < processes:
            part = waiting.pop(0)
            work.running[part] = work.start(["part", *SUBJECT, SPLIT, str(part), START, str(share.budget), f"part-{part}.cert"], f"part-{part}.out")
        for part, process in list(work.running.items()):
            if process.poll() is not None:
                del work.running[part]
                finished(work, part, process.returncode)
        time.sleep(BEAT)


def finished(work: Work, part: int, status: int) -> None:
    path = work.path(f"part-{part}.cert")
    if status < 0 and work.ended():
        if os.path.exists(path):
            whole_lines(path)
            # One without a whole first line is no certificate.
            if os.path.getsize(path) == 0:
                os.unlink(path)
    elif status not in (CLOSED[0], OPEN):
        raise Failed(f"part {part} ended with status {status}: {work.said(f'part-{part}.out')}")


def join(work: Work, count: int) -> None:
    """Joins the certificates that there are into one; a part without one stays open."""
    with open(work.path(CERTS), "wb") as certs:
        for part in range(1, count + 1):
            if os.path.exists(work.path(f"part-{part}.cert")):
                certs.write(Path(work.path(f"part-{part}.cert")).read_bytes())
        if certs.tell() == 0:
            certs.write(Path(work.path(START)).read_bytes())
    status = Work(work.program, work.folder, lambda: False).step(["join", *SUBJECT, SPLIT, CERTS, "joined"], "report")
    if status not in (*CLOSED, OPEN):
        raise Failed(f"join ended with status {status}: {work.said('report')}")
    os.replace(work.path("joined"), work.path(PROOF))


def write_array(begun: Begun, program: str, share: Share) -> str:
    """The script of an array of Slurm over these parts."""
    path = os.path.join(begun.folder, "array.sh")
    text = ARRAY.format(count=begun.count, program=shlex.quote(program), day=DAY, tides=TIDES, split=SPLIT, start=START, budget=share.budget)
    with open(path, "x", encoding="utf-8") as file:
        file.write(text)
    os.chmod(path, 0o755)
    return path
