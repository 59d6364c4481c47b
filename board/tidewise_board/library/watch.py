"""Shows what a certificate has so far, and what comes while a run writes it: timetables, bounds, and each hundredth lemma.

    watch.sh PROOF [PID]

It ends at the line that closes the certificate, when the process PID has ended, or at Ctrl-C. A timetable has a slot for
each ship, in order. A bound is in tonnes: no permitted timetable carries more.
"""
from __future__ import annotations

import os
import re
import sys
import time
from collections.abc import Iterator

from .results import tonnes

USAGE = "usage: watch.sh PROOF [PID]"
PAUSE = 0.1
MOST_READ = 1 << 20
# The lines that count: those with nothing after them but what is matched are clauses without literals, and close a certificate.
TIMETABLE = re.compile(rb"t ([0-9 ]+)")
BOUND = re.compile(rb"b ([0-9]{1,18})")
CLOSING = re.compile(rb"l ;.*|[gp]|e [0-9]+|o [0-9]+ [0-9]+ [0-9]+", re.DOTALL)


def is_running(pid: int) -> bool:
    """Whether there is a process of this number."""
    try:
        os.kill(pid, 0)
    except ProcessLookupError:
        return False
    except PermissionError:
        pass
    return True


class Follower:
    """A file that grows: its lines as they are written, from the beginning again where it was replaced or cut."""

    def __init__(self, path: str) -> None:
        self.path, self.inode, self.position, self.rest = path, -1, 0, b""

    def more(self) -> bytes:
        """What was written since, at most a part; nothing where there is no such file."""
        try:
            with open(self.path, "rb") as file:
                found = os.fstat(file.fileno())
                if found.st_ino != self.inode or found.st_size < self.position:
                    self.inode, self.position, self.rest = found.st_ino, 0, b""
                file.seek(self.position)
                data = file.read(MOST_READ)
        except OSError:
            return b""
        self.position += len(data)
        return data

    def lines(self, pid: int | None) -> Iterator[bytes]:
        """The whole lines, until a process has ended and nothing more is there."""
        while True:
            running = pid is None or is_running(pid)
            data = self.more()
            *whole, self.rest = (self.rest + data).split(b"\n")
            yield from whole
            if not data:
                if not running:
                    return
                time.sleep(PAUSE)


def shown(lines: Iterator[bytes]) -> Iterator[str]:
    """What is said of the lines of a certificate."""
    lemmas = 0
    for line in lines:
        if line.startswith(b"l "):
            lemmas += 1
            if lemmas % 100 == 0:
                yield f"lemmas {lemmas}"
        timetable, bound = TIMETABLE.fullmatch(line), BOUND.fullmatch(line)
        if timetable:
            yield f"lemmas {lemmas}: timetable {timetable[1].decode()}"
        elif bound:
            yield f"lemmas {lemmas}: bound {tonnes(int(bound[1]))}"
        elif CLOSING.fullmatch(line):
            yield f"lemmas {lemmas}: closed"
            return
    yield f"lemmas {lemmas}: the run has ended"


def main(words: list[str]) -> None:
    """What the script watch.sh does with its words."""
    if not 1 <= len(words) <= 2 or not all(re.fullmatch("[0-9]{1,9}", word) for word in words[1:]):
        sys.exit(USAGE)
    try:
        for line in shown(Follower(words[0]).lines(int(words[1]) if words[1:] else None)):
            print(line, flush=True)
    except (KeyboardInterrupt, BrokenPipeError):
        # Nothing is left to be flushed.
        os._exit(0)


if __name__ == "__main__":
    main(sys.argv[1:])
