"""A bundle is checked: each part of it is made anew from the inputs and the certificate, and compared."""
from __future__ import annotations

import csv
import io
import json
import os
import subprocess
import sys
import tempfile
from dataclasses import dataclass

from ..library import CHECKER
from .bundle import Opened, calendar, opened, words_of
from .days import make, source_of
from .facts import port_of
from .program import Program, Text, Word
from .reading import Unread, Verdict, verdict_of
from .runs import SECOND_PATIENCE

INPUTS = ("day.json", "tides.csv", "plan.txt", "certificate")
# A part that nothing was said of, since the inputs of this bundle don't have it.
NOT_FOR_REPAIRS = "not for a repair: the second checker takes no plan"


@dataclass(frozen=True)
class Part:
    """A file of a bundle that is no input, and whether it is the one that these inputs make. None: nothing can be said."""
    name: str
    good: bool | None
    said: str


@dataclass(frozen=True)
class Audited:
    """What was found: the line of `verify`, what the second checker printed, and each part. `names` are the inputs in the store."""
    bundle: Opened
    line: str
    said: Verdict | None
    second: str
    parts: list[Part]
    picture: str | None
    names: dict[str, str]

    @property
    def agrees(self) -> bool:
        return self.said is not None and self.bundle.said() == self.line

    @property
    def repair(self) -> bool:
        return "plan.txt" in self.bundle.files


def audited(program: Program, data: bytes) -> Audited:
    """Checks a bundle with this program; `NoBundle` where it is none."""
    bundle = opened(data)
    files, store = bundle.files, program.store
    names = {name: store.put(files[name]) for name in INPUTS if name in files}
    words: list[Word] = [Text(names[word], word) if word in names else word for word in words_of(files).split(" ")]
    line = program.ask(*words, fresh=True).output.strip()
    try:
        said = verdict_of(line + "\n")
    except Unread:
        return Audited(bundle, line, None, second(files), [], None, names)
    picture = printed(program, "chart", *words[1:])
    table = printed(program, "table", *words[1:])
    parts = [same("picture.svg", files, picture, "drawn again from its certificate"), same("table.csv", files, table, "made again from its certificate"),
             calendar_part(program, files, names, table, line), source_part(program, files)]
    return Audited(bundle, line, said, second(files), [part for part in parts if part is not None], picture, names)


def printed(program: Program, *words: Word) -> str | None:
    answer = program.ask(*words, fresh=True)
    return answer.output if answer.status < 3 else None


def same(name: str, files: dict[str, bytes], made: str | None, how: str) -> Part | None:
    if name not in files:
        return None
    good = made is not None and files[name] == made.encode()
    return Part(name, good, f"{name} is {'' if good else 'not '}the one {how}")


def calendar_part(program: Program, files: dict[str, bytes], names: dict[str, str], table: str | None, line: str) -> Part | None:
    if "sailings.ics" not in files:
        return None
    rows = list(csv.DictReader(io.StringIO(table or "", newline="")))
    made = calendar(port_of(program, names["day.json"]), rows, line, names["certificate"])
    return same("sailings.ics", files, made, "made again from its table")


def source_part(program: Program, files: dict[str, bytes]) -> Part | None:
    """Whether the sources, as a planner wrote them, make the two inputs."""
    if "source.json" not in files:
        return None
    try:
        made = make(source_of(json.loads(files["source.json"])), program)
        good = (made.instance or "").encode() == files["day.json"] and (made.tides or "").encode() == files["tides.csv"]
    except (ValueError, RecursionError):
        good = False
    return Part("source.json", good, f"source.json {'makes' if good else 'does not make'} this day.json and this tides.csv")


def second(files: dict[str, bytes]) -> str:
    """What the second checker prints of these files, which it reads from a folder of its own."""
    if "plan.txt" in files:
        return NOT_FOR_REPAIRS
    with tempfile.TemporaryDirectory() as folder:
        paths = []
        for name in ("day.json", "tides.csv", "certificate"):
            paths.append(os.path.join(folder, name))
            with open(paths[-1], "wb") as file:
                file.write(files[name])
        try:
            return subprocess.run([sys.executable, "-I", CHECKER, "port", *paths], capture_output=True, text=True, timeout=SECOND_PATIENCE,
                                  check=False).stdout.strip()[:200] or "no answer"
        except subprocess.TimeoutExpired:
            return f"not within {SECOND_PATIENCE} seconds"
