"""Checks a crate with its edits, over a copy, and judges what the prover says of each."""
from __future__ import annotations

import pathlib
import re
import shutil
import subprocess
import sys
import tempfile
from collections.abc import Iterator

import crate_list
from edits import PARTS, BadEdit, Crate, Edit, Function, Group, only

REFUSED, THROUGH, BAD = "refused", "got through", "bad"

OPEN_GOAL = re.compile(r"note: (?:\./)?(src/\S+?):(\d+):\d+: (.*)")
PROOF_ERROR = re.compile(r"(?:\./)?(src|specs|proofs)/\S+: error: ")
FUNCTION_LINE = re.compile(r"fn (\S+): (.*)")
ONLY_BY_CALLS = re.compile(r"which (is|are) not proved|depends on a hole")
LOST_NAME = re.compile(r"(?:note: )?(?:\./)?proofs/\S+: .*(has no field|is not in scope|has no `|was not admitted)")
UNREAD = re.compile(r"(?:\./)?(src|specs)/\S+:\d+:\d+: error: (?!`).*|"
                    r"(?:\./)?(src|specs)/\S+: .*(is not in scope|has no field|is no name|cannot continue)")
LIMIT = re.compile(r"antt ran out of|outgrew the memory limit|stopped at the step limit")

Outcome = tuple[Edit, str, str]
"""An edit, what came of it, and by what."""


def link_all(one: pathlib.Path, other: pathlib.Path) -> None:
    """Copies a folder, if it is there, by hard links."""
    if one.is_dir():
        other.parent.mkdir(parents=True, exist_ok=True)
        subprocess.run(["cp", "-al", one, other], check=True)


class Copy:
    """A tree of a crate and those below it, of links except for the crate's own texts. A check replaces files in out/ and
    changes none."""

    def __init__(self, crate: Crate) -> None:
        self.top = pathlib.Path(tempfile.mkdtemp(prefix="tidewise-try-"))
        self.folder = self.top / "crates" / crate.name
        listed = crate_list.listed(crate.top / "crates.txt")
        below = crate_list.below(crate.name, listed)
        for name in below:
            for part in (*PARTS, "out/rlib"):
                link_all(crate.top / "crates" / name / part, self.top / "crates" / name / part)
        rows = [f"{name}: {' '.join(listed[name])}\n" for name in (*sorted(below), crate.name)]
        (self.top / "crates.txt").write_text("".join(rows))
        shutil.copy(crate.top / "HANDLES", self.top)
        link_all(crate.folder / "out", self.folder / "out")
        for part in PARTS:
            if (crate.folder / part).is_dir():
                shutil.copytree(crate.folder / part, self.folder / part)

    def check(self, texts: dict[str, str], flags: list[str]) -> tuple[int, list[str]]:
        """The status of a check with these texts in place of the crate's own, and the lines that it printed."""
        was = {file: (self.folder / file).read_text() for file in texts}
        self.write(texts)
        ran = subprocess.run(["rt", "check", "--allow-holes", *flags], cwd=self.folder, stdin=subprocess.DEVNULL,
                             stdout=subprocess.PIPE, stderr=subprocess.STDOUT, text=True, errors="replace")
        self.write(was)
        return ran.returncode, ran.stdout.splitlines()

    def write(self, texts: dict[str, str]) -> None:
        for file, text in texts.items():
            (self.folder / file).write_text(text)

    def remove(self) -> None:
        shutil.rmtree(self.top)


def fault_of(function: Function, crate: str, lines: list[str]) -> str | None:
    """What the check says against the function itself and its proof, if anything."""
    for line in lines:
        found = OPEN_GOAL.match(line)
        if found and found[1] == function.file and function.first <= int(found[2]) <= function.last:
            return found[3]
    parts = [*function.module(), r"(?:\w+/)*" + function.name]
    if function.owner:
        parts = [r"(?:\w+/)*" + function.owner, function.name]
    path = re.compile("::".join([crate, *parts]).replace("/", "::"))
    said = [found[2] for found in map(FUNCTION_LINE.match, lines) if found and path.fullmatch(found[1])]
    if len(said) != 1 or not said[0].startswith(("not proved", "no proof")):
        return None
    proof = re.compile(r"(?:\./)?" + "/".join(["proofs", *parts]) + r"/\w+\.antt:\d+:\d+: error: ")
    errors = [line for line in lines if proof.match(line)]
    if whole := [line for line in errors if not LOST_NAME.match(line)]:
        return "its proof no longer fits: " + proof.sub("", whole[0])
    return None if errors or ONLY_BY_CALLS.search(said[0]) else said[0]


def is_judged(lines: list[str]) -> bool:
    return any(line.startswith(("logic=", "holes=", "only=")) for line in lines)


def judged_alone(status: int, lines: list[str]) -> tuple[str, str]:
    """What came of an edit that was checked alone, and by what."""
    if status == 0:
        return THROUGH, "all is still proved"
    unread = next((line for line in lines if UNREAD.match(line)), None)
    if unread or not is_judged(lines):
        limit = next((line for line in lines if LIMIT.search(line)), None)
        if limit and not unread:
            return REFUSED, f"only by a limit of the prover: {limit}"
        error = next((line for line in lines if re.search(r"\berror\b", line)), f"its check ended with status {status}")
        return BAD, unread or error
    faults = [line for line in lines if OPEN_GOAL.match(line) or PROOF_ERROR.match(line)]
    whole = [line for line in faults if not LOST_NAME.match(line)]
    if faults and not whole:
        return BAD, f"only a proof that names what the edit took away fails: {faults[0]}"
    unproved = [line for line in lines if FUNCTION_LINE.match(line) and (": no proof" in line or ": not proved" in line)]
    fault = next(iter(whole + unproved), None)
    if fault is None:
        return BAD, f"its check ended with status {status}, and names no function"
    goal = OPEN_GOAL.match(fault)
    return REFUSED, goal[3] if goal else fault


def tried_together(crate: Crate, copy: Copy, group: Group) -> Iterator[tuple[Edit, str | None]]:
    """Each edit of a group with what the check of all says against it alone, if anything."""
    _, lines = copy.check(group.texts, only([group.functions]))
    for edit in group.edits:
        faults = [fault_of(function, crate.name, lines) for function in crate.functions_of(edit) or ()]
        yield edit, next(filter(None, faults), None) if is_judged(lines) else None


def tried(crate: Crate, edits: list[Edit]) -> Iterator[Outcome]:
    """Each edit with what came of it."""
    copy = Copy(crate)
    alone: list[Edit] = []
    try:
        for group in crate.grouped(edits):
            if len(group.edits) == 1:
                alone += group.edits
                continue
            for edit, fault in tried_together(crate, copy, group):
                if fault:
                    yield edit, REFUSED, fault
                else:
                    alone.append(edit)
        for edit in alone:
            yield edit, *judged_alone(*copy.check(crate.applied(edit, {}), only([crate.functions_of(edit)])))
    finally:
        copy.remove()


def results_of(crate: Crate, only_look: bool) -> Iterator[Outcome]:
    """What comes of a crate's edits; only those that can't be applied where they are only looked at."""
    sound, bad = crate.sound_edits()
    yield from ((edit, BAD, reason) for edit, reason in bad)
    if only_look or not sound:
        return
    flags = only([group.functions for group in crate.grouped(sound)])
    ran = subprocess.run(["rt", "check", *flags], cwd=crate.folder, stdout=subprocess.DEVNULL, stderr=subprocess.DEVNULL)
    if ran.returncode:
        yield from ((edit, BAD, "it isn't proved as it stands: rt check says why") for edit in sound)
    else:
        yield from tried(crate, sound)


def crates_of(top: pathlib.Path, names: list[str]) -> list[Crate]:
    """The crates of these names, or all that have edits. Raises `BadEdit` where there is no such crate."""
    crates = {path.name: Crate(top, path.name) for path in sorted((top / "crates").iterdir()) if path.is_dir()}
    if lacking := [name for name in names if name not in crates]:
        raise BadEdit(f"{lacking[0]} is no crate")
    if lost := [path.name for path in (top / "evidence" / "edits").glob("*") if path.name not in crates]:
        raise BadEdit(f"evidence/edits/{lost[0]}: there is no such crate")
    return [crates[name] for name in names] or [it for it in crates.values() if it.edits()]


def main(words: list[str], top: pathlib.Path) -> int:
    """Tries, or looks at, the edits that these words ask for, and prints what came of each. Returns the status."""
    only_look = "--look" in words
    try:
        crates = crates_of(top, [word for word in words if word != "--look"])
    except BadEdit as error:
        print(error, file=sys.stderr)
        return 1
    count = {REFUSED: 0, THROUGH: 0, BAD: 0}
    for crate in crates:
        for edit, outcome, reason in results_of(crate, only_look):
            count[outcome] += 1
            print(f"{crate.name}/{edit.name}: {outcome}: {reason[:200]}", flush=True)
    if only_look:
        print(f"{sum(len(crate.edits()) for crate in crates)} edits, {count[BAD]} of them bad")
    else:
        print(f"{count[REFUSED]} refused, {count[THROUGH]} got through, {count[BAD]} bad")
    return 1 if count[THROUGH] or count[BAD] else 0
