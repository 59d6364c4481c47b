"""`tw verify`: whether a published file is what it claims to be."""
from __future__ import annotations

import tempfile

import click

from ..core.audited import Audited, audited
from ..core.bundle import MOST, NoBundle
from ..core.program import Program
from ..core.shown import audit_words, build_words
from ..core.store import Store
from ..library.faults import Refused
from .common import JSON, PROGRAM, program_of, say, say_json
from .day import STATUS, figures

REFUSED = 5
MEANS = ("Of the port in these files the timetable is permitted and carries what is said, and where it is best no permitted timetable"
         " carries more: whoever wrote the certificate, and however the plan was found.")
BELIEVED = ["that these are the files that were meant, and that the rules in docs/FORMATS.md, \"From a port to its problem\", are your port's",
            "that depths and tide are right: the program only reads them",
            "the prover and compiler, the C library, and the 300 lines that read files; with the second checker not even these, unless both make"
            " the same mistake"]


def read(path: str) -> bytes:
    with open(path, "rb") as file:
        data = file.read(MOST + 1)
    if len(data) > MOST:
        raise Refused(f"{path} is too large for a published file")
    return data


def steps(found: Audited, program: Program) -> list[tuple[bool | None, str]]:
    """What was done, and whether it went well; None where nothing can be said."""
    bundle = found.bundle
    wrong = [name for name, good in bundle.sums if not good]
    return [(bundle.sound, f"the sums of {len(bundle.sums)} files are those in SHA256SUMS" + (f", but not of {', '.join(wrong)}" if wrong else "")),
            (found.agrees, f"verify says {found.line}" + ("" if found.agrees else f", and the file claims {bundle.said() or 'nothing'}")),
            (None if found.second.startswith(("not ", "no answer")) else found.second == found.line, f"the second checker says {found.second}"),
            *((part.good, part.said) for part in found.parts),
            (program.trusted or None, f"checked by {build_words(program)}, {program.digest}")]


@click.command(name="verify")
@click.argument("bundle", type=click.Path(dir_okay=False))
@JSON
@PROGRAM
def command(bundle: str, as_json: bool, program: str) -> int:
    """Checks a published file: its sums, the certificate by the program and by a second checker, and that picture, table and calendar are
    what these make. Nothing but the file is read.

    The status is that of the verdict, 0, 1 or 2; it is 5 where anything isn't what it claims to be, and nothing is then said of the plan.

    \b
    Example: tw verify plan-1.zip
    """
    data = read(bundle)
    with tempfile.TemporaryDirectory() as room:
        made = program_of(program, Store(room))
        try:
            found = audited(made, data)
        except NoBundle as cause:
            raise Refused(f"{bundle} is no published file: {cause}") from None
        seal, headline, meaning = audit_words(found, made.trusted)
        done = steps(found, made)
        believed = [*BELIEVED, f"that the program which says so is the one meant: {made.digest}"]
    good = found.said is not None and seal != "nothing"
    if as_json:
        say_json({"headline": headline, "seal": seal if good else "", "verdict": found.line if good else None, "meaning": meaning,
                  **figures(found.said if good else None), "steps": [{"good": good, "said": said} for good, said in done], "means": MEANS,
                  "believed": believed, "program": {"version": made.version, "sha256": made.digest, "said": build_words(made)}})
    else:
        say(headline)
        say(meaning)
        say()
        for right, said in done:
            say(f"{'–' if right is None else 'yes' if right else 'NO':<3}  {said}")
        say()
        say(f"What the yes means. {MEANS}" if good else "Nothing is said of this plan.")
        say("What must be believed:")
        for line in believed:
            say(f"  {line}")
    return STATUS[found.said.word] if good and found.said else REFUSED
