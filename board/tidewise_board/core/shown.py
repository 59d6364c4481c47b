"""What a page may say of a run. Only here a plan is called proved."""
from __future__ import annotations

import csv
import io
import json
import sqlite3
from typing import Any

from .audited import Audited
from .facts import Port, clocked, port_of
from ..library import whatif
from .program import Failed, Program, Text, Word
from .reading import Unread, Verdict, tonnes
from .runs import ENDED, Runs, inputs_of
from .store import Damaged

# What `verify` says, in plain words.
MEANINGS = {
    "optimal": "no permitted timetable carries more",
    "infeasible": "no timetable is permitted",
    "unfinished": "this timetable is permitted; nothing says that it is best",
}


# What is said where the operator has named no program.
NONE_NAMED = "no program is named: every answer says that it comes from an unproved build"
# The second checker's line is one of its own if it begins so.
SILENT = ("not within", "no answer")


def build_words(program: Program) -> str:
    """Which program answers here: its version, and whether its operator named these very bytes as proved."""
    return f"{program.version}, {'proved' if program.trusted else 'an unproved build'}"


def warning_words(program: Program) -> str:
    """What stands on each page of a program that nobody named, or that says of itself that it is unproved."""
    if program.unproved:
        return "The board calls nothing proved: this program says of itself that it was built without its proof."
    return (f"The board calls nothing proved: this program’s SHA-256, {program.digest[:12]}…, isn’t one that you named as that of a"
            " proved program.")


def headline(said: Verdict, proved: bool) -> str:
    """The words over a plan; `proved` is whether the program that said so is a proved one."""
    moved = "" if said.moved is None else f", {said.moved} moved"
    if said.word == "optimal" and said.cargo is not None:
        return f"{'Proved best' if proved else 'Best, says an unproved build'}: {tonnes(said.cargo)} t{moved}"
    if said.word == "infeasible":
        return "Nothing fits" + (", proved" if proved else ", says an unproved build")
    if said.cargo is None:
        return "No plan yet" + ("" if said.bound is None else f", at most {tonnes(said.bound)} t")
    return f"Not proved best: {tonnes(said.cargo)} t{moved}" + ("" if said.bound is None else f", at most {tonnes(said.bound)} t")


def meaning(said: Verdict, pins: dict[str, int], repair: bool) -> str:
    text = MEANINGS[said.word]
    if said.word == "unfinished" and said.bound is not None:
        text = f"none carries more than {tonnes(said.bound)} t" + ("" if said.cargo is None else "; this timetable is permitted")
    held = "with these ships held" if pins else "with what has happened" if repair else ""
    return f"{text}{', ' + held if held else ''}" + (", and none that carries as much moves fewer ships" if said.moved is not None
                                                     and said.word == "optimal" else "")


def audit_words(found: Audited, proved: bool) -> tuple[str, str, str]:
    """What an auditor's page says of a bundle: the seal, the headline and its meaning. Nothing is said of a bundle in which anything
    isn't what it claims to be."""
    if found.said is None:
        return "nothing", "Refused", "the certificate shows nothing of these files"
    faults = [part.said for part in found.parts if part.good is False]
    if not found.bundle.sound:
        faults.insert(0, "its sums aren't those of its files")
    if not found.agrees:
        faults.insert(0, f"it claims {found.bundle.said() or 'nothing'}, and verify says {found.line}")
    if not found.repair and not found.second.startswith(SILENT) and found.second != found.line:
        faults.insert(0, f"verify says {found.line}, but the second checker {found.second}")
    if faults:
        return "nothing", "Not as it claims", "; ".join(faults)
    return seal(proved, found.said), headline(found.said, proved), meaning(found.said, {}, found.repair)


def root_of(runs: Runs, run: sqlite3.Row) -> sqlite3.Row:
    """The plan or the repair from which pins began."""
    while run["kind"] == "pin" and run["base"] is not None:
        run = runs.get(run["base"])
    return run


def triple(said: Verdict | None) -> tuple[str, int | None, int | None]:
    return ("", None, None) if said is None else (said.word, said.cargo, said.bound)


def cost(base: Verdict | None, said: Verdict | None) -> str:
    """What one verdict has more than the other, as far as the two tell: a difference, or its limits."""
    if said is not None and said.word == "infeasible":
        return "nothing fits"
    return str(whatif.difference(triple(base), triple(said))) if base and said else ""


def costs_words(difference: str) -> str:
    """The difference of a pin or a what-if, in words."""
    if not difference or " " in difference:
        return difference
    if difference in ("0.0", "+0.0", "-0.0"):
        return "costs nothing"
    number = f"{float(difference[1:]):,.1f} t"
    return f"costs {number}" if difference[0] == "-" else f"wins {number}"


def worth(base: Verdict | None, said: Verdict | None, proved: bool) -> str:
    """What one verdict has more than the other, in words; they say that it is proved where a proved program closed both."""
    words = costs_words(cost(base, said))
    closed = base is not None and said is not None and base.closed and said.closed
    return f"{words}, proved" if words and proved and closed else words


def seal(proved: bool, *said: Verdict | None) -> str:
    """The mark of an answer that rests on these verdicts: none unless a proved program closed all of them."""
    return "proved" if proved and all(one is not None and one.closed for one in said) else ""


def outdated(runs: Runs, run: sqlite3.Row) -> bool:
    """Whether the day's sources were changed since a run froze them."""
    row = runs.store.row("SELECT day.draft, input.source FROM day, input WHERE day.id = ? AND input.id = ?", run["day"], run["input"])
    return row is not None and row["draft"] != row["source"]


def table_of(runs: Runs, run: sqlite3.Row) -> list[dict[str, str]]:
    """The records of `table`."""
    if run["cert"] is None:
        return []
    inputs = inputs_of(run)
    said = runs.program.ask("table", *inputs.form(), *inputs.words(), Text(run["cert"], "cert"))
    return list(csv.DictReader(io.StringIO(said.output, newline=""))) if said.status < 3 else []


def by_the_clock(rows: list[dict[str, str]], port: Port) -> list[dict[str, str]]:
    """The records of `table` for a page: times are the port's clock, also where the day has no start."""
    names = list(rows[0]) if rows else []
    times = {"time", *names[names.index("cargo t") + 1:]} if names else set()
    return [clocked(row, port, times) for row in rows]


def picture_words(run: sqlite3.Row) -> list[Word]:
    inputs = inputs_of(run)
    return ["chart", *inputs.form(), *inputs.words(), Text(run["cert"], "cert")]


def moves_of(runs: Runs, run: sqlite3.Row, port: Port) -> list[str]:
    """The lines of `explain repair` on moved ships and on what each wins or loses, in words."""
    if run["plan"] is None or run["cert"] is None:
        return []
    inputs, said = inputs_of(run), []
    for line in runs.program.ask("explain", *inputs.form(), *inputs.words(), Text(run["cert"], "cert")).output.splitlines():
        words = line.split(" ")
        if words[0] == "moved":
            old, new = (("stays" if word == "stay" else port.clock(int(word))) for word in words[2:4])
            said.append(f"{port.ships[int(words[1])]}: {old} → {new}")
        elif words[0] in ("won", "lost") and len(words) > 3:
            said.append(f"{port.ships[int(words[1])]} {'wins' if words[0] == 'won' else 'loses'} {float(words[2]):,.1f} t")
    return said


def shown(runs: Runs, number: int) -> dict[str, Any]:
    """All that a page shows of a run; what is said of its certificate was asked of `verify` just now, of the bytes that are kept."""
    run = runs.get(number)
    port = port_of(runs.program, run["instance"])
    pins = json.loads(run["pins"])
    said, line, fault = None, None, run["fault"]
    try:
        said = runs.verdict(number)
        line = runs.line_of(run, run["cert"]) if said else None
    except (Unread, Failed, Damaged) as cause:
        fault = f"{type(cause).__name__}: {cause}"
    second = run["second"]
    if said is not None and second and second != line and not second.startswith(SILENT):
        # Two checkers that differ: nothing is claimed until somebody has looked.
        said, fault = None, f"verify says {line}, but the second checker {second}"
    root = root_of(runs, run)
    base = runs.verdict(root["id"]) if root["id"] != number else None
    difference = worth(base, said, runs.program.trusted) if root["id"] != number else ""
    proved = runs.program.trusted and said is not None and said.closed
    follower = runs.followers.get(number)
    return {
        "id": number, "day": run["day"], "kind": run["kind"], "label": run["label"], "state": run["state"],
        "ended": run["state"] in ENDED, "fault": fault, "verdict": line,
        "headline": headline(said, runs.program.trusted) if said else "No plan", "proved": proved, "seal": seal(runs.program.trusted, said),
        "word": said.word if said else "", "meaning": meaning(said, pins, run["plan"] is not None) if said else "",
        "cargo": said.cargo if said else None, "bound": said.bound if said else None,
        "second": second, "second_agrees": line is not None and second == line,
        "pins": {int(ship): slot for ship, slot in pins.items()}, "root": root["id"], "base": run["base"],
        "difference": difference, "outdated": outdated(runs, run), "cert": run["cert"], "budget": run["budget"],
        "points": [point.listed() for point in follower.points] if follower else json.loads(run["series"]),
        "now": follower.now().listed() if follower else None,
        "seconds": round(run["ended"] - run["began"], 2) if run["ended"] and run["began"] else None,
        "timetable": runs.timetable(number) if said and said.cargo is not None else None,
        "table": by_the_clock(table_of(runs, run), port) if said else [], "moves": moves_of(runs, run, port) if said and said.cargo is not None else [],
    }
