"""What the program's `lint` prints of a port: in words, with names and clock times; and of a folder each line at its file, row and column."""
from __future__ import annotations

import re
from collections.abc import Callable

from .clock import Clock
from .faults import Told
from .folder import PORT, Folder

TIDES = "tides"
HINTS: dict[str, Callable[[re.Match[str], Clock], str]] = {
    r"waypoints\.([0-9]+)\.depth ([0-9]+) metres .*": lambda found, clock: f"{found[2]} cm of depth: are these metres?",
    r"ships\.([0-9]+)\.deep ([0-9]+) metres .*": lambda found, clock: f"a draft of {found[2]} cm: are these metres?",
    r"ships\.([0-9]+)\.tpc ([0-9]+) tonnes .*": lambda found, clock: (
        f"{found[2]} tenths of a tonne for a centimetre are little for this draft: are these tonnes?"),
    r"ships\.([0-9]+)\.job ([0-9]+) minutes .*": lambda found, clock: (
        f"tugs for {found[2]} slots, which are {clock.span(int(found[2]))} hours: are these minutes?"),
    r"ships\.([0-9]+)\.route offset ([0-9]+) minutes .*": lambda found, clock: (
        f"she is {found[2]} slots on her way, which are {clock.span(int(found[2]))} hours: are these minutes?"),
    r"tides lack ([0-9]+) to ([0-9]+) (.*)": lambda found, clock: (
        f"the tides end before {clock.short(int(found[1]))}, and {found[3]} needs them up to {clock.short(int(found[2]) + 1)}, "
        "if she sails last of all: her window is shorter"),
    r"tides waters ([0-9]+) and ([0-9]+) minutes ([0-9]+)": lambda found, clock: (
        f"from the water at {clock.short(int(found[1]))} to the next of its kind at {clock.short(int(found[2]))} there are {found[3]} "
        "minutes: was the clock changed?")}


def told_of(text: str, folder: Folder) -> list[Told]:
    """The hints and the refusal that `lint` prints. The name of a faulty ship stands at its row already."""
    return [told_at(line, folder) for line in text.splitlines()
            if line != "clean" and not re.match("hint (ship|waypoint) ", line)]


def sentence_of(said: str, clock: Clock) -> str | None:
    """A hint in words, with clock times; none for a hint that has no other words."""
    for form, sentence in HINTS.items():
        found = re.fullmatch(form, said)
        if found:
            return sentence(found, clock)
    return None


def told_at(line: str, folder: Folder) -> Told:
    """What a line says, at its place."""
    hint, said = line.startswith("hint "), line.removeprefix("hint ")
    sentence = sentence_of(said, folder.clock) if hint else None
    if sentence:
        return placed(said.split(" ")[0], sentence, folder, True)
    refused = re.fullmatch(r"bad (instance|tides) (.*)", said)
    if refused and refused[1] == "instance":
        place, _, word = refused[2].rpartition(" ")
        return placed(place or "root", f"the program refuses it: {word}", folder, False)
    return placed(TIDES, said if hint else f"the program refuses it: {said}", folder, hint)


def placed(place: str, said: str, folder: Folder, hint: bool) -> Told:
    """What is said of a place of the instance, at its cell where that is one of a ship."""
    ship = re.match(r"ships\.([0-9]+)(?:\.([a-z_]+))?", place)
    if ship and int(ship[1]) < len(folder.rows):
        row = folder.rows[int(ship[1])]
        return Told(folder.ships_file, said, row=row.number, column=row.head(ship[2] or "name"), hint=hint)
    if place == TIDES:
        return Told(TIDES, said, hint=hint)
    return Told(PORT, said, place=place, hint=hint)
