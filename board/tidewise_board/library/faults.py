"""What is wrong with an input, or looks wrong, and where."""
from __future__ import annotations

from dataclasses import dataclass


def printable(text: str) -> str:
    """The text with each character escaped that a terminal may obey or that hides, but for line feeds."""
    return "".join(one if one.isprintable() or one == "\n" else one.encode("unicode_escape").decode() for one in text)


# How an option of the scripts is said in a folder.
SAID = {"(--dates dmy or mdy?)": '("dates": "dmy" or "mdy" in port.json?)',
        "(--one-clock if neither)": '("tides": {"one_clock": true} in port.json if neither)'}


def in_folder(said: str) -> str:
    """What is said, with members of port.json where the scripts have options."""
    for option, member in SAID.items():
        said = said.replace(option, member)
    return said


class Refused(Exception):
    """An input can't be used; the text says which one, where and why."""


@dataclass(frozen=True)
class Told:
    """What is said of a file: at a row and a column, where there is a head; at a line of a file without one; or at a place in JSON.
    Rows and lines count from 1, a head being row 1. A hint is no fault."""
    file: str
    said: str
    row: int | None = None
    column: str | None = None
    place: str | None = None
    hint: bool = False

    def __str__(self) -> str:
        where = self.file
        if self.column is not None:
            where += f", row {self.row}, column {self.column}"
        elif self.row is not None:
            where += f", line {self.row}"
        elif self.place is not None:
            where += f", {self.place}"
        return f"{where}: {self.said}"


class Wrong(Refused):
    """One fault or several; the text has a line for each."""

    def __init__(self, *told: Told) -> None:
        super().__init__("\n".join(map(str, told)))
        self.told = list(told)


class Fault(Exception):
    """A value that isn't allowed: its place, as names and numbers, and why."""

    def __init__(self, place: tuple[str | int, ...], cause: str) -> None:
        super().__init__(cause)
        self.place, self.cause = place, cause
