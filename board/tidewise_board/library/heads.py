"""The head of a table of ships: columns by their names, with units, and the rows under it."""
from __future__ import annotations

import csv
import io
import re
from collections.abc import Iterator
from dataclasses import dataclass, field
from fractions import Fraction

from .dates import shortened
from .faults import Fault, Refused, Told

# What is a number, and of what.
NUMBERS = {"tpc": "tenths of a tonne", "light": "centimetres", "deep": "centimetres", "arrival draft": "centimetres",
           "tugs": "tugs", "job": "slots"}
# How much of the unit of an instance one unit of a head has.
UNITS = {("light", "m"): 100, ("deep", "m"): 100, ("arrival draft", "m"): 100, ("light", "cm"): 1, ("deep", "cm"): 1,
         ("arrival draft", "cm"): 1, ("tpc", "t"): 10, ("tpc", "t/cm"): 10}
WORDS = {"m": "metres", "cm": "centimetres", "t": "tonnes for a centimetre", "t/cm": "tonnes for a centimetre"}
# A ship never draws less than is written, and never carries more.
UP = ("light", "arrival draft")
ALIASES = {"draft": "deep", "ship": "name", "vessel": "name", "draft in": "arrival draft", "may stay": "may_stay"}


@dataclass(frozen=True)
class Row:
    """A row with a ship: its number, the head being row 1, and its cells by the names of columns, with the heads as written."""
    number: int
    cells: dict[str, str]
    heads: dict[str, str] = field(default_factory=dict)

    def head(self, column: str) -> str:
        return self.heads.get(column, column)


def cells_of(text: str) -> list[list[str]]:
    """The cells of each row of a table, with semicolons, tabs or commas between them, whichever its first line without # has."""
    lines = text.split("\n", 100)
    first = next((line for line in lines if not line.startswith(("#", '"#'))), lines[0])
    reader = csv.reader(io.StringIO(text, newline=""), delimiter=";" if ";" in first else "\t" if "\t" in first else ",")
    try:
        return [[cell.strip() for cell in row] for row in reader]
    except csv.Error as fault:
        raise Fault((reader.line_num, 1), f"{fault}") from None


def column_of(head: str) -> tuple[str, str | None]:
    """The column and the unit that a head says: `draft m`, `Draft (m)` and `deep m` are the same."""
    plain = re.sub(r"\s+", " ", head.lower().replace("(", " ").replace(")", " ").replace("[", " ").replace("]", " ")).strip()
    column, _, unit = plain.rpartition(" ")
    column = ALIASES.get(column, column)
    if (column, unit) in UNITS:
        return column, unit
    return ALIASES.get(plain, plain), None


def converted(text: str, column: str, unit: str) -> tuple[str, bool]:
    """A cell in the unit of an instance, and whether it was rounded to a whole number."""
    if not re.fullmatch(r"[0-9]{1,9}(?:[.,][0-9]{1,9})?", text):
        raise Refused(f"{shortened(text)} is no number of {WORDS[unit]}")
    exact = Fraction(text.replace(",", ".")) * UNITS[column, unit]
    whole = -(-exact // 1) if column in UP else exact // 1
    return str(whole), whole != exact


def under_head(rows: list[list[str]]) -> list[tuple[int, list[str]]]:
    """The rows from the head on, each with its number from 1. What stands above the head is empty, or one cell that begins with #, or the
    `sep=;` of a spreadsheet."""
    numbered = list(enumerate(rows, 1))
    while numbered and (not any(numbered[0][1]) or numbered[0][1][0].startswith(("#", "sep=")) and not any(numbered[0][1][1:])):
        del numbered[0]
    return numbered


class Table:
    """A table of ships: the heads, and its rows. Hints are told of each cell that was rounded."""

    def __init__(self, name: str, text: str, known: tuple[list[str], list[str]]) -> None:
        """`known` has the columns of a table with a row for each movement, and of one with a row for each call."""
        self.name, self.hints = name, list[Told]()
        (self.head_row, written), *self.cells = under_head(cells_of(text)) or [(1, list[str]())]
        self.heads = [column_of(head) for head in written]
        self.written = written
        columns = [column for column, _ in self.heads]
        self.calls = "direction" not in columns and any(column in columns for column in ("arrives", "sails", "loads"))
        allowed = known[self.calls]
        for number, column in enumerate(columns):
            if not column.startswith("#") and (column not in allowed or column in columns[:number]):
                raise Fault((self.head_row, written[number] or number + 1),
                            "this column isn't known, or stands there twice; one that says nothing begins with #")

    def has(self, column: str) -> bool:
        return any(one == column for one, _ in self.heads)

    def rows(self) -> Iterator[Row]:
        """The rows that have a ship. One whose first cell begins with # says nothing."""
        for number, cells in self.cells:
            if cells and cells[0].startswith("#"):
                continue
            if any(cells[len(self.heads):]):
                raise Fault((number, len(self.heads) + 1), "there are more cells than columns")
            if any(cells):
                yield self.row(number, cells + [""] * (len(self.heads) - len(cells)))

    def row(self, number: int, cells: list[str]) -> Row:
        """A row by its columns, in the units of an instance."""
        found, heads = {}, {}
        for (column, unit), head, cell in zip(self.heads, self.written, cells):
            if column.startswith("#"):
                continue
            heads[column] = head
            found[column] = cell if unit is None or not cell else self.in_units(number, head, column, unit, cell)
        return Row(number, found, heads)

    def in_units(self, number: int, head: str, column: str, unit: str, cell: str) -> str:
        """A cell in the unit of an instance; a hint is told where it was rounded."""
        try:
            text, rounded = converted(cell, column, unit)
        except Refused as cause:
            raise Fault((number, head), f"{cause}") from None
        if rounded:
            self.hints.append(Told(self.name, f"{cell} is rounded {'up' if column in UP else 'down'} to {text} {NUMBERS[column]}",
                                   row=number, column=head, hint=True))
        return text
