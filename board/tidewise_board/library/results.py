"""What reports say, and what one result has more than another."""
from __future__ import annotations

import re

from .faults import printable

# The word for a report, what the best timetable carries, and what no timetable exceeds, both in tenths of a tonne.
Result = tuple[str, int | None, int | None]
WORDS = ["optimal", "infeasible", "unfinished", "memory"]


def tenths(text: str) -> int:
    """The tenths of a tonne that a report prints in tonnes."""
    whole, _, tenth = text.partition(".")
    return int(whole) * 10 + int(tenth)


def tonnes(value: int | None) -> str:
    """Tenths of a tonne as tonnes, which aren't below 0."""
    return "" if value is None else f"{value // 10}.{value % 10}"


def result_of(report: str) -> Result:
    """What a report says; the word is its first line where it is none of the known ones."""
    if re.match(r"bad instance ships\.[0-9]{1,9}\.(latest order|earliest range)\n", report):
        return "no slot is left", None, None
    number = r"([0-9]{1,18}\.[0-9])"
    found = re.match(rf"(?:(optimal) {number}|(infeasible)|(unfinished|memory)(?: [0-9]{{1,18}})? "
                     rf"(?:best {number}|none)(?:\nbound {number})?)(?:\n|$)", report)
    if not found:
        return printable(report.partition("\n")[0]) or "no report", None, None
    optimal, most, infeasible, other, best, bound = found.groups()
    if optimal:
        return optimal, tenths(most), tenths(most)
    return infeasible or other, tenths(best) if best else None, tenths(bound) if bound else None


def signed(value: int) -> str:
    return ("-" if value < 0 else "+" if value else "") + tonnes(abs(value))


def limits(day: Result, variant: Result) -> tuple[int | None, int | None]:
    """Between which tenths of a tonne the variant's optimum less the day's lies, as far as the two results tell."""
    return (None if variant[1] is None or day[2] is None else variant[1] - day[2],
            None if variant[2] is None or day[1] is None else variant[2] - day[1])


def difference(day: Result, variant: Result) -> str:
    """What the variant's optimum has more than the day's, as far as the two results tell."""
    low, high = limits(day, variant)
    if low is not None and high is not None:
        return signed(low) if low == high else f"{signed(low)} to {signed(high)}"
    if low is not None:
        return f"at least {signed(low)}"
    return "" if high is None else f"at most {signed(high)}"


def aligned(rows: list[list[str]], left: int = 2) -> list[str]:
    """The lines of a table, its first columns flush left and the others flush right."""
    widths = [max(map(len, column)) for column in zip(*rows)]
    return ["  ".join(cell.ljust(width) if column < left else cell.rjust(width)
                      for column, (cell, width) in enumerate(zip(row, widths))).rstrip() for row in rows]
