"""Lists of high and low waters, or of heights at equal steps, as they are printed."""
from __future__ import annotations

import os
import re
from collections import Counter
from dataclasses import dataclass
from fractions import Fraction

from .curve import Exact, Water
from .dates import minute_of, shortened
from .faults import Refused, Told, Wrong

# The greatest height that Tidewise reads, in centimetres, above the datum or below it.
MOST_HEIGHT = 2000
FOOT = Fraction("30.48")
# The least and the greatest time between two high waters or two low ones, in minutes.
SAME_KIND = 11 * 60, 14 * 60
# The usual time from one water to the next, in minutes.
HALF_TIDE = 372
# By how much the time from one water to the next may differ from what it is a day earlier or later, in minutes.
OF_A_DAY = 40
WATERS_OF_A_DAY = 4
# From one high or low water to the next are hours; heights stand closer, by this many minutes at most.
MOST_STEP = 60
ASKED = "was the clock changed, or is a water missing? (--one-clock if neither)"


@dataclass(frozen=True)
class Change:
    """What is changed of each water of a list: its time and its height, the one of high waters first and then of low ones."""
    minutes: tuple[int, int] = (0, 0)
    factor: Exact = 1
    added: tuple[Exact, Exact] = (0, 0)

    @property
    def one(self) -> bool:
        """Whether high and low waters are changed alike."""
        return self.minutes[0] == self.minutes[1] and self.added[0] == self.added[1]


@dataclass(frozen=True)
class Options:
    """The order of dates, whether heights are in feet, and the two options without a word."""
    order: str | None = None
    feet: bool = False
    least: bool = False
    one_clock: bool = False


def number_of(text: str, unit: str) -> Fraction:
    """The exact value of a decimal number, with a dot or a comma."""
    if not re.fullmatch(r"[+-]?[0-9]{1,9}([.,][0-9]{1,9})?", text):
        raise Refused(f"{text} is no number of {unit}")
    return Fraction(text.replace(",", "."))


def span(minutes: int) -> str:
    return f"{minutes // 60} h {minutes % 60:02} min"


def at_line(name: str, number: int, cause: object) -> Wrong:
    return Wrong(Told(name, f"{cause}", row=number))


def waters_of(number: int, line: str, options: Options) -> list[Water]:
    """The waters of a line."""
    day, *words = re.sub(r"^\s*[^\W\d_]+[.,;\s]+", "", line).replace(";", " ").split() or [""]
    if not words or len(words) % 2:
        raise Refused("a line is a date, and then a time and a height for each of one to four waters")
    unit, length = ("feet", FOOT) if options.feet else ("metres", Fraction(100))
    return [Water(number, minute_of(shortened(day), shortened(clock), options.order), number_of(height, unit) * length)
            for clock, height in zip(words[::2], words[1::2])]


def bytes_of(path: str, name: str) -> bytes:
    """A file's bytes; `name` is what it is called in faults."""
    try:
        with open(path, "rb") as file:
            return file.read()
    except OSError as fault:
        ask = "; differences are written as +24m*1.03-5cm" if re.search(r"[+*-][0-9.,]+[^\s0-9]*$", os.path.basename(path)) else ""
        raise Wrong(Told(name, f"{fault.strerror}{ask}")) from None
    except ValueError as fault:
        raise Wrong(Told(name, f"{fault}")) from None


def read_waters(data: bytes, name: str, options: Options) -> list[Water]:
    """The waters, or heights, that a file lists; `name` is what it is called in faults."""
    waters: list[Water] = []
    for number, raw in enumerate(data.splitlines(), 1):
        try:
            line = raw.decode("utf-8-sig")
            if line.strip() and not line.startswith("#"):
                waters += waters_of(number, line, options)
        except UnicodeDecodeError:
            raise at_line(name, number, "this isn't text in UTF-8") from None
        except Refused as cause:
            raise at_line(name, number, cause) from None
    if len(waters) < 2:
        raise Wrong(Told(name, "there are fewer than two waters"))
    return waters


def step_of(waters: list[Water]) -> int | None:
    """The step of a list of heights, in minutes; None of one of high and low waters."""
    step, count = Counter(after.time - before.time for before, after in zip(waters, waters[1:])).most_common(1)[0]
    return step if 0 < step <= MOST_STEP and 2 * count >= len(waters) - 1 else None


def check_steps(name: str, waters: list[Water], step: int) -> None:
    """Refuses heights that don't stand at equal steps."""
    for before, water in zip(waters, waters[1:]):
        if water.time - before.time != step:
            raise at_line(name, water.line, f"this height comes {water.time - before.time} min after the one before, and the others "
                          f"every {step} min: is one missing?")


def check_lines(name: str, waters: list[Water]) -> None:
    """Refuses a line with more high and low waters than a day has."""
    lines = Counter(water.line for water in waters)
    for line, count in lines.items():
        if count > WATERS_OF_A_DAY:
            raise at_line(name, line, "a line is a date, and then a time and a height for each of one to four waters")


def check_turns(name: str, waters: list[Water]) -> None:
    """Refuses waters that aren't in order, or aren't high and low in turn."""
    for before, water in zip(waters, waters[1:]):
        if water.time <= before.time:
            raise at_line(name, water.line, "this water isn't later than the one before")
        if water.height == before.height:
            raise at_line(name, water.line, "this water is as high as the one before")
    for before, water, after in zip(waters, waters[1:], waters[2:]):
        if (water.height > before.height) == (after.height > water.height):
            raise at_line(name, after.line, "this water and the one before aren't high and low in turn: is one missing?")


def check_clock(name: str, waters: list[Water]) -> None:
    """Refuses waters between which the clock was changed, or one is missing."""
    for before, water in zip(waters, waters[2:]):
        if not SAME_KIND[0] <= water.time - before.time <= SAME_KIND[1]:
            raise at_line(name, water.line, f"this water comes {span(water.time - before.time)} after the last one of its "
                          f"kind: {ASKED}")
    steps = [water.time - before.time for before, water in zip(waters, waters[1:])]
    # The same step on the days beside: with two of them it is sure which one is odd, and else it is the less usual one.
    beside = {place: [steps[other] for other in (place - WATERS_OF_A_DAY, place + WATERS_OF_A_DAY)
                      if 0 <= other < len(steps)] for place in range(len(steps))}
    for place in sorted(beside, key=lambda place: (-len(beside[place]), -abs(steps[place] - HALF_TIDE))):
        off = [steps[place] - other for other in beside[place]]
        if off and (min(off) > OF_A_DAY or max(off) < -OF_A_DAY):
            raise at_line(name, waters[place + 1].line, f"this water comes {span(steps[place])} after the one before, and a "
                          f"day from there it is {span(beside[place][0])}: {ASKED}")


def check_heights(name: str, waters: list[Water]) -> None:
    for water in waters:
        if not -MOST_HEIGHT <= water.height <= MOST_HEIGHT:
            raise at_line(name, water.line, "the height must be from -20 to 20 metres")


def changed(name: str, waters: list[Water], change: Change) -> list[Water]:
    """The waters of the port whose differences these are."""
    # High and low waters stand in turn.
    first_low = int(waters[0].height < waters[1].height)
    other = []
    for place, water in enumerate(waters):
        kind = (place + first_low) % 2
        other.append(Water(water.line, water.time + change.minutes[kind], water.height * change.factor + change.added[kind]))
    check_turns(f"{name} with its differences", other)
    if first_low != int(other[0].height < other[1].height):
        raise Wrong(Told(f"{name} with its differences", "high waters are below low ones"))
    return other


def changed_steps(name: str, heights: list[Water], change: Change) -> list[Water]:
    """The heights of the port whose differences these are."""
    if not change.one:
        raise Wrong(Told(f"{name} with its differences", "heights at equal steps have one difference, and not one of high and one of "
                         "low waters"))
    return [Water(one.line, one.time + change.minutes[0], one.height * change.factor + change.added[0]) for one in heights]
