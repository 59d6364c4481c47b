"""Heights of the water over time: straight lines between corners."""
from __future__ import annotations

from bisect import bisect_left, bisect_right
from collections.abc import Sequence
from dataclasses import dataclass
from fractions import Fraction

# How much of the way from one water to the next is done after each sixth of the time, in twelfths.
DONE = [0, 1, 3, 6, 9, 11, 12]

Exact = Fraction | int


@dataclass(frozen=True)
class Water:
    """A water of a list, or a height: its line in the file, its time in minutes, and its height in centimetres."""
    line: int
    time: int
    height: Exact


@dataclass(frozen=True)
class Curve:
    """The corners' times, in minutes and rising, and their heights in centimetres."""
    times: Sequence[Exact]
    heights: Sequence[Exact]

    def at(self, time: Exact) -> Exact:
        """The exact height at a time that isn't before the first corner or after the last one."""
        place = bisect_left(self.times, time)
        if place < len(self.times) and self.times[place] == time:
            return self.heights[place]
        if not 0 < place < len(self.times):
            raise ValueError("no two heights stand around this time")
        begin, end = self.times[place - 1], self.times[place]
        low, high = self.heights[place - 1], self.heights[place]
        return low + (high - low) * Fraction(time - begin) / Fraction(end - begin)

    def least(self, begin: Exact, end: Exact) -> Exact:
        """The least height from one time to another: at one of these, or at a corner between them."""
        within = self.heights[bisect_right(self.times, begin):bisect_left(self.times, end)]
        return min([self.at(begin), self.at(end), *within])


def around(waters: list[Water], begin: int, end: int) -> list[Water]:
    """The waters that tell the heights from one time to another: with the last one before and the first one after it."""
    times = [water.time for water in waters]
    return waters[max(0, bisect_right(times, begin) - 1):bisect_left(times, end) + 1]


def by_twelfths(waters: list[Water]) -> Curve:
    """The rule of twelfths between high and low waters."""
    times: list[Exact] = []
    heights: list[Exact] = []
    for before, after in zip(waters, waters[1:]):
        for sixth in range(6):
            times.append(before.time + Fraction((after.time - before.time) * sixth, 6))
            heights.append(before.height + (after.height - before.height) * Fraction(DONE[sixth], 12))
    return Curve([*times, waters[-1].time], [*heights, waters[-1].height])


def by_steps(waters: list[Water]) -> Curve:
    """Straight lines between heights."""
    return Curve([water.time for water in waters], [water.height for water in waters])
