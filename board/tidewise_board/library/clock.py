"""Slots and the clock times at which they begin, by the port's own clock."""
from __future__ import annotations

import re
from dataclasses import dataclass
from datetime import date

from .dates import DAY, clock_of, day_of, shortened, written
from .faults import Refused, in_folder

MONTHS = ["Jan", "Feb", "Mar", "Apr", "May", "Jun", "Jul", "Aug", "Sep", "Oct", "Nov", "Dec"]
DAYS = ["mon", "tue", "wed", "thu", "fri", "sat", "sun"]
FORMS = "such as 14:05, 15 Mar 02:00, Mon 02:00 or 2027-03-15 02:00"


@dataclass(frozen=True)
class Clock:
    """When slot 0 begins, in minutes from year 1; the minutes of a slot; how many slots there are; and the order in which the port
    writes dates too."""
    start: int
    minutes: int
    slots: int
    order: str | None = None

    @property
    def end(self) -> int:
        """The minute, from slot 0, at which the last slot ends."""
        return self.slots * self.minutes

    def at(self, slot: int) -> str:
        """When a slot begins, as 2027-03-14 14:05."""
        return written(self.start + slot * self.minutes)

    def short(self, slot: int) -> str:
        """When a slot begins, as 14:05, and on another date than slot 0's as 15 Mar 02:00."""
        return self.short_minute(slot * self.minutes)

    def short_minute(self, minute: int) -> str:
        """A minute from slot 0, written so."""
        moment = self.start + minute
        clock = f"{moment % DAY // 60:02}:{moment % 60:02}"
        if moment // DAY == self.start // DAY:
            return clock
        day = date.fromordinal(moment // DAY)
        return f"{day.day} {MONTHS[day.month - 1]} {clock}"

    def span(self, slots: int) -> str:
        """So many slots in hours and minutes, as 1:15."""
        return f"{slots * self.minutes // 60}:{slots * self.minutes % 60:02}"

    def slot_at(self, minute: int) -> int:
        """The slot in which a minute from slot 0 lies."""
        return minute // self.minutes

    def slot_from(self, minute: int) -> int:
        """The first slot that begins at this minute or later."""
        return -(-minute // self.minutes)

    def slot_to(self, minute: int) -> int:
        """The last slot that begins at this minute or before; below 0 where there is none."""
        return minute // self.minutes

    def minute(self, text: str, after: int | None = None) -> int:
        """The minute from slot 0 of a time as people write it. A time alone, or with a day of the week, is the first one at `after` or
        later, which is a minute from slot 0 too. `Refused` for what is no time."""
        words = re.sub(r"[T\s]+", " ", text).strip().split(" ") if len(text) <= 40 else []
        if not words or not re.fullmatch("[0-9]{1,2}:?[0-9]{2}", words[-1]):
            raise Refused(f"{shortened(text)} is no time, {FORMS}")
        clock, rest = clock_of(words[-1]), " ".join(words[:-1])
        first = self.start + (after or 0)
        if not rest:
            return first + (clock - first) % DAY - self.start
        if rest[:3].lower() in DAYS and rest.isalpha():
            return self.weekday(rest, clock, first)
        return self.day(rest).toordinal() * DAY + clock - self.start

    def weekday(self, name: str, clock: int, first: int) -> int:
        """The minute from slot 0 of a time on the next day of this name, not before `first`, a minute from year 1."""
        wanted = DAYS.index(name[:3].lower())
        ordinal = first // DAY + (wanted - date.fromordinal(first // DAY).weekday()) % 7
        moment = ordinal * DAY + clock
        return (moment if moment >= first else moment + 7 * DAY) - self.start

    def day(self, text: str) -> date:
        """A date as 2027-03-15, or as 15 Mar in the year nearest to slot 0."""
        found = re.fullmatch(r"([0-9]{1,2})\.? ([A-Za-z]{3})[a-z]*\.?(?: ([0-9]{4}))?", text)
        if not found:
            try:
                return day_of(text, None if re.match("[0-9]{4}-", text) else self.order)
            except Refused as cause:
                raise Refused(in_folder(str(cause))) from None
        month = found[2].capitalize()
        if month not in MONTHS:
            raise Refused(f"{shortened(text)} is no date, such as 15 Mar")
        first = date.fromordinal(self.start // DAY)
        years = [int(found[3])] if found[3] else [first.year - 1, first.year, first.year + 1]
        dates = [day for day in (self.made(year, MONTHS.index(month) + 1, int(found[1])) for year in years) if day]
        if not dates:
            raise Refused(f"the date {text} doesn't exist")
        return min(dates, key=lambda day: abs((day - first).days))

    @staticmethod
    def made(year: int, month: int, day: int) -> date | None:
        """The date, if there is one."""
        try:
            return date(year, month, day)
        except ValueError:
            return None
