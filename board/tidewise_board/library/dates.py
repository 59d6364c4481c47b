"""Dates and times as planners write them, in minutes from the beginning of year 1."""
from __future__ import annotations

import re
from datetime import date

from .faults import Refused

DAY = 24 * 60
ORDERS = ("dmy", "mdy", "ymd")
WRITTEN = {"y": "year", "m": "month", "d": "day"}
# No date and no time is longer.
LONGEST = 40


def day_of(text: str, order: str | None = None) -> date:
    """The date that is written in this order; without one, it is written as 2027-03-14."""
    found = re.fullmatch(r"([0-9]{1,4})([-./])([0-9]{1,4})\2([0-9]{1,4})", text)
    parts = dict(zip(order or "ymd", found.group(1, 3, 4))) if found and (order or found[2] == "-") else {}
    if len(parts.get("y", "")) != 4:
        form = ", ".join(WRITTEN[letter] for letter in order) if order else "2027-03-14"
        ask = "" if order or not re.fullmatch(r"[0-9]{1,2}([-./])[0-9]{1,2}\1[0-9]{1,4}", text) else " (--dates dmy or mdy?)"
        raise Refused(f"{text} is no date of the form {form}, with a year of four digits{ask}")
    try:
        return date(int(parts["y"]), int(parts["m"]), int(parts["d"]))
    except ValueError:
        raise Refused(f"the date {text} doesn't exist") from None


def clock_of(text: str) -> int:
    """The minutes from midnight to a time such as 09:52 or 0952."""
    found = re.fullmatch(r"([0-9]{1,2}):([0-9]{2})", text) or re.fullmatch(r"([0-9]{2})([0-9]{2})", text)
    if not found:
        raise Refused(f"{text} is no time such as 09:52")
    hours, minutes = map(int, found.groups())
    if hours > 23 or minutes > 59:
        raise Refused(f"the time {text} doesn't exist")
    return hours * 60 + minutes


def minute_of(day: str, clock: str, order: str | None = None) -> int:
    """The minutes from the beginning of year 1 to a date and a time."""
    return day_of(day, order).toordinal() * DAY + clock_of(clock)


def minute_at(text: str, order: str | None) -> tuple[int, int]:
    """The minute of a date and a time in one text, and the seconds after it."""
    found = re.fullmatch(r"([^\sT]+)[ T]+([0-9]{1,2}:[0-9]{2})(?::([0-9]{2}))?", text) if len(text) <= LONGEST else None
    if not found:
        raise Refused(f"{shortened(text)} is no date and time, such as 2027-03-14 03:40")
    return minute_of(found[1], found[2], order), int(found[3] or 0)


def shortened(text: str) -> str:
    return text if len(text) <= LONGEST else text[:LONGEST] + " .."


def written(minute: int) -> str:
    """A date and a time, as 2027-03-14 03:40."""
    return f"{date.fromordinal(minute // DAY)} {minute % DAY // 60:02}:{minute % 60:02}"
