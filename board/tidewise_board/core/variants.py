"""What-ifs: other instances of a day, by the changes that `tw try` knows too."""
from __future__ import annotations

import copy
from typing import Any

from ..library.clock import Clock
from ..library.dates import minute_at
from ..library.port import text_of
from ..library.trying import changes_of
from ..library.trying import third as in_third

# When slot 0 begins on a day that doesn't say so; no rule reads it.
START = "1970-01-01 00:00"
# The most variants that are asked for at once.
MOST = 80


def clock_of(instance: dict[str, Any]) -> Clock:
    return Clock(minute_at(instance.get("start", START), None)[0], instance["slot_minutes"], instance["slots"])


def third(instance: dict[str, Any]) -> dict[str, Any]:
    """The same port in the third version, in which something can be closed; a copy, to be changed."""
    return copy.deepcopy(in_third(instance, clock_of(instance)))


def variants(instance: dict[str, Any], words: list[str]) -> list[tuple[str, str]]:
    """A label and the instance's text for each change, as `depth.Bar=+10`; `Refused` for what is none. Without words they are a tug
    less, a tug more and ten centimetres at each waypoint."""
    found = changes_of(words, instance, clock_of(instance))
    if len(found) > MOST:
        raise ValueError(f"these are {len(found)} days to plan, and not {MOST} at most: name a ship, or fewer tugs")
    return [(name, f"{text_of(changed)}\n") for name, changed in found]
