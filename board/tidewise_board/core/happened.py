"""What happens on a day: events as they are told and kept, with ships and waypoints by name and times as slots."""
from __future__ import annotations

from collections.abc import Callable
from dataclasses import asdict, dataclass, fields
from typing import Any

# The greatest slot of any port, and the most tugs of a fleet.
MOST_SLOT = 2047
MOST_TUGS = 1000
# The greatest draft of any ship, in centimetres.
MOST_DEEP = 10000
Clock = Callable[[int], str]


@dataclass(frozen=True)
class Sailed:
    """The ship sailed in this slot."""
    ship: str
    slot: int

    def said(self, clock: Clock) -> str:
        return f"{self.ship} sailed at {clock(self.slot)}"


@dataclass(frozen=True)
class NotBefore:
    """The ship can't sail before this slot."""
    ship: str
    slot: int

    def said(self, clock: Clock) -> str:
        return f"{self.ship} not before {clock(self.slot)}"


@dataclass(frozen=True)
class Stays:
    """The ship doesn't sail on this day."""
    ship: str

    def said(self, clock: Clock) -> str:
        return f"{self.ship} stays"


@dataclass(frozen=True)
class TugsOut:
    """So many tugs are out of service from the slot `first` up to, but not in, `last`; without `last` until they are told to be back."""
    count: int
    first: int
    last: int | None

    def said(self, clock: Clock) -> str:
        until = "until further notice" if self.last is None else f"to {clock(self.last)}"
        return f"{tugs(self.count)} out from {clock(self.first)} {until}"


@dataclass(frozen=True)
class TugsBack:
    """So many of the tugs that were out until further notice are back from this slot on."""
    count: int
    slot: int

    def said(self, clock: Clock) -> str:
        return f"{tugs(self.count)} back at {clock(self.slot)}"


@dataclass(frozen=True)
class Closed:
    """A waypoint, or the port where there is no name, is closed from the slot `first` up to, but not in, `last`."""
    where: str | None
    first: int
    last: int

    def said(self, clock: Clock) -> str:
        return f"{self.where or 'the port'} closed from {clock(self.first)} to {clock(self.last)}"


@dataclass(frozen=True)
class Surveyed:
    """The greatest draft to which the ship can load is this, in centimetres, as a survey of her drafts found."""
    ship: str
    deep: int

    def said(self, clock: Clock) -> str:
        return f"{self.ship} loads to {self.deep / 100:.2f} m at most"


Event = Sailed | NotBefore | Stays | TugsOut | TugsBack | Closed | Surveyed
KINDS: dict[str, type[Event]] = {"sailed": Sailed, "not before": NotBefore, "stays": Stays, "surveyed": Surveyed, "tugs out": TugsOut, "tugs back": TugsBack,
                                 "closed": Closed}
SHIPS = (Sailed, NotBefore, Stays)


def tugs(count: int) -> str:
    return f"{count} tug{'' if count == 1 else 's'}"


def kept_of(event: Event) -> dict[str, object]:
    """An event as JSON has it: its kind and its members."""
    return {"kind": next(kind for kind, made in KINDS.items() if isinstance(event, made)), **asdict(event)}


def event_of(data: object) -> Event:
    """The event that this JSON says; `ValueError` where it is none. Whether it fits the day, the program says."""
    if not isinstance(data, dict) or data.get("kind") not in KINDS:
        raise ValueError("no such event")
    made: Callable[..., Event] = KINDS[data["kind"]]
    values: dict[str, Any] = {field.name: data.get(field.name) for field in fields(KINDS[data["kind"]])}
    for name, value in values.items():
        if name in ("ship", "where"):
            if not (isinstance(value, str) or name == "where" and value is None):
                raise ValueError(f"{name} is no name")
        elif not (name == "last" and made is TugsOut and value is None):
            whole(name, value)
    if values.get("last") is not None and values["last"] <= values["first"]:
        raise ValueError("the end has to be after the beginning")
    return made(**values)


def whole(name: str, value: object) -> None:
    low, high = {"count": (1, MOST_TUGS), "deep": (0, MOST_DEEP)}.get(name, (0, MOST_SLOT + 1))
    if not isinstance(value, int) or isinstance(value, bool) or not low <= value <= high:
        raise ValueError(f"{name} has to be a whole number from {low} to {high}")


def out_in(events: list[Event], slot: int) -> int:
    """How many tugs are told to be out in a slot."""
    out = sum(one.count for one in events if isinstance(one, TugsOut) and one.first <= slot and (one.last is None or slot < one.last))
    return out - sum(one.count for one in events if isinstance(one, TugsBack) and one.slot <= slot)


def most_out(events: list[Event], now: int, slots: int) -> int:
    """The most tugs that are out at once from now on."""
    return max([0, *(out_in(events, slot) for slot in range(now, slots))])
