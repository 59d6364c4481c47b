"""What happened, as planners say it: sentences of the log, with ships and waypoints by name and clock times.

    Corvo not before 02:00            Brisa sailed at 13:40             sailed Brisa 13:40
    Corvo stays                       Corvo loads to 16.40 m at most    survey Corvo 16.40
    3 tugs out from 15:00 to 18:00    tugs 3 out from 15:00             2 tugs back at 17:00
    close Bar 14:00 to 16:00          Bar closed from 14:00 to 16:00    close port 14:00 to 16:00
"""
from __future__ import annotations

import re
from collections.abc import Callable
from dataclasses import replace

from ..core.happened import Closed, Event, NotBefore, Sailed, Stays, Surveyed, TugsBack, TugsOut
from ..library.dates import DAY, written
from ..library.faults import Refused
from ..library.folder import Folder, one_of

LONGEST = 300
# Times with a date that no name ends with, and then those with any date of figures, which a ship's name may end with too: `Brisa 1.2`.
DAYS = r"[0-9]{4}-[0-9]{2}-[0-9]{2}|[0-9]{1,2}\.? [a-z]{3,9}\.?(?: [0-9]{4})?|(?:mon|tue|wed|thu|fri|sat|sun)[a-z]*"
FIGURES = r"[0-9]{1,4}[-./][0-9]{1,4}(?:[-./][0-9]{0,4})?"
TIMES = [rf"(?:(?:{days})[t ]+)?[0-9]{{1,2}}:?[0-9]{{2}}" for days in (DAYS, f"{DAYS}|{FIGURES}")]
FORMS = "such as `Corvo not before 02:00`, `sailed Brisa 13:40`, `tugs 3 out from 15:00 to 18:00`, `close Bar 14:00 to 16:00`, `Corvo stays`"
OUT = r"out(?: from (?P<first>TIME))?(?: to (?P<last>TIME)| until further notice)?"
PORT = ("port", "the port")


class Reader:
    """Reads sentences on one port's day. Times in the events that it makes are minutes from the beginning of slot 0, until `in_slots`.
    `planned` says for each ship the minute for which she is planned, `now` the minute that it is: a time without a date is the next one
    after these."""

    def __init__(self, folder: Folder, planned: dict[str, int], now: int) -> None:
        self.folder, self.planned, self.now = folder, planned, now
        self.forms: list[tuple[str, Callable[[re.Match[str]], Event]]] = [
            (rf"(?:tugs (?P<count>[0-9]+)|(?P<number>[0-9]+) tugs?) {OUT}", self.tugs_out),
            (r"(?:tugs (?P<count>[0-9]+)|(?P<number>[0-9]+) tugs?) back(?:(?: at)? (?P<first>TIME))?", self.tugs_back),
            (r"(?:ship )?(?P<ship>.+) not before (?P<first>TIME)", self.not_before),
            (r"(?:ship )?(?P<ship>.+) sailed(?: at)? (?P<first>TIME)", self.sailed),
            (r"sailed (?P<ship>.+?)(?: at)? (?P<first>TIME)", self.sailed),
            (r"(?:ship )?(?P<ship>.+) stays|stays (?P<other>.+)", self.stays),
            (r"(?:ship )?(?P<ship>.+) loads to (?P<metres>[0-9]{1,2}(?:[.,][0-9]{1,2})?) ?m?(?: at most)?", self.surveyed),
            (r"survey (?P<ship>.+) (?P<metres>[0-9]{1,2}(?:[.,][0-9]{1,2})?) ?m?", self.surveyed),
            (r"close (?P<where>.+?)(?: from)? (?P<first>TIME) to (?P<last>TIME)", self.closed),
            (r"(?P<where>.+) closed(?: from)? (?P<first>TIME) to (?P<last>TIME)", self.closed)]

    def read(self, sentence: str) -> Event:
        """The event that a sentence says; `Refused` where it says none, or names nothing of this day."""
        text = " ".join(sentence.split())
        if len(text) > LONGEST:
            raise Refused(f"a sentence of more than {LONGEST} letters")
        refusal = None
        for time in TIMES:
            refusals = []
            for form, made in self.forms:
                found = re.fullmatch(form.replace("TIME", time), text, re.IGNORECASE)
                if found:
                    try:
                        return made(found)
                    except Refused as cause:
                        refusals.append(cause)
            refusal = refusals[0] if refusals else refusal
        raise refusal or Refused(f"{text} is no sentence of the log, {FORMS}")

    def said(self, event: Event) -> str:
        """The sentence with whole dates, which reads as this event whatever the time."""
        return event.said(lambda minute: written(self.folder.clock.start + minute))

    def in_slots(self, event: Event) -> Event:
        """The event with slots instead of minutes; what closes or is out does so in each slot that it touches."""
        clock = self.folder.clock
        if isinstance(event, Sailed):
            return replace(event, slot=self.within(clock.slot_at(event.slot)))
        if isinstance(event, NotBefore | TugsBack):
            return replace(event, slot=max(0, clock.slot_from(event.slot)))
        if isinstance(event, TugsOut | Closed):
            first = max(0, clock.slot_at(event.first))
            last = None if event.last is None else clock.slot_from(event.last)
            if last is not None and last <= first:
                raise Refused("the end has to be after the beginning, and after slot 0")
            return replace(event, first=first, last=last)
        return event

    def within(self, slot: int) -> int:
        if not 0 <= slot < self.folder.clock.slots:
            raise Refused(f"the day goes from {self.folder.clock.at(0)} to {self.folder.clock.at(self.folder.clock.slots)}")
        return slot

    def ship(self, found: re.Match[str], group: str = "ship") -> str:
        return self.folder.port.ships[self.folder.ship_of(found[group])]

    def minute(self, text: str, after: int) -> int:
        return self.folder.clock.minute(text, after)

    def span(self, found: re.Match[str]) -> tuple[int, int | None]:
        first = self.now if found["first"] is None else self.minute(found["first"], self.now)
        return first, None if found["last"] is None else self.minute(found["last"], first + 1)

    def tugs_out(self, found: re.Match[str]) -> Event:
        return TugsOut(self.count(found), *self.span(found))

    def tugs_back(self, found: re.Match[str]) -> Event:
        return TugsBack(self.count(found), self.now if found["first"] is None else self.minute(found["first"], self.now))

    def count(self, found: re.Match[str]) -> int:
        count = int((found["count"] or found["number"])[:9])
        if not 1 <= count <= self.folder.port.fleet:
            raise Refused(f"the port has {self.folder.port.fleet} tugs")
        return count

    def not_before(self, found: re.Match[str]) -> Event:
        """The first time from that on for which she was planned; where that is past the day, the last one in it."""
        ship, clock = self.ship(found), self.folder.clock
        minute = self.minute(found["first"], self.planned.get(ship, 0))
        earlier = self.minute(found["first"], clock.end - DAY)
        return NotBefore(ship, minute if minute < clock.end or not 0 <= earlier < clock.end else earlier)

    def sailed(self, found: re.Match[str]) -> Event:
        """The time nearest to that for which she was planned."""
        ship = self.ship(found)
        planned = self.planned.get(ship, 0)
        later = self.minute(found["first"], planned)
        earlier = self.minute(found["first"], planned - 1439) if later > planned else later
        return Sailed(ship, earlier if planned - earlier <= later - planned and earlier >= 0 else later)

    def stays(self, found: re.Match[str]) -> Event:
        return Stays(self.ship(found, "ship" if found["ship"] else "other"))

    def surveyed(self, found: re.Match[str]) -> Event:
        whole, _, part = found["metres"].replace(",", ".").partition(".")
        return Surveyed(self.ship(found), int(whole) * 100 + int(part.ljust(2, "0")))

    def closed(self, found: re.Match[str]) -> Event:
        first, last = self.span(found)
        where = None if found["where"].lower() in PORT else self.folder.port.waypoints[one_of(found["where"], self.folder.port.waypoints, "waypoint")]
        assert last is not None
        return Closed(where, first, last)
