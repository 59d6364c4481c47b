"""The day as it is sailed: what the program says of a plan once something has happened, and the repair that it is asked for."""
from __future__ import annotations

import json
from concurrent.futures import ThreadPoolExecutor
from dataclasses import dataclass, replace

from ..library import port as port_script
from .facts import Port, in_words, watched
from .happened import SHIPS, Closed, Event, NotBefore, Sailed, Stays, Surveyed, TugsBack, TugsOut, most_out, out_in, tugs
from .program import Answer, Draft, Program, Text, Word
from .reading import broken_of, restrictions_of
from .runs import Inputs
from .variants import third
from .wishes import Wish, plan_text, wishes_of

# The words with which the program refuses an event.
REFUSALS = {"range": "the day has no such slot", "sailed": "this ship has sailed already", "stays": "this ship stays",
            "fleet": "there are not so many tugs"}


@dataclass(frozen=True)
class State:
    """What events leave of a timetable: it as `audit` takes it, its events, and the first slot that each ship may still have."""
    table: list[int]
    lines: list[str]
    firsts: dict[int, int]
    sailed: set[int]
    stays: set[int]


@dataclass(frozen=True)
class Repair:
    """What a repair is asked for, with the ships that stay held; `noted` are sentences for the planner."""
    inputs: Inputs
    pins: dict[int, int]
    noted: list[str]


@dataclass(frozen=True)
class Watch:
    """A plan's timetable over the day's own inputs, all that has happened, and the slot that it is now."""
    program: Program
    inputs: Inputs
    port: Port
    timetable: list[int]
    events: list[Event]
    now: int = 0

    @property
    def ships(self) -> dict[str, int]:
        return {name: place for place, name in enumerate(self.port.ships)}

    def state(self) -> State:
        table, lines = list(self.timetable), list[str]()
        firsts: dict[int, int] = {}
        sailed: set[int] = set()
        stays = {self.ships[one.ship] for one in self.events if isinstance(one, Stays) and one.ship in self.ships}
        for ship in stays:
            table[ship] = self.port.slots
        slots = list(table)
        for one in self.events:
            if not isinstance(one, SHIPS) or one.ship not in self.ships:
                continue
            ship = self.ships[one.ship]
            if isinstance(one, Sailed):
                lines.append(f"s {ship} {one.slot}")
                sailed.add(ship)
            elif isinstance(one, NotBefore):
                firsts[ship] = max(one.slot, firsts.get(ship, 0))
                if one.slot > slots[ship]:
                    lines.append(f"d {ship} {one.slot - slots[ship]}")
                    slots[ship] = one.slot
        out = most_out(self.events, self.now, self.port.slots)
        return State(table, lines + ([f"w {out}"] if out else []), firsts, sailed, stays - sailed)

    def instance(self) -> str:
        """The day's instance with what was closed, who stays and what was surveyed; the very same bytes where there is none of it."""
        closings = [one for one in self.events if isinstance(one, Closed)]
        surveys = [one for one in self.events if isinstance(one, Surveyed) and one.ship in self.ships]
        stays = self.state().stays
        if not closings and not stays and not surveys:
            return self.inputs.instance
        made = third(json.loads(self.program.store.get(self.inputs.instance)))
        for one in closings:
            for place in [made] if one.where is None else [point for point in made["waypoints"] if point["name"] == one.where]:
                item = {"from": one.first, "to": one.last - 1}
                place["closed"] += [] if item in place["closed"] else [item]
        for ship in stays:
            made["ships"][ship]["may_stay"] = True
        for survey in surveys:
            made["ships"][self.ships[survey.ship]]["deep"] = survey.deep
        return self.program.store.put((str(port_script.text_of(made)) + "\n").encode())

    def day(self) -> list[Word]:
        return [Text(self.instance(), "day.json"), Text(self.inputs.tides, "tides.csv")]

    def asked(self, form: str, *probes: str) -> Answer:
        """`audit` or `carry` of the timetable and what has happened; probes are events that are only tried."""
        state = self.state()
        events = "events 1\n" + "".join(f"{line}\n" for line in [*state.lines, *probes]) + "end\n"
        return self.program.ask(form, "port", *self.day(), Draft(watched(state.table).encode(), "table.txt"), Draft(events.encode(), "events.txt"))

    def sailed_slots(self) -> list[int]:
        return [one.slot for one in self.events if isinstance(one, Sailed)]

    def before(self, count: int) -> Watch:
        return replace(self, events=self.events[:count])

    def refusal(self, event: Event) -> str | None:
        """Why an event can't be, in the program's own reasons; None where it can."""
        if isinstance(event, (*SHIPS, Surveyed)) and event.ship not in self.ships:
            return f"there is no ship {event.ship}"
        if isinstance(event, Closed) and event.where is not None and event.where not in self.port.waypoints:
            return f"there is no waypoint {event.where}"
        if isinstance(event, NotBefore | Stays):
            # A delay of one slot: whether the ship can still be delayed at all.
            tried = refused(self.asked("audit", f"d {self.ships[event.ship]} 1"))
            if tried and tried != REFUSALS["range"] and not (isinstance(event, Stays) and tried == REFUSALS["stays"]):
                return tried
        if isinstance(event, TugsBack):
            out = out_in(self.events, event.slot)
            tried = refused(replace(self, events=[]).asked("audit", *([f"w {out}"] if out > 0 else []), f"b {event.count}"))
            if tried:
                return tried
        return refused(replace(self, events=[*self.events, event]).asked("audit")) or None

    def broken(self) -> list[list[str]]:
        """The restrictions that are broken before anything happened, and after each event in turn."""
        with ThreadPoolExecutor(4) as pool:
            return list(pool.map(lambda count: self.before(count).broken_now(), range(len(self.events) + 1)))

    def broken_now(self) -> list[str]:
        answer = self.asked("audit")
        if answer.status != 0:
            return [answer.output.strip()]
        restrictions = restrictions_of(self.program.ask("explain", "port", *self.day()).output)
        return [in_words(restrictions[number], self.port) for number in broken_of(answer.output)[-1]]

    def noted(self) -> list[str]:
        """What the program can't be told yet, and how it was told instead."""
        clock, said = self.port.clock, []
        for one in self.events:
            if isinstance(one, TugsOut) and (one.first > self.now or one.last is not None and one.last > self.now):
                span = f"from {clock(one.first)} " + ("on" if one.last is None else f"to {clock(one.last)}")
                said.append(f"{tugs(one.count)} out {span}: the program knows no hours of tugs yet, so they count as out from now to the day's end")
            elif isinstance(one, SHIPS) and one.ship not in self.ships:
                said.append(f"{one.said(clock)}: this plan has no such ship")
        return said

    def repair(self, pins: dict[int, int]) -> Repair:
        """The plan that the events leave, with no ship before now; pins stay held where a ship may still have their slot."""
        answer = self.asked("carry")
        if answer.status != 0:
            raise ValueError(refused(answer))
        wishes, withdrawn = wishes_of(answer.output)
        state, noted, held = self.state(), self.noted(), dict[int, int]()
        bare, with_pins = [], []
        for ship, wish in enumerate(wishes):
            first = max(wish.first or 0, state.firsts.get(ship, 0), self.now)
            now = wish if wish.first is None else Wish(self.port.slots, None) if ship in state.stays else Wish(wish.slot, first)
            bare.append(now)
            if ship in pins and now.first is not None and pins[ship] >= first:
                held[ship] = pins[ship]
                now = Wish(pins[ship], None)
            elif ship in pins and ship not in state.sailed:
                why = "it stays" if ship in state.stays else f"not before {self.port.clock(first)}"
                noted.append(f"{self.port.ships[ship]} is no longer held at {self.port.clock(pins[ship])}: {why}")
            with_pins.append(now)
        texts = [self.program.store.put(plan_text(one, withdrawn).encode()) for one in (with_pins, bare)]
        return Repair(Inputs(self.instance(), self.inputs.tides, *texts), held, noted)


def refused(answer: Answer) -> str:
    """Why the program refused, in words; nothing where it didn't."""
    if answer.status == 0:
        return ""
    line = answer.output.strip()
    return REFUSALS.get(line.split(" ")[-1], line)
