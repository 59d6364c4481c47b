"""A plan that was made by hand: read as it is pasted, judged by `audit`, and priced by `verify`, or by the values of its slots where it
isn't permitted."""
from __future__ import annotations

import re
from dataclasses import dataclass
from datetime import datetime

from .facts import Port, in_words, watched
from .program import Draft, Program, Text
from .reading import Unread, broken_of, restrictions_of, verdict_of
from .runs import Inputs, flat_problem

# The longest text that is read, in characters, and the words for a ship without a slot.
MOST = 100_000
STAYS = ("stays", "stay", "-", "–", "")


class NoHand(ValueError):
    """A text is no plan of this day; each line of the message is one fault."""


@dataclass(frozen=True)
class ByHand:
    """A plan by hand: its slots, what it breaks, and what it carries in tenths of a tonne. `permitted` says that `verify` took it."""
    timetable: list[int]
    broken: list[str]
    cargo: int
    permitted: bool


def slots_of(text: str, port: Port) -> list[int]:
    """The slot of each ship, that after the last one where she stays. A line for each ship, her name and a time by the port's clock or
    a slot's number, with a tab, a semicolon or a comma between them; or the program's own table. `NoHand` for any other text."""
    if len(text) > MOST:
        raise NoHand("the text is too long")
    own = re.search(r"^t ([0-9 ]+)$", text, re.MULTILINE)
    if own and len(own[1].split()) == len(port.ships):
        return [min(int(word), port.slots) for word in own[1].split()]
    found: dict[str, int] = {}
    faults = []
    for number, line in enumerate(text.splitlines(), 1):
        name, time = name_and_time(line, port)
        if name is None:
            if line.strip() and number > 1:
                faults.append(f"line {number}: {line.strip()[:60]}: there is no such ship")
        elif name in found:
            faults.append(f"line {number}: {name} has a time already")
        else:
            slot = slot_of(time, port)
            if slot is None:
                faults.append(f"line {number}: {name}: {time[:30]} is no time of this day")
            else:
                found[name] = slot
    missing = [name for name in port.ships if name not in found]
    if missing and not faults:
        faults.append(f"no time is given for {', '.join(missing[:6])}{' and others' if len(missing) > 6 else ''}: write “stays” for a ship that doesn’t sail")
    if faults:
        raise NoHand("\n".join(faults[:12]))
    return [found[name] for name in port.ships]


def name_and_time(line: str, port: Port) -> tuple[str | None, str]:
    """The ship that a line names, and the rest of it."""
    cells = [cell.strip().strip('"') for cell in re.split(r"[\t;]" if re.search(r"[\t;]", line) else ",", line)]
    names = {name.lower(): name for name in port.ships}
    for place, text in enumerate(cells[:-1] if len(cells) > 1 else []):
        if text.lower() in names:
            return names[text.lower()], cells[place + 1]
    words = line.strip()
    name = max((name for name in port.ships if words.lower().startswith(name.lower() + " ")), key=len, default=None)
    return (None, "") if name is None else (name, words[len(name):].strip())


def slot_of(text: str, port: Port) -> int | None:
    """The slot in which a time lies: a slot's number, 06:15, 1d 02:00, or a date and a time where the port has a start."""
    if text.lower() in STAYS:
        return port.slots
    if re.fullmatch(r"[0-9]{1,4}", text):
        return int(text) if int(text) < port.slots else None
    minute = minute_of(text, port)
    return minute // port.minutes if minute is not None and 0 <= minute < port.slots * port.minutes else None


def minute_of(text: str, port: Port) -> int | None:
    """The minute from slot 0 of a time by the port's clock; a time alone is the first one of the day."""
    midnight = int(port.start[11:13]) * 60 + int(port.start[14:16]) if port.start else 0
    found = re.fullmatch(r"(?:([0-9]{1,3})d )?([0-9]{1,2}):([0-9]{2})", text)
    if found and int(found[2]) < 24 and int(found[3]) < 60:
        at = int(found[2]) * 60 + int(found[3]) - midnight
        return at + 1440 * int(found[1]) if found[1] else at % 1440
    if port.start and re.fullmatch(r"[0-9]{4}-[0-9]{2}-[0-9]{2}[ T][0-9]{2}:[0-9]{2}", text):
        try:
            begin, then = datetime.fromisoformat(port.start), datetime.fromisoformat(text)
        except ValueError:
            return None
        return round((then - begin).total_seconds()) // 60
    return None


def judged(program: Program, inputs: Inputs, port: Port, timetable: list[int]) -> ByHand:
    """What `audit` says of a timetable on which nothing has happened, and what it carries."""
    answer = program.ask("audit", "port", *inputs.words()[:2], Draft(watched(timetable).encode(), "table.txt"),
                         Draft(b"events 1\nend\n", "events.txt"))
    if answer.status != 0:
        raise NoHand("a ship that may not stay has no time" if port.slots in timetable else answer.output.strip())
    restrictions = restrictions_of(program.ask("explain", "port", *inputs.words()[:2]).output)
    broken = [in_words(restrictions[number], port) for number in broken_of(answer.output)[0]]
    # A certificate of this timetable alone: verify prices it, if it is permitted.
    cert = program.store.put(f"cert 3\nt {' '.join(map(str, timetable))}\n".encode())
    try:
        said = verdict_of(program.ask("verify", "port", *inputs.words()[:2], Text(cert, "cert")).output)
    except Unread:
        said = None
    if said is not None and said.cargo is not None and not broken:
        return ByHand(timetable, broken, said.cargo, True)
    return ByHand(timetable, broken, flat_problem(program, inputs).cargo(timetable), False)
