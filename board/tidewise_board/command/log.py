"""`tw log`: what has happened, in a sentence."""
from __future__ import annotations

from dataclasses import replace
from typing import Any

import click

from ..core.plans import events_of
from ..core.runs import Runs
from ..library.dates import written
from ..library.faults import Refused
from ..library.folder import read
from .book import follow_log, logged, note, now_minute, reader_of, watch_of, written_alone
from .common import DAY, INSIDE, JSON, PROGRAM, Place, place_of, say, say_json
from .day import dated, standing, user
from .sentences import Reader


def slot_of(place: Place, minute: int) -> int:
    return min(place.folder.clock.slots - 1, place.folder.clock.slot_from(minute))


@click.command(name="log")
@click.argument("sentence", nargs=-1)
@INSIDE
@click.option("--now", metavar="TIME", help="What time it is by the port's clock; without it this machine's clock tells.")
@click.option("--who", metavar="NAME", help="Who says so; without it your user's name.")
@DAY
@JSON
@PROGRAM
def command(sentence: tuple[str, ...], now: str | None, who: str | None, **asked: Any) -> int:
    """Notes what has happened, as a line of log.csv, and says what of the plan that breaks. It is refused where it can't be.

    \b
    Corvo not before 02:00               Corvo stays
    sailed Brisa 13:40                   survey Corvo 16.40
    tugs 3 out from 15:00 to 18:00       tugs 2 back at 17:00
    close Bar 14:00 to 16:00             close port 14:00 to 16:00

    A time may have its date: 2027-03-15 02:00, 15 Mar 02:00, Mon 02:00, or one in the order of `dates` in port.json. Without SENTENCE the log
    is printed. To take back what was said, delete its line in log.csv.

    \b
    Example: tw log "Corvo not before 02:00"
    """
    place = place_of(asked["folder"], asked["day"], asked["program"])
    if not sentence:
        return show(place, asked["as_json"])
    with written_alone(place.folder.root):
        return told(replace(place, folder=read(place.folder.root, asked["day"])), " ".join(sentence), now, who or user(), asked["as_json"])


def show(place: Place, as_json: bool) -> int:
    lines = [{"written": line.written, "who": line.who, "said": line.said} for line in place.folder.log]
    if as_json:
        say_json({"day": place.folder.day, "log": lines})
    else:
        for line in lines:
            say(f"{line['written']}  {line['who']}: {line['said']}")
    return 0


def told(place: Place, sentence: str, now: str | None, who: str, as_json: bool) -> int:
    """Notes one sentence, and says what it breaks."""
    plan = standing(place)
    if plan is None:
        raise Refused("there is no plan of this day yet; what is known before one belongs into ships.csv and port.json")
    runs = Runs(place.store, place.program, own=False)
    minute = now_minute(place.folder.clock, now, 0)
    reader: Reader = reader_of(place, runs, plan, minute)
    follow_log(place, plan, logged(place, reader))
    event = reader.read(sentence)
    in_slots = reader.in_slots(event)
    watch = watch_of(place, runs, plan, dated(place, runs.get(plan["run"])["instance"]), slot_of(place, minute))
    why = watch.refusal(in_slots)
    if why is not None:
        raise Refused(f"{reader.said(event)}: {why}")
    note(place.folder.root, who, reader.said(event))
    follow_log(place, plan, [*logged(place, reader), in_slots])
    after = watch_of(place, runs, plan, watch.port, watch.now)
    broken, noted = after.broken_now(), after.noted()
    if as_json:
        say_json({"day": place.folder.day, "plan": plan["number"], "said": reader.said(event), "now": written(place.folder.clock.start + minute),
                  "broken": broken, "noted": noted, "events": len(events_of(place.store, plan["day"]))})
        return 0
    say(f"noted: {reader.said(event)}")
    for line in noted:
        say(f"note: {line}")
    say(f"plan {plan['number']} still holds" if not broken else f"this breaks plan {plan['number']}; `tw replan` repairs it:")
    for line in broken:
        say(f"  {line}")
    return 0
