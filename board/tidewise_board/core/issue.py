"""An issue of a plan in the forms that people at work read: a text for pilots, tugs and berths, and a table for a spreadsheet."""
from __future__ import annotations

import csv
import io
import json
from dataclasses import dataclass
from typing import Any

from .changes import depth
from .facts import Port, minute_of

# A cell that begins so would be a formula in a spreadsheet.
FORMULA = ("=", "+", "-", "@", "\t", "\r")
SENSE = {"outgoing": "out", "incoming": "in"}


@dataclass(frozen=True)
class Sailing:
    """A ship of an issue: when she passes each waypoint, by the port's clock, with her draft and the water under her keel in metres."""
    name: str
    sense: str
    slot: int | None
    sails: str
    passes: list[tuple[str, str]]
    draft: str
    keel: str
    limit: str
    tugs: int
    job: str
    cargo: str


@dataclass(frozen=True)
class Head:
    """What stands over each form of an issue."""
    title: str
    verdict: str
    meaning: str
    issued: str
    sums: str


def sailings(port: Port, instance: bytes, table: list[dict[str, str]]) -> list[Sailing]:
    """The rows of the program's table in the order of their times, and then the ships that stay."""
    ships: list[dict[str, Any]] = json.loads(instance)["ships"]
    found = []
    for row in table:
        ship = ships[int(row["ship"])]
        slot = int(row["slot"]) if row["slot"] else None
        passes = sorted((minute_of(row[name], port), name) for name in port.waypoints if slot is not None and row.get(name))
        found.append(Sailing(plain(row["name"]), SENSE.get(row["direction"], row["direction"]), slot, "stays" if slot is None else port.clock(slot),
                             [(name, port.clock_of(minute)) for minute, name in passes], depth(row), metres(row.get("under keel cm", "")),
                             plain(row.get("limiting waypoint", "")), int(ship["tugs"]), span(int(ship["job"]) * port.minutes),
                             row.get("cargo t", "")))
    return sorted(found, key=lambda one: (one.slot is None, one.slot or 0, one.name))


def plain(name: str) -> str:
    """A name on one line: it may hold any character."""
    return "".join(letter if letter.isprintable() else " " for letter in name)


def metres(centimetres: str) -> str:
    return f"{int(centimetres) / 100:.2f}" if centimetres else ""


def span(minutes: int) -> str:
    return f"{minutes // 60}:{minutes % 60:02}"


def text_for_pilots(head: Head, rows: list[Sailing], berths: list[str], changed: list[str]) -> str:
    """One text for pilots, tugs and berths, as it can be sent or read out."""
    sail, stay = [one for one in rows if one.slot is not None], [one.name for one in rows if one.slot is None]
    wide = max([4, *(len(one.name) for one in rows)])
    lines = [head.title, head.verdict, head.issued, "Times are by the port's clock, drafts and water under the keel in metres.", "", "PILOTS"]
    for one in sail:
        passes = ", ".join(f"{name} {clock}" for name, clock in one.passes)
        keel = f", {one.keel} under the keel at {one.limit}" if one.keel and one.limit else ""
        lines.append(f"{one.sails:>8}  {one.name:<{wide}}  {one.sense:<3}  draft {one.draft}{keel}; passes {passes}")
    if stay:
        lines += ["   stays  " + ", ".join(stay)]
    lines += ["", "TUGS"]
    lines += [f"{one.sails:>8}  {one.tugs} to {one.name}, for {one.job}" for one in sail if one.tugs] or ["none"]
    lines += ["", "BERTHS", *(berths or ["none"]), "", "CHANGES SINCE THE LAST ISSUE", *(changed or ["none"])]
    return "\n".join([*lines, "", head.sums]) + "\n"


def cell(text: str) -> str:
    """A cell that no spreadsheet takes for a formula."""
    return f"'{text}" if text.startswith(FORMULA) else text


def sheet_csv(port: Port, rows: list[Sailing]) -> str:
    """A row for each ship with a header; UTF-8, commas, line feeds."""
    out = io.StringIO(newline="")
    writer = csv.writer(out, lineterminator="\n")
    writer.writerow(["ship", "direction", "sails", "slot", "draft m", "limited by", "under keel m", "tugs", "job", "cargo t",
                     *(cell(f"passes {plain(name)}") for name in port.waypoints)])
    for one in rows:
        passes = dict(one.passes)
        writer.writerow([cell(one.name), one.sense, one.sails, "" if one.slot is None else one.slot, one.draft, cell(one.limit), one.keel,
                         one.tugs, one.job, one.cargo, *(passes.get(name, "") for name in port.waypoints)])
    return out.getvalue()
