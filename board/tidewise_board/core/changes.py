"""What differs between two timetables, row by row of the program's own tables."""
from __future__ import annotations

from dataclasses import dataclass

from .facts import Port
from .reading import tenths, tonnes


@dataclass(frozen=True)
class Change:
    """A ship whose slot, draft or cargo differs. Times are those of the port's clock; the cargo is in tenths of a tonne."""
    ship: str
    before: str
    after: str
    moved: bool
    drafts: tuple[str, str]
    cargo: tuple[int, int]

    @property
    def difference(self) -> int:
        return self.cargo[1] - self.cargo[0]

    def said(self) -> str:
        gain = "" if self.difference == 0 else f", {signed(self.difference)} t"
        return f"{self.ship}: {self.before} → {self.after}{gain}" if self.moved else f"{self.ship}: {self.after}{gain}"


def signed(tenths_more: int) -> str:
    return f"{'−' if tenths_more < 0 else '+'}{tonnes(abs(tenths_more))}"


def sails(row: dict[str, str], port: Port) -> str:
    slot = row.get("slot", "")
    return port.clock(int(slot)) if slot else "stays" if row else "–"


def changes(port: Port, before: list[dict[str, str]], after: list[dict[str, str]], old_port: Port | None = None) -> list[Change]:
    """The ships that sail at another time or with another draft in the second table, in the order of their new times. Ships are matched
    by name, so the two plans may have different line-ups."""
    old = {row["name"]: row for row in before}
    new = {row["name"]: row for row in after}
    found = []
    for name in [*new, *(name for name in old if name not in new)]:
        one, other = old.get(name, {}), new.get(name, {})
        times = sails(one, old_port or port), sails(other, port)
        drafts = depth(one), depth(other)
        cargo = tenths(one.get("cargo t") or "0.0"), tenths(other.get("cargo t") or "0.0")
        if times[0] != times[1] or drafts[0] != drafts[1] or cargo[0] != cargo[1]:
            found.append((int(other.get("slot") or 10000), Change(name, *times, times[0] != times[1], drafts, cargo)))
    return [change for _, change in sorted(found, key=lambda one: (one[0], one[1].ship))]


def depth(row: dict[str, str]) -> str:
    """The sailing draft in metres."""
    return f"{int(row['draft cm']) / 100:.2f}" if row.get("draft cm") else ""
