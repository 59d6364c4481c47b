"""Who did what on a day: a record that only grows."""
from __future__ import annotations

import sqlite3

from .store import Store

# The longest name of a person, in characters.
MOST_NAME = 60


def name_of(text: str) -> str:
    """A person's name on one line; `ValueError` where nothing is left of it."""
    name = " ".join("".join(letter if letter.isprintable() else " " for letter in text).split())[:MOST_NAME]
    if not name:
        raise ValueError("a name is needed")
    return name


def did(store: Store, day: int, who: str, what: str) -> None:
    store.insert("INSERT INTO deed(day, who, what) VALUES (?, ?, ?)", day, who, what)


def deeds_of(store: Store, day: int, most: int = 200) -> list[sqlite3.Row]:
    """What was done on a day, the latest first; times are those of the machine in UTC."""
    return store.rows("SELECT made, who, what FROM deed WHERE day = ? ORDER BY id DESC LIMIT ?", day, most)


def makers_of(store: Store, day: int) -> dict[int, str]:
    """Who made each plan of a day."""
    rows = store.rows("SELECT who, what FROM deed WHERE day = ? AND what LIKE 'made it plan %'", day)
    return {int(row["what"].removeprefix("made it plan ").partition(":")[0]): row["who"] for row in rows}
