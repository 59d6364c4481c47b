"""What the commands share: options, the port in a folder with its store and its program, and how answers are printed."""
from __future__ import annotations

import fcntl
import json
import os
import sys
from collections.abc import Callable, Iterator
from contextlib import contextmanager
from dataclasses import dataclass
from typing import Any, TypeVar

import click

from ..core import trust
from ..core.program import Failed, Program
from ..core.store import Store
from ..library.faults import Refused, printable
from ..library.folder import Folder, find, read

Command = TypeVar("Command", bound=Callable[..., Any])
# Where a port's folder has its store.
STORE = ".tw"

FOLDER = click.argument("folder", default=".", type=click.Path())
INSIDE = click.option("--in", "folder", default=".", type=click.Path(), metavar="FOLDER",
                      help="The port's folder; without it that in which you are.")
DAY = click.option("--day", metavar="DATE", help="Begin slot 0 on this date, as 2027-03-15, and not on that of port.json.")
JSON = click.option("--json", "as_json", is_flag=True, help="Print the answer as JSON, in the form that docs/TW.md has.")
PROGRAM = click.option("--program", metavar="PATH", envvar="TIDEWISE", default="tidewise", show_default=True,
                       help="The program Tidewise; the variable TIDEWISE names it too.")


def port_options(command: Command) -> Command:
    """FOLDER, --day, --json and --program, which most commands have."""
    for option in (PROGRAM, JSON, DAY, FOLDER):
        command = option(command)
    return command


def ship_names(context: click.Context, parameter: click.Parameter, incomplete: str) -> list[str]:
    """The ships of the port's folder that begin so, for a shell that completes a word."""
    try:
        names = read(find(str(context.params.get("folder") or "."))).port.ships
    except (Refused, OSError):
        return []
    return [name for name in names if name.lower().startswith(incomplete.lower())]


def asking_options(command: Command) -> Command:
    """--in, --day, --json and --program, of a command whose words are ships or changes."""
    for option in (PROGRAM, JSON, DAY, INSIDE):
        command = option(command)
    return command


class Busy(Refused):
    """Another run works in this folder."""


@dataclass(frozen=True)
class Place:
    """A port's folder that was read without a fault, its store and the program."""
    folder: Folder
    store: Store
    program: Program


def store_of(root: str) -> Store:
    """The store of a port's folder, made where there is none yet."""
    return Store(os.path.join(root, STORE))


def program_of(path: str, store: Store) -> Program:
    """The program, which is trusted where its very bytes were named so."""
    return Program(path, store, trust.digests())


def place_of(path: str, day: str | None, program: str) -> Place:
    """The port in a folder; `Wrong` has all faults of its files."""
    root = find(path)
    folder = read(root, day)
    store = store_of(root)
    return Place(folder, store, program_of(program, store))


@contextmanager
def alone(store: Store) -> Iterator[None]:
    """Nobody else may run anything in this store meanwhile: two would end each other's runs. `Busy` where somebody does."""
    with open(os.path.join(store.folder, "lock"), "a", encoding="ascii") as lock:
        try:
            fcntl.flock(lock, fcntl.LOCK_EX | fcntl.LOCK_NB)
        except BlockingIOError:
            raise Busy(f"{os.path.dirname(store.folder)}: another run or the board works in this folder; wait for its end") from None
        yield


def say(text: str = "") -> None:
    """A line of the answer; what a terminal might obey in it is escaped."""
    click.echo(printable(text))


def warn(text: str) -> None:
    """A line that is no part of the answer."""
    click.echo(printable(text), err=True)


def in_tonnes(tenths: int | None) -> float | None:
    """Tenths of a tonne in tonnes, for JSON."""
    return None if tenths is None else tenths / 10


def say_json(answer: object) -> None:
    click.echo(json.dumps(answer, ensure_ascii=True, indent=1))


def say_rows(rows: list[list[str]], right: frozenset[int] = frozenset()) -> None:
    """Rows in columns of equal width, those of `right` with their ends below each other."""
    shown = [[printable(cell) for cell in row] for row in rows]
    widths = [max(map(len, column)) for column in zip(*shown)]
    for row in shown:
        cells = [cell.rjust(width) if place in right else cell.ljust(width) for place, (cell, width) in enumerate(zip(row, widths))]
        click.echo("  ".join(cells).rstrip())


def near(path: str) -> str:
    """A path as one would type it here."""
    short = os.path.relpath(path)
    return path if short.startswith("..") else short


def terminal() -> bool:
    """Whether somebody reads standard error as it is written."""
    return sys.stderr.isatty()


__all__ = ["DAY", "FOLDER", "INSIDE", "JSON", "PROGRAM", "Busy", "Failed", "Place", "alone", "asking_options", "in_tonnes", "near", "place_of",
           "port_options", "program_of", "say", "say_json", "say_rows", "ship_names", "store_of", "terminal", "warn"]
