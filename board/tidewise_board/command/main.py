"""The command `tw`: its group, whose commands are each read from their own module only when they are called."""
from __future__ import annotations

import importlib
import os
import sqlite3
import sys
import traceback

import click

from .. import __version__
from ..core.program import Failed, NoProgram
from ..core.reading import Unread
from ..core.store import Damaged
from ..library.faults import Refused, printable

# Each command, its module here, and what its help says in one line. A module has its command under the name `command`.
COMMANDS: dict[str, tuple[str, str]] = {
    "init": ("init", "Makes a port's folder to begin with."),
    "check": ("check", "Says what is wrong with a port's folder, and where."),
    "windows": ("windows", "Says when each ship may sail, and with which draft."),
    "plan": ("plan", "Plans the day, and keeps the plan with its certificate."),
    "log": ("log", "Notes what has happened: a late ship, a sailing, tugs out, a closing."),
    "replan": ("replan", "Repairs the plan by what has happened since."),
    "accept": ("accept", "Makes the last repair the day's plan."),
    "plans": ("plans", "Lists the day's plans."),
    "why": ("why", "Says why nothing fits, or what keeps a ship from sailing at a time."),
    "try": ("whatif", "Says what changes would be worth: tugs, depths, closings."),
    "publish": ("publish", "Puts the plan into one file that anybody can check."),
    "verify": ("verify", "Checks a published file."),
    "roll": ("roll", "Makes the next day's folder."),
    "trust": ("trust", "Names a program whose proofs you have checked."),
    "board": ("board", "Serves the planning board, a page on this machine."),
    "completion": ("completion", "Prints the completion of words for a shell."),
}
# Statuses of `tw` that are no answer of the program: see docs/TW.md.
WORDS, BAD, REFUSED, READ, WRITE, FAULT, STOPPED = 3, 4, 5, 6, 7, 70, 130


class Commands(click.Group):
    """The commands, read as they are called, so that none waits for the modules of the others."""

    def list_commands(self, ctx: click.Context) -> list[str]:
        return list(COMMANDS)

    def get_command(self, ctx: click.Context, cmd_name: str) -> click.Command | None:
        if cmd_name not in COMMANDS:
            return None
        made = importlib.import_module(f"{__package__}.{COMMANDS[cmd_name][0]}").command
        return made if isinstance(made, click.Command) else None

    def format_commands(self, ctx: click.Context, formatter: click.HelpFormatter) -> None:
        with formatter.section("Commands"):
            formatter.write_dl([(name, said) for name, (_, said) in COMMANDS.items()])


@click.group(cls=Commands, context_settings={"help_option_names": ["-h", "--help"], "max_content_width": 110})
@click.version_option(__version__, prog_name="tw")
def tw() -> None:
    """Plans the sailings of a port: `tw check`, `tw plan`, and as the day goes on `tw log` and `tw replan`.

    A port is a folder: port.json, ships.csv, tides/. Each command takes one as FOLDER, and without it the folder in which you are.
    `tw init FOLDER` makes one to begin with.
    """


def tell(text: str) -> None:
    print(printable(text), file=sys.stderr)


def status_of(cause: Exception) -> int:
    """The status with which `tw` ends where it couldn't answer."""
    if isinstance(cause, Refused | ValueError):
        return BAD
    if isinstance(cause, NoProgram):
        return READ
    if isinstance(cause, Unread | Damaged | Failed):
        return REFUSED
    if isinstance(cause, sqlite3.Error):
        return WRITE
    if isinstance(cause, FileNotFoundError | PermissionError | IsADirectoryError | NotADirectoryError):
        return READ
    return WRITE if isinstance(cause, OSError) else FAULT


def said_of(cause: Exception) -> str:
    if isinstance(cause, Damaged):
        return f"what stands in the store isn't what was put there: {cause}"
    if isinstance(cause, Unread):
        return f"the program printed what it never prints: {str(cause)[:200]}"
    if isinstance(cause, OSError) and cause.strerror:
        return f"{cause.filename}: {cause.strerror}" if cause.filename else cause.strerror
    if isinstance(cause, sqlite3.Error):
        return f"the store can't be read or written: {cause}"
    return f"{cause}"


def run(words: list[str] | None = None) -> int:
    """Runs `tw` with these words, and returns its status. Nothing but the answer goes to standard output."""
    try:
        done = tw.main(words, prog_name="tw", standalone_mode=False)
        sys.stdout.flush()
        return done if isinstance(done, int) else 0
    except click.ClickException as cause:
        cause.show()
        return WORDS
    except (click.Abort, KeyboardInterrupt):
        return STOPPED
    except Exception as cause:  # noqa: BLE001 - each has its status, and none is that of an answer
        status = status_of(cause)
        if isinstance(cause, BrokenPipeError):
            os.dup2(os.open(os.devnull, os.O_WRONLY), sys.stdout.fileno())
            return WRITE
        if status == FAULT:
            traceback.print_exc()
        tell(f"tw: {said_of(cause)}")
        return status


def main() -> None:
    """The command `tw`."""
    sys.exit(run())
