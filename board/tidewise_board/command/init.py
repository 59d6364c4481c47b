"""`tw init`: a port's folder to begin with."""
from __future__ import annotations

import os
import shutil

import click

from ..library.faults import Refused
from .common import say

PORTS = os.path.join(os.path.dirname(os.path.abspath(__file__)), "..", "library", "ports")
KINDS = ["start", "calls"]


@click.command("init")
@click.argument("folder", type=click.Path())
@click.option("--from", "kind", type=click.Choice(KINDS), default="start", show_default=True,
              help="start: a port whose every number is explained in place; calls: the example with calls and closed hours.")
def command(folder: str, kind: str) -> int:
    """Makes a port's folder to begin with: port.json, ships.csv and tides/. Nothing is ever written over.

    The status is 4 where the folder is there already and isn't empty.

    \b
    Example: tw init east-port && tw check east-port && tw plan east-port
    """
    if os.path.exists(folder) and os.listdir(folder):
        raise Refused(f"{folder} is there already, and isn't empty")
    for path in copied(os.path.join(PORTS, kind), folder):
        say(path)
    say("Change them to your port's, and ask `tw check` what is wrong.")
    return 0


def copied(source: str, path: str) -> list[str]:
    """Copies a folder, and returns the paths of what was made."""
    made = []
    for folder, _, names in sorted(os.walk(source)):
        there = os.path.normpath(os.path.join(path, os.path.relpath(folder, source)))
        os.makedirs(there, exist_ok=True)
        for name in sorted(names):
            made.append(os.path.join(there, name))
            shutil.copyfile(os.path.join(folder, name), made[-1])
    return made
