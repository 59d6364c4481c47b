"""`tw board`: the planning board, a page on this machine."""
from __future__ import annotations

import os

import click

from ..library.faults import Wrong
from ..library.folder import find
from .common import PROGRAM, STORE


def data_of(folder: str, data: str | None) -> str:
    """Where the board has its store: in the port's folder, or else in a place of the user's own."""
    from ..web.app import default_folder
    if data is not None:
        return data
    try:
        return os.path.join(find(folder), STORE)
    except Wrong:
        if folder != ".":
            raise
        return default_folder()


@click.command(name="board")
@click.argument("folder", default=".", type=click.Path())
@click.option("--port", type=click.IntRange(1, 65535), default=8420, show_default=True, help="Listen there, on this machine alone.")
@click.option("--data", metavar="FOLDER", help="Keep days and plans there, and not in the port's folder.")
@click.option("--at-once", type=click.IntRange(1, 64), default=max(1, (os.cpu_count() or 2) // 2), show_default=True, help="Runs at the same time.")
@click.option("--nice", type=click.IntRange(0, 19), default=5, show_default=True, help="How far runs step back for other programs.")
@PROGRAM
def command(folder: str, port: int, data: str | None, at_once: int, nice: int, program: str) -> int:
    """Serves the planning board on 127.0.0.1 and prints an address with a key, to be opened once. Ctrl-C ends it.

    In a port's folder it has the days and plans of `tw`; elsewhere a store of your own. While it runs, `tw plan` and `tw replan` of this folder
    wait for its end.

    \b
    Example: tw board --port 8421
    """
    from ..core import trust
    from ..web.serve import Serving, open_board
    return open_board(Serving(port, data_of(folder, data), program, trust.digests(), at_once, nice))
