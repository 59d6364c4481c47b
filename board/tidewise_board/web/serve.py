"""Serves the board on this machine: `tw board`."""
from __future__ import annotations

import argparse
import fcntl
import os
import signal
import sys
from dataclasses import dataclass

import waitress

from .guard import MOST_REQUEST, key_of, reader_of
from ..core.program import Program
from ..core.runs import Runs
from ..core.shown import build_words
from ..core.store import Store
from .app import create, default_folder

BUSY = 4


@dataclass(frozen=True)
class Serving:
    """How a board is served: its port, the folder of its store, the program, the SHA-256 of those that are trusted, how many runs there
    are at once, and how far they step back for other programs."""
    port: int
    data: str
    program: str
    trusted: list[str]
    at_once: int
    nice: int


def open_board(given: Serving) -> int:
    """Serves a board until it is ended, and returns its status."""
    store = Store(given.data)
    # Two boards over one folder would end each other's runs.
    with open(os.path.join(given.data, "lock"), "a", encoding="ascii") as lock:
        try:
            fcntl.flock(lock, fcntl.LOCK_EX | fcntl.LOCK_NB)
        except BlockingIOError:
            print(f"{given.data} is that of a board that runs, or of a plan that is made", file=sys.stderr)
            return BUSY
        serve(given, store)
    return 0


def serve(given: Serving, store: Store) -> None:
    program = Program(given.program, store, given.trusted, given.nice)
    runs = Runs(store, program, given.at_once)
    key = key_of(given.data)
    app = create(store, program, runs, key, given.port)
    server = waitress.create_server(app, host="127.0.0.1", port=given.port, threads=8, max_request_body_size=MOST_REQUEST, ident=None,
                                    clear_untrusted_proxy_headers=True)
    print(f"{build_words(program)}, {program.digest}")
    print(f"http://127.0.0.1:{given.port}/enter?key={key}", flush=True)
    print(f"to look on only: http://127.0.0.1:{given.port}/enter?key={reader_of(key)}", flush=True)
    signal.signal(signal.SIGTERM, lambda *_: sys.exit(0))
    try:
        server.run()
    finally:
        runs.close()


def main() -> None:
    """For tests: a board over any folder, whose trusted programs are named by words."""
    parser = argparse.ArgumentParser(prog="tidewise-board", description=__doc__)
    parser.add_argument("--port", type=int, default=8420)
    parser.add_argument("--data", default=default_folder())
    parser.add_argument("--program", default="tidewise")
    parser.add_argument("--trusted", action="append", default=[], metavar="SHA256")
    parser.add_argument("--at-once", type=int, default=max(1, (os.cpu_count() or 2) // 2))
    parser.add_argument("--nice", type=int, default=5)
    given = parser.parse_args()
    sys.exit(open_board(Serving(given.port, given.data, given.program, given.trusted, given.at_once, given.nice)))


if __name__ == "__main__":
    main()
