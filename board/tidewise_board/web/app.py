"""The board's application: what all pages share."""
from __future__ import annotations

import os
from dataclasses import dataclass
from typing import Any, cast

from flask import Flask, abort, current_app, render_template, request

from .guard import READABLE, guard, token_of
from ..core import race
from ..core.program import Failed, Program
from ..core.reading import Unread, tonnes
from ..core.runs import Runs
from ..core.shown import build_words, warning_words
from ..core.store import Damaged, Store


@dataclass(frozen=True)
class Board:
    store: Store
    program: Program
    runs: Runs


def board() -> Board:
    return cast(Board, current_app.extensions["board"])


def said() -> dict[str, Any]:
    """The JSON object of a request."""
    try:
        data = request.get_json(silent=True)
    except RecursionError:
        abort(400)
    if not isinstance(data, dict):
        abort(400)
    return data


def whole(value: object, low: int, high: int) -> int:
    """A whole number from a request, within these limits."""
    if not isinstance(value, int) or isinstance(value, bool) or not low <= value <= high:
        raise ValueError(f"{value!r} is no whole number from {low} to {high}")
    return value


def create(store: Store, program: Program, runs: Runs, key: str, port: int) -> Flask:
    from . import audit, berths, compare, day, names, owner, plan, publish, tomorrow, underway, wall, whatifs, windows
    race.take_up(runs)
    app = Flask(__name__)
    app.extensions["board"] = Board(store, program, runs)
    app.json.sort_keys = False  # type: ignore[attr-defined]
    app.jinja_env.trim_blocks = app.jinja_env.lstrip_blocks = True
    app.jinja_env.filters["tonnes"] = tonnes
    guard(app, key, port)
    for part in (day, plan, whatifs, berths, windows, compare, underway, publish, audit, owner, names, tomorrow, wall):
        app.register_blueprint(part.pages)

    @app.context_processor
    def everywhere() -> dict[str, Any]:
        return {"token": token_of(key), "program": program, "who": names.told(), "build": build_words(program),
                "warning": warning_words(program)}

    @app.errorhandler(Failed)
    @app.errorhandler(Unread)
    @app.errorhandler(Damaged)
    def trouble(cause: Exception) -> tuple[dict[str, str], int]:
        return {"error": f"{type(cause).__name__}: {cause}"}, 500

    @app.errorhandler(ValueError)
    def wrong(cause: ValueError) -> tuple[dict[str, str], int]:
        return {"error": f"{cause}"}, 400

    @app.errorhandler(404)
    def nothing(cause: Exception) -> Any:
        # A page of its own carries the token: who only looks on gets none.
        if request.path.startswith(("/api/", *READABLE)):
            return {"error": "the board has no such thing"}, 404
        return render_template("missing.html", page=""), 404

    @app.errorhandler(KeyError)
    def missing(cause: KeyError) -> tuple[dict[str, str], int]:
        return {"error": f"there is no {cause}"}, 404

    return app


def memory() -> int:
    """The greatest memory of this process so far, in kilobytes."""
    with open("/proc/self/status", encoding="ascii") as file:
        return next(int(line.split()[1]) for line in file if line.startswith("VmHWM"))


def default_folder() -> str:
    return os.path.join(os.environ.get("XDG_DATA_HOME", os.path.expanduser("~/.local/share")), "tidewise-board")
