"""What the tests share: the program, a store, the examples."""
from __future__ import annotations

import os
import sys
from collections.abc import Iterator
from typing import Any

import pytest
from flask.testing import FlaskClient

HERE = os.path.dirname(os.path.abspath(__file__))
sys.path[:0] = [HERE, os.path.dirname(HERE)]

from browser import EXAMPLES, PROGRAM  # noqa: E402
from tidewise_board.core import days  # noqa: E402
from tidewise_board.core.program import Program  # noqa: E402
from tidewise_board.core.runs import Inputs, Runs  # noqa: E402
from tidewise_board.core.store import Store  # noqa: E402
from tidewise_board.web.app import create  # noqa: E402
from tidewise_board.web.guard import token_of  # noqa: E402

KEY = "a key"

if not os.access(PROGRAM, os.X_OK):
    pytest.exit(f"{PROGRAM} isn't built: name a program by TIDEWISE", 4)


def pytest_collection_modifyitems(config: pytest.Config, items: list[pytest.Item]) -> None:
    """Marks tests of a real browser, and keeps one part of all tests where `PART` asks for that, as 2/4."""
    for item in items:
        if hasattr(getattr(item, "module", None), "Planner"):
            item.add_marker(pytest.mark.browser)
    number, _, count = os.environ.get("PART", "1/1").partition("/")
    kept = [item for place, item in enumerate(items) if place % int(count) == int(number) - 1]
    config.hook.pytest_deselected(items=[item for item in items if item not in kept])
    items[:] = kept


def example(*names: str) -> list[tuple[str, str]]:
    found = []
    for name in names:
        with open(os.path.join(EXAMPLES, name), encoding="utf-8") as file:
            found.append((name, file.read()))
    return found


def ready_made(name: str) -> list[tuple[str, str]]:
    """The files of a port that the package begins with."""
    root = os.path.join(os.path.dirname(days.__file__), "..", "library", "ports", name)
    found = []
    for folder in (root, os.path.join(root, "tides")):
        for file in sorted(os.listdir(folder)):
            if os.path.isfile(os.path.join(folder, file)):
                with open(os.path.join(folder, file), encoding="utf-8") as opened:
                    found.append((file, opened.read()))
    return found


@pytest.fixture
def store(tmp_path: object) -> Store:
    return Store(os.path.join(str(tmp_path), "data"))


@pytest.fixture
def program(store: Store) -> Program:
    return Program(PROGRAM, store)


@pytest.fixture
def runs(store: Store, program: Program) -> Iterator[Runs]:
    made = Runs(store, program)
    yield made
    made.close()


@pytest.fixture
def contested(store: Store, program: Program) -> Inputs:
    made = days.make(days.dropped(example("contested.json", "day-tides.csv")), program)
    assert made.good and made.instance and made.tides
    store.insert("INSERT INTO day(name) VALUES ('contested')")
    return Inputs(store.put(made.instance.encode()), store.put(made.tides.encode()))


class Client(FlaskClient):
    """Asks for the board's own address."""

    def open(self, *words: Any, **options: Any) -> Any:
        return super().open(*words, **{"base_url": "http://127.0.0.1:8420", **options})


@pytest.fixture
def client(store: Store, program: Program, runs: Runs) -> Any:
    app = create(store, program, runs, KEY, 8420)
    app.test_client_class = Client
    return app.test_client()


def planned(store: Store, runs: Runs, *names: str) -> int:
    """The run of a day of these example files, once it has ended; the day is number 1."""
    made = days.make(days.dropped(example(*names)), runs.program)
    assert made.instance and made.tides
    store.insert("INSERT INTO day(name) VALUES (?)", names[0])
    run = runs.begin(1, Inputs(store.put(made.instance.encode()), store.put(made.tides.encode())), "plan", "day", 20000)
    assert runs.wait(run)["state"] == "done"
    return run


def entered(client: Any) -> dict[str, str]:
    assert client.get(f"/enter?key={KEY.replace(' ', '+')}").status_code == 303
    return {"X-Board": token_of(KEY)}
