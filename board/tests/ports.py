"""Folders that are ports, and `tw` over them."""
from __future__ import annotations

import json
import os
import shutil
import subprocess
import sys
from collections.abc import Callable
from typing import Any

import pytest
from browser import EXAMPLES, PROGRAM, ROOT
from tidewise_board.command.main import run

Tw = Callable[..., "Done"]


class Done:
    """How a run of `tw` ended: its status, and what it printed."""

    def __init__(self, status: int, out: str, err: str) -> None:
        self.status, self.out, self.err = status, out, err

    def json(self) -> Any:
        return json.loads(self.out)


def calls(folder: str) -> str:
    """The port of the calls in examples/, as a folder."""
    os.makedirs(os.path.join(folder, "tides"))
    for name, to in (("calls-port.json", "port.json"), ("calls.csv", "ships.csv"), ("waters-bar.txt", "tides/Bar.txt"),
                     ("waters-berth.txt", "tides/Berth.txt")):
        shutil.copyfile(os.path.join(EXAMPLES, name), os.path.join(folder, to))
    return folder


def changed(folder: str, name: str, old: str, new: str) -> None:
    path = os.path.join(folder, name)
    with open(path, encoding="utf-8") as file:
        text = file.read()
    assert old in text
    with open(path, "w", encoding="utf-8") as file:
        file.write(text.replace(old, new))


def words_of(*words: str) -> list[str]:
    return [sys.executable, "-m", "tidewise_board", *words]


def process(*words: str, **given: Any) -> subprocess.Popen[str]:
    """`tw` as a process of its own."""
    return subprocess.Popen(words_of(*words), cwd=ROOT, stdout=subprocess.PIPE, stderr=subprocess.PIPE, text=True, **given)


@pytest.fixture
def port(tmp_path: object) -> str:
    return calls(os.path.join(str(tmp_path), "port"))


@pytest.fixture
def tw(capfd: pytest.CaptureFixture[str], monkeypatch: pytest.MonkeyPatch, tmp_path: object) -> Tw:
    monkeypatch.setenv("TIDEWISE", PROGRAM)
    monkeypatch.setenv("XDG_CONFIG_HOME", os.path.join(str(tmp_path), "config"))

    def done(*words: str) -> Done:
        capfd.readouterr()
        status = run(list(words))
        out, err = capfd.readouterr()
        return Done(status, out, err)

    return done


def busy(folder: str, ships: int = 16, fleet: int = 5) -> str:
    """The same port on a day on which many ships want the same water."""
    calls(folder)
    changed(folder, "port.json", '"fleet":9', f'"fleet":{fleet}')
    rows = ["name,direction,class,earliest,latest,tpc,light,deep,route,tugs,job"]
    rows += [f"Ship {place:02},outgoing,{('cape', 'panamax')[place % 2]},,,{900 + 37 * (place % 7)},1100,{1650 + 9 * (place % 8)},out,{2 + place % 2},4"
             for place in range(ships)]
    with open(os.path.join(folder, "ships.csv"), "w", encoding="utf-8") as file:
        file.write("\n".join(rows) + "\n")
    return folder
