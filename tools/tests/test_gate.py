"""What a run of the gate takes: its log, its figures, and the page that keeps them."""
from __future__ import annotations

import os
import pathlib
import shutil
import stat
import subprocess

import pytest

from conftest import Made

TOOLS = pathlib.Path(__file__).resolve().parent.parent
BEFORE = "# What the gate takes\n\n## By crate\n\n"


class Gate:
    """A small repository with this tool, a page of figures, and a kit that is played."""

    def __init__(self, made: Made) -> None:
        self.top = made.top
        self.page = made.put("docs/GATE.md", f"{BEFORE}The gate of yesterday.\n\nhw_low 3.\n")
        self.log = self.top / "log"
        (self.top / "tools").mkdir()
        shutil.copy(TOOLS / "gate", self.top / "tools")
        rt = made.put("played/rt", "#!/bin/sh\necho played-kit-1 of today\n")
        rt.chmod(rt.stat().st_mode | stat.S_IXUSR)

    def run(self, *words: str) -> subprocess.CompletedProcess[str]:
        path = {"PATH": f"{self.top}/played:{os.environ['PATH']}"}
        return subprocess.run([self.top / "tools/gate", *words], cwd=self.top, capture_output=True, text=True, env=os.environ | path)


@pytest.fixture
def gate(made: Made) -> Gate:
    return Gate(made)


def test_a_run_is_kept_where_that_is_wanted(gate: Gate) -> None:
    ran = gate.run("--keep", "log", "sh", "-c", "echo '3 passed, 0 failed'")
    assert ran.returncode == 0 and "with played-kit-1 on " in ran.stdout and "3 passed, 0 failed" in ran.stdout
    assert gate.log.read_text() == "3 passed, 0 failed\n"
    assert (gate.top / "log.md").read_text() == ran.stdout
    assert gate.page.read_text() == BEFORE + ran.stdout


@pytest.mark.parametrize(("words", "script", "status"), [([], "true", 0), (["--keep"], "exit 3", 3)])
def test_else_the_page_stays(gate: Gate, words: list[str], script: str, status: int) -> None:
    page = gate.page.read_text()
    ran = gate.run(*words, "log", "sh", "-c", script)
    assert ran.returncode == status and "not ended" in ran.stdout
    assert gate.page.read_text() == page


def test_a_page_without_the_head_is_told_before_the_run(gate: Gate) -> None:
    gate.page.write_text("# What the gate takes\n")
    ran = gate.run("--keep", "log", "sh", "-c", "true")
    assert ran.returncode == 1 and "docs/GATE.md has no head ## By crate" in ran.stderr
    assert not gate.log.exists()


@pytest.mark.parametrize("words", [[], ["--keep"], ["--anew", "log"]])
def test_other_words_are_refused(gate: Gate, words: list[str]) -> None:
    ran = gate.run(*words)
    assert ran.returncode == 1 and "tools/gate [--keep] LOG" in ran.stderr
