"""Builds that say what they are: the copy with a name, what is tried of a program, and a release with a kit that is played."""
from __future__ import annotations

import hashlib
import os
import re
import shutil
import stat
import subprocess

import pytest

from conftest import INFO, PROGRAM, Clone


def test_a_copy_has_the_name_and_the_repository_not(clone: Clone) -> None:
    commit = clone.commit()
    room = clone.top / "room/copy"
    ran = clone.run("named_copy", str(room), "unproved")
    assert (ran.returncode, ran.stdout) == (0, f"unproved {commit}\n")
    assert (room / "crates/tidewise/src/info.rt").read_text() == INFO.replace('= "";', f'= "unproved {commit}";')
    assert (clone.made.crates / "tidewise/src/info.rt").read_text() == INFO
    assert (room / "crates/hw_low/src/lib.rt").read_text() == "// low\n"
    assert (room / "crates.txt").read_text() == (clone.top / "crates.txt").read_text()
    assert not [*room.glob("crates/*/out")]


def test_a_folder_that_is_no_crate_isnt_copied(clone: Clone) -> None:
    commit = clone.commit()
    (clone.made.crates / "out").mkdir()
    clone.made.put("crates/left/out/rlib/stamp", "1")
    ran = clone.run("named_copy", str(clone.top / "room/copy"), "unproved")
    assert (ran.returncode, ran.stdout) == (0, f"unproved {commit}\n")
    assert sorted(path.name for path in (clone.top / "room/copy/crates").iterdir()) == ["hw_low", "tidewise"]


def test_what_isnt_committed_has_no_commit(clone: Clone) -> None:
    def name(copy: str) -> str:
        return clone.run("named_copy", str(clone.top / "room" / copy), "proved").stdout

    assert name("none") == "proved uncommitted\n"
    commit = clone.commit()
    clone.made.put("docs/more.md", "a page that builds nothing\n")
    assert name("page") == f"proved {commit}\n"
    clone.made.put("crates/hw_low/src/more.rt", "// more\n")
    assert name("source") == "proved uncommitted\n"
    shutil.rmtree(clone.top / ".git")
    assert name("no git") == "proved uncommitted\n"


def test_a_constant_that_isnt_empty_is_refused(clone: Clone) -> None:
    clone.made.put("crates/tidewise/src/info.rt", INFO.replace('= "";', '= "mine";'))
    ran = clone.run("named_copy", str(clone.top / "room/copy"), "proved")
    assert ran.returncode == 1 and "no empty constant BUILD" in ran.stderr


@pytest.mark.parametrize("words", [[], ["room"], ["room", "two words"], ["room", 'a"b'], ["room", "proved", "more"]])
def test_other_words_are_refused(clone: Clone, words: list[str]) -> None:
    ran = clone.run("named_copy", *words)
    assert ran.returncode == 1 and ran.stderr.startswith("tools/named_copy FOLDER WORD")


@pytest.mark.parametrize(
    ("program", "words", "status"),
    [
        (PROGRAM.replace("NAME", ""), [], 0),
        (PROGRAM.replace("NAME", " proved 36e16218"), ["proved 36e16218"], 0),
        (PROGRAM.replace("NAME", " proved 36e16218"), [], 1),
        (PROGRAM.replace("NAME", ""), ["proved 36e16218"], 1),
        (PROGRAM.replace("NAME", "").replace("408410", "408411"), [], 1),
        (PROGRAM.replace("NAME", "").replace("1.0.0", "0.2.0"), [], 1),
    ],
)
def test_a_program_is_tried(clone: Clone, program: str, words: list[str], status: int) -> None:
    built = clone.made.put("played/built", program)
    built.chmod(built.stat().st_mode | stat.S_IXUSR)
    assert clone.run("try_program", str(built), *words).returncode == status


def test_a_release_says_that_it_is_proved(clone: Clone) -> None:
    commit = clone.commit()
    file = clone.top / "room/bin/tidewise"
    ran = clone.run("release", str(file))
    assert ran.returncode == 0, ran.stderr
    assert subprocess.run([file, "--version"], capture_output=True, text=True).stdout == f"tidewise 1.0.0 proved {commit}\n"
    folder, built, copy, built_there = clone.said.read_text().splitlines()
    assert folder == str(clone.made.crates / "tidewise") and built == built_there == "stamp"
    assert re.fullmatch(r"/.*/crates/tidewise", copy) and copy != folder and not os.path.exists(copy)
    noted = dict(row.split(" ", 1) for row in (clone.top / "room/bin/tidewise.proved").read_text().splitlines())
    assert (noted["build"], noted["kit"]) == (f"tidewise 1.0.0 proved {commit}", "rattle-kit-played logic 0")
    assert noted["commit"] == clone.git("rev-parse", "HEAD") and noted["program"] == hashlib.sha256(file.read_bytes()).hexdigest()


def test_a_release_is_of_a_commit(clone: Clone) -> None:
    clone.commit()
    clone.made.put("crates/hw_low/src/lib.rt", "// lower\n")
    ran = clone.run("release", str(clone.top / "room/tidewise"))
    assert ran.returncode == 1 and "isn't committed" in ran.stderr
    assert not clone.said.exists() and not (clone.top / "room").exists()


def test_what_isnt_proved_is_no_release(clone: Clone) -> None:
    clone.made.put("crates/tidewise/src/info.rt", INFO + "// broken\n")
    clone.commit()
    ran = clone.run("release", str(clone.top / "room/tidewise"))
    assert ran.returncode == 1 and "it isn't proved" in ran.stderr
    assert not (clone.top / "room").exists()
