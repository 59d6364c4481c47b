"""What the prover's words say of an edit, and a whole trial with a prover that is played."""
from __future__ import annotations

import pathlib
import stat

import pytest

import edit_checks
from conftest import Made
from edits import Crate, Function
from test_edits import FIRST, LESS, SOURCE, edit

GREATER = Function("src/deep/rows.rt", 4, 8, "greater", "")
ROW = Function("src/deep/rows.rt", 11, 13, "first", "Row")
PUT = Function("src/deep/rows.rt", 17, 19, "put", None)


@pytest.mark.parametrize(
    ("function", "lines", "fault"),
    [
        (GREATER, ["note: ./src/deep/rows.rt:7:4: open goal: a ≤ b"], "open goal: a ≤ b"),
        (GREATER, ["note: src/deep/rows.rt:12:4: open goal: a ≤ b"], None),
        (GREATER, ["note: src/other.rt:7:4: open goal: a ≤ b"], None),
        (GREATER, ["fn hw_low::deep::rows::greater: not proved"], "not proved"),
        (GREATER, ["fn hw_low::deep::rows::greater: no proof"], "no proof"),
        (GREATER, ["fn hw_low::deep::rows::greater: proved"], None),
        (GREATER, ["fn hw_low::deep::rows::greater: not proved: calls x, which is not proved"], None),
        (GREATER, ["fn hw_low::deep::rows::greatest: not proved"], None),
        (ROW, ["fn hw_low::other::Row::first: not proved"], "not proved"),
        (ROW, ["fn hw_low::Row::first: not proved", "fn hw_low::a::Row::first: not proved"], None),
        (PUT, ["fn hw_low::deep::rows::RowDesk::put: not proved"], "not proved"),
        (
            GREATER,
            ["fn hw_low::deep::rows::greater: not proved", "proofs/deep/rows/greater/Answers.antt:3:1: error: a ≢ b"],
            "its proof no longer fits: a ≢ b",
        ),
        (
            GREATER,
            ["fn hw_low::deep::rows::greater: not proved", "proofs/deep/rows/greater/Answers.antt:3:1: error: x is not in scope"],
            None,
        ),
    ],
)
def test_what_is_said_against_a_function(function: Function, lines: list[str], fault: str | None) -> None:
    assert edit_checks.fault_of(function, "hw_low", lines) == fault


JUDGED = "logic=not-proved"


@pytest.mark.parametrize(
    ("status", "lines", "outcome", "reason"),
    [
        (0, [JUDGED], "got through", "all is still proved"),
        (1, ["note: src/a.rt:1:2: a ≤ b", JUDGED], "refused", "a ≤ b"),
        (1, ["fn hw_low::a: not proved", JUDGED], "refused", "fn hw_low::a: not proved"),
        (1, ["src/a.rt:1:2: error: no such name", JUDGED], "bad", "src/a.rt:1:2: error: no such name"),
        (1, ["specs/A.antt: x is not in scope", JUDGED], "bad", "specs/A.antt: x is not in scope"),
        (1, ["error: rattle fell over"], "bad", "error: rattle fell over"),
        (1, ["rt: killed"], "bad", "its check ended with status 1"),
        (1, ["antt ran out of memory"], "refused", "only by a limit of the prover: antt ran out of memory"),
        (1, ["antt ran out of memory", "src/a.rt:1:2: error: no"], "bad", "src/a.rt:1:2: error: no"),
        (
            1,
            ["proofs/a/Answers.antt: error: x is not in scope", JUDGED],
            "bad",
            "only a proof that names what the edit took away fails: proofs/a/Answers.antt: error: x is not in scope",
        ),
        (1, [JUDGED], "bad", "its check ended with status 1, and names no function"),
    ],
)
def test_what_comes_of_an_edit_that_is_checked_alone(status: int, lines: list[str], outcome: str, reason: str) -> None:
    assert edit_checks.judged_alone(status, lines) == (outcome, reason)


# Refuses `b < a`, lets all else through, and finds nothing said of `slots[1]` where both stand together.
PROVER = """\
#!/bin/sh
grep -q 'MOST: u32 = 13' src/deep/rows.rt && exit 1
grep -q 'b < a' src/deep/rows.rt || { echo logic=proved; exit 0; }
echo 'note: src/deep/rows.rt:7:4: open goal: max a b'
echo 'fn hw_low::deep::rows::greater: not proved'
echo logic=not-proved
exit 1
"""


@pytest.fixture
def trial(made: Made, monkeypatch: pytest.MonkeyPatch, tmp_path: pathlib.Path) -> Made:
    rt = made.put("bin/rt", PROVER)
    rt.chmod(rt.stat().st_mode | stat.S_IXUSR)
    monkeypatch.setenv("PATH", f"{rt.parent}:/usr/bin:/bin")
    monkeypatch.setattr("tempfile.tempdir", str(tmp_path / "room"))
    (tmp_path / "room").mkdir()
    made.crate("hw_base", {"src/lib.rt": "", "out/rlib/stamp": "1"})
    made.crate("hw_low", {"src/deep/rows.rt": SOURCE, "out/kept": "1"}, "hw_base itoa")
    made.put("evidence/edits/hw_low/a_less.edit", LESS)
    return made


def test_a_trial_over_a_copy(trial: Made, capsys: pytest.CaptureFixture[str]) -> None:
    trial.put("evidence/edits/hw_low/b_first.edit", FIRST)
    trial.put("evidence/edits/hw_low/c_lost.edit", edit("nowhere", "b"))
    assert edit_checks.main([], trial.top) == 1
    assert capsys.readouterr().out.splitlines() == [
        "hw_low/c_lost: bad: an old text stands 0 times in src/deep/rows.rt",
        "hw_low/a_less: refused: open goal: max a b",
        "hw_low/b_first: got through: all is still proved",
        "1 refused, 1 got through, 1 bad",
    ]
    assert list((trial.top / "room").iterdir()) == []
    assert (trial.crates / "hw_low/src/deep/rows.rt").read_text() == SOURCE


def test_all_refused(trial: Made, capsys: pytest.CaptureFixture[str]) -> None:
    assert edit_checks.main(["hw_low"], trial.top) == 0
    assert capsys.readouterr().out.splitlines()[-1] == "1 refused, 0 got through, 0 bad"


def test_a_crate_that_isnt_proved_as_it_stands(trial: Made, capsys: pytest.CaptureFixture[str]) -> None:
    trial.put("crates/hw_low/src/deep/rows.rt", SOURCE.replace("= 40", "= 13"))
    assert edit_checks.main([], trial.top) == 1
    assert "bad: it isn't proved as it stands" in capsys.readouterr().out


def test_only_a_look(trial: Made, capsys: pytest.CaptureFixture[str]) -> None:
    assert edit_checks.main(["--look"], trial.top) == 0
    assert capsys.readouterr().out == "1 edits, 0 of them bad\n"
    trial.put("evidence/edits/hw_low/c_lost.edit", edit("nowhere", "b"))
    assert edit_checks.main(["--look", "hw_low"], trial.top) == 1


def test_no_crate_of_that_name(trial: Made, capsys: pytest.CaptureFixture[str]) -> None:
    assert edit_checks.main(["hw_nowhere"], trial.top) == 1
    assert capsys.readouterr().err == "hw_nowhere is no crate\n"
    trial.put("evidence/edits/hw_lost/a.edit", LESS)
    assert edit_checks.main(["--look"], trial.top) == 1
    assert capsys.readouterr().err == "evidence/edits/hw_lost: there is no such crate\n"


def test_a_copy_has_the_crate_and_what_is_below(trial: Made) -> None:
    copy = edit_checks.Copy(Crate(trial.top, "hw_low"))
    assert (copy.top / "crates.txt").read_text() == "hw_base: \nhw_low: hw_base itoa\n"
    assert (copy.top / "crates/hw_base/out/rlib/stamp").read_text() == "1"
    assert (copy.folder / "out/kept").read_text() == "1"
    copy.write({"src/deep/rows.rt": "changed"})
    assert (trial.crates / "hw_low/src/deep/rows.rt").read_text() == SOURCE
    copy.remove()
    assert not copy.top.exists()
