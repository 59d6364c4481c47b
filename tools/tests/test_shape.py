"""What `tools/shape` prints, and its status."""
from __future__ import annotations

import pathlib
import subprocess

import pytest

import shape_lists
from conftest import Made

SHAPE = pathlib.Path(shape_lists.__file__).with_name("shape")
WORDS = ["--unused", "--tested", "--equal", "--meanings", "--limits", "--twins"]


@pytest.fixture
def clean(made: Made, monkeypatch: pytest.MonkeyPatch) -> Made:
    """A repository in which no list has a row, if nothing is left out by name."""
    for table in ("STAY", "TESTED", "BY_CHANCE"):
        monkeypatch.setattr(f"shape_stay.{table}", {})
    made.crate("hw_low", {"src/lib.rt": "pub fn used(slot: u32) -> u32 {\n    slot\n}\n"})
    made.crate("tidewise", {"src/main.rt": "use hw_low::used;\n\nfn main() {\n    used(1)\n}\n"}, "hw_low")
    return made


def test_nothing_is_printed_where_nothing_is_to_be_said(clean: Made, capsys: pytest.CaptureFixture[str]) -> None:
    assert shape_lists.main([], clean.top) == 0
    assert shape_lists.main(WORDS, clean.top) == 0
    assert capsys.readouterr().out == ""


def function(arguments: int) -> str:
    names = ", ".join(f"a{place}: u32" for place in range(arguments))
    return f"pub fn wide({names}) -> u32 {{\n    a0\n}}\n"


@pytest.mark.parametrize(
    ("fits", "over", "said"),
    [
        (function(6), function(7), "hw_low/src/lib.rt: wide has 7 arguments\n"),
        ("\n" * 500, "\n" * 501, "hw_low/src/lib.rt: 501 lines\n"),
        (f"    ensures {{ {'x' * 148} }}\n", f"    ensures {{ {'x' * 149} }}\n", "hw_low/src/lib.rt:1: a clause of 161 characters\n"),
        ("/" * 170, f"requires {'y' * 152}", "hw_low/src/lib.rt:1: a clause of 161 characters\n"),
    ],
)
def test_over_the_limits(made: Made, capsys: pytest.CaptureFixture[str], fits: str, over: str, said: str) -> None:
    made.crate("hw_low", {"src/lib.rt": fits})
    assert shape_lists.main(["hw_low"], made.top) == 0
    assert capsys.readouterr().out == ""
    made.put("crates/hw_low/src/lib.rt", over)
    assert shape_lists.main(["hw_low"], made.top) == 1
    assert capsys.readouterr().out == said


def test_the_largest_file_of_proofs_of_a_crate_that_was_named(made: Made, capsys: pytest.CaptureFixture[str]) -> None:
    made.crate("hw_low", {"src/lib.rt": "", "proofs/A.antt": "1234", "proofs/a/B.antt": "12345"})
    assert shape_lists.main(["hw_low"], made.top) == 0
    assert capsys.readouterr().out == "hw_low: largest file of proofs 5 bytes, proofs/a/B.antt\n"


def test_a_row_of_a_list_is_a_failure(clean: Made, capsys: pytest.CaptureFixture[str]) -> None:
    clean.put("crates/hw_low/src/idle.rt", "pub fn idle(slot: u32) -> u32 {\n    slot\n}\n")
    assert shape_lists.main(["--unused"], clean.top) == 1
    assert capsys.readouterr().out == "hw_low/src/idle.rt:1: nothing uses idle\n"
    assert shape_lists.main(["--tested"], clean.top) == 0
    assert shape_lists.main([], clean.top) == 1
    assert "unused: 1" in capsys.readouterr().out.splitlines()


def test_what_only_tests_use_is_no_failure(clean: Made, capsys: pytest.CaptureFixture[str]) -> None:
    clean.put("crates/hw_low/src/tried.rt", "pub fn tried(slot: u32) -> u32 {\n    slot\n}\n")
    clean.crate("hw_low_tests", {"src/lib.rt": "use hw_low::tried;\n\n#[test]\nfn tries() {\n    tried(1)\n}\n"}, "hw_low")
    assert shape_lists.main(["--tested"], clean.top) == 0
    assert capsys.readouterr().out == "hw_low/src/tried.rt:1: only tests use tried\n"
    assert shape_lists.main(["--unused"], clean.top) == 0


def test_what_is_left_out_has_to_be_there(clean: Made, monkeypatch: pytest.MonkeyPatch, capsys: pytest.CaptureFixture[str]) -> None:
    monkeypatch.setattr("shape_stay.STAY", {"hw_low::lost": "it went"})
    assert shape_lists.main(["--unused"], clean.top) == 1
    assert capsys.readouterr().out == "tools/shape: there is no hw_low::lost\n"
    monkeypatch.setattr("shape_stay.TESTED", {"hw_low::used": "it is used"})
    shape_lists.main(["--tested"], clean.top)
    assert capsys.readouterr().out == "tools/shape: hw_low::used isn't used by tests alone\n"


def test_a_number_that_is_a_limit_by_chance(clean: Made, monkeypatch: pytest.MonkeyPatch, capsys: pytest.CaptureFixture[str]) -> None:
    clean.put("crates/hw_low/src/most.rt", "pub const MOST: u32 = 512;\n\nfn at() {\n    512\n}\n")
    assert shape_lists.main(["--limits"], clean.top) == 1
    assert capsys.readouterr().out == "hw_low/src/most.rt:4: 512 is MOST\n"
    monkeypatch.setattr("shape_stay.BY_CHANCE", {("hw_low/src/most.rt", "512"): "bytes of a block"})
    assert shape_lists.main(["--limits"], clean.top) == 0


def test_twins_are_listed_with_their_places(made: Made, capsys: pytest.CaptureFixture[str]) -> None:
    text = "\nfn whole(slot: u32) -> u32 {\n    slot.saturating_mul(1_000_000)\n}\n"
    made.crate("hw_one", {"src/lib.rt": text})
    made.crate("hw_two", {"src/lib.rt": text.replace("whole", "full"), "specs/A.antt": "", "specs/B.antt": ""})
    for name in ("A", "B"):
        made.put(f"crates/hw_two/specs/{name}.antt", f"-- {name}\nabbrev pub twice : ℕ → ℕ\ntwice n = at_most n (n + n + n)\n")
    assert shape_lists.main(["--twins"], made.top) == 1
    assert capsys.readouterr().out.splitlines() == [
        "the same function: hw_one/src/lib.rt:2 whole, hw_two/src/lib.rt:2 full",
        "the same definition: hw_two/specs/A.antt:2 twice, hw_two/specs/B.antt:2 twice",
    ]


def test_the_longest_chain(clean: Made, capsys: pytest.CaptureFixture[str]) -> None:
    assert shape_lists.main(["--chain"], clean.top) == 0
    assert capsys.readouterr().out == "2 crates: tidewise, hw_low\n"


def test_no_crate_of_that_name() -> None:
    ran = subprocess.run([SHAPE, "hw_nowhere"], capture_output=True, text=True)
    assert (ran.returncode, ran.stdout, ran.stderr) == (1, "", "hw_nowhere is no crate\n")
