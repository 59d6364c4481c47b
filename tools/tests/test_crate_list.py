"""The list of crates."""
from __future__ import annotations

import pathlib

import crate_list

ROWS = "# ground\nhw_low:\n\nhw_mid: hw_low itoa\n\n# commands\nhw_top: hw_low hw_mid\nhw_side: hw_low\n"


def listed(tmp_path: pathlib.Path) -> dict[str, list[str]]:
    file = tmp_path / "crates.txt"
    file.write_text(ROWS)
    return crate_list.listed(file)


def test_headings_and_blank_rows_are_skipped(tmp_path: pathlib.Path) -> None:
    assert listed(tmp_path) == {"hw_low": [], "hw_mid": ["hw_low", "itoa"], "hw_top": ["hw_low", "hw_mid"], "hw_side": ["hw_low"]}


def test_below_are_the_crates_of_the_list_alone(tmp_path: pathlib.Path) -> None:
    crates = listed(tmp_path)
    assert crate_list.below("hw_top", crates) == {"hw_low", "hw_mid"}
    assert crate_list.below("hw_low", crates) == set()


def test_the_longest_chain(tmp_path: pathlib.Path) -> None:
    assert crate_list.longest_chain(listed(tmp_path)) == ["hw_top", "hw_mid", "hw_low"]
    assert crate_list.longest_chain({}) == []


def test_rooms_and_what_a_crate_is_for(tmp_path: pathlib.Path) -> None:
    listed(tmp_path)
    assert crate_list.rooms(tmp_path / "crates.txt") == {"ground": ["hw_low", "hw_mid"], "commands": ["hw_top", "hw_side"]}
    (tmp_path / "hw_low/src").mkdir(parents=True)
    (tmp_path / "hw_low/src/lib.rt").write_text("//! Low: it is\n//! for all.\n//!\n//! More.\n#![tactic(auto)]\n// no more\n")
    assert crate_list.purpose(tmp_path / "hw_low") == ["Low: it is for all.", "More."]
    assert crate_list.purpose(tmp_path / "hw_mid") == []
