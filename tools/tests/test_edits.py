"""Edits: how they are read, applied and put together."""
from __future__ import annotations

import pytest

import edits
from conftest import Made

SOURCE = """\
use hw_model::Ship;

/// The greater one.
pub fn greater(a: u32, b: u32) -> u32
    ensures { result ≡ max a b }
{
    if a < b { b } else { a }
}

impl Row {
    fn first(&self) -> u32 {
        self.slots[0]
    }
}

impl Desk for Row {
    fn put(&mut self) {
        self.slots.push(1)
    }
}

pub const MOST: u32 = 40;
"""


def crate(made: Made, **texts: str) -> edits.Crate:
    made.crate("hw_low", {"src/deep/rows.rt": SOURCE, "specs/Rows.antt": "most = 40\n", "proofs/Rows.antt": "lemma = refl\n"})
    for name, text in texts.items():
        made.put(f"evidence/edits/hw_low/{name}.edit", text)
    return edits.Crate(made.top, "hw_low")


def edit(old: str, new: str, file: str = "src/deep/rows.rt") -> str:
    return f"file: {file}\nold: {old}\nnew: {new}\n"


LESS = edit("if a < b {", "if b < a {")
FIRST = edit("self.slots[0]", "self.slots[1]")
PUT = edit("self.slots.push(1)", "self.slots.push(2)")


def test_an_edit_has_pairs_of_texts_as_they_stand(made: Made) -> None:
    low = crate(made, two=f"{LESS}file: specs/Rows.antt\nold:  40\nnew:\n")
    two, = low.edits()
    assert two.name == "two"
    assert two.changes == (
        edits.Change("src/deep/rows.rt", "if a < b {", "if b < a {"),
        edits.Change("specs/Rows.antt", " 40", ""),
    )


def test_the_gates_edits_come_first(made: Made) -> None:
    low = crate(made, a_less=LESS)
    made.put("crates/hw_low/must-fail/z_first.edit", FIRST)
    assert [it.name for it in low.edits()] == ["z_first", "a_less"]


def test_an_edit_is_applied_to_each_of_its_files(made: Made) -> None:
    low = crate(made, two=f"{LESS}old: else {{ a }}\nnew: else {{ b }}\nfile: specs/Rows.antt\nold: 40\nnew: 41\n")
    texts = low.applied(low.edits()[0], {})
    assert texts["specs/Rows.antt"] == "most = 41\n"
    assert "if b < a { b } else { b }" in texts["src/deep/rows.rt"]


@pytest.mark.parametrize(
    ("text", "reason"),
    [
        ("file: src/deep/rows.rt\n", "it has no file, old and new text"),
        (edit("a", "b", "src/lost.rt"), "there is no src/lost.rt in src/, specs/ or proofs/"),
        (edit("a", "b", "srcs.rt"), "there is no srcs.rt in src/, specs/ or proofs/"),
        (edit("greatest", "b"), "an old text stands 0 times in src/deep/rows.rt"),
        (edit("self.slots", "b"), "an old text stands 2 times in src/deep/rows.rt"),
        (edit("if a < b", "if a < b"), "it changes nothing"),
    ],
)
def test_edits_that_cant_be_applied(made: Made, text: str, reason: str) -> None:
    low = crate(made, good=LESS, wrong=text)
    sound, bad = low.sound_edits()
    assert [it.name for it in sound] == ["good"]
    assert [(it.name, why) for it, why in bad] == [("wrong", reason)]


def paths(low: edits.Crate) -> list[list[str] | None]:
    found = [low.functions_of(it) for it in low.edits()]
    return [None if some is None else sorted(it.path() for it in some) for some in found]


def test_the_functions_that_edits_change(made: Made) -> None:
    low = crate(made, a=LESS, b=FIRST, c=PUT, d=edit("MOST: u32 = 40", "MOST: u32 = 41"), e=edit("max a b", "max b a"))
    assert paths(low) == [["deep::rows::greater"], ["Row::first"], ["deep::rows"], None, None]


def test_proofs_imports_and_comments_change_no_other_function(made: Made) -> None:
    low = crate(
        made,
        a=LESS + "file: proofs/Rows.antt\nold: refl\nnew: sym refl\n",
        b=LESS + "old: use hw_model::Ship;\nnew: use hw_model::Berth;\n",
        c=LESS + "old: /// The greater one.\nnew: fn other() {} /// The greater one.\n",
        d=edit("refl", "sym refl", "proofs/Rows.antt"),
        e=LESS + "file: specs/Rows.antt\nold: 40\nnew: 41\n",
    )
    assert paths(low) == [["deep::rows::greater"]] * 3 + [None, None]


def test_edits_of_different_functions_stand_together(made: Made) -> None:
    low = crate(made, a=LESS, b=edit("else { a }", "else { b }"), c=FIRST, d=edit("= 40;", "= 41;"), e=edit("(1)", "(3)"))
    groups = low.grouped(low.edits())
    assert [[it.name for it in group.edits] for group in groups] == [["a", "c", "e"], ["b"], ["d"]]
    text = groups[0].texts["src/deep/rows.rt"]
    assert "if b < a" in text and "self.slots[1]" in text and "push(3)" in text


def test_edits_that_exclude_each_other_stand_apart(made: Made) -> None:
    low = crate(made, a=LESS + "old: use hw_model::Ship;\nnew: use hw_model::Late;\n", b=FIRST + "old: use hw_model::Ship;\nnew: use hw_model::Early;\n")
    assert [len(group.edits) for group in low.grouped(low.edits())] == [1, 1]


def test_a_check_looks_at_the_changed_functions_alone(made: Made) -> None:
    low = crate(made, a=LESS, b=FIRST)
    groups = low.grouped(low.edits())
    assert edits.only([it.functions for it in groups]) == ["--only", "Row::first", "--only", "deep::rows::greater"]
    assert edits.only([*(it.functions for it in groups), None]) == []
