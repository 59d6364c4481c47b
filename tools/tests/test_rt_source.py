"""The reader of sources."""
from __future__ import annotations

import pytest

from rt_source import Source, code_and_clauses, without_comments

SHIPS = """\
//! Ships.

ghost use Rattle.hw_model.specs.Ships.{draft_of};

use crate::slot::{Slot, Late as After};
pub use hw_model::Ship;

/// The draft.
pub fn draft(ship: &Ship, by: fn(u32) -> u64, pairs: &[(u32, u32)]) -> [u8; 4]
    requires small { ship.draft ≤ 10 }
    ensures { result ≡ draft_of ship }
{
    let brace = b'{';
    // a brace } in a comment
    let site = "http://port}";
    match ship {
        Ship::Any => brace,
    }
}

impl<'a, S: Store<Map<u32, u32>>> Hull<'a, S> {
    pub(crate) fn new<T>(
        one: T,
        two: Map<u32, u32>,
    ) -> Self {
        Hull { one, two }
    }

    fn width(&self) -> u32 {
        self.width
    }
}

impl Desk for Hull<'_, u8> {
    fn put(&mut self, byte: u8) {
        self.bytes.push(byte)
    }
}

trait Keel {
    fn depth(&self) -> u32;
}

pub fn law(a: u32)
    ensures { a ≡ a }
{}
"""


def test_comments_go_and_strings_stay() -> None:
    text = 'let a = "x // y"; // z\nlet b = \'"\'; // "'
    assert without_comments(text).splitlines() == ['let a = "x // y";     ', "let b = '\"';     "]
    assert without_comments(text, strings=False).split() == ["let", "a", "=", ";", "let", "b", "=", ";"]


def test_every_place_stays_where_it_is() -> None:
    code, _ = code_and_clauses(SHIPS)
    assert len(code) == len(SHIPS)
    assert [len(line) for line in code.split("\n")] == [len(line) for line in SHIPS.split("\n")]


def test_code_has_no_ghosts_and_clauses_are_apart() -> None:
    code, clauses = code_and_clauses(SHIPS)
    assert "ensures" not in code and "draft_of" not in code and "Rattle" not in code
    assert "draft_of ship" in clauses and "small" in clauses and "Ship::Any" not in clauses


@pytest.mark.parametrize(
    ("name", "arguments", "owner", "body"),
    [
        ("draft", 3, "", True),
        ("new", 2, "Hull", True),
        ("width", 1, "Hull", True),
        ("put", 2, None, True),
        ("depth", 1, None, False),
        ("law", 1, "", True),
    ],
)
def test_functions(name: str, arguments: int, owner: str | None, body: bool) -> None:
    found = [it for it in Source(SHIPS).functions if it.name == name]
    assert [(it.arguments, it.owner, it.has_body) for it in found] == [(arguments, owner, body)]


def test_a_body_ends_at_its_own_brace() -> None:
    source = Source(SHIPS)
    draft = source.functions[0]
    assert SHIPS[draft.opens : draft.end].startswith("{\n    let brace") and SHIPS[draft.opens : draft.end].endswith("    }\n}")


def test_the_function_at_a_place_is_the_one_in_whose_body_it_is() -> None:
    source = Source(SHIPS)

    def at(words: str) -> str | None:
        found = source.function_at(SHIPS.index(words))
        return found.name if found else None

    assert at("match ship") == "draft"
    assert at("Hull { one") == "new"
    assert at("self.width") == "width"
    assert at("draft_of ship") is None
    assert at("pub fn law") is None
    assert at("impl Desk") is None


def test_items_in_their_order() -> None:
    found = [(it.kind, it.name, it.public) for it in Source(SHIPS).items]
    assert found == [
        ("fn", "draft", True),
        ("impl", "Hull", False),
        ("impl for", "Hull", False),
        ("trait", "Keel", False),
        ("fn", "law", True),
    ]


def test_methods_are_those_of_the_block() -> None:
    source = Source(SHIPS)
    assert [it.name for it in source.methods(source.items[1])] == ["new", "width"]


def test_imports_are_the_last_words_of_their_paths() -> None:
    assert Source(SHIPS).imports("hw_own") == {
        "Slot": {("hw_own", "Slot")},
        "After": {("hw_own", "Late")},
        "Ship": {("hw_model", "Ship")},
    }


def test_a_macro_that_writes_functions_is_read_to_its_end() -> None:
    source = Source("macro_rules! each {\n    ($a:expr) => { match $a { _ => $a } };\n}\n\nfn after(a: u32) -> u32 {\n    a\n}\n")
    assert [(it.kind, it.name) for it in source.items] == [("macro_rules!", "each"), ("fn", "after")]
