"""Unused items, dependencies that no file names, and bare limits."""
from __future__ import annotations

import rt_items
from conftest import Made


def spelled(made: Made, stay: tuple[str, ...] = ()) -> list[tuple[str, bool]]:
    return [(it.path(), by_tests) for it, by_tests in rt_items.Sources(made.crates).unused(stay)]


PROGRAM = "use hw_low::{used, Kept};\n\nfn main() {\n    used(Kept::new().size())\n}\n"
LOW = """\
pub struct Kept {
    size: u32,
}

impl Kept {
    pub fn new() -> Kept {
        Kept { size: 1 }
    }

    pub fn size(&self) -> u32 {
        self.size
    }

    pub fn idle(&self) -> u32 {
        self.size
    }
}

pub fn used(size: u32) {
    helper(size)
}

fn helper(size: u32) {
}

pub fn tried() -> u32 {
    deeper()
}

pub fn deeper() -> u32 {
    1
}

pub fn law(a: u32)
    ensures { a ≡ a }
{}
"""
TESTS = "use hw_low::tried;\n\n#[test]\nfn tries() {\n    assert_eq!(tried(), 1);\n}\n"


def program(made: Made) -> None:
    made.crate("hw_low", {"src/lib.rt": LOW})
    made.crate("tidewise", {"src/main.rt": PROGRAM}, "hw_low")
    made.crate("hw_low_tests", {"src/lib.rt": TESTS}, "hw_low")


def test_what_nobody_and_what_only_tests_use(made: Made) -> None:
    program(made)
    assert spelled(made) == [("hw_low::Kept::idle", False), ("hw_low::tried", True), ("hw_low::deeper", True)]


def test_what_stays_keeps_what_it_needs(made: Made) -> None:
    program(made)
    assert spelled(made, ("hw_low::tried", "hw_low::Kept::idle")) == []


def test_a_constant_that_a_clause_cites_is_used(made: Made) -> None:
    cited = "pub const MOST: u32 = 64;\n\nfn main()\n    ensures { MOST.now ≡ 64 }\n{\n    go()\n}\n\nfn go() {\n    let a = 1;\n}\n"
    made.crate("tidewise", {"src/main.rt": cited})
    assert spelled(made) == []


def test_a_type_that_a_definition_names_is_used(made: Made) -> None:
    made.crate("hw_low", {"src/lib.rt": "pub struct Berth {\n    place: u32,\n}\n"})
    assert spelled(made) == [("hw_low::Berth", False)]
    made.put("crates/hw_low/specs/Berths.antt", "use Rattle.hw_low.specs.declared.Berth.{Berth}\n")
    assert spelled(made) == []


def test_dependencies_that_no_file_names(made: Made) -> None:
    program(made)
    made.crate("hw_high", {"src/lib.rt": "use hw_low::used; // hw_model::Ship\n"}, "hw_low hw_model itoa")
    assert list(rt_items.unused_dependencies(made.crates, made.top / "crates.txt")) == [("hw_high", "hw_model"), ("hw_high", "itoa")]


def test_bare_limits(made: Made) -> None:
    made.crate("hw_low", {"src/lib.rt": "pub const MOST_SLOTS: u32 = 512;\npub(crate) const OWN: u32 = 1 << 10;\n"})
    text = (
        "pub fn a(slot: u32) -> bool\n    requires { slot ≤ 512 }\n{\n"
        '    slot < 512 && slot < 1_024 && "512" != b"512" // 512\n}\n\npub const MORE: u32 = 512;\n'
    )
    made.crate("hw_high", {"src/lib.rt": text}, "hw_low")
    made.crate("hw_apart", {"src/lib.rt": text})
    found = rt_items.bare_limits(rt_items.Sources(made.crates), made.top / "crates.txt")
    assert [(str(file.relative_to(made.crates)), line, number, names) for file, line, number, names in found] == [
        ("hw_apart/src/lib.rt", 2, "512", ["MORE"]),
        ("hw_apart/src/lib.rt", 4, "512", ["MORE"]),
        ("hw_high/src/lib.rt", 2, "512", ["MORE", "MOST_SLOTS"]),
        ("hw_high/src/lib.rt", 4, "512", ["MORE", "MOST_SLOTS"]),
    ]


def test_words_that_may_cite_an_item() -> None:
    found = list(rt_items.cited("let slot = ship.draft() + Rule::Pair; slot; width(ship.length)"))
    assert (".", "draft") in found and ("Rule", "Pair") in found and ("", "width") in found
    assert (".", "length") not in found and ("", "slot") not in found
