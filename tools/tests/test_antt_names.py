"""Names that .antt files declare and cite."""
from __future__ import annotations

from antt_names import Tree, imports_of
from conftest import Made

SHIPS = """\
-- Ships.
use Rattle.std.specs.Prelude.{ℕ, ◌+◌, List}

-- a berth
data pub Berth : Type where
  North : Berth

-- its depth
abbrev pub depth_of : ℕ → ℕ
depth_of n = helper n + 1

helper : ℕ → ℕ
helper n = n

-- nobody's
abbrev pub idle : ℕ
idle = 7
"""


def low(made: Made) -> None:
    made.crate("hw_low", {"specs/Ships.antt": SHIPS, "src/lib.rt": "ghost use Rattle.hw_low.specs.Ships.{depth_of};\n\n"
                          "fn depth(n: u32)\n    ensures { depth_of n ≡ n }\n{}\n"})


def test_imports() -> None:
    items, modules = imports_of("use Rattle.a.B.{c, d as e}\nuse Rattle.a.F\nuse Rattle.a.G as H\nuse Rattle.a.I.◌+◌\n")
    assert items["c"] == [("a.B", "c")] and items["e"] == [("a.B", "d")] and items["◌+◌"] == [("a.I", "◌+◌")]
    assert modules == {"F": ["a.F"], "H": ["a.G"]}


def test_declarations_with_their_lines(made: Made) -> None:
    low(made)
    found = [(it.name, it.kind, it.public, it.line) for it in Tree(made.crates).declarations()]
    assert found == [("Berth", "data", True, 5), ("depth_of", "abbrev", True, 9), ("helper", "lemma", False, 12), ("idle", "abbrev", True, 16)]


def test_what_nothing_cites(made: Made) -> None:
    low(made)
    assert [it.name for it in Tree(made.crates).unused()] == ["Berth", "idle"]


def test_a_type_is_cited_by_its_constructor(made: Made) -> None:
    low(made)
    made.put("crates/hw_low/proofs/depth/Answers.antt", "use Rattle.hw_low.specs.Ships.{North}\n\npub answer : ⊤\nanswer = North\n")
    assert [it.name for it in Tree(made.crates).unused()] == ["idle"]


LEMMA = "use Rattle.std.specs.Prelude.{{ℕ, ◌≤◌}}\n\npub {name} : ({a} : ℕ) → {a} ≤ {a} → {a} ≤ {b}\n{name} {a} h = h\n"


def test_lemmas_that_state_the_same(made: Made) -> None:
    made.crate("hw_one", {"proofs/Own.antt": LEMMA.format(name="stays", a="m", b="m")})
    made.crate("hw_two", {"proofs/Own.antt": LEMMA.format(name="holds", a="n", b="n")})
    made.crate("hw_three", {"proofs/Own.antt": LEMMA.format(name="other", a="n", b="0")})
    assert [[it.name for it in same] for same in Tree(made.crates).equal_lemmas()] == [["stays", "holds"]]


def test_words_of_two_meanings(made: Made) -> None:
    for name, value in (("hw_one", 1), ("hw_two", 2), ("hw_three", 1)):
        made.crate(name, {"specs/Own.antt": f"abbrev pub least : ℕ\nleast = {value}\n\nabbrev pub most : ℕ\nmost = 9\n"})
    found = [{it.crate() for it in same} for same in Tree(made.crates).words_of_two_meanings()]
    assert found == [{"hw_one", "hw_two", "hw_three"}]
