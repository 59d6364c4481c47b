"""Functions and definitions that are one and the same."""
from __future__ import annotations

import antt_names
import rt_items
import twins
from conftest import Made

COUNT = "fn {name}(slots: &[Slot], from: Slot) -> usize\n{clause}{{\n    slots.iter().filter(|slot| **slot < from).count(){note}\n}}\n"


def count(name: str, clause: str = "", note: str = "", slot: str = "use hw_low::Slot;") -> str:
    return f"{slot}\n\n" + COUNT.format(name=name, clause=clause, note=note)


def functions(made: Made) -> list[list[tuple[str, str]]]:
    return [[(it.crate, it.name) for it in same] for same in twins.of_functions(rt_items.Sources(made.crates))]


def definitions(made: Made) -> list[list[tuple[str, str]]]:
    return [[(it.crate, it.name) for it in same] for same in twins.of_definitions(antt_names.Tree(made.crates))]


def test_names_comments_and_clauses_of_functions_may_differ(made: Made) -> None:
    made.crate("hw_one", {"src/lib.rt": count("before", "    ensures small { result ≤ 9 }\n", " // few")})
    made.crate("hw_two", {"src/lib.rt": "pub " + count("earlier").replace("\nfn", "\npub fn").removeprefix("pub ")})
    assert functions(made) == [[("hw_one", "before"), ("hw_two", "earlier")]]


def test_a_function_twice_in_one_crate_is_no_twin(made: Made) -> None:
    made.crate("hw_one", {"src/lib.rt": count("before"), "src/other.rt": count("before")})
    assert functions(made) == []


def test_a_name_counts_as_what_it_leads_to(made: Made) -> None:
    made.crate("hw_one", {"src/lib.rt": count("before")})
    made.crate("hw_two", {"src/lib.rt": count("before", slot="use hw_other::Slot;")})
    assert functions(made) == []


def test_a_name_that_is_handed_on_leads_to_its_origin(made: Made) -> None:
    made.crate("hw_low", {"src/lib.rt": "pub use crate::slot::Slot;\n", "src/slot.rt": "pub struct Slot(u32);\n"})
    made.crate("hw_mid", {"src/lib.rt": "pub use hw_low::Slot;\n"})
    made.crate("hw_one", {"src/lib.rt": count("before")})
    made.crate("hw_two", {"src/lib.rt": count("before", slot="use hw_mid::Slot;")})
    assert functions(made) == [[("hw_one", "before"), ("hw_two", "before")]]


CALLER = "fn outer(a: u32) -> u32 {\n    inner(a).saturating_add(inner(a))\n}\n\nfn inner(a: u32) -> u32 {\n    "


def test_callers_of_twins_are_twins_and_others_not(made: Made) -> None:
    long = "a.saturating_mul(1_000_000_000)"
    made.crate("hw_one", {"src/lib.rt": CALLER + long + "\n}\n"})
    made.crate("hw_two", {"src/lib.rt": CALLER + long + "\n}\n"})
    made.crate("hw_three", {"src/lib.rt": CALLER + "a.saturating_mul(2_000_000_000)\n}\n"})
    assert sorted(functions(made)) == [[("hw_one", "inner"), ("hw_two", "inner")], [("hw_one", "outer"), ("hw_two", "outer")]]


def test_a_method_is_bound_to_its_type(made: Made) -> None:
    method = "pub struct Row {\n    slots: Vec<u32>,\n}\n\nimpl Row {\n    fn size(&self) -> usize {\n        self.slots.iter().copied().count()\n    }\n}\n"
    made.crate("hw_one", {"src/lib.rt": method})
    made.crate("hw_two", {"src/lib.rt": method})
    assert functions(made) == []


def test_a_short_body_is_no_twin(made: Made) -> None:
    for name in ("hw_one", "hw_two"):
        made.crate(name, {"src/lib.rt": "fn next(slot: u32) -> u32 {\n    slot + 1\n}\n"})
    assert functions(made) == []


SAME = "use Rattle.std.specs.Prelude.{{ℕ, List, length, filter}}\n\n-- {note}\n{kind} pub {name} : List ℕ → ℕ → ℕ\n{name} {a} {b} = length (filter (λ x. x {b}) {a})\n"


def test_names_and_bound_names_of_definitions_may_differ(made: Made) -> None:
    made.crate("hw_one", {"specs/One.antt": SAME.format(note="one", kind="abbrev", name="before", a="slots", b="from")})
    made.crate("hw_two", {"specs/Two.antt": SAME.format(note="two", kind="unfoldable", name="earlier", a="s", b="f")})
    made.crate("hw_three", {"specs/Three.antt": SAME.format(note="three", kind="abbrev", name="other", a="s", b="s")})
    assert definitions(made) == [[("hw_one", "before"), ("hw_two", "earlier")]]


def test_fields_of_definitions_may_not_differ(made: Made) -> None:
    text = "abbrev pub shown : Parts → List ℕ\nshown p = option_map_or (λ w. w.name) (slice_get p.{field} 0) []\n"
    made.crate("hw_one", {"specs/One.antt": text.format(field="ships")})
    made.crate("hw_two", {"specs/Two.antt": text.format(field="waypoints")})
    assert definitions(made) == []
    made.crate("hw_three", {"specs/Three.antt": text.format(field="ships")})
    assert definitions(made) == [[("hw_one", "shown"), ("hw_three", "shown")]]


def test_definitions_that_cite_twins_are_twins(made: Made) -> None:
    text = "abbrev pub whole : ℕ → ℕ\nwhole n = {inner}\n\nabbrev pub doubled_whole : ℕ → ℕ\ndoubled_whole n = n_times 2 (whole n)\n"
    made.crate("hw_one", {"specs/One.antt": text.format(inner="at_least 1 n")})
    made.crate("hw_two", {"specs/Two.antt": text.format(inner="at_least 1 n").replace("whole", "full")})
    made.crate("hw_three", {"specs/Three.antt": text.format(inner="at_least 2 n")})
    assert [len(same) for same in definitions(made)] == [2, 2]


def test_a_recursive_definition_is_compared_with_itself(made: Made) -> None:
    text = "abbrev pub {name} : List ℕ → ℕ\n{name} [] = 0\n{name} (x ∷ more) = x + {name} more\n"
    made.crate("hw_one", {"specs/One.antt": text.format(name="sum_of")})
    made.crate("hw_two", {"specs/Two.antt": text.format(name="total")})
    assert definitions(made) == [[("hw_one", "sum_of"), ("hw_two", "total")]]
