"""What the lists of `tools/shape` leave out in this repository, each with the reason."""
from __future__ import annotations

# Public items that stay although nothing uses them.
STAY: dict[str, str] = {
    "hw_check::Checker::held": "public interface",
    "hw_check::Checker::space": "public interface",
    "hw_flat::Room::inside": "public interface",
    "hw_goal::GoalBound::sum": "public interface",
    "hw_lits::Clause::lit": "public interface",
    "hw_rules::number_of": "the inverse of source_of",
    "hw_tugs::TugProfile::load": "public interface",
}

# Public items that stay although only tests use them.
TESTED: dict[str, str] = {
    "hw_search_advice::NoAdvice": "judges a search: with it `prove` writes what `solve` writes",
    "hw_lits::Clause::from_lits": "public interface: of literals that the caller keeps",
    "hw_rules::walk": "judges a search: it looks at every timetable",
    "hw_tide::read_heights": "public interface: refuses a table of waters",
    "hw_tide::read_waters": "public interface: refuses a table of heights",
}

# Numbers that are a constant's by chance.
BY_CHANCE: dict[tuple[str, str], str] = {
    ("hw_audit/src/forms.rt", "1000"): "the counts that an event may name",
    ("hw_draft/src/last.rt", "1_023"): "a port's offset",
    ("hw_draft/src/passage.rt", "1_000"): "a port's clearance",
    ("hw_port_named/src/closed.rt", "1_023"): "a port's offset",
    ("hw_chart_flat/src/values.rt", "1000"): "parts of a window",
    ("hw_port_lint/src/instance.rt", "40"): "bytes of a name",
    ("hw_port_lint/src/ships.rt", "1_000"): "centimetres of a draft",
    ("hw_port_lint/src/ships.rt", "1_023"): "a port's offset",
    ("hw_chart_port/src/figures.rt", "64"): "the width of a name",
    ("hw_chart_port/src/span.rt", "1_024"): "two of a port's times",
    ("hw_chart_port/src/span.rt", "512"): "a port's times",
    ("hw_chart_port/src/strip.rt", "40"): "a place in the picture",
    ("hw_price_adviser/src/variation.rt", "1_024"): "parts of a value",
    ("hw_price_adviser/src/variation.rt", "512"): "parts of a value",
    ("hw_chart_repair/src/marks.rt", "1_000"): "rows of the picture",
    ("hw_search_sources/src/marking.rt", "64"): "the places of a block",
    ("hw_port_csv/src/passes.rt", "1_023"): "a port's offset",
    ("hw_port_csv/src/time.rt", "1_023"): "a port's offset",
}
