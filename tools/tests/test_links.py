"""What the documents point to, and the map."""
from __future__ import annotations

import links
from conftest import Made

MAP = """\
# Map

    programs    tidewise
    ground      hw_low (files), hw_mid

`hw_text` is no longer there.
"""


def repository(made: Made) -> Made:
    for name in ("tidewise", "hw_mid", "hw_low"):
        made.crate(name, {"specs/Ships.antt": "-- Ships.\nabbrev pub draft_of : ℕ\ndraft_of = 3\n", "src/lib.rt": "//! Ships.\n"})
    made.put("crates/README.md", MAP)
    made.put("README.md", "[the map](crates/README.md) [more](https://elsewhere/x) `docs/A.md` `crates/NAME/must-fail` `crates/hw_low/out/x`\n")
    made.put("docs/A.md", "[back](../README.md#top) [here](#there)\n")
    return made


def test_all_is_there(made: Made) -> None:
    assert list(links.missing(repository(made).top)) == []


def test_links_and_paths_that_lead_nowhere(made: Made) -> None:
    top = repository(made).top
    made.put("docs/A.md", "[back](README.md) `tools/lost` `.ci/lost`\n")
    made.put("crates/hw_low/README.md", "[ships](specs/Berths.antt) `bench/lost`\n")
    assert list(links.missing(top)) == [
        "crates/hw_low/README.md: crates/hw_low/specs/Berths.antt isn't there",
        "crates/hw_low/README.md: bench/lost isn't there",
        "docs/A.md: docs/README.md isn't there",
        "docs/A.md: tools/lost isn't there",
        "docs/A.md: .ci/lost isn't there",
    ]


def test_words_are_defined_where_their_row_says(made: Made) -> None:
    top = repository(made).top
    made.put("docs/DEFINITIONS.md", "| word | where |\n|---|---|\n| `draft_of` | `hw_low/Ships` | it |\n| `draft` | `hw_low/Ships`, `Berths` | it |\n")
    assert list(links.missing(top)) == [
        "docs/DEFINITIONS.md: draft isn't in crates/hw_low/specs/Ships.antt, crates/hw_low/specs/Berths.antt",
    ]


def test_each_crate_stands_in_the_figure_and_says_what_it_is_for(made: Made) -> None:
    top = repository(made).top
    made.crate("hw_new", {"src/lib.rt": "// new\n"})
    assert list(links.missing(top)) == ["crates/README.md: its figure lacks hw_new", "crates/hw_new: its source doesn't begin with what it is for"]
    made.put("crates/hw_new/src/lib.rt", "//! New.\n")
    made.put("crates/README.md", MAP.replace("hw_mid\n", "hw_new, hw_old\n"))
    assert list(links.missing(top)) == ["crates/README.md: its figure lacks hw_mid", "crates/README.md: there is no crate hw_old"]
