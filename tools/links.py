"""What the documents point to, and whether it is there; and whether the map has every crate."""
from __future__ import annotations

import os
import pathlib
import re
from collections.abc import Iterator

import crate_list

MAP = "crates/README.md"
PAGES = ("*.md", "docs/*.md", "crates/*.md", "crates/*/*.md", *(f"{it}/*.md" for it in ("tools", "board", "bench", "evidence", "audit", "examples")))


def pages(top: pathlib.Path) -> list[str]:
    return sorted(str(it.relative_to(top)) for place in PAGES for it in top.glob(place))


def links_of(page: str, text: str) -> Iterator[str]:
    """The files to which relative links and paths in backticks lead."""
    for target in re.findall(r"\]\(([^)#\s]+)", text):
        if not re.match(r"[a-z]+:", target):
            yield os.path.normpath(os.path.join(os.path.dirname(page), target))
    for path in re.findall(r"`((?:docs|examples|bench|tools|board|audit|crates|evidence|\.ci)/[\w./-]+)`", text):
        # A name in capitals, as crates/NAME/must-fail, stands for any; what is built isn't kept.
        if not re.search(r"/([A-Z]+|out)/", path):
            yield path


def is_defined(path: pathlib.Path, word: str) -> bool:
    """Whether a file of a crate's specs/ defines the word."""
    text = path.read_text() if path.is_file() else ""
    return re.search(rf"^ *(?:\w+ )*{re.escape(word)}(?: |$)", text, re.M) is not None


def words_of(text: str) -> Iterator[tuple[str, list[str]]]:
    """Each word of the tables with a path, and the files that its row names."""
    for words, places in re.findall(r"^\| (`[^|]*`) \| (`[^|]*`) \| ", text, re.M):
        crate, files = "", []
        for place in re.findall(r"`([^`]*)`", places):
            crate, name = place.split("/") if "/" in place else (crate, place)
            files.append(f"crates/{crate}/specs/{name}.antt")
        for word in re.findall(r"`([^`]*)`", words):
            yield word, files


def unmapped(top: pathlib.Path) -> Iterator[str]:
    """Crates that the map's figure lacks or whose source doesn't say what they are for, and names in the figure that are no crates."""
    crates = set(crate_list.listed(top / "crates.txt"))
    figure = "\n".join(line for line in (top / MAP).read_text().splitlines() if line.startswith("    "))
    named = set(re.findall(r"\b(?:hw|tidewise)(?:_\w+)?\b", figure))
    yield from (f"{MAP}: its figure lacks {it}" for it in sorted(crates - named))
    yield from (f"{MAP}: there is no crate {it}" for it in sorted(named - crates))
    yield from (f"crates/{it}: its source doesn't begin with what it is for" for it in sorted(crates) if not crate_list.purpose(top / "crates" / it))


def missing(top: pathlib.Path) -> Iterator[str]:
    """What isn't there, a line each."""
    for page in pages(top):
        text = (top / page).read_text()
        yield from (f"{page}: {path} isn't there" for path in links_of(page, text) if not (top / path).exists())
        if page == "docs/DEFINITIONS.md":
            for word, files in words_of(text):
                if not any(is_defined(top / file, word) for file in files):
                    yield f"{page}: {word} isn't in {', '.join(files)}"
    yield from unmapped(top)
