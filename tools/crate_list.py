"""The crates of the repository, as crates.txt lists them: by rooms, each with what it stands on."""
from __future__ import annotations

import pathlib


def listed(file: pathlib.Path) -> dict[str, list[str]]:
    """Each crate with the crates that its row names, in the order of the file. Blank rows and headings are skipped."""
    rows = (row.partition(":") for row in file.read_text().splitlines() if row.strip() and not row.startswith("#"))
    return {crate.strip(): names.split() for crate, _, names in rows}


def rooms(file: pathlib.Path) -> dict[str, list[str]]:
    """The crates of each room, which is a heading of the file."""
    found: dict[str, list[str]] = {}
    room = ""
    for row in file.read_text().splitlines():
        if row.startswith("#"):
            room = row.removeprefix("#").strip()
        elif row.strip():
            found.setdefault(room, []).append(row.partition(":")[0].strip())
    return found


def purpose(crate: pathlib.Path) -> list[str]:
    """The paragraphs with which a crate's source begins: what it is for. Each is one line."""
    for name in ("lib.rt", "main.rt"):
        file = crate / "src" / name
        lines = [row.removeprefix("//!").strip() for row in file.read_text().splitlines() if row.startswith("//!")] if file.is_file() else []
        if lines:
            return [" ".join(text.split("\n")) for text in "\n".join(lines).split("\n\n")]
    return []


def below(crate: str, crates: dict[str, list[str]]) -> set[str]:
    """The crates of this list on which a crate stands."""
    found: set[str] = set()
    todo = list(crates[crate])
    while todo:
        name = todo.pop()
        if name in crates and name not in found:
            found.add(name)
            todo += crates[name]
    return found


def longest_chain(crates: dict[str, list[str]]) -> list[str]:
    """The most crates each of which stands on the next one."""
    chains: dict[str, list[str]] = {}

    def chain(crate: str) -> list[str]:
        if crate not in chains:
            lower = [chain(name) for name in crates[crate] if name in crates]
            chains[crate] = [crate, *max(lower, key=len, default=[])]
        return chains[crate]

    return max(map(chain, crates), key=len, default=[])
