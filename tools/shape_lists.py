"""What `tools/shape` prints: limits of length, and the lists of what nobody needs and of what stands there twice."""
from __future__ import annotations

import dataclasses
import pathlib
import re
import sys
from collections.abc import Callable, Iterator

import antt_names
import crate_list
import rt_items
import shape_stay
import twins
from rt_source import Source

MOST_ARGUMENTS, MOST_CLAUSE, MOST_LINES = 6, 160, 500


@dataclasses.dataclass
class Repository:
    """What the lists are made from, and the items that they leave out."""

    top: pathlib.Path
    stay: dict[str, str] = dataclasses.field(default_factory=lambda: shape_stay.STAY)
    tested: dict[str, str] = dataclasses.field(default_factory=lambda: shape_stay.TESTED)
    by_chance: dict[tuple[str, str], str] = dataclasses.field(default_factory=lambda: shape_stay.BY_CHANCE)

    def __post_init__(self) -> None:
        self.crates, self.listed = self.top / "crates", self.top / "crates.txt"
        self.tree, self.sources = antt_names.Tree(self.crates), rt_items.Sources(self.crates)

    def place(self, file: pathlib.Path, line: int) -> str:
        return f"{file.relative_to(self.crates)}:{line}"

    def where(self, it: antt_names.Declared) -> str:
        return self.place(self.tree.modules[it.module].file, it.line)


def over_limits(crate: pathlib.Path) -> Iterator[str]:
    """What of a crate's sources is over the limits."""
    for file in sorted(crate.glob("src/**/*.rt")):
        source = Source(file.read_text())
        lines = source.plain.split("\n")
        if len(lines) - 1 > MOST_LINES:
            yield f"{file}: {len(lines) - 1} lines"
        for it in source.functions:
            if it.arguments > MOST_ARGUMENTS:
                yield f"{file}: {it.name} has {it.arguments} arguments"
        for number, line in enumerate(lines, 1):
            if re.match(r"\s*(ensures|requires)\b", line) and len(line.strip()) > MOST_CLAUSE:
                yield f"{file}:{number}: a clause of {len(line.strip())} characters"


def print_over_limits(crates: pathlib.Path, names: list[str]) -> int:
    """Prints what is over the limits of these crates, and the largest file of each one's proofs. Returns how much is over."""
    found = 0
    for name in names or sorted(it.name for it in crates.iterdir() if (it / "src").is_dir()):
        over = list(over_limits(crates / name))
        found += len(over)
        for line in over:
            print(line.removeprefix(f"{crates}/"))
        proofs = [(it.stat().st_size, it) for it in (crates / name).glob("proofs/**/*.antt")]
        if proofs and names:
            size, largest = max(proofs)
            print(f"{name}: largest file of proofs {size} bytes, {largest.relative_to(crates / name)}")
    return found


def unused(of: Repository) -> Iterator[str]:
    for item, by_tests in of.sources.unused(of.stay):
        if not by_tests:
            yield f"{of.place(item.file, item.line)}: nothing uses {item.spelled()}"
    for it in of.tree.unused():
        yield f"{of.where(it)}: nothing cites {it.name}"
    for path in of.stay.keys() - {it.path() for it in of.sources.items}:
        yield f"tools/shape: there is no {path}"
    for crate, name in rt_items.unused_dependencies(of.crates, of.listed):
        yield f"crates.txt: no file of {crate} names {name}"


def tested(of: Repository) -> Iterator[str]:
    left = set(of.tested)
    for item, by_tests in of.sources.unused(of.stay):
        if by_tests and item.path() not in of.tested:
            yield f"{of.place(item.file, item.line)}: only tests use {item.spelled()}"
        left -= {item.path()} if by_tests else set()
    for path in sorted(left):
        yield f"tools/shape: {path} isn't used by tests alone"


def equal(of: Repository) -> Iterator[str]:
    for same in of.tree.equal_lemmas():
        yield "the same statement: " + ", ".join(f"{of.where(it)} {it.name}" for it in same)


def meanings(of: Repository) -> Iterator[str]:
    for same in sorted(of.tree.words_of_two_meanings(), key=len, reverse=True):
        yield f"{same[0].name} has several meanings: " + ", ".join(map(of.where, same))


def limits(of: Repository) -> Iterator[str]:
    for file, line, number, names in rt_items.bare_limits(of.sources, of.listed):
        if (str(file.relative_to(of.crates)), number) not in of.by_chance:
            yield f"{of.place(file, line)}: {number} is {' or '.join(names)}"


def twin_list(of: Repository) -> Iterator[str]:
    kinds = ("function", twins.of_functions(of.sources)), ("definition", twins.of_definitions(of.tree))
    for kind, groups in kinds:
        for same in groups:
            yield f"the same {kind}: " + ", ".join(f"{of.place(it.file, it.line)} {it.name}" for it in same)


def chain(of: Repository) -> Iterator[str]:
    names = crate_list.longest_chain(crate_list.listed(of.listed))
    yield f"{len(names)} crates: {', '.join(names)}"


KINDS: dict[str, Callable[[Repository], Iterator[str]]] = {
    "--unused": unused,
    "--tested": tested,
    "--equal": equal,
    "--meanings": meanings,
    "--limits": limits,
    "--twins": twin_list,
    "--chain": chain,
}
HARMLESS = ("--tested", "--chain")


def main(words: list[str], top: pathlib.Path) -> int:
    """Prints what was asked for by these words. Returns the status."""
    asked = [it for it in words if it in KINDS]
    names = [it for it in words if it not in KINDS]
    if lacking := [it for it in names if not (top / "crates" / it / "src").is_dir()]:
        print(f"{lacking[0]} is no crate", file=sys.stderr)
        return 1
    found, summary = 0, []
    if not asked:
        found += print_over_limits(top / "crates", names)
        summary.append(f"over the limits: {found}")
    if asked or not names:
        repository = Repository(top)
        for kind in asked or [it for it in KINDS if it != "--chain"]:
            lines = list(KINDS[kind](repository))
            found += len(lines) * (kind not in HARMLESS)
            summary.append(f"{kind.removeprefix('--')}: {len(lines)}")
            for line in lines:
                print(line)
    if found and not asked and not names:
        print("\n".join(summary))
    return 1 if found else 0
