"""The public items of the crates' sources that nothing uses, dependencies that no file names, and bare limits."""
from __future__ import annotations

import dataclasses
import pathlib
import re
from collections.abc import Callable, Collection, Iterator

import crate_list
from rt_source import Function, Item as Piece, Source, without_comments

TOKEN = re.compile(r"[A-Za-z_]\w*|::|\.\.=?|\S")
BOUND = re.compile(r"\b(?:let|for|mut|ref)\s+(?:mut )?(\w+)|\b(\w+)\s*:(?!:)|\|\s*(\w+)\s*\|")
CONST = re.compile(r"\bpub(\(crate\))? const (\w+): (?:u|i)\w+ = ([\d_]+|1 << \d+);")
ANY_CONST = re.compile(r"\bconst [A-Z]\w*:")
CONST_NAME = re.compile(r"\b[A-Z][A-Z\d_]+\b")
CONSTS_OF_SPECS = re.compile(r"\.specs\.declared\.[\w.]*TheConstants\.\{([^}]*)\}")
TYPES_OF_SPECS = re.compile(r"Rattle\.(\w+)\.specs\.declared\.(?:\w+\.)*?(\w+)\.(?:\{|TheVariants)")
NUMBER = re.compile(r"(?<![\w.])(?<!\^ )(?<!<< )\d[\d_]*(?![\w.]|\.\d)")
LEAST_LIMIT = 40


def cited(text: str) -> Iterator[tuple[str, str]]:
    """The words of a text that may cite an item, each with what stands before it: a dot, a path's word or nothing."""
    bound = {word for found in BOUND.findall(text) for word in found if word}
    tokens = TOKEN.findall(text)
    for at, word in enumerate(tokens):
        if not (word[0].isalpha() or word[0] == "_"):
            continue
        before, after = tokens[at - 1] if at else "", tokens[at + 1] if at + 1 < len(tokens) else ""
        if before == ".":
            if after in ("(", "::"):
                yield ".", word
        elif before == "::":
            yield tokens[at - 2], word
        elif word not in bound or after in ("(", "::", "!", "<"):
            yield "", word


@dataclasses.dataclass(eq=False)
class Item:
    """An item of a file, or a method: its names are what it may be reached by."""

    file: pathlib.Path
    crate: str
    line: int
    name: str
    owner: str | None
    public: bool
    text: str
    root: bool
    """Whether it is reached by itself: `main`, a test, or a law, which nobody calls."""
    takes_self: bool = False

    def __post_init__(self) -> None:
        self.cited = set(cited(self.text))

    def is_called(self, before: str, owners: Collection[str | None]) -> bool:
        """Whether a method may be the one that is called after a dot, or after a type's name."""
        if before == ".":
            return self.takes_self
        return before in (self.owner, "Self") or before not in owners

    def spelled(self) -> str:
        return f"{self.owner}::{self.name}" if self.owner else self.name

    def path(self) -> str:
        return f"{self.crate}::{self.spelled()}"


class Places:
    """Items by the names by which they may be reached."""

    def __init__(self, items: list[Item]) -> None:
        self.names: dict[tuple[str, str], list[Item]] = {}
        self.methods: dict[str, list[Item]] = {}
        self.of_types: dict[str, list[Item]] = {}
        self.owners = {it.owner for it in items}
        for it in items:
            if it.owner is None:
                self.names.setdefault((it.crate, it.name), []).append(it)
            elif it.name:
                self.methods.setdefault(it.name, []).append(it)
            else:
                self.of_types.setdefault(it.owner, []).append(it)

    def cited_by(self, item: Item, imports: dict[str, set[tuple[str, str]]]) -> Iterator[Item]:
        """The items that an item of a file with these imports may cite."""
        if item.owner is None:
            yield from self.of_types.get(item.name, ())
        for before, word in item.cited:
            if before != ".":
                for path in {(item.crate, word), (before, word), *imports.get(word, ())}:
                    yield from self.names.get(path, ())
            if before:
                yield from (it for it in self.methods.get(word, ()) if it.is_called(before, self.owners))


class Sources:
    """The items of all .rt files, and what each file imports."""

    def __init__(self, top: pathlib.Path) -> None:
        self.top = top
        self.files = {file: Source(file.read_text()) for file in sorted(top.glob("*/src/**/*.rt"))}
        self.items: list[Item] = []
        self.imports: dict[pathlib.Path, dict[str, set[tuple[str, str]]]] = {}
        self.in_clauses: set[str] = set()
        self.types: set[tuple[str, str]] = set()
        for file, source in self.files.items():
            crate = self.crate_of(file)
            self.in_clauses.update(CONST_NAME.findall(source.clauses))
            self.imports[file] = source.imports(crate)
            self.items += items_of(file, crate, source)
        self.tests = {it.crate for it in self.items if it.crate.endswith("_tests")}
        self.programs = {it.crate for it in self.items if it.name == "main"}
        for file in top.glob("*/*/**/*.antt"):
            text = file.read_text()
            self.types.update(TYPES_OF_SPECS.findall(text))
            self.in_clauses.update(name for names in CONSTS_OF_SPECS.findall(text) for name in CONST_NAME.findall(names))

    def crate_of(self, file: pathlib.Path) -> str:
        return file.relative_to(self.top).parts[0]

    def reached(self, is_start: Callable[[Item], bool]) -> set[Item]:
        """The items that are reached from those that `is_start` takes."""
        places = Places(self.items)
        declared = {it.name for it in self.items if it.owner is None}
        todo = [it for it in self.items if is_start(it) or it.owner and not it.name and it.owner not in declared]
        seen: set[Item] = set()
        while todo:
            it = todo.pop()
            if it not in seen:
                seen.add(it)
                todo += places.cited_by(it, self.imports[it.file])
        return seen

    def unused(self, stay: Collection[str]) -> Iterator[tuple[Item, bool]]:
        """Each public item of a library that neither a program nor a test reaches, and each that only tests reach, which
        is said. The items that stay in any case, and what they need, are none."""
        in_programs = self.reached(lambda it: it.crate not in self.tests and (it.root or it.path() in stay))
        in_all = self.reached(lambda it: it.root)
        for it in self.items:
            if it.public and it.name and it.crate not in self.tests and it not in in_programs:
                if it.owner is None and ((it.crate, it.name) in self.types or it.name in self.in_clauses):
                    continue
                yield it, it in in_all


def items_of(file: pathlib.Path, crate: str, source: Source) -> Iterator[Item]:
    """The items of a file: what stands at its top, and the methods of its types."""
    code = source.code
    for piece in source.items:
        text, line = code_of(source, piece.start, piece.end), source.line(piece.start)
        if piece.kind == "impl for":
            yield Item(file, crate, line, "", piece.name, False, text, False)
        elif piece.kind == "impl":
            yield from methods_of(file, crate, source, piece)
        else:
            before = code[: piece.start].rstrip().rpartition("\n")[2]
            root = piece.name == "main" or "#[test]" in before or is_law(source, piece)
            yield Item(file, crate, line, piece.name, None, piece.public, text, root)


def code_of(source: Source, start: int, end: int) -> str:
    """The code between two places, without the imports among it."""
    return re.sub(r"(?m)^\s*(?:pub(?:\(crate\))? )?use\b[^;]*;", "", source.code[start:end])


def methods_of(file: pathlib.Path, crate: str, source: Source, piece: Piece) -> Iterator[Item]:
    """The functions of a type's own block, each with what follows up to the next one."""
    methods = source.methods(piece)
    for it, end in zip(methods, [it.start for it in methods[1:]] + [piece.end]):
        text = f"{piece.name} {source.code[it.start : end]}"
        takes_self = "self" in source.code[slice(*it.parameters)]
        yield Item(file, crate, source.line(it.start), it.name, piece.name, it.public, text, False, takes_self)


def is_law(source: Source, piece: Piece) -> bool:
    """Whether a function has an empty body: its clause is a theorem, which nobody calls."""
    found = next((it for it in source.functions if piece.start <= it.start < piece.end), None)
    return piece.kind == "fn" and found is not None and is_empty(source, found)


def is_empty(source: Source, function: Function) -> bool:
    return function.has_body and not source.code[function.opens + 1 : function.end - 1].strip()


def unused_dependencies(top: pathlib.Path, listed: pathlib.Path) -> Iterator[tuple[str, str]]:
    """Each crate that a row of crates.txt names, and no file of the row's crate."""
    for crate, names in crate_list.listed(listed).items():
        texts = [it.read_text() for kind in ("*.rt", "*.antt") for it in top.glob(f"{crate}/*/**/{kind}")]
        whole = "\n".join(without_comments(it) for it in texts)
        for name in names:
            if not re.search(rf"\b{name}(::|\.)|\buse {name}\b", whole):
                yield crate, name


def limits(sources: Sources) -> dict[int, list[tuple[str, bool, str]]]:
    """The constants of whole numbers that are limits: number -> (crate, whether others may cite it, name)."""
    named: dict[int, list[tuple[str, bool, str]]] = {}
    for file, source in sources.files.items():
        for closed, name, value in CONST.findall(source.code):
            number = 1 << int(value[5:]) if value.startswith("1 <<") else int(value.replace("_", ""))
            if number >= LEAST_LIMIT:
                named.setdefault(number, []).append((sources.crate_of(file), not closed, name))
    return named


def bare_limits(sources: Sources, listed: pathlib.Path) -> Iterator[tuple[pathlib.Path, int, str, list[str]]]:
    """Each number of a library's code or clauses for which there are constants that the crate may cite, with these."""
    named, crates = limits(sources), crate_list.listed(listed)
    for file, source in sources.files.items():
        own = sources.crate_of(file)
        if own in sources.tests | sources.programs:
            continue
        for line, words in enumerate(source.words.split("\n"), 1):
            numbers = () if ANY_CONST.search(words) else NUMBER.findall(words)
            for found in dict.fromkeys(numbers):
                constants = named.get(int(found.replace("_", "")), ())
                names = [name for crate, is_open, name in constants if crate == own or is_open and crate in crates.get(own, ())]
                if names:
                    yield file, line, found, names
