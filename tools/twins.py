"""Functions, and definitions of specs/, that stand in several places and are one and the same.

A name counts as what it stands for: two texts are the same where they are equal to the letter, but for their own name, and
each name in them leads to the same thing, or to twins. Of a definition the bound names may differ too."""
from __future__ import annotations

import dataclasses
import hashlib
import pathlib
import re
from collections.abc import Hashable, Iterator

from antt_names import COMMENT, Declared, Module, Tree
from rt_items import BOUND, Sources
from rt_source import Function, Source

LEAST_BODY, LEAST_DEFINITION = 28, 40
"""Characters below which a function's body, or a definition, is too short to be worth a place of its own."""

RT_WORD = re.compile(r"(\.\s*|::)?\b([A-Za-z_]\w*)(?=(\s*[(!<]|::)?)")
OWN = re.compile(r"\b[Ss]elf\b")
ATTRIBUTE = re.compile(r"#\[[^\]]*\]\s*")
ANTT_WORD = re.compile(r"[^\s(){}\[\];,:=.]+")
PLAIN_WORD = re.compile(r"[^\W\d]\w*")
HEAD_WORDS = re.compile(r"^(?:(?:abbrev|pub|unfoldable) +)+", re.M)
KEYWORDS = {"abbrev", "pub", "record", "data", "where", "if", "then", "else", "case", "of", "match", "let", "in", "mutual", "module", "λ"}


@dataclasses.dataclass(frozen=True)
class Place:
    """Where a function or a definition stands."""

    crate: str
    file: pathlib.Path
    line: int
    name: str


def digest(text: str) -> str:
    return hashlib.sha256(re.sub(r"\s+", " ", text).strip().encode()).hexdigest()[:16]


class Meanings:
    """What a name stands for, as a digest of its text in which each name is replaced by what it stands for."""

    def __init__(self) -> None:
        self.known: dict[Hashable, str] = {}
        self.open: list[Hashable] = []

    def of(self, key: Hashable) -> str:
        """The meaning of what this key leads to. Within itself it is known by how far above it stands."""
        if key in self.open:
            return f"^{len(self.open) - self.open.index(key)}"
        if key not in self.known:
            self.open.append(key)
            self.known[key] = digest(self.text_of(key))
            self.open.pop()
        return self.known[key]

    def text_of(self, key: Hashable) -> str:
        raise NotImplementedError


class Functions(Meanings):
    """The functions of all sources, and what the names in them lead to."""

    def __init__(self, sources: Sources) -> None:
        super().__init__()
        self.sources = sources
        self.places: dict[tuple[str, str], list[tuple[pathlib.Path, str]]] = {}
        self.in_file: dict[pathlib.Path, set[str]] = {}
        for file, source in sources.files.items():
            crate = sources.crate_of(file)
            self.in_file[file] = {it.name for it in source.items if not it.kind.startswith("impl")}
            for it in source.items:
                if not it.kind.startswith("impl"):
                    text = ATTRIBUTE.sub("", source.plain[it.start : it.end])
                    if it.kind == "fn":
                        found = next((f for f in source.functions if it.start <= f.start < it.end), None)
                        text = spelled(source, found) if found else text
                    self.places.setdefault((crate, it.name), []).append((file, text))

    def text_of(self, key: Hashable) -> str:
        assert isinstance(key, tuple)
        crate, name = key
        return "".join(self.resolved(file, text, name) for file, text in self.places[crate, name])

    def resolved(self, file: pathlib.Path, text: str, own: str) -> str:
        """A text of this file in which each name of an item is replaced by what it stands for, and its own by `SELF`."""
        imports, crate = self.sources.imports[file], self.sources.crate_of(file)
        bound = {word for found in BOUND.findall(text) for word in found if word}

        def named(found: re.Match[str]) -> str:
            before, word, after = found[1] or "", found[2], found[3]
            if before or (word in bound and not after):
                return before + word
            if word == own:
                return "SELF"
            paths = imports.get(word) or ({(crate, word)} if word in self.in_file[file] else set())
            return "|".join(sorted(map(self.meaning, paths))) or word

        return RT_WORD.sub(named, text)

    def meaning(self, path: tuple[str, str]) -> str:
        """What a crate's name stands for, where the crate may only hand it on from another."""
        if path in self.places:
            return self.of(path)
        lib = self.sources.imports.get(self.sources.top / path[0] / "src" / "lib.rt", {})
        handed_on = lib.get(path[1], set()) - {path}
        return "|".join(sorted(map(self.meaning, handed_on))) or "::".join(path)

    def keyed(self) -> Iterator[tuple[str, Place]]:
        """Each function that has a body of some length and isn't bound to its type or trait, with its meaning."""
        for file, source in self.sources.files.items():
            crate = self.sources.crate_of(file)
            for it in source.functions:
                text = spelled(source, it)
                body = re.sub(r"\s+", " ", source.plain[it.opens + 1 : it.end - 1]).strip()
                if it.owner is not None and len(body) >= LEAST_BODY and not OWN.search(text):
                    yield digest(self.resolved(file, text, it.name)), Place(crate, file, source.line(it.start), it.name)


def spelled(source: Source, function: Function) -> str:
    """A function without comments, clauses and attributes, from its name on."""
    head = source.code[function.start : function.opens]
    return head[head.index("fn ") :] + source.plain[function.opens : function.end]


class Definitions(Meanings):
    """The definitions of all specs/, and what the names in them lead to."""

    def __init__(self, tree: Tree) -> None:
        super().__init__()
        self.tree = tree

    def text_of(self, key: Hashable) -> str:
        assert isinstance(key, tuple)
        path, name = key
        module = self.tree.modules.get(path)
        if module and name in module.declared:
            return self.resolved(module, module.declared[name])
        if module and name in module.imports:
            return "|".join(map(self.of, module.imports[name]))
        return f"{path}.{name}"

    def resolved(self, module: Module, it: Declared) -> str:
        """A definition with its bound names numbered, and all others replaced by what they stand for."""
        if it.kind == "data":
            return f"{it.module}.{it.name}"
        text = HEAD_WORDS.sub("", COMMENT.sub("", it.text()))
        numbers: dict[str, str] = {}

        def named(found: re.Match[str]) -> str:
            word, before = found[0], text[max(found.start() - 2, 0) : found.start()]
            if word in KEYWORDS or (before.endswith(".") and before[:1].strip()):
                return word
            if word == it.name:
                return "SELF"
            if word in module.declared:
                return self.of((it.module, word))
            if word in module.imports:
                return "|".join(map(self.of, module.imports[word]))
            return numbers.setdefault(word, f"#{len(numbers)}") if PLAIN_WORD.fullmatch(word) else word

        return ANTT_WORD.sub(named, text)

    def keyed(self) -> Iterator[tuple[str, Place]]:
        """Each definition of some length, but for types, with its meaning."""
        for it in self.tree.declarations():
            text = re.sub(r"\s+", " ", COMMENT.sub("", it.text()))
            if ".specs." in it.module and it.kind != "data" and len(text) >= LEAST_DEFINITION:
                file = self.tree.modules[it.module].file
                yield self.of((it.module, it.name)), Place(it.crate(), file, it.line, it.name)


def grouped(keyed: Iterator[tuple[str, Place]]) -> list[list[Place]]:
    """The places of one meaning that are several, the largest groups first."""
    groups: dict[str, list[Place]] = {}
    for meaning, place in keyed:
        groups.setdefault(meaning, []).append(place)
    return sorted((it for it in groups.values() if len(it) > 1), key=len, reverse=True)


def of_functions(sources: Sources) -> list[list[Place]]:
    """Functions of two or more crates that are one and the same."""
    return [same for same in grouped(Functions(sources).keyed()) if len({it.crate for it in same}) > 1]


def of_definitions(tree: Tree) -> list[list[Place]]:
    """Definitions of specs/, in one crate or several, that are one and the same."""
    return [same for same in grouped(Definitions(tree).keyed()) if len({it.file for it in same}) > 1]
