"""Edits: each changes a crate's text for a wrong idea, and the prover must refuse it.

An edit's file has a line `file: src/NAME.rt` and then pairs of lines `old: ..` and `new: ..`, each text one line."""
from __future__ import annotations

import dataclasses
import functools
import pathlib
from collections.abc import Iterator

from rt_source import Function as Found, Source

PARTS = ("src", "specs", "proofs")


class BadEdit(Exception):
    """Why an edit can't be applied."""


@dataclasses.dataclass(frozen=True)
class Change:
    file: str
    old: str
    new: str


@dataclasses.dataclass(frozen=True)
class Edit:
    path: pathlib.Path
    changes: tuple[Change, ...]

    @property
    def name(self) -> str:
        return self.path.stem


@dataclasses.dataclass(frozen=True)
class Function:
    """A function that an edit changes: its file in the crate, its first and last line, and its name."""

    file: str
    first: int
    last: int
    name: str
    owner: str | None = dataclasses.field(compare=False)
    """The type whose own method it is; "" where it is no method, and None where it is one of a trait."""

    def module(self) -> list[str]:
        return [part for part in pathlib.PurePath(self.file).with_suffix("").parts[1:] if part not in ("lib", "main", "mod")]

    def path(self) -> str:
        """The path as `rt check --only` takes it, or that of its module where it is a trait's method. A method stands under
        the module of its type, which may be another one, so the type is all that is said of it."""
        parts = [self.owner, self.name] if self.owner else self.module() + [self.name] * (self.owner == "")
        return "::".join(parts)


@dataclasses.dataclass
class Group:
    """Edits of which no two change the same function, and the texts of the files that they change."""

    edits: list[Edit]
    functions: set[Function] | None
    """The functions that they change; None for an edit alone that changes something else too."""
    texts: dict[str, str]


@functools.lru_cache(maxsize=256)
def source_of(text: str) -> Source:
    return Source(text)


def read_edit(path: pathlib.Path) -> Edit:
    file, old, changes = "", "", []
    for line in path.read_text().splitlines():
        word, _, text = line.partition(":")
        text = text.removeprefix(" ")
        if word == "file":
            file = text.strip()
        elif word == "old":
            old = text
        elif word == "new" and file and old:
            changes.append(Change(file, old, text))
            old = ""
    return Edit(path, tuple(changes))


class Crate:
    """A crate of a repository, with its edits."""

    def __init__(self, top: pathlib.Path, name: str) -> None:
        self.top, self.name, self.folder = top, name, top / "crates" / name

    def edits(self) -> list[Edit]:
        """Those that the gate tries, and the others."""
        folders = self.folder / "must-fail", self.top / "evidence" / "edits" / self.name
        return [read_edit(path) for folder in folders for path in sorted(folder.glob("*.edit"))]

    def applied(self, edit: Edit, texts: dict[str, str]) -> dict[str, str]:
        """The texts by file, with the edit's changes made."""
        texts = dict(texts)
        if not edit.changes:
            raise BadEdit("it has no file, old and new text")
        for it in edit.changes:
            path = self.folder / it.file
            if pathlib.PurePath(it.file).parts[0] not in PARTS or not path.is_file():
                raise BadEdit(f"there is no {it.file} in src/, specs/ or proofs/")
            text = texts.get(it.file) or path.read_text()
            if text.count(it.old) != 1:
                raise BadEdit(f"an old text stands {text.count(it.old)} times in {it.file}")
            if it.old == it.new:
                raise BadEdit("it changes nothing")
            texts[it.file] = text.replace(it.old, it.new)
        return texts

    def function_of(self, change: Change) -> Function | None:
        """The function in whose body a change is, if it is in one."""
        source = source_of((self.folder / change.file).read_text())
        at = source.text.find(change.old)
        found = source.function_at(at) if at >= 0 and change.file.startswith("src/") else None
        return named(change.file, source, found) if found else None

    def functions_of(self, edit: Edit) -> set[Function] | None:
        """The functions that the edit changes, or None where it changes something else too, beside their proofs, what they
        import and a new one that it puts before a comment."""
        functions = set()
        for it in edit.changes:
            function = self.function_of(it)
            if function:
                functions.add(function)
            elif not it.file.startswith("proofs/") and not (it.file.startswith("src/") and it.old.startswith(("use ", "///"))):
                return None
        return functions or None

    def sound_edits(self) -> tuple[list[Edit], list[tuple[Edit, str]]]:
        """The edits that can be applied, and those that can't, with the reason."""
        sound: list[Edit] = []
        bad: list[tuple[Edit, str]] = []
        for edit in self.edits():
            try:
                self.applied(edit, {})
                sound.append(edit)
            except BadEdit as error:
                bad.append((edit, str(error)))
        return sound, bad

    def grouped(self, edits: list[Edit]) -> list[Group]:
        """Groups of edits of which no two change the same function. An edit of something else is a group of its own."""
        groups: list[Group] = []
        for edit in edits:
            functions = self.functions_of(edit)
            if not any(self.joined(group, edit, functions) for group in groups):
                groups.append(Group([edit], functions and set(functions), self.applied(edit, {})))
        return groups

    def joined(self, group: Group, edit: Edit, functions: set[Function] | None) -> bool:
        """Takes the edit of these functions into the group, if they are no others' there."""
        if not functions or not group.functions or group.functions & functions:
            return False
        try:
            group.texts = self.applied(edit, group.texts)
        except BadEdit:
            return False
        group.edits.append(edit)
        group.functions |= functions
        return True


def named(file: str, source: Source, found: Found) -> Function:
    return Function(file, source.line(found.start), source.line(found.end - 1), found.name, found.owner)


def only(functions: list[set[Function] | None]) -> list[str]:
    """The flags by which a check looks at no more than these functions; none where something else is changed too."""
    paths = sorted({it.path() for some in functions for it in some or ()})
    return list(flags(paths)) if all(functions) and all(paths) else []


def flags(paths: list[str]) -> Iterator[str]:
    for path in paths:
        yield from ("--only", path)
