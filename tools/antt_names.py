"""The names that the .antt files of the crates declare, and who cites them.

Names are resolved by the `use` lines of the citing file. Bound names are not told apart from declared ones: a name that
is doubtful counts as cited."""
from __future__ import annotations

import dataclasses
import pathlib
import re
from collections.abc import Iterator

from rt_source import without_comments

Name = tuple[str, str]
"""A module and what it declares."""

COMMENT = re.compile(r"--.*")
USE = re.compile(r"\buse\s+Rattle\.([\w.+-]+?)(?:\.\{([^}]*)\}|\.([^\s{};.]*◌[^\s{};]*))?(?: +as +([^\s;]+))?[ \t]*(?=[;\n]|$)")
ATTRIBUTE = re.compile(r"\b(\w+)::((?:specs|proofs)(?:::\w+)+)")
TOKEN = re.compile(r"[^\s(){}\[\];,.\"]+(?:\.[^\s(){}\[\];,.\"]+)*|\[\]")
SECTION = re.compile(r"^(module\b[^\n]*(?:\n +[^\n]*)*?\bwhere|(?:abbrev )?mutual)$", re.M)
HEAD = re.compile(r"((?:abbrev|pub|unfoldable|record|data)\s+)*([^\s:(){}]+)")
BINDER = re.compile(r"[({]([^(){}:]+?) :|λ ([^.]+?)\.(?=\s)")
NO_NAMES = ("mod", "use", "open", "unfolding", "infixl", "infixr", "infix")


def module_of(top: pathlib.Path, file: pathlib.Path) -> str:
    return ".".join(file.relative_to(top).with_suffix("").parts)


@dataclasses.dataclass(eq=False)
class Declared:
    """A declaration at the top of a module."""

    module: str
    name: str
    line: int
    kind: str
    public: bool
    section: str
    lines: list[str] = dataclasses.field(default_factory=list)

    def crate(self) -> str:
        return self.module.partition(".")[0]

    def text(self) -> str:
        return "\n".join([self.section, *self.lines])

    def is_example(self) -> bool:
        """Whether it is a worked example: what a definition computes for given values, by `refl`."""
        return self.kind == "lemma" and "→" not in (self.statement() or "") and self.lines[-1].split()[-1] == "refl"

    def statement(self) -> str | None:
        """What a signature states, without the body, or None for one that isn't a signature."""
        if self.kind != "lemma":
            return None
        kept: list[str] = []
        for number, line in enumerate(self.lines):
            if number and not line.startswith(" "):
                break
            kept.append(line)
        return " ".join(kept).partition(" : ")[2]


class Module:
    """A file's imports and declarations. A source in Rattle declares none here."""

    def __init__(self, name: str, file: pathlib.Path, text: str) -> None:
        self.name, self.file, self.text = name, file, text
        self.imports, self.modules = imports_of(text)
        self.declared: dict[str, Declared] = {}
        if file.suffix == ".antt":
            self.split(text)
        self.mixed: dict[str, list[str]] = {}
        for word in [*self.declared, *self.imports]:
            for part in filter(None, word.split("◌") if "◌" in word else ()):
                self.mixed.setdefault(part, []).append(word)

    def split(self, text: str) -> None:
        current: Declared | None = None
        section: str | None = None
        text = USE.sub(blank, COMMENT.sub("", text))
        heads = {text.count("\n", 0, it.start()): it[0] for it in SECTION.finditer(text)}
        last = 0
        for number, line in enumerate(text.split("\n"), 1):
            if number - 1 in heads:
                section, current = heads[number - 1], None
                last = number + section.count("\n")
            if number <= last:
                continue
            if section is not None and line.startswith("  "):
                line = line[2:]
            elif line.strip():
                section = None
            current = self.declaration_at(line, number, section, current)
            if current and line.strip():
                current.lines.append(line)

    def declaration_at(self, line: str, number: int, section: str | None, current: Declared | None) -> Declared | None:
        """The declaration that a line belongs to: the one that it begins or goes on with, or else the last one."""
        head = HEAD.match(line)
        if head and self.starts(line, head):
            name, words = head[2], line[: head.start(2)].split()
            kind = next((it for it in words if it in ("record", "data", "abbrev")), "lemma")
            return self.declared.setdefault(name, Declared(self.name, name, number, kind, "pub" in words, section or ""))
        return self.declared[head[2]] if head and head[2] in self.declared else current

    def starts(self, line: str, head: re.Match[str]) -> bool:
        """Whether a line begins a declaration, and not a clause of one or something else."""
        if line[0].isspace() or head[2] in NO_NAMES:
            return False
        return bool(head[1]) or (line[head.end() :].lstrip().startswith(":") and head[2] not in self.declared)


def blank(found: re.Match[str]) -> str:
    return "\n" * found[0].count("\n")


def imports_of(text: str) -> tuple[dict[str, list[Name]], dict[str, list[str]]]:
    """What a file's `use` lines name: name -> (module, name) for items, name -> module for modules."""
    items: dict[str, list[Name]] = {}
    modules: dict[str, list[str]] = {}
    for found in USE.finditer(text):
        path, names, mixed, other = found.groups()
        if names is None:
            parent, _, last = path.rpartition(".")
            items.setdefault(other or mixed or last, []).append((path if mixed else parent, mixed or last))
            if not mixed:
                modules.setdefault(other or last, []).append(path)
            continue
        for named in map(str.split, names.split(",")):
            if named:
                items.setdefault(named[-1], []).append((path, named[0]))
    return items, modules


def cited(module: Module, text: str) -> Iterator[Name]:
    """The names that a text of this file cites."""
    for token in set(TOKEN.findall(text)):
        first, *fields = token.split(".")
        if fields:
            for path in module.modules.get(first, ()):
                yield path, fields[0]
            for split in range(1, len(fields)):
                yield ".".join(fields[:split]), fields[split]
        for name in (first, *module.mixed.get(first, ())):
            if name in module.declared:
                yield module.name, name
            yield from module.imports.get(name, ())
    for found in ATTRIBUTE.finditer(text):
        *parts, name = found[2].split("::")
        crate = module.name.partition(".")[0] if found[1] == "crate" else found[1]
        yield ".".join([crate, *parts]), name


class Tree:
    """All modules of all crates, and what is reached from the sources and the answers."""

    def __init__(self, top: pathlib.Path) -> None:
        self.top = top
        self.modules: dict[str, Module] = {}
        for folder in ("specs", "proofs", "src"):
            for file in sorted([*top.glob(f"*/{folder}/**/*.antt"), *top.glob(f"*/{folder}/**/*.rt")]):
                name = module_of(top, file) + ("" if file.suffix == ".antt" else ".rt")
                self.modules[name] = Module(name, file, file.read_text())

    def declarations(self) -> Iterator[Declared]:
        for module in self.modules.values():
            yield from module.declared.values()

    def starts(self) -> Iterator[tuple[Module, str]]:
        """What stands for itself, each text with its module: the sources, and the answers to what they leave to prove."""
        for module in self.modules.values():
            if module.file.suffix == ".rt":
                yield module, USE.sub(" ", without_comments(module.text))
                continue
            answers = module.file.name in ("Answers.antt", "Invariants.antt")
            for it in module.declared.values():
                if (answers and it.public) or it.is_example():
                    yield module, it.name

    def reached(self) -> set[Name]:
        """Each declaration that the code or a generated goal needs, by steps of citing."""
        seen: set[Name] = set()
        todo: list[Name] = []

        def take(names: set[Name]) -> None:
            todo.extend(names - seen)
            seen.update(names)

        for module, start in self.starts():
            take(set(cited(module, start)) if module.file.suffix == ".rt" else {(module.name, start)})
        while todo:
            path, name = todo.pop()
            found = self.modules.get(path)
            if found and name in found.declared:
                take(set(cited(found, found.declared[name].text())))
        return seen

    def unused(self) -> Iterator[Declared]:
        reached = self.reached()
        for it in self.declarations():
            if (it.module, it.name) not in reached and not self.named_by_a_constructor(it, reached):
                yield it

    def named_by_a_constructor(self, it: Declared, reached: set[Name]) -> bool:
        """Whether a constructor of the `data` is reached: it is imported by its own name."""
        names = re.findall(r"^\s+([^\s:]+)\s+:", it.text(), re.M) if it.kind == "data" else []
        return any((it.module, name) in reached or (f"{it.module}.{it.name}", name) in reached for name in names)

    def equal_lemmas(self) -> list[list[Declared]]:
        """Lists of lemmas of two or more crates that state the same."""
        stated: dict[str, list[Declared]] = {}
        for it in self.declarations():
            text = it.statement()
            if text and "→" in text and not it.section and ".proofs." in it.module:
                stated.setdefault(self.resolved(it, text), []).append(it)
        return [same for same in stated.values() if len({it.crate() for it in same}) > 1]

    def resolved(self, it: Declared, text: str) -> str:
        """A statement with its bound names numbered, and its imported and declared ones by their modules."""
        module = self.modules[it.module]
        numbers: dict[str, int] = {}
        bound = {word for groups in BINDER.findall(text) for group in groups for word in group.split()}

        def named(found: re.Match[str]) -> str:
            word, dot, fields = found[0].partition(".")
            if word in bound:
                word = f"#{numbers.setdefault(word, len(numbers))}"
            elif word in module.imports:
                word = "|".join(map(".".join, module.imports[word]))
            elif word in module.declared:
                word = f"{it.module}.{word}"
            return word + dot + fields

        return re.sub(r"\s+", " ", TOKEN.sub(named, text))

    def words_of_two_meanings(self) -> Iterator[list[Declared]]:
        """Lists of public definitions of one name in the specs of two or more crates, with different bodies."""
        named: dict[str, list[Declared]] = {}
        for it in self.declarations():
            if it.public and ".specs." in it.module:
                named.setdefault(it.name, []).append(it)
        for same in named.values():
            if len({it.crate() for it in same}) > 1 and len({re.sub(r"\s+", " ", it.text()) for it in same}) > 1:
                yield same
