"""Reads a source in Rattle (.rt): its text without comments, its code without ghosts, its imports, items and functions.

It goes by words and braces alone. Whatever is left out becomes spaces, so each place and line is that of the file.
"""
from __future__ import annotations

import dataclasses
import functools
import re
from collections.abc import Iterator

ASIDE = re.compile(r"""//[^\n]*|b?"(?:\\.|[^"\\])*"|b?'(?:\\(?:x[0-9a-fA-F]{2}|u\{[^}]*\}|.)|[^'\\\n])'""", re.S)
CLAUSE = re.compile(r"\b(?:ensures\*?|requires\*?|ghost \w+\s*[:=])[^{;]*\{")
GHOST_USE = re.compile(r"\bghost use\b[^;]*;")
USE = re.compile(r"^\s*(?:pub(?:\(crate\))? )?use\b([^;]*);", re.M)
ITEM = re.compile(r"^(pub(?:\(crate\))? )?(?:const |unsafe )*((?:fn|struct|enum|const|trait|static|type|impl)\b|macro_rules!)(.*)", re.M)
BLOCK = re.compile(r"^ *(?:pub(?:\(crate\))? )?(impl|trait|mod)\b([^{;]*)\{", re.M)
LEAF = re.compile(r"\b(\w+)\b(?!\s*::)(?: as (\w+))?")
"""A word of a `use` line that it brings in: no part of a path to it."""
FUNCTION = re.compile(r"\b(pub(?:\(crate\))? )?(?:const |final |unsafe )*fn (\w+)\s*(?=[<(])")


def spaces(text: str) -> str:
    """As many spaces, on as many lines."""
    return re.sub(r"[^\n]", " ", text)


def closing(text: str, at: int) -> int:
    """The place after the brace that closes the one at `at`."""
    depth = 0
    for here in range(at, len(text)):
        depth += (text[here] == "{") - (text[here] == "}")
        if depth == 0:
            return here + 1
    return len(text)


def without_comments(text: str, strings: bool = True) -> str:
    """The text without its comments, and on wish without what stands in its strings and characters."""
    return ASIDE.sub(lambda it: it[0] if strings and it[0][0] != "/" else spaces(it[0]), text)


def code_and_clauses(text: str) -> tuple[str, str]:
    """The code without comments, strings, clauses and other ghosts, and the clauses."""
    code = GHOST_USE.sub(lambda it: spaces(it[0]), without_comments(text, strings=False))
    at, clauses = 0, []
    while found := CLAUSE.search(code, at):
        end = closing(code, found.end() - 1)
        clauses.append(code[found.start() : end])
        code = code[: found.start()] + spaces(code[found.start() : end]) + code[end:]
        at = found.end()
    return code, "\n".join(clauses)


@dataclasses.dataclass(frozen=True)
class Block:
    """An `impl`, a trait or a module within a file, by its places there."""

    start: int
    end: int
    owner: str
    """The type or trait that its functions belong to; none where it is a module."""
    of_trait: bool
    """Whether its functions are those of a trait, declared or implemented."""


@dataclasses.dataclass(frozen=True)
class Function:
    """A function, by its places in the file: from its first word to its body's brace, and to the end of the body."""

    name: str
    start: int
    parameters: tuple[int, int]
    opens: int
    end: int
    arguments: int
    public: bool
    block: Block | None

    @property
    def owner(self) -> str | None:
        """The type whose own method it is; "" where it is no method, and None where it is one of a trait."""
        if self.block is None or not self.block.owner:
            return ""
        return None if self.block.of_trait else self.block.owner

    @property
    def has_body(self) -> bool:
        return self.opens < self.end


@dataclasses.dataclass(frozen=True)
class Item:
    """An item at the top of a file, from its first word up to the next item."""

    kind: str
    name: str
    public: bool
    start: int
    end: int


def unbracketed(head: str) -> str:
    """The head of a block without what stands between angle brackets."""
    shorter = re.sub(r"(?<!-)<(?:[^<>]|->)*>", "", head)
    return head if shorter == head else unbracketed(shorter)


def block_at(code: str, found: re.Match[str]) -> Block:
    head = unbracketed(found[2])
    is_trait = found[1] == "trait"
    named = re.findall(r"\w+", re.split(r" where |:(?!:)" if is_trait else r" where ", head)[0].rpartition("::")[2])
    owner = "" if found[1] == "mod" or not named else named[0 if is_trait else -1]
    return Block(found.start(), closing(code, found.end() - 1), owner, is_trait or " for " in head)


def parameters_at(code: str, at: int) -> tuple[int, int, int] | None:
    """Where the parameters begin after a function's name, where they end, and how many there are."""
    depth = 0
    while code[at] == "<" or depth:
        depth += (code[at] == "<") - (code[at] == ">" and code[at - 1] != "-")
        at += 1
    if code[at] != "(":
        return None
    start, arguments, word = at, 0, ""
    for at in range(start, len(code)):
        sign = code[at]
        depth += (sign in "([{<") - (sign in ")]}") - (sign == ">" and code[at - 1] not in "-=")
        if depth == 0 or (depth == 1 and sign == ","):
            arguments += bool(word.strip(" \n("))
            word = ""
            if depth == 0:
                return start, at + 1, arguments
        else:
            word += sign
    return None


def body_after(code: str, at: int) -> tuple[int, int]:
    """Where the body opens and ends after a function's parameters; both are the same where it has none."""
    depth = 0
    for here in range(at, len(code)):
        sign = code[here]
        depth += (sign in "([") - (sign in ")]")
        if depth == 0 and sign == "{":
            return here, closing(code, here)
        if depth == 0 and sign == ";":
            return here, here
    return len(code), len(code)


class Source:
    """What stands in one file."""

    def __init__(self, text: str) -> None:
        self.text = text
        self.code, self.clauses = code_and_clauses(text)

    @functools.cached_property
    def plain(self) -> str:
        """The text without comments."""
        return without_comments(self.text)

    @functools.cached_property
    def words(self) -> str:
        """The text without comments, strings and characters; clauses stay."""
        return without_comments(self.text, strings=False)

    def line(self, at: int) -> int:
        """The number of the line of this place."""
        return self.text.count("\n", 0, at) + 1

    @functools.cached_property
    def blocks(self) -> list[Block]:
        return [block_at(self.code, found) for found in BLOCK.finditer(self.code)]

    @functools.cached_property
    def functions(self) -> list[Function]:
        return list(self.read_functions())

    def read_functions(self) -> Iterator[Function]:
        for found in FUNCTION.finditer(self.code):
            parameters = parameters_at(self.code, found.end())
            if parameters:
                start, end, arguments = parameters
                around = [it for it in self.blocks if it.start < found.start() < it.end]
                block = max(around, key=lambda it: it.start) if around else None
                places = found.start(), (start, end), *body_after(self.code, end)
                yield Function(found[2], *places, arguments, found[1] == "pub ", block)

    def function_at(self, at: int) -> Function | None:
        """The innermost function in whose body, between the lines of its braces, this place is."""
        line = self.line(at)
        around = [it for it in self.functions if it.has_body and self.line(it.opens) < line < self.line(it.end - 1)]
        return max(around, key=lambda it: it.start) if around else None

    @functools.cached_property
    def items(self) -> list[Item]:
        """The items at the top, in their order. An `impl` has the name of its type, or none where it is one of a trait."""
        code = USE.sub(lambda it: spaces(it[0]), self.code)
        starts = list(ITEM.finditer(code))
        ends = [it.start() for it in starts[1:]] + [len(code)]
        return [self.item(found, end) for found, end in zip(starts, ends)]

    def item(self, found: re.Match[str], end: int) -> Item:
        if found[2] == "impl":
            block = next(it for it in self.blocks if it.start == found.start())
            return Item("impl for" if block.of_trait else "impl", block.owner, False, found.start(), end)
        name = re.search(r"\w+", found[3])
        return Item(found[2], name[0] if name else "", found[1] == "pub ", found.start(), end)

    def methods(self, item: Item) -> list[Function]:
        """The functions of an item's block."""
        return [it for it in self.functions if it.block and it.block.start == item.start]

    def imports(self, crate: str) -> dict[str, set[tuple[str, str]]]:
        """The words that the file of this crate imports: word -> (crate, name)."""
        words: dict[str, set[tuple[str, str]]] = {}
        for found in USE.findall(self.code):
            root = re.findall(r"\w+", found)[0]
            for name, other in LEAF.findall(found):
                place = crate if root in ("crate", "self", "super") else root
                words.setdefault(other or name, set()).add((place, name))
        return words
