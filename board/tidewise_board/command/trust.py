"""`tw trust`: whose proofs were checked, says the operator."""
from __future__ import annotations

import os
import shutil
import tempfile

import click

from ..core import trust
from ..core.program import Program, digest_of
from ..core.shown import NONE_NAMED
from ..core.store import Store
from ..library.faults import Refused
from .common import JSON, say, say_json


def found(program: str) -> tuple[str, str]:
    """A program's path and its SHA-256; it isn't run."""
    path = shutil.which(program)
    if path is None:
        raise Refused(f"{program} can't be run: name the program that was built")
    return os.path.realpath(path), digest_of(path)


def asked(program: str) -> tuple[str, str]:
    """The path and the SHA-256 of a program that doesn't say of itself that it is unproved."""
    path = found(program)[0]
    with tempfile.TemporaryDirectory() as room:
        made = Program(path, Store(room))
    if made.unproved:
        raise Refused(f"{program} says that it is `{made.version}`, so it was built without its proof and can't be named; `tools/release FILE`"
                      " makes a program that is proved")
    return path, made.digest


@click.command(name="trust")
@click.argument("program", required=False)
@click.option("--forget", is_flag=True, help="Take the program, or a SHA-256, from the list again.")
@JSON
def command(program: str | None, forget: bool, as_json: bool) -> int:
    """Names PROGRAM as one whose proofs you have checked: its SHA-256 is kept, and answers of these very bytes are called so.

    Do it for a program that `tools/release` or `rt run` made, after its proof. Nothing is checked here, but that its `--version` doesn't say
    `unproved`: such a program is refused. Without PROGRAM the list is printed.

    \b
    Example: tw trust ~/tidewise/tidewise
    """
    if program is not None and forget:
        digest = program if len(program) == 64 else found(program)[1]
        if not trust.forget(digest):
            raise Refused(f"{program} isn't in the list")
    elif program is not None:
        path, digest = asked(program)
        trust.name(digest, path)
    if as_json:
        say_json({"list": trust.list_path(), "programs": [{"sha256": one.digest, "path": one.said} for one in trust.named()]})
    else:
        for one in trust.named():
            say(f"{one.digest}  {one.said}")
        if not trust.named():
            say(NONE_NAMED)
    return 0
