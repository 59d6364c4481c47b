"""The programs whose proofs this user vouches for: their SHA-256, in a file of the user's own, which no port's folder can change."""
from __future__ import annotations

import os
import re
import tempfile
from dataclasses import dataclass

LINE = re.compile(r"([0-9a-f]{64})  (.*)")


@dataclass(frozen=True)
class Named:
    """A program that was named: its SHA-256, and its path and version at that time."""
    digest: str
    said: str


def list_path() -> str:
    """The file of the programs that were named: `$XDG_CONFIG_HOME/tidewise/programs`."""
    return os.path.join(os.environ.get("XDG_CONFIG_HOME") or os.path.expanduser("~/.config"), "tidewise", "programs")


def named() -> list[Named]:
    """The programs that were named, the first one first; none where there is no such file, or where others may write in it."""
    try:
        with open(list_path(), encoding="utf-8", errors="replace") as file:
            if os.fstat(file.fileno()).st_mode & 0o022 or os.fstat(file.fileno()).st_uid != os.getuid():
                return []
            found = [LINE.fullmatch(line.rstrip("\n")) for line in file]
    except FileNotFoundError:
        return []
    return [Named(line[1], line[2]) for line in found if line]


def digests() -> list[str]:
    return [one.digest for one in named()]


def write(programs: list[Named]) -> None:
    """Keeps this list, whole or not at all."""
    path = list_path()
    os.makedirs(os.path.dirname(path), mode=0o700, exist_ok=True)
    with tempfile.NamedTemporaryFile("w", dir=os.path.dirname(path), delete=False, encoding="utf-8") as file:
        file.writelines(f"{one.digest}  {one.said}\n" for one in programs)
        file.flush()
        os.fsync(file.fileno())
    os.replace(file.name, path)


def name(digest: str, said: str) -> None:
    """Adds a program to the list, or says anew what is known of it."""
    write([*(one for one in named() if one.digest != digest), Named(digest, said)])


def forget(digest: str) -> bool:
    """Takes a program from the list; whether it stood there."""
    before = named()
    write([one for one in before if one.digest != digest])
    return any(one.digest == digest for one in before)
