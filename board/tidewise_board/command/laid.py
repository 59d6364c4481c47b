"""The files of a plan in its day's folder: laid whole, one by one, with their sums last."""
from __future__ import annotations

import hashlib
import os
import tempfile

SUMS = "SHA256SUMS"
# What a plan may leave in a day's folder; nothing else there is ever touched.
NAMES = ["day.json", "tides.csv", "plan.txt", "certificate", "picture.svg", "table.csv", "sailings.ics", "source.json", "README.txt"]


class Stands(ValueError):
    """A published file has this name already, with other bytes."""


def write(path: str, data: bytes, mode: int = 0o644, at_once: bool = True) -> None:
    """Puts a file into place whole, or not at all; `at_once` waits until the disk has it."""
    with tempfile.NamedTemporaryFile(dir=os.path.dirname(path), prefix=".laid-", delete=False) as file:
        try:
            file.write(data)
            file.flush()
            if at_once:
                os.fsync(file.fileno())
            os.fchmod(file.fileno(), mode)
            os.replace(file.name, path)
        except BaseException:
            os.unlink(file.name)
            raise


def write_new(path: str, data: bytes) -> None:
    """Puts a file into place that is never overwritten; the same bytes may stand there already."""
    with tempfile.NamedTemporaryFile(dir=os.path.dirname(path), prefix=".laid-") as file:
        file.write(data)
        file.flush()
        os.fsync(file.fileno())
        os.fchmod(file.fileno(), 0o444)
        try:
            os.link(file.name, path)
        except FileExistsError:
            with open(path, "rb") as old:
                if old.read() != data:
                    raise Stands(f"{path} was published before, with other bytes, and isn't overwritten") from None


def sums_of(files: dict[str, bytes]) -> bytes:
    return "".join(f"{hashlib.sha256(files[name]).hexdigest()}  {name}\n" for name in NAMES if name in files).encode()


def lay(folder: str, files: dict[str, bytes]) -> list[str]:
    """Lays a plan's files in its day's folder instead of those of the plan before, and returns their names. All of them stand in the store
    too, so nobody waits for the disk but for their sums."""
    os.makedirs(folder, exist_ok=True)
    names = [name for name in NAMES if name in files]
    for name in names:
        write(os.path.join(folder, name), files[name], at_once=False)
    for name in NAMES:
        if name not in files and os.path.exists(os.path.join(folder, name)):
            os.unlink(os.path.join(folder, name))
    write(os.path.join(folder, SUMS), sums_of(files))
    return [*names, SUMS]
