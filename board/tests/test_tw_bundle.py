"""`tw publish`, `tw verify` and `tw board`."""
from __future__ import annotations

import io
import os
import shutil
import subprocess
import urllib.request
import zipfile
from collections.abc import Callable

import pytest
from browser import PROGRAM, nameable
from ports import Tw, changed, port, process, tw  # noqa: F401 - fixtures

Files = dict[str, bytes]


@pytest.fixture
def bundle(tw: Tw, port: str) -> str:
    assert tw("plan", port).status == 0
    return str(tw("publish", port, "--json").json()["file"])


def files_of(path: str) -> Files:
    with zipfile.ZipFile(path) as zipped:
        return {name: zipped.read(name) for name in zipped.namelist()}


def summed(files: Files) -> Files:
    """The same with sums that fit, as a forger would make them."""
    import hashlib
    sums = "".join(f"{hashlib.sha256(data).hexdigest()}  {name}\n" for name, data in files.items() if name != "SHA256SUMS")
    return {**files, "SHA256SUMS": sums.encode()}


def zipped(path: str, files: Files) -> str:
    out = io.BytesIO()
    with zipfile.ZipFile(out, "w") as made:
        for name, data in files.items():
            made.writestr(name, data)
    with open(path, "wb") as file:
        file.write(out.getvalue())
    return path


def test_what_is_published_is_checked_by_anybody(tw: Tw, bundle: str, tmp_path: object) -> None:
    copy = shutil.copy(bundle, os.path.join(str(tmp_path), "copy.zip"))
    done = tw("verify", copy)
    assert done.status == 0 and done.out.startswith("Best, says an unproved build: 150,962.0 t\n") and "NO" not in done.out
    answer = tw("verify", copy, "--json").json()
    assert all(step["good"] is not False for step in answer["steps"]) and answer["verdict"] == "optimal 150962.0" and answer["seal"] == ""
    assert len(answer["believed"]) == 4
    # Without the board and without `tw`, by the two commands of its README.
    room = os.path.join(str(tmp_path), "room")
    with zipfile.ZipFile(copy) as opened:
        opened.extractall(room)
    subprocess.run(["sha256sum", "--quiet", "-c", "SHA256SUMS"], cwd=room, check=True)
    said = subprocess.run([PROGRAM, "verify", "port", "day.json", "tides.csv", "certificate"], cwd=room, capture_output=True, text=True, check=True)
    assert said.stdout == "optimal 150962.0\n"


def test_what_was_published_stays(tw: Tw, port: str, bundle: str) -> None:
    before = files_of(bundle)
    again = tw("publish", port, "--json").json()
    assert again["file"] == bundle and files_of(bundle) == before
    changed(port, "port.json", '"fleet":9', '"fleet":8')
    assert tw("plan", port).status == 0
    assert files_of(bundle) == before and tw("publish", port, "--json").json()["plan"] == 2
    # A file of the same name is never overwritten.
    os.unlink(bundle)
    shutil.rmtree(os.path.join(port, ".tw"))
    changed(port, "port.json", '"fleet":8', '"fleet":9')
    with open(bundle, "wb") as file:
        file.write(b"mine")
    tw("plan", port)
    done = tw("publish", port)
    assert done.status == 4 and "isn't overwritten" in done.err
    with open(bundle, "rb") as file:
        assert file.read() == b"mine"


LIES: dict[str, Callable[[Files], Files]] = {
    "another tide": lambda files: summed({**files, "tides.csv": files["tides.csv"].replace(b"415", b"416")}),
    "another certificate": lambda files: summed({**files, "certificate": files["certificate"].replace(b"t ", b"t 0", 1)}),
    "another verdict": lambda files: summed({**files, "README.txt": files["README.txt"].replace(b"150962.0", b"150963.0")}),
    "another picture": lambda files: summed({**files, "picture.svg": files["picture.svg"] + b"\n"}),
    "another table": lambda files: summed({**files, "table.csv": files["table.csv"].replace(b"Hector", b"Hektor")}),
    "another calendar": lambda files: summed({**files, "sailings.ics": files["sailings.ics"].replace(b"0710", b"0720")}),
    "another source": lambda files: summed({**files, "source.json": files["source.json"].replace(b"1720", b"1730")}),
    "sums of other files": lambda files: {**files, "SHA256SUMS": files["SHA256SUMS"].replace(b"a", b"b", 1)}}


@pytest.mark.parametrize("lie", LIES)
def test_a_file_that_lies_is_found(tw: Tw, bundle: str, tmp_path: object, lie: str) -> None:
    before = files_of(bundle)
    files = LIES[lie](before)
    assert files != before
    path = zipped(os.path.join(str(tmp_path), "lie.zip"), files)
    tw("trust", nameable())
    done = tw("verify", path, "--program", nameable())
    assert done.status == 5 and "Nothing is said of this plan." in done.out and "NO" in done.out and "Proved" not in done.out
    answer = tw("verify", path, "--program", nameable(), "--json").json()
    assert answer["verdict"] is None and answer["seal"] == "" and answer["cargo_t"] is None


@pytest.mark.parametrize("name, data, status", [("nowhere.zip", None, 6), ("no.zip", b"PK", 4), ("empty.zip", b"", 4)])
def test_what_is_no_published_file(tw: Tw, tmp_path: object, name: str, data: bytes | None, status: int) -> None:
    path = os.path.join(str(tmp_path), name)
    if data is not None:
        with open(path, "wb") as file:
            file.write(data)
    done = tw("verify", path)
    assert done.status == status and done.out == "" and done.err.startswith("tw: ")


def test_nothing_is_published_where_the_checkers_differ(tw: Tw, port: str, tmp_path: object) -> None:
    liar = os.path.join(str(tmp_path), "liar")
    with open(liar, "w", encoding="utf-8") as file:
        file.write(f"#!/bin/sh\n{nameable()} \"$@\" > said\nstatus=$?\n/bin/sed s/150962.0/150963.0/ said\nexit $status\n")
    os.chmod(liar, 0o700)
    assert tw("trust", liar).status == 0
    assert tw("plan", port, "--program", liar).status == 0
    done = tw("publish", port, "--program", liar)
    assert done.status == 4 and "the second checker optimal 150962.0" in done.err
    assert not [name for name in os.listdir(os.path.join(port, "day", "2027-03-14")) if name.endswith(".zip")]
    # From then on nothing is said of that run.
    assert tw("plans", port, "--program", liar, "--json").json()["plans"][0]["headline"] == "No plan"


def test_the_board_has_the_plans_of_tw(tw: Tw, port: str, bundle: str) -> None:
    board = process("board", port, "--port", "8491", "--program", PROGRAM)
    try:
        assert board.stdout is not None
        assert "unproved build" in board.stdout.readline()
        address = board.stdout.readline().strip()
        opener = urllib.request.build_opener(urllib.request.HTTPCookieProcessor())
        assert b"2027-03-14" in opener.open(address).read()
        # A plan waits for its end.
        busy = tw("plan", port)
        assert busy.status == 4 and "the board works in this folder" in busy.err
        assert tw("plans", port).status == 0
    finally:
        board.terminate()
        assert board.wait(30) == 0
    assert tw("plan", port).status == 0
