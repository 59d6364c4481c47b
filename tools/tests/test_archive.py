"""The archive of a version: its bytes, what it says of its program, and what install.sh makes of it. Two tests take a built program from the
variable TIDEWISE, and are skipped without one."""
from __future__ import annotations

import base64
import csv
import hashlib
import os
import pathlib
import shutil
import subprocess
import tarfile
import time
import zipfile
from collections.abc import Callable

import pytest

import archives
from conftest import PROGRAM, TOOLS, Clone

PYTHON = "/usr/bin/python3"
REAL = os.environ.get("TIDEWISE")
TOP = TOOLS.parent
PROJECT = """\
[project]
name = "tidewise-board"
version = "1.0.0"
description = "A board"
requires-python = ">=3.11"
dependencies = ["click>=8.1"]

[project.scripts]
tw = "tidewise_board.command.main:main"
"""
# A `tw` that says its version and completes words.
TW = """\
import os, sys
def main():
    print({"--version": "tw, version 1.0.0", "completion": "complete tw", "where": os.environ["TIDEWISE"]}[sys.argv[1]])
"""
GATE = "rt: ok; all\n133 passed, 0 failed\nlinks: all there\n"


def has_modules() -> bool:
    words = [PYTHON, "-c", "import sys, click, flask, waitress; sys.exit(sys.version_info < (3, 11))"]
    return os.path.exists(PYTHON) and subprocess.run(words, capture_output=True).returncode == 0


needs_modules = pytest.mark.skipif(not has_modules(), reason=f"{PYTHON} lacks click, flask or waitress: install.sh was not tried")
needs_program = pytest.mark.skipif(REAL is None, reason="TIDEWISE names no built program: no archive of one was tried")


def unpack(archive: pathlib.Path, to: pathlib.Path) -> pathlib.Path:
    to.mkdir(exist_ok=True)
    subprocess.run(["tar", "xzf", str(archive)], cwd=to, check=True)
    return to / archive.name.removesuffix(".tar.gz")


class Packed:
    """A small repository with what is packed, and its archives."""

    def __init__(self, clone: Clone) -> None:
        self.clone, self.top = clone, clone.top
        for path, text in {
            "board/pyproject.toml": PROJECT, "board/tidewise_board/__init__.py": "", "board/tidewise_board/command/__init__.py": "",
            "board/tidewise_board/command/main.py": TW, "board/tidewise_board/web/static/page.css": "a {}\n", "examples/day.json": "{}\n",
            "docs/tidewise.1": '.TH TIDEWISE 1 2026-12-01 "tidewise 1.0.0" "User commands"\n', "audit/check.py": "print('optimal')\n",
        }.items():
            clone.made.put(path, text)
        clone.made.put("examples/watch.sh", "#!/bin/sh\n").chmod(0o755)
        self.commit = clone.commit()

    def program(self, name: str) -> pathlib.Path:
        """A program that says this of its build."""
        file = self.clone.made.put("played/built", PROGRAM.replace("NAME", name and f" {name}"))
        file.chmod(0o755)
        return file

    def pack(self, *words: str) -> str:
        """Runs tools/archive, and returns what it says where it refuses."""
        ran = self.clone.run("archive", *words)
        assert (ran.returncode == 0) == (ran.stderr == ""), ran.stderr
        return ran.stderr

    def unpacked(self, name: str, to: str = "room/unpacked") -> pathlib.Path:
        return unpack(self.top / f"room/out/{name}.tar.gz", self.top / to)

    def of_unproved(self) -> pathlib.Path:
        assert not self.pack(str(self.top / "room/out"), str(self.program(f"unproved {self.commit}")))
        return self.unpacked("tidewise-1.0.0-unproved")

    def released(self, *words: str) -> pathlib.Path:
        """The archive of a program that tools/release made before."""
        ran = self.clone.run("release", str(self.top / "room/bin/tidewise"))
        assert ran.returncode == 0, ran.stderr
        return self.top / "room/bin/tidewise"


@pytest.fixture
def packed(clone: Clone) -> Packed:
    return Packed(clone)


def installs(folder: pathlib.Path, *words: str) -> subprocess.CompletedProcess[str]:
    return subprocess.run([folder / "install.sh", *words], cwd="/", capture_output=True, text=True, env={"PATH": "/usr/bin:/bin"})


def sums(folder: pathlib.Path) -> None:
    """Makes the sums of an archive again, after a change."""
    files = sorted(str(it.relative_to(folder)) for it in folder.rglob("*") if it.is_file() and it.name != "SHA256SUMS")
    (folder / "SHA256SUMS").write_text("".join(f"{hashlib.sha256((folder / it).read_bytes()).hexdigest()}  {it}\n" for it in files))


def test_the_same_files_make_the_same_bytes(packed: Packed) -> None:
    program = packed.program(f"unproved {packed.commit}")
    assert not packed.pack(str(packed.top / "room/out"), str(program))
    first = (packed.top / "room/out/tidewise-1.0.0-unproved.tar.gz").read_bytes()
    # Another clone, with other times and another mask for modes, beside files that git doesn't know.
    other = packed.top / "room/clone"
    packed.clone.git("clone", "-q", str(packed.top), str(other))
    for file in other.rglob("*.json"):
        os.utime(file, (time.time() - 1e6,) * 2)
    (other / "examples/__pycache__").mkdir()
    (other / "examples/notes").write_text("mine\n")
    words = ["sh", "-c", 'umask 077; exec "$@"', "sh", str(other / "tools/archive"), str(packed.top / "room/more"), str(program)]
    subprocess.run(words, cwd="/", check=True, capture_output=True)
    assert (packed.top / "room/more/tidewise-1.0.0-unproved.tar.gz").read_bytes() == first


def test_an_archive_is_sorted_and_has_neither_owners_nor_times(packed: Packed) -> None:
    folder = packed.of_unproved()
    data = (packed.top / "room/out/tidewise-1.0.0-unproved.tar.gz").read_bytes()
    assert data[3] == 0 and data[4:8] == bytes(4)
    with tarfile.open(packed.top / "room/out/tidewise-1.0.0-unproved.tar.gz") as archive:
        entries = archive.getmembers()
    assert [it.name for it in entries] == sorted(it.name for it in entries)
    assert {(it.uid, it.gid, it.uname, it.gname, it.mtime) for it in entries} == {(0, 0, "root", "root", archives.TIME)}
    runs = {it.name.partition("/")[2] for it in entries if it.isfile() and it.mode == 0o755}
    assert runs == {"install.sh", "bin/tidewise", "bin/tw", "examples/watch.sh"}
    assert subprocess.run(["sha256sum", "-c", "SHA256SUMS"], cwd=folder, capture_output=True).returncode == 0
    named = {row.split("  ")[1] for row in (folder / "SHA256SUMS").read_text().splitlines() if not row.startswith("#")}
    assert named == {str(it.relative_to(folder)) for it in folder.rglob("*") if it.is_file()} - {"SHA256SUMS"}


@pytest.mark.parametrize("name", ["unproved COMMIT", "unproved uncommitted", ""])
def test_an_unproved_program_is_called_so(packed: Packed, name: str) -> None:
    said = f"tidewise 1.0.0 {name.replace('COMMIT', packed.commit)}".strip()
    assert not packed.pack(str(packed.top / "room/out"), str(packed.program(said.removeprefix("tidewise 1.0.0").strip())))
    folder = packed.unpacked("tidewise-1.0.0-unproved")
    assert not (folder / "PROVED").exists()
    for file in ("UNPROVED", "NOTICE"):
        assert (folder / file).read_text().startswith(f"{said}: UNPROVED\n")
    assert (folder / "SHA256SUMS").read_text().startswith(f"# {said}: UNPROVED\n")
    assert "  csv, itoa, std\n" in (folder / "NOTICE").read_text() and "no licence" in (folder / "NOTICE").read_text()


def test_a_proved_program_says_how(packed: Packed) -> None:
    log = packed.clone.made.put("played/log", "12 passed, 1 failed\n" + GATE)
    assert not packed.pack("--gate", str(log), str(packed.top / "room/out"), str(packed.released()))
    folder = packed.unpacked("tidewise-1.0.0")
    said = (folder / "PROVED").read_text()
    sources = subprocess.run(archives.SUM, shell=True, cwd=packed.top, check=True, capture_output=True, text=True).stdout.split(" ")[0]
    program = hashlib.sha256((folder / "bin/tidewise").read_bytes()).hexdigest()
    for text in (sources, program, "rattle-kit-played logic 0", packed.clone.git("rev-parse", "HEAD"), "    133 passed, 0 failed\n    links: all there\n"):
        assert text in said
    assert said.startswith(f"tidewise 1.0.0 proved {packed.commit}\n") and not (folder / "UNPROVED").exists()
    assert "UNPROVED" not in (folder / "NOTICE").read_text() + (folder / "SHA256SUMS").read_text()


def test_it_builds_a_proved_program_itself(packed: Packed) -> None:
    ran = packed.clone.run("archive", str(packed.top / "room/out"))
    assert ran.returncode == 0, ran.stderr
    said = (packed.unpacked("tidewise-1.0.0") / "PROVED").read_text()
    assert said.startswith(f"tidewise 1.0.0 proved {packed.commit}\n") and "wasn't given" in said


def test_what_is_proved_is_not_taken_on_trust(packed: Packed) -> None:
    out, program = str(packed.top / "room/out"), packed.released()
    assert "tidewise.proved isn't beside it" in packed.pack(out, str(shutil.copy(program, packed.top / "room/tidewise")))
    program.write_text(program.read_text() + "# changed\n")
    assert "is of another program" in packed.pack(out, str(program))
    packed.released()
    packed.clone.made.put("examples/day.json", "{ }\n")
    assert "isn't committed" in packed.pack(out, str(program))
    packed.clone.commit()
    assert not packed.pack(out, str(program))
    packed.clone.made.put("crates/README.md", "a page that builds nothing\n")
    packed.clone.commit()
    assert not packed.pack(out, str(program))
    packed.clone.made.put("crates/hw_low/src/lib.rt", "// lower\n")
    packed.clone.commit()
    assert "is of another sources" in packed.pack(out, str(program))


def test_other_sources_and_versions_are_refused(packed: Packed) -> None:
    out = str(packed.top / "room/out")
    program = packed.program(f"unproved {packed.commit}")
    packed.clone.made.put("docs/tidewise.1", '.TH TIDEWISE 1 2026-12-01 "tidewise 1.0.1" "User commands"\n')
    assert "the versions differ" in packed.pack(out, str(program))
    packed.clone.git("checkout", "-q", ".")
    packed.clone.made.put("crates/hw_low/src/lib.rt", "// lower\n")
    assert "its sources have changed" in packed.pack(out, str(program))
    assert "has version 1.0.2" in packed.pack(out, str(packed.clone.made.put("played/built", PROGRAM.replace("1.0.0NAME", "1.0.2"))))
    assert "it is no tidewise" in packed.pack(out, "/bin/true")
    assert "can't be run" in packed.pack(out, str(packed.top / "crates.txt"))
    assert not (packed.top / "room/out").exists()


def test_a_gate_that_failed_is_refused(packed: Packed) -> None:
    out, program = str(packed.top / "room/out"), str(packed.released())
    for text in ("", "1 passed, 2 failed\n", GATE + "1 passed, 2 failed\n", "0 passed, 0 failed\n"):
        assert "no gate that passed" in packed.pack("--gate", str(packed.clone.made.put("played/log", text)), out, program)
    log = str(packed.clone.made.put("played/log", GATE))
    assert "says nothing of an unproved program" in packed.pack("--gate", log, out, str(packed.program("unproved uncommitted")))


@pytest.mark.parametrize("words", [[], ["--gate"], ["--gate", "log"], ["-h"], ["room", "program", "more"]])
def test_other_words_are_refused(packed: Packed, words: list[str]) -> None:
    assert "tools/archive [--gate LOG] FOLDER [PROGRAM]" in packed.pack(*words)


def test_a_wheel_has_its_record(packed: Packed) -> None:
    path = packed.of_unproved() / "lib/tidewise_board-1.0.0-py3-none-any.whl"
    with zipfile.ZipFile(path) as wheel:
        record = list(csv.reader(wheel.read("tidewise_board-1.0.0.dist-info/RECORD").decode().splitlines()))
        assert [row[0] for row in record] == wheel.namelist()
        for name, code, size in record[:-1]:
            data = wheel.read(name)
            assert (code, size) == ("sha256=" + base64.urlsafe_b64encode(hashlib.sha256(data).digest()).decode().rstrip("="), str(len(data)))
        assert b"Name: tidewise-board\nVersion: 1.0.0\n" in wheel.read("tidewise_board-1.0.0.dist-info/METADATA")


def test_the_wheel_of_the_board_is_that_of_pip(tmp_path: pathlib.Path) -> None:
    clone = archives.Clone(TOP)
    try:
        files = clone.files("board/pyproject.toml", "board/tidewise_board")
    except archives.Refused as cause:
        pytest.skip(f"{cause}: no wheel was made")
    for path, file in files.items():
        (tmp_path / path).parent.mkdir(parents=True, exist_ok=True)
        (tmp_path / path).write_bytes(file.data)
    words = [PYTHON, "-m", "pip", "wheel", "-q", "--no-deps", "--no-build-isolation", "--no-index", "-w", str(tmp_path), str(tmp_path / "board")]
    ran = subprocess.run(words, capture_output=True, text=True) if os.path.exists(PYTHON) else None
    if ran is None or ran.returncode:
        pytest.skip(f"{PYTHON} has no pip, setuptools and wheel: their wheel was not compared")
    board = archives.below(files, "board/")
    name, data = archives.wheel(board.pop("pyproject.toml").data, board)
    (tmp_path / "made.zip").write_bytes(data)
    with zipfile.ZipFile(tmp_path / name) as theirs, zipfile.ZipFile(tmp_path / "made.zip") as ours:
        told = {"METADATA", "WHEEL", "RECORD", "top_level.txt"}
        assert {it for it in theirs.namelist() if it.rpartition("/")[2] not in told} == {it for it in ours.namelist() if it.rpartition("/")[2] not in told}
        for it in ours.namelist():
            if it.rpartition("/")[2] not in told:
                assert theirs.read(it).strip() == ours.read(it).strip(), it


@needs_modules
def test_it_is_installed_and_once_more(packed: Packed) -> None:
    folder, prefix = packed.of_unproved(), packed.top / "room/a place"

    def installed() -> dict[str, tuple[int, bytes]]:
        files = (it for it in prefix.rglob("*") if it.is_file() and not it.is_symlink() and it.suffix != ".pyc")
        return {str(it.relative_to(prefix)): (it.stat().st_mode & 0o777, it.read_bytes()) for it in files}

    ran = installs(folder, str(prefix))
    assert ran.returncode == 0, ran.stderr
    assert "UNPROVED" in ran.stdout and "isn't in PATH" in ran.stdout
    first = installed()
    assert {name for name, (mode, _) in first.items() if mode == 0o755 and name.startswith("bin/")} == {"bin/tidewise", "bin/tw"}
    for name in ("share/man/man1/tidewise.1", "share/tidewise/UNPROVED", "share/tidewise/NOTICE", "share/tidewise/audit/check.py",
                 "share/tidewise/examples/day.json", "share/bash-completion/completions/tw", "share/zsh/site-functions/_tw",
                 "share/fish/vendor_completions.d/tw.fish", "lib/tidewise/tidewise_board/web/static/page.css"):
        assert name in first
    assert subprocess.run([prefix / "bin/tw", "where"], capture_output=True, text=True, env={"PATH": ""}).stdout == f"{prefix}/bin/tidewise\n"
    # Once more: what an older version left in its own folders goes, and nothing else changes.
    (prefix / "lib/tidewise/tidewise_board/older.py").write_text("older\n")
    (prefix / "bin/other").write_text("other\n")
    assert installs(folder, str(prefix)).returncode == 0
    assert installed() == first | {"bin/other": (0o644, b"other\n")}
    assert not [it for it in os.listdir(prefix) if it.startswith(".")]


def changed(file: str) -> Callable[[pathlib.Path], None]:
    def change(folder: pathlib.Path) -> None:
        (folder / file).write_text("changed\n")
    return change


def without_module(folder: pathlib.Path) -> None:
    (folder / "install.sh").write_text((folder / "install.sh").read_text().replace("click flask", "no_such_module"))
    sums(folder)


def of_another_machine(folder: pathlib.Path) -> None:
    (folder / "bin/tidewise").write_text("\x7fELF")
    sums(folder)


@needs_modules
@pytest.mark.parametrize(
    ("change", "said"),
    [
        (changed("examples/day.json"), "a file of the archive is missing or was changed"),
        (lambda it: (it / "audit/check.py").unlink(), "a file of the archive is missing or was changed"),
        (lambda it: (it / "SHA256SUMS").unlink(), "SHA256SUMS isn't beside it"),
        (without_module, "apt-get install python3-no_such_module"),
        (of_another_machine, "bin/tidewise doesn't run here"),
    ],
)
def test_where_something_is_missing_nothing_is_changed(packed: Packed, change: Callable[[pathlib.Path], None], said: str) -> None:
    folder, prefix = packed.of_unproved(), packed.top / "room/prefix"
    change(folder)
    ran = installs(folder, str(prefix))
    assert ran.returncode == 1 and said in ran.stderr and not prefix.exists()


@needs_modules
def test_what_others_put_there_stays(packed: Packed) -> None:
    folder, prefix = packed.of_unproved(), packed.top / "room/prefix"
    (prefix / "bin").mkdir(parents=True)
    (prefix / "bin/tw").write_text("another tw\n")
    ran = installs(folder, str(prefix))
    assert ran.returncode == 1 and f"{prefix}/bin/tw is there" in ran.stderr
    assert [it.name for it in prefix.rglob("*")] == ["bin", "tw"] and (prefix / "bin/tw").read_text() == "another tw\n"
    ran = installs(folder, str(prefix / "bin/tw/below"))
    assert ran.returncode == 1 and "is no folder" in ran.stderr
    others: list[list[str]] = [[], [""], ["-x"], ["one", "two"]]
    for words in others:
        ran = installs(folder, *words)
        assert ran.returncode == 1 and ran.stderr.startswith("./install.sh PREFIX")


@pytest.fixture(scope="module")
def real(tmp_path_factory: pytest.TempPathFactory) -> pathlib.Path:
    """An archive of the program that TIDEWISE names, unpacked and installed where there is no repository."""
    room = tmp_path_factory.mktemp("real")
    try:
        made = archives.make(TOP, room / "out", pathlib.Path(REAL or "").resolve())
    except archives.Refused as cause:
        pytest.skip(f"no archive of this program: {cause}")
    ran = installs(unpack(made, room / "unpacked"), str(room / "prefix"))
    assert ran.returncode == 0, ran.stderr
    return room / "prefix"


@needs_program
@needs_modules
def test_a_real_program_is_installed_and_runs(real: pathlib.Path) -> None:
    def prints(*words: str) -> str:
        done = subprocess.run(words, cwd=real / "share/tidewise/examples", capture_output=True, text=True,
                              env={"PATH": f"{real}/bin:/usr/bin:/bin", "HOME": str(real), "LC_ALL": "C.UTF-8"})
        assert done.returncode == 0, done.stderr
        return done.stdout

    assert prints("tidewise", "--version").startswith("tidewise 1.0.0")
    assert prints("tidewise", "check", "port", "day.json", "day-tides.csv", "day.cert") == "optimal 308296.0\n"
    assert prints(PYTHON, "../audit/check.py", "port", "day.json", "day-tides.csv", "day.cert") == "optimal 308296.0\n"
    assert "tw check" in prints("tw", "--help")
    assert prints("tw", "--version") == "tw, version 1.0.0\n"
    assert prints(PYTHON, "port.py", "calls.csv", "calls-port.json") == (TOP / "examples/calls.json").read_text()
    prints("tw", "init", "--from", "calls", str(real / "port"))
    said = prints("tw", "plan", str(real / "port"))
    assert "150,962.0 t" in said and (real / "port/day/2027-03-14/certificate").exists()


@needs_program
def test_two_archives_of_a_real_program_are_the_same(tmp_path: pathlib.Path) -> None:
    program = pathlib.Path(REAL or "").resolve()
    try:
        made = [archives.make(TOP, tmp_path / name, program).read_bytes() for name in ("one", "other")]
    except archives.Refused as cause:
        pytest.skip(f"no archive of this program: {cause}")
    assert made[0] == made[1]
