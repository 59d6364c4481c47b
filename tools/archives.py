"""The archive of a version: a program with what belongs to it, the same bytes whenever it is made of the same files."""
from __future__ import annotations

import base64
import dataclasses
import gzip
import hashlib
import io
import os
import pathlib
import re
import shlex
import string
import subprocess
import tarfile
import tomllib
import zipfile
from collections.abc import Iterable

import crate_list

# What is packed with the program, and what the program is made of: what is to be read beside it isn't.
PACKED = ("audit/check.py", "board/pyproject.toml", "board/tidewise_board", "docs/tidewise.1", "examples", "tools/archived")
SOURCES = ("HANDLES", "crates", "crates.txt", ":!*.md")
SUM = f"git ls-files -z {shlex.join(SOURCES)} | LC_ALL=C sort -z | xargs -0 sha256sum | sha256sum"
# The time of each file: the first that a zip can tell.
TIME, ZIP_TIME = 315532800, (1980, 1, 1, 0, 0, 0)
GATE_LINES = 12


class Refused(Exception):
    """Why there is no archive."""


@dataclasses.dataclass(frozen=True)
class File:
    data: bytes
    runs: bool = False


def digest(data: bytes) -> str:
    return hashlib.sha256(data).hexdigest()


@dataclasses.dataclass(frozen=True)
class Clone:
    """A clone of the repository."""
    top: pathlib.Path

    def git(self, *words: str) -> str:
        done = subprocess.run(["git", *words], cwd=self.top, capture_output=True, text=True)
        if done.returncode:
            raise Refused(f"git {words[0]}: {done.stderr.strip()}")
        return done.stdout

    def files(self, *paths: str) -> dict[str, File]:
        """The files below these paths that git knows, as they stand here."""
        found = {}
        for row in filter(None, self.git("ls-files", "--error-unmatch", "-s", "-z", "--", *paths).split("\0")):
            mode, path = row.split(" ")[0], row.partition("\t")[2]
            if mode not in ("100644", "100755") or not (self.top / path).is_file():
                raise Refused(f"{path} isn't there, or is no plain file")
            found[path] = File((self.top / path).read_bytes(), mode == "100755")
        return found

    def sum_of_sources(self) -> str:
        """What SUM prints."""
        rows = (f"{digest(file.data)}  {path}\n" for path, file in sorted(self.files(*SOURCES).items(), key=lambda it: os.fsencode(it[0])))
        return digest("".join(rows).encode())

    def changes(self, *paths: str) -> str:
        """What isn't committed of the files below these paths that git knows."""
        return self.git("status", "--porcelain", "--untracked-files=no", "--", *paths).strip()

    def commit(self, *paths: str) -> str:
        """The commit, or a word for none where something below these paths isn't committed."""
        return "uncommitted" if self.changes(*paths) else self.git("rev-parse", "HEAD").strip()

    def version(self) -> str:
        """The version of the program, which that of the board and of the man page must be."""
        told = {
            "crates/tidewise/src/info.rt": r'^pub const VERSION: &str = "(.*)";$',
            "board/pyproject.toml": r'^version = "(.*)"$',
            "docs/tidewise.1": r'^\.TH TIDEWISE 1 \S+ "tidewise (.*?)"',
        }
        versions = {}
        for path, form in told.items():
            found = re.search(form, (self.top / path).read_text(), re.M)
            versions[path] = found[1] if found else "none"
        if len(set(versions.values())) > 1:
            raise Refused("the versions differ: " + ", ".join(f"{version} in {path}" for path, version in versions.items()))
        return versions.popitem()[1]


@dataclasses.dataclass(frozen=True)
class Build:
    """A program, and what it says of its build: whether it was proved, and the commit."""
    path: pathlib.Path
    data: bytes
    version: str
    word: str
    commit: str

    @property
    def proved(self) -> bool:
        return self.word == "proved"

    @property
    def name(self) -> str:
        return " ".join(filter(None, ("tidewise", self.version, self.word, self.commit)))


def build_of(path: pathlib.Path) -> Build:
    try:
        said = subprocess.run([path, "--version"], capture_output=True, text=True, stdin=subprocess.DEVNULL).stdout
    except OSError as cause:
        raise Refused(f"{path} can't be run: {cause.strerror}") from None
    found = re.fullmatch(r"tidewise (\S+)(?: (proved|unproved) ([0-9a-f]{8,40}|uncommitted))?\n", said)
    if not found:
        raise Refused(f"{path} --version prints {said[:100]!r}: it is no tidewise")
    return Build(path, path.read_bytes(), found[1], found[2] or "", found[3] or "")


def gate_lines(log: pathlib.Path) -> list[str]:
    """The last lines of what the gate printed, from the one on that counts what passed. It is refused where something failed there."""
    lines = [line.rstrip() for line in log.read_text(errors="replace").splitlines() if line.strip()]
    counts = [place for place, line in enumerate(lines) if re.match(r"\d+ passed, \d+ failed", line)]
    if not counts or not re.match(r"[1-9]\d* passed, 0 failed", lines[counts[-1]]):
        raise Refused(f"{log} has no last line `N passed, 0 failed`: it is no gate that passed")
    return lines[counts[-1]:][:GATE_LINES]


def as_proved(clone: Clone, build: Build, log: pathlib.Path | None) -> str:
    """What is said of a proved program: what tools/release noted of it, over sources that are still these."""
    record = build.path.with_name(build.path.name + ".proved")
    if not record.is_file():
        raise Refused(f"{build.path} says that it was proved, but {record.name} isn't beside it, where tools/release notes that")
    rows = dict(row.split(" ", 1) for row in record.read_text().splitlines() if " " in row)
    want = {"build": build.name, "program": digest(build.data), "sources": clone.sum_of_sources()}
    for name, value in want.items():
        if rows.get(name) != value:
            raise Refused(f"{record} is of another {name}: {rows.get(name, 'none')}, and not {value}")
    parts = clone.commit(*PACKED, *SOURCES)
    if parts == "uncommitted":
        raise Refused("what is packed isn't committed: " + clone.changes(*PACKED, *SOURCES))
    lines = [
        build.name, "",
        "tools/release built bin/tidewise after the prover had accepted every crate that it stands on. What that means, and what must be",
        "believed, is said in docs/PROMISES.md and docs/AUDIT.md of the repository. Of all other files here nothing is proved.", "",
        f"program  sha256 {want['program']}",
        f"commit   {rows.get('commit', 'none')} (of the program)",
        f"commit   {parts} (of the other files)",
        f"kit      {rows.get('kit', 'none')}",
        f"sources  sha256 {want['sources']}, by", f"         {SUM}",
    ]
    if log:
        lines += ["", "The gate, which proves and tests all of the repository, ended so:", "", *(f"    {line}" for line in gate_lines(log))]
    else:
        lines += ["", "What the gate printed wasn't given to this archive."]
    return "\n".join(lines) + "\n"


def as_unproved(clone: Clone, build: Build) -> str:
    """What is said of any other program."""
    sources = clone.sum_of_sources()
    if build.commit not in ("", "uncommitted") and clone.git("diff", "--name-only", build.commit, "--", *SOURCES):
        raise Refused(f"{build.path} is of commit {build.commit}, and its sources have changed since")
    how = {"unproved": "bin/tidewise was compiled without its proof (tools/quick).", "": "bin/tidewise doesn't say how it was built."}[build.word]
    lines = [
        f"{build.name}: UNPROVED", "",
        f"{how} So nothing is proved of what it prints, and `tw` and the", "board say of its answers that they come from an unproved build.", "",
        f"program  sha256 {digest(build.data)}",
        f"commit   {build.commit or 'not said'} (of the program)",
        f"commit   {clone.commit(*PACKED)} (of the other files)",
        f"sources  sha256 {sources}, by", f"         {SUM}",
    ]
    return "\n".join(lines) + "\n"


def wheel(project: bytes, package: dict[str, File]) -> tuple[str, bytes]:
    """The name and the bytes of the wheel of a Python project without sources in another language."""
    told = tomllib.loads(project.decode())["project"]
    name = f"{told['name'].replace('-', '_')}-{told['version']}"
    info = f"{name}.dist-info"
    head = [f"Name: {told['name']}", f"Version: {told['version']}", f"Summary: {told['description']}", f"Requires-Python: {told['requires-python']}"]
    head += [f"Requires-Dist: {it}" for it in told["dependencies"]]
    scripts = [f"{script} = {place}" for script, place in sorted(told["scripts"].items())]
    files = {path: file.data for path, file in sorted(package.items())}
    files[f"{info}/METADATA"] = "\n".join(["Metadata-Version: 2.1", *head, ""]).encode()
    files[f"{info}/WHEEL"] = b"Wheel-Version: 1.0\nGenerator: tools/archive\nRoot-Is-Purelib: true\nTag: py3-none-any\n"
    files[f"{info}/entry_points.txt"] = "\n".join(["[console_scripts]", *scripts, ""]).encode()
    rows = []
    for path, data in files.items():
        code = base64.urlsafe_b64encode(hashlib.sha256(data).digest()).rstrip(b"=").decode()
        rows.append(f"{path},sha256={code},{len(data)}\n")
    files[f"{info}/RECORD"] = "".join([*rows, f"{info}/RECORD,,\n"]).encode()
    made = io.BytesIO()
    with zipfile.ZipFile(made, "w") as packed:
        for path, data in files.items():
            entry = zipfile.ZipInfo(path, ZIP_TIME)
            entry.create_system, entry.external_attr = 3, 0o100644 << 16
            packed.writestr(entry, data, zipfile.ZIP_DEFLATED, 9)
    return f"{name}-py3-none-any.whl", made.getvalue()


def kit_crates(rows: pathlib.Path) -> list[str]:
    """The crates that those of the repository stand on and that aren't its own, and the standard library, which all stand on."""
    crates = crate_list.listed(rows)
    return sorted({name for names in crates.values() for name in names} - set(crates)) + ["std"]


def below(files: dict[str, File], folder: str) -> dict[str, File]:
    """The files of a folder, whose name ends with a slash, by their paths in it."""
    return {path.removeprefix(folder): file for path, file in files.items() if path.startswith(folder)}


def content(clone: Clone, build: Build, log: pathlib.Path | None) -> dict[str, File]:
    """The archive's files, by their paths in it."""
    if build.version != clone.version():
        raise Refused(f"{build.path} has version {build.version}, and the repository {clone.version()}")
    if log and not build.proved:
        raise Refused("what the gate printed says nothing of an unproved program")
    word = "PROVED" if build.proved else "UNPROVED"
    packed = clone.files(*PACKED)
    board = below(packed, "board/")
    named, made = wheel(board.pop("pyproject.toml").data, board)
    head = build.name if build.proved else f"{build.name}: UNPROVED"
    crates = ", ".join(kit_crates(clone.top / "crates.txt"))
    notice = string.Template(packed["tools/archived/NOTICE"].data.decode()).substitute(build=head, wheel=named, word=word, crates=crates)
    files = {
        "NOTICE": File(notice.encode()),
        word: File((as_proved(clone, build, log) if build.proved else as_unproved(clone, build)).encode()),
        "audit/check.py": packed["audit/check.py"],
        "bin/tidewise": File(build.data, True),
        "bin/tw": packed["tools/archived/tw"],
        "install.sh": packed["tools/archived/install.sh"],
        f"lib/{named}": File(made),
        "man/tidewise.1": packed["docs/tidewise.1"],
        **{f"examples/{path}": file for path, file in below(packed, "examples/").items()},
    }
    sums = "".join(f"{digest(file.data)}  {path}\n" for path, file in sorted(files.items()))
    files["SHA256SUMS"] = File(f"# {head}\n{sums}".encode())
    return files


def packed_as(name: str, files: dict[str, File]) -> bytes:
    """The bytes of a compressed archive with one folder of this name: sorted, without owners and times."""
    raw = io.BytesIO()
    folders = sorted({str(it) for path in files for it in pathlib.PurePosixPath(path).parents if str(it) != "."})
    entries: Iterable[tuple[str, File | None]] = sorted([(name, None), *((f"{name}/{it}", None) for it in folders),
                                                         *((f"{name}/{path}", file) for path, file in files.items())], key=lambda it: it[0])
    with tarfile.open(fileobj=raw, mode="w", format=tarfile.USTAR_FORMAT) as made:
        for path, file in entries:
            entry = tarfile.TarInfo(path)
            entry.mtime, entry.uname, entry.gname = TIME, "root", "root"
            entry.mode = 0o755 if file is None or file.runs else 0o644
            entry.type, entry.size = (tarfile.DIRTYPE, 0) if file is None else (tarfile.REGTYPE, len(file.data))
            made.addfile(entry, io.BytesIO(file.data) if file else None)
    return gzip.compress(raw.getvalue(), 9, mtime=0)


def make(top: pathlib.Path, folder: pathlib.Path, program: pathlib.Path, log: pathlib.Path | None = None) -> pathlib.Path:
    """Makes the archive of this program in a folder, and returns its path."""
    clone, build = Clone(top), build_of(program)
    name = f"tidewise-{build.version}" + ("" if build.proved else "-unproved")
    data = packed_as(name, content(clone, build, log))
    folder.mkdir(parents=True, exist_ok=True)
    file = folder / f"{name}.tar.gz"
    partial = folder / f".{name}.{os.getpid()}"
    partial.write_bytes(data)
    partial.replace(file)
    return file
