"""Small repositories to try the tools on. Sources are written as they are tried, since none may stand outside of crates/."""
from __future__ import annotations

import os
import pathlib
import shutil
import stat
import subprocess
import sys

import pytest

TOOLS = pathlib.Path(__file__).resolve().parent.parent
sys.dont_write_bytecode = True
sys.path.insert(0, str(TOOLS))

INFO = 'pub const VERSION: &str = "1.0.0";\n\npub const BUILD: &str = "";\n'

# A program that says its version, with its build's name where it has one, and checks the day.
PROGRAM = """\
#!/bin/sh
case "$1" in
    --version) echo "tidewise 1.0.0NAME" ;;
    check) echo "optimal 408410.0" ;;
esac
"""

# Proves nothing, and makes the program of the crate in whose folder it runs.
RT = """\
#!/bin/sh
[ "$1" != version ] || { echo "rattle-kit-played logic 0"; exit; }
grep -q broken src/info.rt && exit 1
name=$(sed -n 's/^pub const BUILD: &str = "\\(.*\\)";$/\\1/p' src/info.rt)
mkdir -p out
sed "s/NAME/${name:+ $name}/" "$PLAYED" > out/tidewise
chmod +x out/tidewise
pwd >> "$SAID"
ls ../hw_low/out/rlib >> "$SAID" 2> /dev/null || true
"""


class Made:
    """A repository that is made file by file."""

    def __init__(self, top: pathlib.Path) -> None:
        self.top, self.crates = top, top / "crates"
        self.crates.mkdir()
        self.put("HANDLES", "")

    def put(self, path: str, text: str) -> pathlib.Path:
        file = self.top / path
        file.parent.mkdir(parents=True, exist_ok=True)
        file.write_text(text)
        return file

    def crate(self, name: str, files: dict[str, str], below: str = "") -> None:
        """A crate with these files in its folder, and its row in crates.txt."""
        for path, text in files.items():
            self.put(f"crates/{name}/{path}", text)
        with open(self.top / "crates.txt", "a", encoding="utf-8") as rows:
            rows.write(f"{name}: {below}\n")


@pytest.fixture
def made(tmp_path: pathlib.Path) -> Made:
    return Made(tmp_path)


class Clone:
    """A clone of a small repository with these tools."""

    def __init__(self, made: Made) -> None:
        self.made, self.top = made, made.top
        made.crate("hw_low", {"src/lib.rt": "// low\n", "out/rlib/stamp": "1"}, "itoa csv")
        made.crate("tidewise", {"src/info.rt": INFO, "data/day": "", "out/tidewise": "old"}, "hw_low")
        made.put(".gitignore", "out/\nroom/\nplayed/\n")
        (self.top / "tools").mkdir()
        for name in ("named_copy", "try_program", "release", "archive", "archives.py", "crate_list.py"):
            shutil.copy(TOOLS / name, self.top / "tools")
        shutil.copytree(TOOLS / "archived", self.top / "tools/archived")
        self.git("init", "-q")
        self.said = self.top / "played" / "said"
        made.put("played/program", PROGRAM)
        rt = made.put("played/rt", RT)
        rt.chmod(rt.stat().st_mode | stat.S_IXUSR)

    def git(self, *words: str) -> str:
        who = ["-c", "user.name=a", "-c", "user.email=a@b"]
        return subprocess.run(["git", *who, *words], cwd=self.top, check=True, capture_output=True, text=True).stdout.strip()

    def commit(self) -> str:
        self.git("add", "-A")
        self.git("commit", "-qm", "A change")
        return self.git("rev-parse", "--short=8", "HEAD")

    def run(self, tool: str, *words: str) -> subprocess.CompletedProcess[str]:
        played = {"PLAYED": str(self.top / "played/program"), "SAID": str(self.said), "PATH": f"{self.top}/played:{os.environ['PATH']}"}
        return subprocess.run([self.top / "tools" / tool, *words], cwd="/", capture_output=True, text=True, env=os.environ | played)


@pytest.fixture
def clone(made: Made) -> Clone:
    return Clone(made)
