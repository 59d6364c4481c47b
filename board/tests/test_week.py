"""What docs/PLANNING.md shows is what is printed: its week from the first command to the last, and what is refused."""
from __future__ import annotations

import os
import re
import subprocess
import sys

import pytest
from browser import PROGRAM, ROOT
from ports import Tw, changed, port, tw  # noqa: F401 - fixtures
from test_readme import TOP, blocks

PAGE = "docs/PLANNING.md"
END = "=== the end of a command ==="


def runs(page: str) -> list[tuple[str, list[str]]]:
    """Each command of the page, after `$`, with the lines that it shows."""
    found: list[tuple[str, list[str]]] = []
    for block in blocks(page):
        assert block[0].startswith("$ "), f"{page} shows what no command prints: {block[0]}"
        for line in block:
            if line.startswith("$ "):
                found.append((line[2:], []))
            else:
                found[-1][1].append(line)
    return found


def bare(command: str, lines: list[str]) -> list[str]:
    """Without blank lines at the end, and, of variants, without the seconds that each took."""
    text = "\n".join(lines).rstrip()
    return (re.sub(r" +\d+\.\d$", "", text, flags=re.M) if command.startswith("tw try ") else text).split("\n")


def printed(commands: list[str], room: str) -> list[list[str]]:
    """What each command prints, one after the other in one shell that begins in this folder."""
    script = ['tw() { "$PYTHON" -m tidewise_board "$@"; }', 'tidewise() { "$TIDEWISE" "$@"; }']
    script += [f"{{ {command}\n}} 2>&1\necho '{END}'" for command in commands]
    given = {**os.environ, "PYTHON": sys.executable, "PYTHONPATH": ROOT, "TIDEWISE": PROGRAM, "XDG_CONFIG_HOME": room, "LC_ALL": "C.UTF-8"}
    done = subprocess.run(["bash", "-c", "\n".join(script)], cwd=room, capture_output=True, text=True, timeout=240, check=True, env=given)
    assert done.stderr == ""
    parts = done.stdout.split(END + "\n")
    assert len(parts) == len(commands) + 1 and parts[-1] == ""
    return [part.splitlines() for part in parts[:-1]]


def refused(page: str) -> list[tuple[str, str, str, str]]:
    """The table of faults: the file, what stands there, what stands instead, and what is said. An empty cell is that above it."""
    found: list[tuple[str, str, str, str]] = []
    with open(os.path.join(TOP, page), encoding="utf-8") as file:
        rows = file.read().partition("| it says |\n")[2].partition("\n\n")[0].split("\n")[1:]
    for row in rows:
        name, old, new, said = (cell.strip().removeprefix("`").removesuffix("`") for cell in row[1:-1].split("|"))
        found.append((name or found[-1][0], old or found[-1][1], new, said))
    return found


def test_the_week_is_what_is_printed(tmp_path: object) -> None:
    shown = runs(PAGE)
    assert {command.split()[1] for command, _ in shown if command.startswith("tw ")} >= {
        "init", "check", "windows", "plan", "try", "why", "publish", "verify", "log", "replan", "accept", "roll"}
    for (command, lines), answer in zip(shown, printed([command for command, _ in shown], str(tmp_path)), strict=True):
        assert bare(command, lines) == bare(command, answer), command


@pytest.mark.parametrize("name, old, new, said", refused(PAGE))
def test_what_is_refused(tw: Tw, port: str, name: str, old: str, new: str, said: str) -> None:
    for waypoint, line in (("Bar", "2027-03-15 10:39 4.12\n"), ("Berth", "2027-03-15 10:43 4.19\n")):
        with open(os.path.join(port, "tides", f"{waypoint}.txt"), "a", encoding="utf-8") as file:
            file.write(line)
    assert tw("check", port).out.startswith("clean: ")
    changed(port, name, old, new)
    done = tw("check", port)
    answer = (done.out + done.err).splitlines()
    if said.startswith("hint: "):
        assert done.status == 0 and answer[0] == said and answer[1].startswith("nothing wrong: ")
    else:
        assert done.status == 4 and answer == [said]
