"""What the repository's first page and that of the board show is what runs: each command, what it prints, and each word that the page has."""
from __future__ import annotations

import os
import re
import subprocess
import sys

import click
import pytest
from browser import PROGRAM, ROOT
from tidewise_board.command.main import tw

TOP = os.path.dirname(ROOT)
END = "=== the end of a command ==="


def page_of(page: str) -> str:
    with open(os.path.join(TOP, page), encoding="utf-8") as file:
        return file.read()


def blocks(page: str) -> list[list[str]]:
    """The indented blocks of a page, without the indent."""
    found: list[list[str]] = [[]]
    for line in page_of(page).splitlines():
        if line.startswith("    "):
            found[-1].append(line[4:])
        elif line or not found[-1]:
            found.append([])
        else:
            found[-1].append("")
    return [block for block in found if any(block)]


def in_backticks(page: str) -> list[str]:
    return [" ".join(words.split()) for words in re.findall(r"`([^`]*)`", page_of(page))]


def printed(commands: list[str], home: str) -> list[str]:
    """What each of these lines prints, in one shell at the top of the repository, with a home of its own. tools/quick puts the program
    there that was built; .ci/tools runs the real one."""
    os.makedirs(os.path.join(home, "bin"))
    os.symlink(sys.executable, os.path.join(home, "bin", "python"))
    script = ["shopt -s expand_aliases", "set -e", "quick() { mkdir -p \"$(dirname \"$1\")\"; cp \"$TIDEWISE_BUILT\" \"$1\"; }"]
    for command in commands:
        line = re.sub(r"^tools/quick ", "quick ", command).replace("/usr/bin/python3", os.path.join(home, "bin", "python"))
        script += [line, f"echo '{END}'"]
    given = {name: value for name, value in os.environ.items() if name not in ("TIDEWISE", "PYTHONPATH", "XDG_CONFIG_HOME")}
    done = subprocess.run(["bash"], input="\n".join(script) + "\n", cwd=TOP, capture_output=True, text=True, timeout=240,
                          env={**given, "HOME": home, "TIDEWISE_BUILT": PROGRAM, "LC_ALL": "C.UTF-8"})
    assert done.returncode == 0, done.stdout + done.stderr
    parts = done.stdout.split(END + "\n")
    assert len(parts) == len(commands) + 1
    return parts[:-1]


def test_the_commands_of_the_first_page(tmp_path: object) -> None:
    """The first block as it stands there, and then the commands of the text below it, in the folder of the port."""
    commands, shown = ([line for line in block if line] for block in blocks("README.md")[:2])
    assert [line.split()[0] for line in commands] == ["tools/quick", "export", "alias", "tw", "tw"]
    text = in_backticks("README.md")
    below = [words for words in text if words.startswith(("cd ~/", "tw log ", "tw replan", "tw why", "tw try "))]
    assert [words.split()[1] for words in below] == ["~/tidewise/port", "log", "replan", "why", "try"]
    answers = printed([*commands, *below], str(tmp_path))
    assert [line for line in answers[4].splitlines() if line][:len(shown)] == shown, answers[4]
    log, replan, why, tried = answers[6:]
    assert log.startswith("noted: Hector not before ") and "this breaks plan 1" in log
    assert "1 moved" in replan and "`tw accept` makes it the plan" in replan
    assert "would break" in why and "3 tugs" in tried


@pytest.mark.parametrize("page", ["README.md", "docs/BOARD.md", "docs/TW.md", "docs/PLANNING.md", "docs/FOLDER.md"])
def test_each_command_of_tw_is_there(page: str) -> None:
    """Each `tw NAME ..`, with its options."""
    named = [words.split() for words in in_backticks(page) if words.startswith("tw ") and words != "tw COMMAND --help"]
    assert named
    for words in named:
        command = tw.get_command(click.Context(tw), words[1])
        assert command, f"{page}: there is no tw {words[1]}"
        options = {name for parameter in command.params for name in parameter.opts} | {"--help"}
        assert {word for word in words if word.startswith("--")} <= options, f"{page}: {' '.join(words)}"


def sources() -> str:
    """All that the board may say, on one line."""
    texts = []
    for folder, _, names in os.walk(os.path.join(ROOT, "tidewise_board")):
        for name in sorted(names):
            if name.endswith((".py", ".js", ".html")):
                with open(os.path.join(folder, name), encoding="utf-8") as file:
                    texts.append(file.read())
    return " ".join(" ".join(texts).split())


def test_each_word_of_the_board_is_there() -> None:
    """What docs/BOARD.md quotes of the page, and what it has in bold, the page has; each file that it offers is in examples/."""
    page, said = " ".join(page_of("docs/BOARD.md").split()), sources().lower()
    quoted = re.findall("“([^”]*)”", page)
    bold = [words for words in re.findall(r"\*\*([^*]+)\*\*", page) if words not in ("Drop the files", "Drag her mark", "issue", "plan by hand")]
    assert len(quoted) > 8 and len(bold) > 4
    for words in [*quoted, *bold]:
        assert words.lower() in said, f"docs/BOARD.md: {words}, which the page doesn't say"
    for name in re.findall(r"`([a-z-]+\.(?:json|csv|txt))`", page):
        assert os.path.exists(os.path.join(TOP, "examples", name)), name


def test_the_days_that_each_solver_proves() -> None:
    """The table of the first page counts what docs/BENCHMARKS.md has of each."""
    def rows(page: str, head: str) -> list[list[str]]:
        lines = page_of(page).partition(head)[2].split("\n\n")[0].splitlines()
        return [[cell.strip() for cell in line.strip("|").split("|")] for line in [head + lines[0], *lines[2:]]]

    names, *days = rows("docs/BENCHMARKS.md", "| problem |")
    counted = {name.strip("`"): sum(day[place] != "none" for day in days) for place, name in enumerate(names) if place > 2}
    solvers, proved = rows("README.md", "| `prove` |")
    assert len(days) == 17 and [counted[name.strip("`")] for name in solvers] == [int(number) for number in proved]
