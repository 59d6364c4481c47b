"""`tw plan` of a hard day in parts, on this machine and as an array of Slurm; a day on which nothing fits; `tw roll`."""
from __future__ import annotations

import os
import signal
import subprocess

import pytest
from browser import PROGRAM
from ports import Tw, busy, changed, port, process, tw  # noqa: F401 - fixtures
from test_tw_hostile import PATIENCE, script, searching, until

PRELUDE = ["--prelude", "30"]
# The steps of a day in parts as examples/README.md has them, over the flat text, one part after the other.
STEPS = """
"$T" flatten "$D/day.json" "$D/tides.csv" > day.flat
"$T" prove flat day.flat 30 prelude > /dev/null || [ $? = 2 ]
(echo cert 3; grep '^t ' prelude | tail -n 1) > start
"$T" split flat day.flat 8 start split > /dev/null
for part in $(seq "$(grep -c '^p$' split)"); do "$T" part flat day.flat split $part start 100000 $part.cert > /dev/null; cat $part.cert >> certs; done
"$T" join flat day.flat split certs joined
"""


@pytest.fixture
def hard(tmp_path: object) -> str:
    """A day that a search of thirty lemmas leaves open."""
    return busy(os.path.join(str(tmp_path), "hard"), 14, 5)


def certificate(folder: str) -> bytes:
    with open(os.path.join(folder, "day", "2027-03-14", "certificate"), "rb") as file:
        return file.read()


def test_parts_have_the_certificate_of_their_steps(tw: Tw, hard: str, tmp_path: object) -> None:
    done = tw("plan", hard, "--parts", "8", *PRELUDE)
    assert done.status == 0 and done.out.startswith("Best, says an unproved build: 680,646.3 t\n"), done.out + done.err
    room = os.path.join(str(tmp_path), "room")
    os.mkdir(room)
    steps = subprocess.run(["bash", "-euo", "pipefail", "-c", STEPS], cwd=room, capture_output=True, text=True, check=True,
                           env={**os.environ, "T": PROGRAM, "D": os.path.join(hard, "day", "2027-03-14")})
    assert steps.stdout == "optimal 6806463\n"
    with open(os.path.join(room, "joined"), "rb") as file:
        assert file.read() == certificate(hard)


def task(array: str, part: int, job: str = "7") -> int:
    """One task of an array, as Slurm runs it."""
    return subprocess.run([os.path.join(array, "array.sh")], env={"PATH": "/usr/bin:/bin", "SLURM_ARRAY_TASK_ID": str(part), "SLURM_ARRAY_JOB_ID": job},
                          capture_output=True, check=False).returncode


def test_an_array_makes_the_same(tw: Tw, hard: str, tmp_path: object) -> None:
    assert tw("plan", hard, "--parts", "8", *PRELUDE).status == 0
    wanted = certificate(hard)
    changed(hard, "ships.csv", "Ship 00", "Ship zero")
    changed(hard, "ships.csv", "Ship zero", "Ship 00")
    array = os.path.join(str(tmp_path), "an array")
    answer = tw("plan", hard, "--slurm", array, "--parts", "8", *PRELUDE, "--json").json()
    assert answer["parts"] == 8 and sorted(os.listdir(array)) == ["array.sh", "day.json", "split", "start", "tides.csv"]
    # A second array doesn't write the same names.
    assert tw("plan", hard, "--slurm", array).status == 4
    subprocess.run(["rm", "-rf", os.path.join(hard, ".tw"), os.path.join(hard, "day")], check=True)
    assert [task(array, part) for part in (1, 2, 5)] == [0, 0, 0]
    early = tw("plan", hard, "--join", array, "--json")
    assert early.status == 2 and early.err == "no certificate yet of part 3, 4, 6, 7, 8: open\n" and early.json()["verdict"].startswith("unfinished ")
    # Two arrays in one folder: each writes its own, and what takes its place is the same.
    assert [task(array, part, job) for part in (3, 4, 6, 7, 8, 1) for job in ("7", "8")] == [0] * 12
    whole = tw("plan", hard, "--join", array, "--json")
    assert whole.status == 0 and whole.json()["verdict"] == "optimal 680646.3" and certificate(hard) == wanted
    assert not [name for name in os.listdir(array) if name.endswith(".tmp")]


def test_an_array_of_another_day_is_refused(tw: Tw, hard: str, tmp_path: object) -> None:
    array = os.path.join(str(tmp_path), "array")
    assert tw("plan", hard, "--slurm", array, "--parts", "4", *PRELUDE).status == 0
    changed(hard, "port.json", '"fleet":5', '"fleet":6')
    done = tw("plan", hard, "--join", array)
    assert done.status == 4 and "an array of another day" in done.err
    assert tw("plan", hard, "--join", os.path.join(str(tmp_path), "nowhere")).status == 6


def test_a_part_that_fails_isnt_infeasible(tw: Tw, hard: str, tmp_path: object) -> None:
    fake = script(tmp_path, 'case $1 in part) echo memory; exit 9;; *) exec REAL "$@";; esac')
    done = tw("plan", hard, "--parts", "4", *PRELUDE, "--program", fake)
    assert done.status == 5 and "part 1 ended with status 9: memory" in done.err
    fake = script(tmp_path, 'case $1 in join) echo refused 7 hint 5; exit 5;; *) exec REAL "$@";; esac')
    done = tw("plan", hard, "--parts", "4", *PRELUDE, "--program", fake)
    assert done.status == 5 and "join ended with status 5: refused 7 hint 5" in done.err and not searching(hard)


@pytest.mark.parametrize("words", [["--parts", "$(touch pwned)"], ["--parts", "0"], ["--parts", "2", "--prelude", "x[$(touch pwned)]"]])
def test_words_are_numbers(tw: Tw, hard: str, words: list[str]) -> None:
    done = tw("plan", hard, *words)
    assert done.status == 3 and not os.path.exists("pwned")


@pytest.mark.parametrize("number", [signal.SIGTERM, pytest.param(signal.SIGHUP, marks=pytest.mark.slow)])
def test_parts_that_are_ended_leave_no_run(tw: Tw, tmp_path: object, number: signal.Signals) -> None:
    folder = busy(os.path.join(str(tmp_path), "harder"), 20, 6)
    running = process("plan", folder, "--parts", "8", *PRELUDE, "--limit", "600", "--program", PROGRAM)
    until(lambda: len(searching(folder)) > 1)
    running.send_signal(number)
    out, err = running.communicate(timeout=PATIENCE)
    assert running.returncode == 2 and out.startswith("Not proved best: ") and "plan 1, in " in out and err == ""
    assert not searching(folder)


def test_parts_that_are_killed_are_ended_by_the_next_one(tw: Tw, tmp_path: object) -> None:
    folder = busy(os.path.join(str(tmp_path), "harder"), 20, 6)
    running = process("plan", folder, "--parts", "8", *PRELUDE, "--limit", "600", "--program", PROGRAM)
    until(lambda: len(searching(folder)) > 1)
    running.kill()
    running.wait()
    assert tw("plan", folder, "--limit", "1").status == 2 and not searching(folder)


def test_a_day_on_which_nothing_fits(tw: Tw, port: str) -> None:
    changed(port, "port.json", '"fleet":9', '"fleet":1')
    done = tw("plan", port)
    assert done.status == 1 and done.out.startswith("Nothing fits, says an unproved build\nno timetable is permitted\n")
    assert "no more than 1 tugs at once" in done.out and not os.path.exists(os.path.join(port, "day"))
    answer = tw("plan", port, "--json").json()
    assert answer["plan"] is None and answer["verdict"] == "infeasible" and answer["clash"] and answer["sailings"] == []


def test_what_the_next_day_takes_over(tw: Tw, port: str) -> None:
    assert tw("roll", "2027-03-15", "--in", port).status == 4
    tw("plan", port)
    done = tw("roll", "2027-03-15", "--in", port)
    assert done.status == 0 and "`tw plan --day 2027-03-15`" in done.out
    # A ship that sails late in the day is under way when the next one begins.
    tw("log", "--in", port, "Hector not before 19:50")
    tw("log", "--in", port, "close", "Bar", "2027-03-14 03:40", "to", "2027-03-14 19:50")
    assert tw("roll", "2027-03-17", "--in", port).status == 4 and tw("roll", "tomorrow", "--in", port).status == 4
    tw("log", "--in", port, "--now", "04:00", "Grace out not before 2027-03-15 02:00")
    if tw("replan", port, "--now", "04:00").status == 0:
        tw("accept", port)
        answer = tw("roll", "2027-03-15", "--in", port, "--json")
        assert answer.status == 4 and answer.json()["blocked"], answer.out
