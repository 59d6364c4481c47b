"""`tw` where something goes wrong: kills, two at once, a full disk, names, clocks, and programs that lie, babble or hang."""
from __future__ import annotations

import contextlib
import csv
import datetime
import os
import shutil
import signal
import subprocess
import time
from collections.abc import Iterator

import pytest
from browser import PROGRAM, ROOT, nameable
from ports import Done, Tw, busy, calls, changed, port, process, tw, words_of  # noqa: F401 - fixtures
from tidewise_board.command import book
from tidewise_board.core import program as programs
from tidewise_board.core import runs as all_runs
from tidewise_board.core.store import Store

PATIENCE = 120
DAY = os.path.join("day", "2027-03-14")


@pytest.fixture
def hard(tmp_path: object) -> str:
    """A day that no search ends."""
    return busy(os.path.join(str(tmp_path), "hard"), 24, 6)


def until(what: object, patience: float = PATIENCE) -> None:
    """Waits until this holds."""
    end = time.monotonic() + patience
    while not what():  # type: ignore[operator]
        assert time.monotonic() < end
        time.sleep(0.05)


def lines_of(folder: str) -> int:
    """How many lines the certificates of the runs under way have."""
    count = 0
    for name in os.listdir(os.path.join(folder, ".tw")) if os.path.isdir(os.path.join(folder, ".tw")) else []:
        with contextlib.suppress(OSError), open(os.path.join(folder, ".tw", name, "proof"), "rb") as file:
            count += file.read().count(b"\n")
    return count


def searching(folder: str) -> list[int]:
    """The processes that have this folder's program."""
    found = []
    for name in os.listdir("/proc"):
        if name.isdigit():
            with contextlib.suppress(OSError):
                if os.readlink(f"/proc/{name}/exe").startswith(os.path.join(folder, ".tw")):
                    found.append(int(name))
    return found


def script(tmp_path: object, text: str) -> str:
    path = os.path.join(str(tmp_path), "fake")
    with open(path, "w", encoding="utf-8") as file:
        file.write(f"#!/bin/sh\n{text.replace('REAL', nameable())}\n")
    os.chmod(path, 0o700)
    return path


# Ends and kills.

@pytest.mark.parametrize("number", [signal.SIGINT, *(pytest.param(one, marks=pytest.mark.slow) for one in (signal.SIGTERM, signal.SIGHUP))])
def test_an_end_keeps_what_was_found(hard: str, number: signal.Signals) -> None:
    running = process("plan", hard, "--program", PROGRAM, "--limit", "600")
    until(lambda: lines_of(hard) > 100)
    running.send_signal(number)
    out, err = running.communicate(timeout=PATIENCE)
    assert running.returncode == 2 and err == "" and out.startswith("Not proved best: ") and "plan 1, in " in out
    assert not searching(hard)
    said = subprocess.run([PROGRAM, "verify", "port", "day.json", "tides.csv", "certificate"], cwd=os.path.join(hard, DAY), capture_output=True,
                          text=True, check=False)
    assert said.stdout.startswith("unfinished ")


def test_the_limit_ends_it_too(tw: Tw, hard: str) -> None:
    done = tw("plan", hard, "--limit", "1")
    assert done.status == 2 and done.out.startswith("Not proved best: ") and not searching(hard)


def test_a_kill_in_the_middle(tw: Tw, hard: str) -> None:
    running = process("plan", hard, "--program", PROGRAM, "--limit", "600")
    until(lambda: lines_of(hard) > 100)
    running.kill()
    running.wait()
    assert tw("plans", hard).out == "no plan yet: `tw plan` makes one\n" and not os.path.exists(os.path.join(hard, DAY))
    # The next one ends what the last one left, and begins anew.
    done = tw("plan", hard, "--limit", "1")
    assert done.status == 2 and "plan 1, in " in done.out and not searching(hard)


@pytest.mark.slow
def test_a_kill_at_any_moment(tw: Tw, tmp_path: object) -> None:
    """Whatever stands there after it is whole, and the next run makes the plan."""
    folder = calls(os.path.join(str(tmp_path), "port"))
    for wait in (0.1, 0.3, 0.5, 0.7, 0.9, 1.2):
        running = process("plan", folder, "--program", PROGRAM)
        time.sleep(wait)
        running.kill()
        running.wait()
        for plan in tw("plans", folder, "--json").json()["plans"]:
            assert plan["verdict"] == "optimal 150962.0" and plan["fault"] is None
    assert tw("plan", folder).status == 0
    subprocess.run(["sha256sum", "--quiet", "-c", "SHA256SUMS"], cwd=os.path.join(folder, DAY), check=True)
    assert [one["plan"] for one in tw("plans", folder, "--json").json()["plans"]] == [1]


def test_two_in_one_folder(tw: Tw, hard: str) -> None:
    running = process("plan", hard, "--program", PROGRAM, "--limit", "600")
    until(lambda: lines_of(hard) > 100)
    other = tw("plan", hard)
    assert other.status == 4 and "another run or the board works in this folder" in other.err
    running.send_signal(signal.SIGINT)
    out, _ = running.communicate(timeout=PATIENCE)
    assert running.returncode == 2 and "plan 1, in " in out


def test_two_who_write_in_the_log(tw: Tw, port: str) -> None:
    tw("plan", port)
    sentences = [f"{ship} not before {hour}:00" for ship in ("Hector", "Iris", "Grace out") for hour in (10, 11)]
    writers = [process("log", "--in", port, "--program", PROGRAM, sentence) for sentence in sentences]
    for writer in writers:
        _, err = writer.communicate(timeout=PATIENCE)
        assert writer.returncode == 0, err
    with open(os.path.join(port, "log.csv"), encoding="utf-8", newline="") as file:
        said = [row["said"].replace("2027-03-14 ", "") for row in csv.DictReader(file)]
    assert sorted(said) == sorted(sentences)


# A full disk.

@pytest.fixture
def small(tmp_path: object) -> Iterator[str]:
    """A disk of a megabyte and a half."""
    path = os.path.join(str(tmp_path), "disk")
    os.mkdir(path)
    if os.getuid() != 0 or subprocess.run(["mount", "-t", "tmpfs", "-o", "size=4m", "tmpfs", path], capture_output=True, check=False).returncode:
        pytest.skip("no disk can be mounted here")
    yield path
    subprocess.run(["umount", "-l", path], check=True)


def fill(path: str, left: int) -> str:
    """A file that leaves so many bytes free."""
    name = os.path.join(path, "filler")
    free = os.statvfs(path).f_bavail * os.statvfs(path).f_frsize
    with open(name, "wb") as file:
        file.write(bytes(max(0, free - left)))
    return name


@pytest.mark.parametrize("left", [0, pytest.param(16 << 10, marks=pytest.mark.slow), 64 << 10, pytest.param(160 << 10, marks=pytest.mark.slow)])
def test_a_full_disk(tw: Tw, small: str, left: int) -> None:
    folder = calls(os.path.join(small, "port"))
    assert tw("plan", folder).status == 0
    bundle = tw("publish", folder, "--json").json()["file"]
    before = tw("verify", bundle).out
    filler = fill(small, left)
    changed_row(folder)
    done = tw("plan", folder)
    assert done.status in (0, 5, 7) and (done.err.startswith("tw: ") or done.out), done.err
    assert "Traceback" not in done.err
    os.unlink(filler)
    assert tw("verify", bundle).out == before
    assert tw("plan", folder).status == 0
    assert [one["fault"] for one in tw("plans", folder, "--json").json()["plans"]] == [None, None]
    subprocess.run(["sha256sum", "--quiet", "-c", "SHA256SUMS"], cwd=os.path.join(folder, DAY), check=True)


def changed_row(folder: str) -> None:
    """Another ship's draft, in as many bytes: a file that grows would find no room."""
    with open(os.path.join(folder, "ships.csv"), "r+b") as file:
        data = file.read()
        file.seek(data.index(b"1720"))
        file.write(b"1719")


def test_the_log_on_a_full_disk(tw: Tw, small: str) -> None:
    folder = calls(os.path.join(small, "port"))
    tw("plan", folder)
    tw("log", "--in", folder, "Hector not before 10:00")
    with open(os.path.join(folder, "log.csv"), "rb") as file:
        before = file.read()
    filler = fill(small, 0)
    done = tw("log", "--in", folder, "Iris not before 11:00")
    assert done.status == 7 and "Traceback" not in done.err
    with open(os.path.join(folder, "log.csv"), "rb") as file:
        assert file.read() == before
    os.unlink(filler)
    assert tw("log", "--in", folder, "Iris not before 11:00").status == 0


# Names.

NAMES = ["$(touch pwned)", "`touch pwned`", "=cmd|' /C calc'!A0", "</svg><script>alert(1)</script>", "-rf", "a;b|c&d", "\u202edlog", "O'Neil",
         "tugs", "not before", "../../etc", "%s{0}"]


@pytest.mark.parametrize("name", [*NAMES[:4], *(pytest.param(name, marks=pytest.mark.slow) for name in NAMES[4:])])
def test_any_name_is_only_a_name(tw: Tw, port: str, name: str) -> None:
    with open(os.path.join(port, "ships.csv"), encoding="utf-8", newline="") as file:
        rows = list(csv.reader(file))
    for row in rows:
        row[:] = [name if cell == "Hector" else cell for cell in row]
    with open(os.path.join(port, "ships.csv"), "w", encoding="utf-8", newline="") as file:
        csv.writer(file).writerows(rows)
    done = tw("plan", port)
    if done.status == 4:
        # The line-up's own reader refuses it, at its cell.
        assert "ships.csv, row" in done.err
        return
    assert done.status == 0 and "\u202e" not in done.out
    assert tw("plan", port, "--json").json()["sailings"][0]["ship"] == name
    noted = tw("log", "--in", port, f"ship {name} not before 10:00")
    assert noted.status == 0, noted.err
    with open(os.path.join(port, "log.csv"), encoding="utf-8", newline="") as file:
        row = list(csv.reader(file))[1]
    assert all(cell[:1] not in tuple("=+-@\t\r") for cell in row) and name in row[2]
    answer = tw("replan", port, "--now", "04:00", "--json").json()
    assert answer["verdict"].startswith("optimal ") and any(row["ship"] == name and row["time"] >= "10:00" for row in answer["sailings"])
    assert tw("accept", port).status == 0 and tw("publish", port).status == 0
    with open(os.path.join(port, DAY, "picture.svg"), encoding="utf-8") as file:
        assert "<script" not in file.read()
    for root in (port, ROOT, os.path.join(port, DAY), os.getcwd()):
        assert not os.path.exists(os.path.join(root, "pwned"))


def test_names_of_folders(tw: Tw, tmp_path: object) -> None:
    folder = calls(os.path.join(str(tmp_path), "a port; $(touch pwned) 'x'"))
    assert tw("plan", folder).status == 0 and tw("publish", folder).status == 0
    array = os.path.join(str(tmp_path), "an array; $(touch pwned)")
    done = tw("plan", folder, "--slurm", array)
    assert done.status == 4 and "plan it without an array" in done.err and not os.path.exists(array)


# Clocks.

def at(monkeypatch: pytest.MonkeyPatch, moment: str) -> None:
    """Sets the clock of this machine, as far as `tw` reads it."""
    class Clock(datetime.datetime):
        @classmethod
        def now(cls, tz: datetime.tzinfo | None = None) -> Clock:
            return cls.fromisoformat(moment)
    monkeypatch.setattr(book, "datetime", Clock)


def test_a_clock_that_changes(tw: Tw, port: str, monkeypatch: pytest.MonkeyPatch) -> None:
    tw("plan", port)
    at(monkeypatch, "2027-03-14T07:45:00")
    assert tw("log", "--in", port, "sailed Iris 07:40").status == 0
    # The clock goes back: what was told before stays before, and nothing is put before the last sailing.
    at(monkeypatch, "2027-03-14T06:45:00")
    assert tw("log", "--in", port, "Hector not before 07:00").status == 0
    with open(os.path.join(port, "log.csv"), encoding="utf-8") as file:
        assert [line.split(",")[0] for line in file][1:] == ["2027-03-14 07:45", "2027-03-14 06:45"]
    answer = tw("replan", port, "--json").json()
    times = {row["ship"]: row["time"] for row in answer["sailings"]}
    assert times["Iris"] == "07:40" and times["Hector"] >= "07:40"
    # Before the day everything is still possible; after it somebody has to say what time it is.
    at(monkeypatch, "2027-01-01T00:00:00")
    assert tw("replan", port, "--json").json()["now"] == "2027-03-14 03:40"
    at(monkeypatch, "2027-03-20T00:00:00")
    late = tw("replan", port)
    assert late.status == 4 and "say by --now what time it is" in late.err
    assert tw("replan", port, "--now", "08:00").status == 0


# Programs.

def test_one_that_claims_more_than_it_shows(tw: Tw, port: str, tmp_path: object) -> None:
    fake = script(tmp_path, 'case $1 in prove) REAL "$@" | /bin/sed s/150962.0/150963.0/;; *) exec REAL "$@";; esac')
    tw("trust", fake)
    done = tw("plan", port, "--program", fake)
    assert done.status == 5 and "what verify says of its certificate differ" in done.out and "Proved" not in done.out
    assert not os.path.exists(os.path.join(port, DAY)) and tw("plans", port, "--program", fake, "--json").json()["plans"] == []


def test_one_that_claims_a_proof_it_doesnt_have(tw: Tw, hard: str, tmp_path: object) -> None:
    fake = script(tmp_path, 'case $1 in prove) REAL prove port day.json tides.csv 200 proof > said; /bin/sed "s/^unfinished 200 best/optimal/" said; exit 0;;'
                            ' *) exec REAL "$@";; esac')
    tw("trust", fake)
    done = tw("plan", hard, "--program", fake)
    assert done.status == 5 and "differ" in done.out and "Proved" not in done.out


@pytest.mark.parametrize("form", ["--version", "lint", "flatten", "prove", "verify", "chart", "table", "explain"])
@pytest.mark.parametrize("babble", ["echo garbage", *(pytest.param(one, marks=pytest.mark.slow) for one in (
    "echo; exit 77", "/usr/bin/head -c 20000000 /dev/zero", "kill -9 $$", "/usr/bin/printf '\\377\\376'"))])
def test_one_that_babbles(tw: Tw, port: str, tmp_path: object, form: str, babble: str) -> None:
    """Nothing is said to be more than it is, and there is no traceback."""
    fake = script(tmp_path, f'case $1 in {form}) {babble};; *) exec REAL "$@";; esac')
    tw("trust", fake)
    done = tw("plan", port, "--program", fake)
    assert "Traceback" not in done.err, done.err
    if done.status == 0:
        # A form that only shows, or the version: what is called proved was verified.
        assert form in ("--version", "lint", "chart", "table", "explain") and done.out.startswith("Proved best: 150,962.0 t\n")
    else:
        assert done.status in (4, 5, 7) and "Proved" not in done.out


@pytest.mark.parametrize("form", ["--version", "lint", "flatten", "verify", "chart"])
def test_one_that_hangs(tw: Tw, port: str, tmp_path: object, monkeypatch: pytest.MonkeyPatch, form: str) -> None:
    monkeypatch.setattr(programs, "PATIENCE", 1)
    monkeypatch.setattr(programs, "CERT_PATIENCE", 1)
    fake = script(tmp_path, f'case $1 in {form}) exec /bin/sleep 600;; *) exec REAL "$@";; esac')
    done = tw("plan", port, "--program", fake)
    assert done.status == 5 and "took more than 1 seconds" in done.err + done.out and not searching(port)


def test_a_search_that_wont_end(tw: Tw, port: str, tmp_path: object, monkeypatch: pytest.MonkeyPatch) -> None:
    monkeypatch.setattr(all_runs, "GRACE", 0.5)
    fake = script(tmp_path, "trap '' TERM INT HUP\ncase $1 in prove) while :; do /bin/sleep 1; done;; *) exec REAL \"$@\";; esac")
    done = tw("plan", port, "--program", fake, "--limit", "1")
    assert done.status == 5 and "No plan" in done.out


def test_a_pipe_that_closes(port: str) -> None:
    done = subprocess.run(f"{' '.join(words_of('plan', port, '--program', PROGRAM))} | true", shell=True, cwd=ROOT, capture_output=True, text=True,
                          check=False)
    assert "Traceback" not in done.stderr


def test_a_store_that_was_changed(tw: Tw, port: str) -> None:
    cert = tw("plan", port, "--json").json()["certificate"]
    path = os.path.join(port, ".tw", "objects", cert[:2], cert[2:])
    os.chmod(path, 0o600)
    with open(path, "ab") as file:
        file.write(b"l ;\n")
    done = tw("plans", port, "--json").json()["plans"][0]
    assert done["headline"] == "No plan" and done["fault"].startswith("Damaged") and done["cargo_t"] is None
    assert tw("publish", port).status == 5
    # The same certificate is found again, and takes the place of the one that was changed.
    again = tw("plan", port, "--json").json()
    assert (again["plan"], again["verdict"]) == (1, "optimal 150962.0")
    assert tw("publish", port).status == 0


def test_an_answer_that_somebody_put_there(tw: Tw, port: str) -> None:
    """A folder may come from others: what `verify` says is asked anew."""
    named = ("--program", nameable())
    assert tw("trust", nameable()).status == 0
    tw("plan", port, *named)
    store = Store(os.path.join(port, ".tw"))
    lie = store.put(b"optimal 999999.0\n")
    with store.change() as db:
        assert db.execute("UPDATE answer SET output = ? WHERE words LIKE '[\"verify%'", (lie,)).rowcount == 1
        db.execute("UPDATE run SET verdict = 'optimal 999999.0'")
    assert tw("plans", port, *named, "--json").json()["plans"][0]["headline"] == "Proved best: 150,962.0 t"
    with store.change() as db:
        db.execute("UPDATE answer SET output = ? WHERE words LIKE '[\"verify%'", (lie,))
    assert tw("plan", port, *named).out.startswith("Proved best: 150,962.0 t\n")


def test_a_folder_that_cant_be_written(tw: Tw, port: str) -> None:
    assert tw("plan", port).status == 0
    shutil.rmtree(os.path.join(port, "day"))
    with open(os.path.join(port, "day"), "w", encoding="ascii") as file:
        file.write("in the way")
    changed(port, "port.json", '"fleet":9', '"fleet":8')
    done = tw("plan", port)
    assert done.status in (6, 7) and "Traceback" not in done.err
