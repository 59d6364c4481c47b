"""The command `tw` over a port's folder: plan, log, replan, accept, plans, trust."""
from __future__ import annotations

import contextlib
import hashlib
import os
import pty
import re
import signal
import subprocess
import threading
import zipfile

import pytest
from browser import PROGRAM, ROOT, nameable
from ports import Tw, busy, changed, port, tw, words_of  # noqa: F401 - fixtures
from tidewise_board.core import trust


def test_a_folder_becomes_a_plan(tw: Tw, port: str) -> None:
    done = tw("plan", port)
    assert done.status == 0 and done.err == "" and done.out.startswith("Best, says an unproved build: 150,962.0 t\n")
    assert "07:10  Hector" in done.out
    day = os.path.join(port, "day", "2027-03-14")
    assert {"day.json", "tides.csv", "certificate", "table.csv", "picture.svg", "SHA256SUMS"} <= set(os.listdir(day))
    subprocess.run(["sha256sum", "--quiet", "-c", "SHA256SUMS"], cwd=day, check=True)
    said = subprocess.run([PROGRAM, "verify", "port", "day.json", "tides.csv", "certificate"], cwd=day, capture_output=True, text=True, check=True)
    assert said.stdout == "optimal 150962.0\n"


def test_the_answer_as_json(tw: Tw, port: str) -> None:
    answer = tw("plan", port, "--json").json()
    assert answer["verdict"] == "optimal 150962.0" and answer["cargo_t"] == answer["bound_t"] == 150962.0 and answer["plan"] == 1
    assert answer["seal"] == "" and answer["fault"] is None and answer["moved"] is None
    with open(PROGRAM, "rb") as file:
        assert answer["program"]["sha256"] == hashlib.sha256(file.read()).hexdigest()
    first = answer["sailings"][0]
    assert (first["ship"], first["time"], first["draft_m"], first["cargo_t"], first["limit"]) == ("Hector", "07:10", 16.07, 42490.0, "Bar")


def test_the_same_files_are_planned_once(tw: Tw, port: str) -> None:
    first = tw("plan", port, "--json").json()
    again = tw("plan", port, "--json").json()
    assert (again["plan"], again["certificate"]) == (1, first["certificate"])
    changed(port, "port.json", '"fleet":9', '"fleet":8')
    assert tw("plan", port, "--json").json()["plan"] == 2
    assert len(tw("plans", port, "--json").json()["plans"]) == 2


def test_a_morning_on_which_a_ship_is_late(tw: Tw, port: str) -> None:
    tw("plan", port)
    late = tw("log", "--in", port, "Hector not before 07:40")
    assert late.status == 0 and "`tw replan` repairs it" in late.out and "Hector and Iris apart" in late.out
    assert tw("log", "--in", port, "sailed", "Iris", "07:42").status == 0
    assert tw("log", "--in", port, "close", "Bar", "14:00", "to", "16:00").status == 0
    answer = tw("replan", port, "--now", "07:45", "--json").json()
    assert answer["verdict"].startswith("optimal ") and answer["before"]["cargo_t"] == 150962.0
    times = {row["ship"]: row["time"] for row in answer["sailings"]}
    assert times["Iris"] == "07:40" and times["Hector"] >= "07:40" and answer["now"] == "2027-03-14 07:55"
    moved = {row["ship"]: (row["before"], row["after"]) for row in answer["moves"]}
    assert moved["Hector"] == ("07:10", times["Hector"]) and "Iris" not in moved
    assert answer["difference"] == f"costs {150962.0 - answer['cargo_t']:,.1f} t"
    assert tw("accept", port).status == 0
    plans = tw("plans", port, "--json").json()["plans"]
    assert [one["plan"] for one in plans] == [1, 2] and plans[1]["events"] == ["Hector not before 07:40", "Iris sailed at 07:40",
                                                                               "Bar closed from 13:55 to 16:10"]
    day = os.path.join(port, "day", "2027-03-14")
    said = subprocess.run([PROGRAM, "verify", "repair", "port", "day.json", "tides.csv", "plan.txt", "certificate"], cwd=day, capture_output=True,
                          text=True, check=True)
    assert said.stdout.strip() == plans[1]["verdict"]


def test_a_survey_changes_what_a_ship_can_load(tw: Tw, port: str) -> None:
    tw("plan", port)
    assert "Grace out loads to 16.00 m at most" in tw("log", "--in", port, "survey grace out 16.00").out
    answer = tw("replan", port, "--now", "03:40", "--json").json()
    row = next(row for row in answer["sailings"] if row["ship"] == "Grace out")
    assert row["draft_m"] <= 16.00 and answer["cargo_t"] == 150962.0 - 5000.0


@pytest.mark.parametrize("sentence, why", [
    ("Hextor not before 09:00", "Hextor is no ship of this day"), ("Grace sailed at 09:00", "Grace may be Grace in, Grace out"),
    ("Hector not before 9", "no sentence of the log"), ("Hector not before 29:00", "29:00 doesn't exist"),
    ("close Sea 14:00 to 15:00", "Sea is no waypoint"), ("tugs 99 out from 08:00", "the port has 9 tugs"),
    ("close Bar 2027-03-14 14:00 to 2027-03-14 13:00", "the end has to be after the beginning"),
    ("Hector sailed at 2027-04-01 10:00", "the day goes from 2027-03-14 03:40"),
    ("Hector not before 14.3. 23:00", "14.3. is no date of the form 2027-03-14"), ("sailed Hector 14.3. 07:10", "14.3. is no date of the form 2027-03-14"),
    ("close Bar 14/03/2027 14:00 to 15:00", '"dates": "dmy" or "mdy" in port.json?'), ("", "no plan"), ("x" * 400, "more than 300")])
def test_what_cant_be_is_refused_with_its_reason(tw: Tw, port: str, sentence: str, why: str) -> None:
    if sentence:
        tw("plan", port)
    done = tw("log", "--in", port, sentence or "Hector stays")
    assert done.status == 4 and done.out == "" and why in done.err and not os.path.exists(os.path.join(port, "log.csv"))


def test_a_date_in_the_ports_order(tw: Tw, port: str) -> None:
    """A sentence takes a date as the port's tables do, and a ship's name may end with such figures."""
    changed(port, "port.json", '"slots"', '"dates":"dmy","slots"')
    changed(port, "ships.csv", "Hector,", "Hector 1.2,")
    for name, days in (("ships.csv", ["14"]), ("tides/Bar.txt", ["13", "14", "15"]), ("tides/Berth.txt", ["13", "14", "15"])):
        for day in days:
            changed(port, name, f"2027-03-{day}", f"{day}.03.2027")
    tw("plan", port)
    assert tw("log", "--in", port, "sailed Hector 1.2 07:10").out.startswith("noted: Hector 1.2 sailed at 2027-03-14 07:10\n")
    assert tw("log", "--in", port, "Iris not before 14.3.2027 08:00").out.startswith("noted: Iris not before 2027-03-14 08:00\n")
    assert tw("log", "--in", port, "close Bar 14/3/2027 20:00 to 2027-03-14 21:00").out.startswith(
        "noted: Bar closed from 2027-03-14 20:00 to 2027-03-14 21:00\n")
    done = tw("log", "--in", port, "Iris not before 14.3. 09:00")
    assert done.status == 4 and "14.3. is no date of the form day, month, year, with a year of four digits" in done.err


def test_a_ship_sails_once(tw: Tw, port: str) -> None:
    tw("plan", port)
    assert tw("log", "--in", port, "Iris sailed at 07:40").status == 0
    again = tw("log", "--in", port, "Iris not before 09:00")
    assert again.status == 4 and "this ship has sailed already" in again.err


def test_a_line_of_the_log_can_be_taken_back(tw: Tw, port: str) -> None:
    tw("plan", port)
    tw("log", "--in", port, "Hector not before 09:00")
    tw("log", "--in", port, "Iris sailed at 07:40")
    tw("replan", port, "--now", "07:45")
    changed(port, "log.csv", "Hector not before", "Hector  stays\nx,x,Hector not before")
    stale = tw("accept", port)
    assert stale.status == 4 and "`tw replan` again" in stale.err
    changed(port, "log.csv", "Hector  stays\nx,x,Hector not before", "Nobody not before")
    done = tw("replan", port, "--now", "07:45")
    assert done.status == 4 and done.err == "tw: log.csv, row 2, column said: Nobody is no ship of this day\n"


def test_a_day_under_way_isnt_planned_anew_by_mistake(tw: Tw, port: str) -> None:
    tw("plan", port)
    tw("log", "--in", port, "Hector not before 09:00")
    done = tw("plan", port)
    assert done.status == 4 and "`tw replan`" in done.err
    assert tw("plan", port, "--anew").status == 0


def test_a_program_that_was_named(tw: Tw, port: str) -> None:
    assert "unproved build" in tw("trust").out
    named = nameable()
    plan = ("plan", port, "--program", named)
    assert tw("trust", named).status == 0
    assert tw(*plan).out.startswith("Proved best: 150,962.0 t\n")
    assert tw(*plan, "--json").json()["seal"] == "proved"
    listed = tw("trust", "--json").json()
    assert [one["path"] for one in listed["programs"]] == [os.path.realpath(named)]
    # A list in which others may write names nothing.
    os.chmod(listed["list"], 0o666)
    assert "unproved build" in tw(*plan).out
    os.chmod(listed["list"], 0o644)
    assert tw("trust", "--forget", named).status == 0 and "unproved build" in tw(*plan).out


def build(path: str, name: str) -> str:
    """A script that answers `--version` as a build of this name, and leaves all else to the program."""
    with open(path, "w", encoding="utf-8") as file:
        file.write(f'#!/bin/sh\n[ "$*" != --version ] || {{ echo "tidewise 1.0.0{name}"; exit; }}\nexec {PROGRAM} "$@"\n')
    os.chmod(path, 0o700)
    return path


def says_proved(text: str) -> bool:
    return re.search(r"\bproved", text, re.IGNORECASE) is not None


@pytest.mark.parametrize("name", [" unproved c47e5be0", " unproved uncommitted"])
def test_an_unproved_build_cant_be_named(tw: Tw, port: str, tmp_path: object, name: str) -> None:
    quick = build(os.path.join(str(tmp_path), "tidewise"), name)
    done = tw("trust", quick)
    assert done.status == 4 and done.out == "" and f"`tidewise 1.0.0{name}`" in done.err and "tools/release" in done.err
    assert tw("trust", "--json").json()["programs"] == []
    # Nor where its SHA-256 stands in the list, as an older `tw` wrote it.
    with open(quick, "rb") as file:
        trust.name(hashlib.sha256(file.read()).hexdigest(), quick)
    done = tw("plan", port, "--program", quick)
    assert done.out.startswith("Best, says an unproved build: 150,962.0 t\n") and not says_proved(done.out)
    answer = tw("plan", port, "--program", quick, "--json").json()
    assert answer["seal"] == "" and answer["program"]["said"] == f"tidewise 1.0.0{name}, an unproved build"
    with zipfile.ZipFile(tw("publish", port, "--program", quick, "--json").json()["file"]) as bundle:
        assert b"AN UNPROVED BUILD" in bundle.read("README.txt")


def test_a_named_program_that_an_unproved_one_replaces(tw: Tw, port: str, tmp_path: object) -> None:
    path = build(os.path.join(str(tmp_path), "tidewise"), " proved c47e5be0")
    plan = ("plan", port, "--program", path)
    assert tw("trust", path).status == 0 and tw(*plan).out.startswith("Proved best: ")
    build(path, " unproved c47e5be0")
    assert tw(*plan).out.startswith("Best, says an unproved build: ") and tw(*plan, "--json").json()["seal"] == ""
    assert not says_proved(tw("plans", port, "--program", path).out)


def test_faults_of_files_have_the_status_of_bad_input(tw: Tw, port: str) -> None:
    changed(port, "ships.csv", "1720", "17m")
    done = tw("plan", port)
    assert done.status == 4 and done.out == "" and "ships.csv, row 3, column deep" in done.err
    assert tw("plan", os.path.join(port, "nowhere")).status == 4
    assert tw("plan", port, "--limit", "-1").status == 3 and tw("nothing").status == 3
    assert tw("plan", port, "--program", "/nowhere/tidewise").status == 4


def test_without_a_package() -> None:
    done = subprocess.run(words_of("--version"), cwd=ROOT, capture_output=True, text=True, check=True)
    assert done.stdout.startswith("tw, version ")
    for shell in ("bash", "zsh", "fish"):
        done = subprocess.run(words_of("completion", shell), cwd=ROOT, capture_output=True, text=True, check=True)
        assert "_TW_COMPLETE" in done.stdout
    done = subprocess.run(words_of(), cwd=ROOT, capture_output=True, text=True, check=True, env={**os.environ, "_TW_COMPLETE": "bash_complete",
                                                                                               "COMP_WORDS": "tw pl", "COMP_CWORD": "1"})
    assert done.stdout.split() == ["plain,plan", "plain,plans"]


def drained(terminal: int) -> None:
    with contextlib.suppress(OSError):
        while os.read(terminal, 1000):
            pass


def test_how_far_it_is_on_a_terminal_alone(tmp_path: object) -> None:
    folder = busy(os.path.join(str(tmp_path), "hard"), 24, 6)
    ours, theirs = pty.openpty()
    running = subprocess.Popen(words_of("plan", folder, "--program", PROGRAM, "--limit", "600"), cwd=ROOT, stdout=subprocess.PIPE, stderr=theirs, text=True)
    os.close(theirs)
    shown = ""
    while ", gap " not in shown:
        shown += os.read(ours, 1000).decode()
    running.send_signal(signal.SIGINT)
    # The terminal goes on reading: else the line would stand still.
    threading.Thread(target=drained, args=(ours,), daemon=True).start()
    out, _ = running.communicate(timeout=120)
    line = shown.split("\r")[-1]
    assert re.match(r" *[0-9]+ s  best [0-9,]+\.[0-9] t, at most [0-9,]+\.[0-9] t, gap [0-9.]+%", line), line
    assert running.returncode == 2 and "\r" not in out and "gap" not in out
