"""Tests the commands that make a port's folder and ask about it: tw init, check, windows, why, try."""
from __future__ import annotations

import json
import os
import shutil
import signal
import subprocess
import sys
import time
from xml.etree import ElementTree

import click
import pytest
from browser import EXAMPLES, PROGRAM
from ports import Tw, tw  # noqa: F401
from tidewise_board.command import init, windows
from tidewise_board.command.common import ship_names
from tidewise_board.core.program import Program, Text
from tidewise_board.core.reading import timetable_of
from tidewise_board.core.store import Store
from tidewise_board.library.folder import read

PORTS = os.path.join(os.path.dirname(init.__file__), "..", "library", "ports")


@pytest.fixture
def port(tmp_path: object) -> str:
    """The port to begin with."""
    return shutil.copytree(os.path.join(PORTS, "start"), os.path.join(str(tmp_path), "east"))


@pytest.fixture
def calls(tmp_path: object) -> str:
    return shutil.copytree(os.path.join(PORTS, "calls"), os.path.join(str(tmp_path), "calls"))


def edit(folder: str, name: str, old: str, new: str) -> None:
    path = os.path.join(folder, name)
    with open(path, encoding="utf-8") as file:
        text = file.read()
    assert old in text
    with open(path, "w", encoding="utf-8") as file:
        file.write(text.replace(old, new, 1))


class TestInit:
    @pytest.mark.parametrize("kind,size", [("start", "5 movements"), ("calls", "4 movements")])
    def test_made(self, tw: Tw, tmp_path: object, kind: str, size: str) -> None:
        folder = os.path.join(str(tmp_path), "made")
        done = tw("init", folder, "--from", kind)
        assert (done.status, done.err) == (0, "")
        assert f"{folder}/tides/Bar.txt" in done.out
        done = tw("check", folder)
        assert (done.status, done.err) == (0, "")
        assert f": {size} from 2027-03-14 " in done.out.splitlines()[-1]

    def test_never_written_over(self, tw: Tw, port: str) -> None:
        done = tw("init", port)
        assert (done.status, done.out, done.err) == (4, "", f"tw: {port} is there already, and isn't empty\n")

    def test_example(self) -> None:
        """What stands there of examples/ is the same there."""
        for name, other in (("port.json", "calls-port.json"), ("ships.csv", "calls.csv"), ("tides/Berth.txt", "waters-berth.txt"),
                            ("tides/Bar.txt", "waters-bar.txt")):
            with open(os.path.join(PORTS, "calls", name), "rb") as copy, open(os.path.join(EXAMPLES, other), "rb") as file:
                assert copy.read() == file.read()

    def test_remarks(self, port: str) -> None:
        """Each member of the port to begin with has a remark above it."""
        with open(os.path.join(port, "port.json"), encoding="utf-8") as file:
            members = list(json.load(file))
        said = {name.removeprefix("# ") for name in members if name.startswith("#")}
        assert {name for name in members if not name.startswith("#")} - said <= {"slot_minutes", "separation", "turnaround"}


class TestCheck:
    def test_faults(self, tw: Tw, port: str) -> None:
        edit(port, "ships.csv", "Curlew,panamax", "Curlew,barge")
        edit(port, "ships.csv", "14:00", "14h")
        edit(port, "tides/Bar.txt", "4.24", "x")
        done = tw("check", port)
        assert (done.status, done.err) == (4, "")
        assert done.out.splitlines() == [
            'ships.csv, row 7, column loads: "14h" is no number of hours and minutes, such as 18:00',
            "tides/Bar.txt, line 4: x is no number of metres"]
        done = tw("check", port, "--json")
        assert (done.status, json.loads(done.out)["told"][0]) == (4, {
            "file": "ships.csv", "row": 7, "column": "loads", "place": None, "hint": False,
            "said": '"14h" is no number of hours and minutes, such as 18:00'})

    def test_hints_of_the_program(self, tw: Tw, port: str) -> None:
        edit(port, "ships.csv", ",tpc t,", ",tpc,")
        edit(port, "port.json", '"depth": 1400', '"depth": 14')
        done = tw("check", port)
        assert done.status == 0
        assert done.out.splitlines() == [
            "hint: port.json, waypoints.1.depth: 14 cm of depth: are these metres?",
            *(f"hint: ships.csv, row {row}, column tpc: {tpc} tenths of a tonne for a centimetre are little for this draft: are these tonnes?"
              for row, tpc in ((6, 100), (7, 70), (8, 68))),
            "nothing wrong: 5 movements from 2027-03-14 00:00 to 2027-03-16 00:00, 2 waypoints, 6 tugs"]

    def test_short_tides(self, tw: Tw, port: str) -> None:
        path = os.path.join(port, "tides", "Bar.txt")
        with open(path, encoding="utf-8") as file:
            kept = [line for line in file if "2027-03-16" not in line]
        with open(path, "w", encoding="utf-8") as file:
            file.writelines(kept)
        done = tw("check", port)
        assert done.status == 0
        assert "hint: tides: the tides end before 15 Mar 23:00, and Albatross out needs them up to 16 Mar 01:00" in done.out

    def test_log(self, tw: Tw, port: str) -> None:
        with open(os.path.join(port, "log.csv"), "w", encoding="utf-8") as file:
            file.write("written,who,said\n2027-03-14 04:00,Ann,Curlew in not before 2027-03-14 08:00\n2027-03-14 04:10,Ann,Skua stays\n")
        done = tw("check", port)
        assert (done.status, done.out) == (4, "log.csv, row 3, column said: Skua is no ship of this day\n")

    def test_completion(self, port: str) -> None:
        context = click.Context(windows.command)
        context.params = {"folder": port}
        assert ship_names(context, windows.command.params[0], "cu") == ["Curlew in", "Curlew out"]
        context.params = {"folder": "/"}
        assert ship_names(context, windows.command.params[0], "cu") == []

    def test_refused(self, tw: Tw, tmp_path: object, port: str) -> None:
        done = tw("check", str(tmp_path))
        assert (done.status, done.out) == (4, "")
        assert "there is no port.json" in done.err
        done = tw("check", port, "--day", "tomorrow")
        assert (done.status, done.err) == (4, "tw: tomorrow is no date of the form 2027-03-14, with a year of four digits\n")

    def test_where_nothing_can_be_kept(self, tw: Tw, port: str) -> None:
        with open(os.path.join(port, ".tw"), "w", encoding="utf-8"):
            pass
        done = tw("check", port)
        assert (done.status, done.err) == (0, "")
        assert done.out.startswith("clean: 5 movements")

    def test_without_a_program(self, tw: Tw, port: str) -> None:
        done = tw("check", port, "--program", "/no/program")
        assert done.status == 0
        assert "hint: port.json: /no/program can't be run, so the program wasn't asked" in done.out


class TestWindows:
    """Over the example with calls and closed hours, whose windows examples/README.md tells."""

    def test_all(self, tw: Tw, calls: str) -> None:
        done = tw("windows", "--in", calls)
        assert (done.status, done.err) == (0, "")
        lines = done.out.splitlines()
        assert [line for line in lines if not line.startswith(" ")] == [
            "Grace in, incoming, 10.50 m", "Grace out, outgoing, 11.00 to 17.20 m", "Hector, outgoing, 10.00 to 16.50 m",
            "Iris, outgoing, 10.80 to 16.90 m"]
        hector = lines.index("Hector, outgoing, 10.00 to 16.50 m")
        assert lines[hector + 1:hector + 3] == ["  03:40 to 06:25  closed", "  06:40 to 07:40  15.75 to 16.37 m"]

    def test_draft(self, tw: Tw, calls: str) -> None:
        done = tw("windows", "Hec", "--in", calls, "--draft", "16,0", "--json")
        assert done.status == 0
        (hector,) = json.loads(done.out)
        assert hector["load"]["draft_m"] == 16.0
        # No slot outside these times allows it, and each within does.
        for time in ("07:10", "07:40", "19:40"):
            drafts = json.loads(tw("windows", "Hector", "--in", calls, "--at", time, "--json").out)[0]["stretches"]
            assert drafts[0]["greatest_m"] >= 16.0
        for time in ("06:55", "13:10", "19:25"):
            drafts = json.loads(tw("windows", "Hector", "--in", calls, "--at", time, "--json").out)[0]["stretches"]
            assert drafts[0]["greatest_m"] < 16.0
        assert hector["load"]["times"] == [{"from": "2027-03-14 07:10", "to": "2027-03-14 07:40"},
                                           {"from": "2027-03-14 19:40", "to": "2027-03-14 19:40"}]

    def test_a_call(self, tw: Tw, calls: str) -> None:
        done = tw("windows", "grace", "--in", calls, "--json")
        assert [one["ship"] for one in json.loads(done.out)] == ["Grace in", "Grace out"]
        assert [one["ship"] for one in json.loads(tw("windows", "Grace out", "--in", calls, "--json").out)] == ["Grace out"]

    def test_at(self, tw: Tw, calls: str) -> None:
        done = tw("windows", "Hector", "--in", calls, "--at", "8:00")
        assert done.out.splitlines() == ["Hector, outgoing, 10.00 to 16.50 m", "  07:55  closed"]
        done = tw("windows", "Iris", "--in", calls, "--at", "20:00")
        assert done.out.splitlines()[1] == "  19:55  her own window is 03:40 to 17:55"

    @pytest.mark.parametrize("words,cause", [
        (["Skua"], "Skua is no ship of this day"),
        (["Hector", "--draft", "17.50"], "Hector sails with 10.00 to 16.50 m, never with 17.50 m"),
        (["Hector", "--draft", "deep"], "deep is no draft in metres, such as 17.80"),
        (["Hector", "--at", "16 Mar 04:00"], "16 Mar 04:00 isn't from 2027-03-14 03:40 to 2027-03-15 03:40"),
        (["Hector", "--at", "soon"], "soon is no time, such as 14:05, 15 Mar 02:00, Mon 02:00 or 2027-03-15 02:00")])
    def test_refused(self, tw: Tw, calls: str, words: list[str], cause: str) -> None:
        done = tw("windows", "--in", calls, *words)
        assert (done.status, done.out, done.err) == (4, "", f"tw: {cause}\n")


class TestWhy:
    def test_something_fits(self, tw: Tw, port: str) -> None:
        done = tw("why", "--in", port)
        assert (done.status, done.out) == (0, "Something fits: `tw plan` finds the best of it.\n")

    def test_nothing_fits(self, tw: Tw, port: str) -> None:
        # Bittern loads until the 15th, and Curlew, at the same berth after her, loads for 19 hours with the way in.
        edit(port, "ships.csv", "Curlew,panamax,2027-03-14 06:30,West", "Curlew,panamax,2027-03-14 06:30,East")
        edit(port, "ships.csv", "10:00,East,14:00", "10:00,East,34:00")
        done = tw("why", "--in", port)
        assert done.status == 1
        lines = done.out.splitlines()
        assert lines[0] == "These can't be met together:"
        assert [line[5:] for line in lines if line[:3].strip().isdigit()] == [
            "Bittern out clears the berth 1:00 before Curlew in comes", "Bittern out sails 35:00 after Bittern in, or later",
            "Curlew out sails 19:00 after Curlew in, or later"]
        kept = json.loads(tw("why", "--in", port, "--json").out)["kept"]
        assert set(kept[0]["without"]) == {"Bittern in", "Bittern out", "Curlew in", "Curlew out"}

    def test_a_ship_that_never_sails(self, tw: Tw, port: str) -> None:
        edit(port, "ships.csv", "100,11.00,17.20", "100,17.00,17.20")
        done = tw("why", "--in", port)
        assert done.status == 1
        assert "Albatross out's own window and water: she can't sail at all: too little water: needs 17.00 m, at most 16.68 m at Bar" in done.out

    def test_time(self, tw: Tw, calls: str) -> None:
        done = tw("why", "Hector", "08:30", "--in", calls)
        assert (done.status, done.out) == (0, "Hector can't sail at 2027-03-14 08:25: closed\n")
        done = tw("why", "Hector", "07:40", "--in", calls)
        assert done.out.splitlines() == ["Hector may sail at 2027-03-14 07:40 with 16.37 m and 44,590.0 t",
                                         "There is no plan of the day yet with which that could be compared."]

    def test_against_a_plan(self, tw: Tw, calls: str) -> None:
        folder, store = read(calls), Store(os.path.join(calls, ".tw"))
        day, tides = store.put(folder.instance.encode()), store.put(folder.tides.encode())
        answer, cert = Program(PROGRAM, store).make("prove", "port", Text(day, "day.json"), Text(tides, "tides.csv"), "1000", "proof")
        assert answer.status == 0 and cert
        slots = timetable_of(store.get(cert))
        assert slots
        number = store.insert("INSERT INTO day(name) VALUES (?)", folder.day)
        run = store.insert("INSERT INTO run(day, kind, label, instance, tides, budget, program, state, cert) "
                           "VALUES (?, 'plan', 'plan', ?, ?, 1000, '', 'done', ?)", number, day, tides, cert)
        store.insert("INSERT INTO plan(day, number, run) VALUES (?, 1, ?)", number, run)
        hector, iris = slots[2], slots[3]
        done = tw("why", "Hector", folder.clock.short(hector), "--in", calls)
        assert done.out.splitlines()[1] == "In plan 1 nothing is in her way."
        # In the slot of Iris, who goes the same way.
        done = tw("why", "Hector", folder.clock.short(iris), "--in", calls)
        assert done.out.splitlines()[1:] == ["In plan 1 these would break:", "  Hector and Iris apart: 0:30 if Hector is first, 1:00 if Iris is"]
        edit(calls, "ships.csv", "Iris", "Ibis")
        done = tw("why", "Hector", folder.clock.short(iris), "--in", calls, "--json")
        assert (json.loads(done.out)["plan"], done.err) == (None, "The plan has other ships: `tw plan` makes one of those that are there now.\n")

    def test_on_a_day_under_way(self, tw: Tw, calls: str) -> None:
        assert tw("plan", calls).status == 0
        for sentence in ("Iris sailed at 07:40", "close Bar 14:00 to 16:00"):
            assert tw("log", "--in", calls, "--now", "07:45", sentence).status == 0
        assert tw("replan", calls, "--now", "07:45").status == 0 and tw("accept", calls).status == 0
        assert tw("why", "Iris", "10:40", "--in", calls).out == "Iris can't sail at 2027-03-14 10:40: she has sailed at 07:40\n"
        assert tw("why", "Hector", "07:10", "--in", calls).out == "Hector can't sail at 2027-03-14 07:10: she can't sail before 07:55\n"
        # At the bar an hour later, when it is closed since.
        assert tw("why", "Hector", "13:25", "--in", calls).out == "Hector can't sail at 2027-03-14 13:25: closed\n"
        edit(calls, "port.json", '"depth":1400', '"depth":1410')
        done = tw("why", "Hector", "13:25", "--in", calls)
        assert done.err == "The files were changed since plan 2; this is said of the plan's.\n"

    @pytest.mark.parametrize("words,cause", [
        (["Skua", "08:00"], "Skua is no ship of this day"), (["Hector"], "a time is missing: tw why SHIP TIME"),
        (["Hector", "12"], "12 is no time, such as 14:05, 15 Mar 02:00, Mon 02:00 or 2027-03-15 02:00")])
    def test_refused(self, tw: Tw, calls: str, words: list[str], cause: str) -> None:
        done = tw("why", "--in", calls, *words)
        assert (done.status, done.out, done.err) == (4, "", f"tw: {cause}\n")


class TestTry:
    def test_differences(self, tw: Tw, port: str) -> None:
        done = tw("try", "--in", port, "fleet=5", "depth.Bar=+10", "close=08:00-10:00", "without.Curlew out", "deep.Bittern out=17")
        assert (done.status, done.err) == (0, "")
        title, head, *rows = done.out.splitlines()
        assert title == "2027-03-14 as it is. Best, says an unproved build: 147,180.0 t"
        assert head.split() == ["change", "result", "tonnes", "at", "most", "difference", "seconds"]
        cells = [[cell.strip() for cell in row.split("  ") if cell.strip()][:-1] for row in rows]
        assert cells[:3] == [["as it is", "best", "147,180.0"], ["5 tugs", "best", "147,180.0", "0.0"],
                             ["Bar 10 cm deeper", "best", "148,180.0", "+1,000.0"]]
        assert [row[0] for row in cells[3:]] == ["port closed 08:00-10:00", "without Curlew out", "Bittern out to 17 m"]

    def test_json(self, tw: Tw, port: str) -> None:
        done = tw("try", "--in", port, "depth.bar=1410", "fleet=1", "--json")
        answer = json.loads(done.out)
        same, deeper, one = answer["changes"]
        assert (same["least_t"], same["most_t"], deeper["cargo_t"] - same["cargo_t"], deeper["least_t"], deeper["most_t"]) == (0, 0, 1000, 1000, 1000)
        assert (one["change"], one["result"], one["cargo_t"], one["least_t"]) == ("1 tug", "infeasible", None, None)

    def test_picture(self, tw: Tw, port: str) -> None:
        edit(port, "ships.csv", "Bittern,", "</svg>,")
        done = tw("try", "--in", port, "depth.Bar=+10", "later.</svg> out=9:00", "--svg")
        assert done.status == 0
        drawn = ElementTree.fromstring(done.out)
        said = [text.text for text in drawn.iter("{http://www.w3.org/2000/svg}text")]
        assert "Bar 10 cm deeper" in said and "+1,000.0" in said and "</svg> out 9:00 later" in said

    def test_without_a_best(self, tw: Tw, port: str) -> None:
        done = tw("try", "--in", port, "--program", "/no/program")
        assert (done.status, done.out) == (6, "")

    @pytest.mark.parametrize("word,cause", [
        ("tides=3", "tides=3 is no change: fleet, depth, close, later, deep, tugs, separation or without, as depth.Bar=+10"),
        ("fleet", "fleet is no change: fleet, depth, close, later, deep, tugs, separation or without, as depth.Bar=+10"),
        ("fleet=x", "x is no number of tugs, as 7, +1 or 4..8"), ("depth.Quay=3", "Quay is no waypoint of this day"),
        ("close.Quay=08:00-09:00", "Quay is no waypoint or ship of this day"),
        ("close=08:00", "08:00 isn't two times, such as 14:00-16:00 or 15 Mar 14:00 to 15 Mar 16:00"),
        ("close=15 Mar 08:00 to 15 Mar 07:00", "15 Mar 07:00 isn't after 15 Mar 08:00"),
        ("later.Skua=1:00", "Skua is no ship of this day"), ("later=1", "1 is no number of hours and minutes, such as 1:30"),
        ("depth.Bar=-1500", "depth.Bar=-1500: that is below 0"), ("separation=1", "separation=1 is no time less, as -0:15")])
    def test_refused(self, tw: Tw, port: str, word: str, cause: str) -> None:
        done = tw("try", "--in", port, word)
        assert (done.status, done.out, done.err) == (4, "", f"tw: {cause}\n")

    @pytest.mark.parametrize("number", [signal.SIGTERM, signal.SIGHUP])
    def test_ended(self, tmp_path: object, port: str, number: int) -> None:
        """However it is ended, its runs end with it."""
        pids = os.path.join(str(tmp_path), "pids")
        fake = os.path.join(str(tmp_path), "fake")
        with open(fake, "w", encoding="utf-8") as file:
            file.write(f'#!/bin/sh\n[ "$1" = prove ] || exit 0\necho $$ >> {pids}\nexec sleep 600\n')
        os.chmod(fake, 0o755)
        board = os.path.join(os.path.dirname(os.path.abspath(__file__)), "..")
        with subprocess.Popen([sys.executable, "-m", "tidewise_board", "try", "--in", port, "--program", fake, "--at-once", "2"],
                              env={**os.environ, "PYTHONPATH": board}, stderr=subprocess.DEVNULL) as run:
            while not os.path.exists(pids) or len(lines(pids)) < 2:
                assert run.poll() is None
                time.sleep(0.05)
            run.send_signal(number)
            assert run.wait(60) == 128 + number
        for pid in lines(pids):
            with pytest.raises(ProcessLookupError):
                os.kill(int(pid), 0)


def lines(path: str) -> list[str]:
    with open(path, encoding="utf-8") as file:
        return file.read().split()
