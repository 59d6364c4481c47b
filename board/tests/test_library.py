"""Tests what the library reads beyond the scripts' own tests: lists of heights, line-ups with a row for each call, folders, clocks."""
from __future__ import annotations

import json
import os
import random
import subprocess
import sys
import time

import pytest

BOARD = os.path.abspath(os.path.join(os.path.dirname(os.path.abspath(__file__)), ".."))
EXAMPLES = os.path.join(BOARD, "..", "examples")
sys.path.insert(0, BOARD)
from tidewise_board.core import days  # noqa: E402
from tidewise_board.core.program import Program  # noqa: E402
from tidewise_board.library import CHECKER, port, tides  # noqa: E402
from tidewise_board.library.clock import Clock  # noqa: E402
from tidewise_board.library.dates import minute_of  # noqa: E402
from tidewise_board.library.faults import Refused, Wrong, printable  # noqa: E402
from tidewise_board.library.folder import Call, find, look, read  # noqa: E402

START = "2027-03-14 03:40"
HEAD = "name,class,arrives,berth,loads,sails,tpc,light,deep,tugs,job"
BASE = {"start": START, "slots": 96, "slot_minutes": 15, "heights": "start", "waypoints": [
            {"name": "Berth", "depth": 1800}, {"name": "Bar", "depth": 1400}],
        "sections": [], "classes": ["cape"], "separation": [[3]], "turnaround": {"outgoing": 2, "incoming": 1}, "fleet": 9,
        "berths": [{"name": "East", "clear": 4}, {"name": "West", "clear": 2}],
        "routes": [{"name": "out", "channel": [], "route": [{"waypoint": "Berth", "offset": 0, "clearance": 60}]},
                   {"name": "in", "channel": [], "route": [{"waypoint": "Berth", "offset": 4, "clearance": 60}]}]}
WATERS = "2027-03-13 21:28 4.22\n2027-03-14 03:40 0.58\n2027-03-14 09:52 4.31\n2027-03-14 16:05 0.74\n2027-03-15 22:16 4.12\n"


def text_of(*names: str) -> str:
    with open(os.path.join(EXAMPLES, *names), encoding="utf-8") as file:
        return file.read()


def made(ships: str, **members: object) -> port.Made:
    return port.made_of(("ships.csv", ships), ("port.json", json.dumps({**BASE, **members})))


def refused(ships: str, **members: object) -> list[str]:
    with pytest.raises(Wrong) as raised:
        made(ships, **members)
    return str(raised.value).split("\n")


class TestHeights:
    """Lists of heights at equal steps."""

    @staticmethod
    def heights(tmp_path: object, text: str, *words: str, source: str = "list", minutes: str = "15") -> list[int]:
        with open(os.path.join(str(tmp_path), "list"), "w", encoding="utf-8") as file:
            file.write(text)
        rows = tides.lines_of([*words, START, minutes, f"Bar={tmp_path}/{source}"])
        return [int(row.split(",")[1]) for row in rows[1:]]

    TEN = "".join(f"2027-03-14 03:{minute} 1.{minute}\n" for minute in (30, 40, 50)) + "2027-03-14 04:00 1.20\n2027-03-14 04:10 1.40\n"

    def test_between_two(self, tmp_path: object) -> None:
        # 1.40 at 03:40; at 03:55 halfway from 1.50 to 1.20; 1.40 at 04:10.
        assert self.heights(tmp_path, self.TEN) == [140, 135, 140]

    def test_least(self, tmp_path: object) -> None:
        # From 03:55 to 04:10 the water falls to 1.20 and rises again.
        assert self.heights(tmp_path, self.TEN, "--least") == [135, 120]

    def test_a_day_a_line(self, tmp_path: object) -> None:
        words = [line.split(" ", 1)[1] for line in self.TEN.splitlines()]
        assert self.heights(tmp_path, f"2027-03-14 {' '.join(words)}\n") == [140, 135, 140]

    def test_differences(self, tmp_path: object) -> None:
        # At 03:40 it is as high as at the other port at 03:30, twice that less 10 cm.
        assert self.heights(tmp_path, self.TEN, source="list+10m*2-10cm")[0] == 250
        with pytest.raises(Refused, match="heights at equal steps have one difference"):
            self.heights(tmp_path, self.TEN, source="list+10m/+20m")

    @pytest.mark.parametrize("old,new,cause", [
        ("2027-03-14 03:50 1.50\n", "", "line 3: this height comes 20 min after the one before, and the others every 10 min: "
         "is one missing?"),
        ("1.50", "21.50", "line 3: the height must be from -20 to 20 metres")])
    def test_refused(self, tmp_path: object, old: str, new: str, cause: str) -> None:
        with pytest.raises(Refused) as raised:
            self.heights(tmp_path, self.TEN.replace(old, new) + "2027-03-14 04:20 1.40\n2027-03-14 04:30 1.40\n")
        assert str(raised.value) == f"{tmp_path}/list, {cause}"

    def test_thirty_years(self, tmp_path: object) -> None:
        first = minute_of("2000-01-01", "00:00")
        lines = []
        for number in range(30 * 365 * 144 // 37):
            clock = Clock(first, 372, 1).at(number).split(" ")
            lines.append(f"{clock[0]} {clock[1]} {4 if number % 2 else 0}.{number % 50 + 10}\n")
        begun = time.process_time()
        table = tides.lines_of(["--least", "2010-05-05 03:40", "60", f"Bar={self.put(tmp_path, ''.join(lines))}"])
        assert len(table) == 2049
        assert time.process_time() - begun < 60

    @staticmethod
    def put(tmp_path: object, text: str) -> str:
        path = os.path.join(str(tmp_path), "years")
        with open(path, "w", encoding="utf-8") as file:
            file.write(text)
        return path


class TestCalls:
    """A row for each call."""

    def test_two_movements(self) -> None:
        found = made(f"{HEAD}\nGrace,cape,2027-03-14 07:30,East,9:00,2027-03-14 18:00,1000,1100,1720,3,1:00\n")
        incoming, outgoing = found.instance["ships"]
        assert [incoming[member] for member in ("name", "direction", "earliest", "latest", "tpc", "light", "deep")] == [
            "Grace in", "incoming", 16, 95, 0, 1100, 1100]
        assert [outgoing[member] for member in ("name", "direction", "earliest", "latest", "tpc", "light", "deep")] == [
            "Grace out", "outgoing", 58, 95, 1000, 1100, 1720]
        # She is at her berth 4 slots after she came, and loads for 36.
        assert found.instance["after"] == [{"first": 0, "second": 1, "gap": 40}]
        assert (found.instance["berths"], found.calls, found.hints) == ([], [(0, 1)], [])

    def test_turns(self) -> None:
        rows = ["Ada,cape,,East,4:00,", "Bob,cape,,West,4:00,", "Cox,cape,,East,4:00,", "Don,cape,,East,2:00,"]
        found = made("\n".join([HEAD, *(f"{row},1000,1100,1720,3,4" for row in rows)]))
        assert found.instance["berths"] == [{"outgoing": 1, "incoming": 4, "clear": 4}, {"outgoing": 5, "incoming": 6, "clear": 4}]
        assert len(found.instance["after"]) == 4

    def test_units(self) -> None:
        head = HEAD.replace("tpc,light,deep", "tpc t,Light (m),draft m,arrival draft cm")
        found = made(f"{head}\nGrace,cape,,East,9:00,,67.55,11.004,17.209,1050,3,4\n")
        incoming, outgoing = found.instance["ships"]
        assert (incoming["light"], outgoing["light"], outgoing["deep"], outgoing["tpc"]) == (1050, 1101, 1720, 675)
        assert [str(one) for one in found.hints] == [
            "ships.csv, row 2, column tpc t: 67.55 is rounded down to 675 tenths of a tonne",
            "ships.csv, row 2, column Light (m): 11.004 is rounded up to 1101 centimetres",
            "ships.csv, row 2, column draft m: 17.209 is rounded down to 1720 centimetres"]

    def test_units_of_movements(self) -> None:
        head, first, *_ = text_of("ships.csv").replace("tpc,light,deep", "tpc t,light m,deep m").splitlines()
        first = first.replace("1000,1100,1720", '"100,0",11,17.2')
        found = port.instance_of(("ships.csv", f"{head}\n{first}\n"), ("port.json", text_of("port.json")))
        assert found["ships"] == json.loads(text_of("day.json"))["ships"][:1]

    def test_separators(self) -> None:
        row = "Grace,cape,2027-03-14 07:30,East,9:00,2027-03-14 18:00,1000,1100,1720,3,1:00"
        same = made(f"{HEAD}\n{row}\n").instance
        for mark in (";", "\t"):
            table = f"{HEAD}\n{row}\n".replace(",", mark)
            assert made(table).instance == made(f"sep={mark}\n# a remark, with commas\n{table}").instance == same

    def test_own_columns_of_a_movement(self) -> None:
        head = HEAD.replace("tugs,job", "tugs in,tugs out,job in,job out,route in,route out,may stay")
        found = made(f"{head}\nGrace,cape,,East,9:00,,1000,1100,1720,1,2,3,4,,out,yes\n")
        incoming, outgoing = found.instance["ships"]
        assert [(ship["tugs"], ship["job"], ship["may_stay"]) for ship in (incoming, outgoing)] == [(1, 3, True), (2, 4, True)]

    def test_outside_the_plan(self) -> None:
        rows = ["Ada,cape,-,East,4:00,", "Bob,cape,,West,,-", "Cox,cape,2027-03-16 00:00,,,", "Don,cape,2027-03-14 20:00,,9:00,"]
        found = made("\n".join([HEAD, *(f"{row},1000,1100,1720,3,4" for row in rows)]))
        assert [ship["name"] for ship in found.instance["ships"]] == ["Ada out", "Bob in", "Don in"]
        assert [str(one) for one in found.hints] == [
            "ships.csv, row 4, column arrives: she arrives after the last slot: this call isn't planned",
            "ships.csv, row 5, column sails: she sails after the last slot: that isn't planned"]

    def test_hints(self) -> None:
        head = HEAD.replace("sails,", "sails by,")
        rows = ["Ada,cape,2027-03-14 08:00,East,4:00,", "Bob,cape,2027-03-14 06:00,East,4:00,", "Cox,cape,2027-03-14 06:00,West,4:00,2027-03-14 11:00",
                "Don,cape,2027-03-14 04:00,East,4:00,2027-03-14 20:00", "Eva,cape,2027-03-14 09:40,West,4:00,2027-03-14 14:40"]
        found = made("\n".join([head, *(f"{row},1000,1100,1720,3,4" for row in rows)]))
        turns = "she arrives before the ship above her that has East first: turns are in the order of the rows"
        # Eva is at her berth an hour after she comes, and loads until the slot that begins at 14:40.
        assert [str(one) for one in found.hints] == ["ships.csv, row 4, column sails by: she can't be loaded by then",
                                                     f"ships.csv, row 3, column arrives: {turns}", f"ships.csv, row 5, column arrives: {turns}"]

    def test_refused(self) -> None:
        def of(*rows: str) -> list[str]:
            return refused("\n".join([HEAD, *rows]))

        good = "1000,1100,1720,3,4"
        assert of(f"Ada,cape,soon,East,4:00,,{good}") == [
            "ships.csv, row 2, column arrives: soon is no date and time, such as 2027-03-14 03:40"]
        assert of(f"Ada,cape,,East,4h,,{good}") == [
            'ships.csv, row 2, column loads: "4h" is no number of hours and minutes, such as 18:00']
        assert of(f"Ada,cape,,South,4:00,,{good}") == ['ships.csv, row 2, column berth: "South" is no berth of the port']
        assert of(f"Ada,cape,,East,,-,{good}", f"Bob,cape,,East,,,{good}") == [
            "ships.csv, row 3, column berth: a second incoming ship of this berth"]
        assert refused("name,class,arrives,tpc,light,deep\n") == ["ships.csv, row 1, column tugs: this column is missing"]

    def test_alongside_after_arrival(self) -> None:
        # The berth is hers: one that comes and one that leaves it later are one call, and no turn.
        table = ("name,direction,class,earliest,latest,tpc,light,deep,route,berth,tugs,job,after,gap\n"
                 "Ada,incoming,cape,,,,900,,in,East,1,4,,\nBea,outgoing,cape,,,1000,1100,1720,out,East,1,4,Ada,4:00\n")
        assert made(table).instance["berths"] == []
        assert made(table.replace("Ada,4:00", ",")).instance["berths"] == [{"outgoing": 1, "incoming": 0, "clear": 4}]


class TestNames:
    def test_folded(self) -> None:
        found = made(f"{HEAD}\nMöwe Ærø,cape,,East,9:00,,1000,1100,1720,3,4\n")
        assert found.instance["ships"][0]["name"] == "Moewe Aeroe in"
        assert str(found.hints[0]) == "ships.csv, row 2, column name: Möwe Ærø in is written Moewe Aeroe in"
        assert refused(f"{HEAD}\nЧайка,cape,,East,9:00,,1000,1100,1720,3,4\n")[0].startswith(
            'ships.csv, row 2, column name: "Чайка in" is no name of 1 to 40 plain characters')

    def test_formulas(self) -> None:
        found = made(f"{HEAD}\n=cmd,cape,,East,9:00,,1000,1100,1720,3,4\n")
        assert str(found.hints[0]) == "ships.csv, row 2, column name: a spreadsheet takes =cmd in for a formula"

    def test_escapes(self) -> None:
        assert printable("a\x1b[2J\x9b\u202e\nö") == "a\\x1b[2J\\x9b\\u202e\nö"
        done = subprocess.run([sys.executable, os.path.join(EXAMPLES, "port.py"), "no\x1b[2J", "port.json"], capture_output=True,
                              text=True, check=False)
        assert (done.returncode, done.stderr) == (1, "no\\x1b[2J: No such file or directory\n")
        done = subprocess.run([sys.executable, os.path.join(EXAMPLES, "tides.py"), START, "15", "Bar=no\x1b[2J"], capture_output=True,
                              text=True, check=False)
        assert (done.returncode, done.stderr) == (1, "no\\x1b[2J: No such file or directory\n")

    def test_long_cells(self) -> None:
        for cell in ("T" * 100000, "1" * 100000 + " 03:40", "2027-03-14" + "T" * 100000):
            begun = time.process_time()
            said = refused(f"{HEAD}\nAda,cape,{cell},East,9:00,,1000,1100,1720,3,4\n")
            assert said == [f"ships.csv, row 2, column arrives: {cell[:40]} .. is no date and time, such as 2027-03-14 03:40"]
            assert time.process_time() - begun < 10

    def test_many_rows(self) -> None:
        row = ",cape,,,9:00,,1000,1100,1720,3,4\n"
        begun = time.process_time()
        assert refused(HEAD + "\n" + "".join(f"A{number}{row}" for number in range(20000))) == [
            "ships.csv, row 2, column name: there are 40000 ships, and not 1 to 40"]
        assert time.process_time() - begun < 60


class TestClock:
    CLOCK = Clock(minute_of("2027-03-14", "03:40"), 15, 288)

    def test_times(self) -> None:
        assert (self.CLOCK.at(0), self.CLOCK.at(96), self.CLOCK.short(1), self.CLOCK.short(96)) == (
            "2027-03-14 03:40", "2027-03-15 03:40", "03:55", "15 Mar 03:40")
        assert (self.CLOCK.span(5), self.CLOCK.slot_at(29), self.CLOCK.slot_from(29), self.CLOCK.slot_to(29)) == ("1:15", 1, 2, 1)

    @pytest.mark.parametrize("text,after,minute", [
        ("03:40", None, 0), ("3:39", None, 1439), ("0339", None, 1439), ("14:05", None, 625), ("14:05", 626, 2065),
        ("15 Mar 02:00", None, 1340), ("15. march 2027 02:00", None, 1340), ("Mon 02:00", None, 1340), ("monday 02:00", 1341, 11420),
        ("2027-03-15 02:00", None, 1340), ("2027-03-15T02:00", None, 1340), ("Sun 03:00", None, 10040), ("1 Jan 03:40", None, -72 * 1440)])
    def test_minute(self, text: str, after: int | None, minute: int) -> None:
        assert self.CLOCK.minute(text, after) == minute

    def test_order(self) -> None:
        clock = Clock(self.CLOCK.start, 15, 288, "dmy")
        assert [clock.minute(text) for text in ("15.03.2027 02:00", "2027-03-15 02:00", "15 Mar 02:00")] == [1340] * 3
        with pytest.raises(Refused):
            clock.minute("03/15/2027 02:00")

    @pytest.mark.parametrize("text", ["", "soon", "25:00", "30 Feb 02:00", "Xyz 02:00", "15 Mär 02:00", "T" * 100000, "1 2 3 02:00"])
    def test_refused(self, text: str) -> None:
        with pytest.raises(Refused):
            self.CLOCK.minute(text)


def folder(tmp_path: object, **files: str) -> str:
    """A port's folder with these files, beside those of the example; / stands as __ in a name, and . as _."""
    texts = {"port_json": text_of("calls-port.json"), "ships_csv": text_of("calls.csv"), "tides__Bar_txt": text_of("waters-bar.txt"),
             "tides__Berth_txt": text_of("waters-berth.txt"), **files}
    for name, text in texts.items():
        path = os.path.join(str(tmp_path), *name.replace("_", ".").replace("..", "/").split("/"))
        os.makedirs(os.path.dirname(path), exist_ok=True)
        if text:
            with open(path, "w", encoding="utf-8") as file:
                file.write(text)
    return str(tmp_path)


class TestFolder:
    def test_read(self, tmp_path: object) -> None:
        found = read(find(folder(tmp_path)))
        assert json.loads(found.instance) == json.loads(text_of("calls.json"))
        assert found.tides == "\n".join(tides.lines_of([START, "15", *(f"{name}={EXAMPLES}/waters-{name.lower()}.txt"
                                                                       for name in ("Berth", "Bar"))])) + "\n"
        assert (found.day, found.day_folder) == ("2027-03-14", os.path.join(os.path.realpath(str(tmp_path)), "day", "2027-03-14"))
        assert sorted(found.sources) == ["port.json", "ships.csv", "tides/Bar.txt", "tides/Berth.txt"]
        assert (found.calls, found.port.ships[1], found.port.fleet) == ([Call("Grace", 0, 1)], "Grace out", 9)
        assert (found.ship_of("iris"), found.ship_of("Hec"), found.ship_of("Grace in")) == (3, 2, 0)
        for name, cause in (("Grace", "Grace may be Grace in, Grace out: which ship?"), ("Skua", "Skua is no ship of this day"),
                            ("", " is no ship of this day")):
            with pytest.raises(Refused) as raised:
                found.ship_of(name)
            assert str(raised.value) in (cause, " may be Grace in, Grace out, Hector, Iris: which ship?")

    def test_find(self, tmp_path: object) -> None:
        inner = os.path.join(folder(tmp_path), "tides")
        assert find(inner) == os.path.realpath(str(tmp_path))
        with pytest.raises(Wrong, match="there is no port.json"):
            find("/")

    def test_other_day(self, tmp_path: object) -> None:
        # The ship that must sail by the 14th can't.
        assert [str(one) for one in look(folder(tmp_path), "2027-03-15").told][:1] == [
            "ships.csv, row 5, column latest: it is before slot 0"]

    def test_all_faults(self, tmp_path: object) -> None:
        root = folder(tmp_path, ships_csv=text_of("calls.csv").replace("panamax", "barge"), log_csv="when,what\n",
                      tides__Bar_txt=text_of("waters-bar.txt").replace("4.24", "x"))
        assert [str(one) for one in look(root).told] == [
            'ships.csv, row 4, column class: "barge" is no class of the port', "tides/Bar.txt, line 3: x is no number of metres",
            "log.csv, line 1: the head is no written,who,said"]
        with pytest.raises(Wrong):
            read(root)

    def test_tides(self, tmp_path: object) -> None:
        base = json.loads(text_of("calls-port.json"))
        base["waypoints"][0]["tide"] = "Bar.txt+4m+7cm"
        base["# remark"] = "says nothing"
        root = folder(tmp_path, port_json=json.dumps(base), tides__Berth_txt="")
        table = tides.lines_of([START, "15", f"Berth={EXAMPLES}/waters-bar.txt+4m+7cm", f"Bar={EXAMPLES}/waters-bar.txt"])
        assert read(root).tides == "\n".join(table) + "\n"
        base["waypoints"][0]["tide"] = "../port.json"
        folder(tmp_path, port_json=json.dumps(base))
        assert str(look(root).told[0]) == "port.json: the tide of Berth is no file of tides/: ../port.json"

    def test_table(self, tmp_path: object) -> None:
        root = folder(tmp_path, tides_csv=text_of("day-tides.csv"), tides__Bar_txt="")
        assert read(root).tides == text_of("day-tides.csv")

    def test_dates(self, tmp_path: object) -> None:
        base = {**json.loads(text_of("calls-port.json")), "dates": "dmy"}
        ships = text_of("calls.csv").replace("2027-03-14", "14.03.2027")
        root = folder(tmp_path, port_json=json.dumps(base), ships_csv=ships, tides_csv=text_of("day-tides.csv"))
        assert json.loads(read(root).instance) == json.loads(text_of("calls.json"))

    def test_other_names(self, tmp_path: object) -> None:
        root = folder(tmp_path, ships_csv="", lineup_csv=text_of("calls.csv"))
        assert read(root).port.ships[0] == "Grace in"
        folder(tmp_path, ships_csv="", other_csv=text_of("calls.csv"))
        assert str(look(root).told[0]) == "ships.csv: it isn't there; the line-up may be lineup.csv, other.csv: call one of them ships.csv"

    def test_no_files(self, tmp_path: object) -> None:
        root = folder(tmp_path, tides__Bar_txt="")
        os.mkfifo(os.path.join(root, "tides", "Bar.txt"))
        assert [str(one) for one in look(root).told] == ["tides/Bar.txt: this is no file"]
        os.remove(os.path.join(root, "tides", "Bar.txt"))
        assert [str(one) for one in look(root).told] == [
            'tides: no list is that of Bar: call it Bar.txt, or name one by "tide" in port.json']
        with open(os.path.join(root, "ships.csv"), "wb") as file:
            file.write(b"x" * ((4 << 20) + 1))
        assert str(look(root).told[0]) == "ships.csv: this file has more than 4 MB"
        with open(os.path.join(root, "ships.csv"), "wb") as file:
            file.write("name;Möwe".encode("latin-1"))
        assert str(look(root).told[0]) == "ships.csv: this isn't text in UTF-8; a spreadsheet saves that as CSV UTF-8"

    def test_log(self, tmp_path: object) -> None:
        root = folder(tmp_path, log_csv='written,who,said\n2027-03-14 04:00,Ann,"Iris not before 2027-03-14 06:00"\n\n')
        line = read(root).log[0]
        assert (line.row, line.who, line.said) == (2, "Ann", "Iris not before 2027-03-14 06:00")


def test_copies() -> None:
    """What stands in the package too is the same there."""
    for one, other in ((CHECKER, os.path.join(BOARD, "..", "audit", "check.py")),
                       (os.path.join(os.path.dirname(CHECKER), "instance.schema.json"), os.path.join(EXAMPLES, "instance.schema.json"))):
        with open(one, "rb") as copy, open(other, "rb") as file:
            assert copy.read() == file.read()


class TestPage:
    """A line-up with a row for each call, dropped on the page."""
    TIDES = [("Berth.txt", text_of("waters-berth.txt")), ("Bar.txt", text_of("waters-bar.txt"))]

    def made(self, program: Program, ships: str) -> tuple[days.Source, days.Made]:
        base = json.loads(text_of("calls-port.json"))
        base["berths"] = [{"name": "East", "clear": 4}]
        source = days.dropped([("port.json", json.dumps(base)), ("line-up.csv", ships), *self.TIDES])
        return source, days.make(source, program)

    def test_line_up(self, program: Program) -> None:
        source, made = self.made(program, f"# as it comes\n{HEAD}\nMöwe,cape,,East,4:00,,100,1100,1720,3,4\n")
        assert source.columns == HEAD.split(",") and made.good and made.instance
        assert [ship["name"] for ship in json.loads(made.instance)["ships"]] == ["Moewe in", "Moewe out"]
        # Both at the cell of the only row: of the second ship, which carries little, and of her name.
        assert [(one.row, one.column, one.hint) for one in made.told if one.where == "ships"] == [
            (0, "name", True), (0, "name", True), (0, "tpc", True)]

    def test_fault(self, program: Program) -> None:
        _, made = self.made(program, f"{HEAD}\nMöwe,cape,soon,East,4:00,,1000,1100,1720,3,4\n")
        assert [(one.row, one.column, one.said) for one in made.told if not one.hint] == [
            (0, "arrives", "soon is no date and time, such as 2027-03-14 03:40")]

    def test_fault_of_a_list(self, program: Program) -> None:
        ships = f"{HEAD}\nMöwe,cape,,East,4:00,,1000,1100,1720,3,4\n"
        base = text_of("calls-port.json").replace('"berths":[]', '"berths":[{"name":"East","clear":4}]')
        source = days.dropped([("port.json", base), ("ships.csv", ships), self.TIDES[0], ("Bar.txt", self.TIDES[1][1].replace("4.24", "x"))])
        assert [(one.where, one.said) for one in days.make(source, program).told if not one.hint] == [
            ("tide", "Bar, line 3: x is no number of metres")]


def test_hostile(tmp_path: object) -> None:
    """Whatever stands in the files of a folder, it is read or refused."""
    pieces = [b"-", b"", b"0", b"99999999999999999999", b",", b";", b'"', b"\n", b"T" * 50, b"#", b":", b"24:00", b"\xff", b"\0", b"null", b"{}",
              b"[]", b"-1", b"1e9", b"NaN", b"\r", b"999:59", b"\t", b"1969-12-31 00:00", b"9999-12-31 23:59", b"0001-01-01 00:00", b"true"]
    draw, root, told = random.Random(6), folder(tmp_path, log_csv="written,who,said\n2027-03-14 04:00,Ann,Iris stays\n"), set()
    for _ in range(300):
        path = os.path.join(root, draw.choice(["port.json", "ships.csv", "log.csv", "tides/Bar.txt"]))
        with open(path, "rb") as file:
            old = file.read()
        begin = draw.randrange(len(old))
        end = begin + draw.choice([0, 1, 5, 20])
        with open(path, "wb") as file:
            file.write(old[:begin] + draw.choice(pieces) + old[end:])
        looked = look(root, draw.choice([None, None, "2027-03-15", "9999-12-31", "0001-01-01"]))
        assert looked.folder is None or json.loads(looked.folder.instance)["ships"]
        told |= {one.file for one in looked.told}
        with open(path, "wb") as file:
            file.write(old)
    assert told >= {"port.json", "ships.csv", "log.csv", "tides/Bar.txt"}
