#!/usr/bin/env python3
"""Tests port.py, and compares instance.schema.json with the table of places in docs/FORMATS.md.

    python3 test_port.py [PROGRAM]

With the path of a built program the made instance is planned too, and the limits of the schema are those of the program.
"""
import csv
import glob
import io
import json
import os
import re
import subprocess
import sys
import tempfile
import unittest

BOARD = os.path.join(os.path.dirname(os.path.abspath(__file__)), "..")
HERE = os.path.abspath(os.path.join(BOARD, "..", "examples"))
sys.path.insert(0, BOARD)
PROGRAM = os.environ.get("TIDEWISE")
from tidewise_board.library import port  # noqa: E402

# A range of numbers in the table of places, with its unit and what it depends on.
LIMITS = (r"([0-9]+) to ([0-9]+)(?: (cm|slots|tugs|tenths of a tonne for a centimetre of draft))?"
          r"(?:, (?:at least|above|from) .*)?")


def text_of(name):
    with open(os.path.join(HERE, name), encoding="utf-8") as file:
        return file.read()


SHIPS = text_of("ships.csv")
BASE = text_of("port.json")
DAY = json.loads(text_of("day.json"))
# The same day in version 3, with an item in each list. The lists share it, so a test that changes one copies all by JSON.
CLOSED = [{"from": 0, "to": 0}]
DAY_3 = {**DAY, "version": 3, "start": "2027-03-27 00:00", "heights": "start", "closed": CLOSED,
         "waypoints": [{**point, "closed": CLOSED} for point in DAY["waypoints"]],
         "ships": [{**ship, "may_stay": False, "closed": CLOSED} for ship in DAY["ships"]],
         "after": [{"first": 0, "second": 1, "gap": 0}]}
LATER = {"may_stay", "start", "heights", "closed", "after"}


def made(ships=SHIPS, base=BASE, order=None):
    return port.instance_of(("ships.csv", ships), ("port.json", base), order)


def edited(column, text, row=2):
    """The table of ships with another cell."""
    table = [line.split(",") for line in SHIPS.splitlines()]
    table[row - 1][table[0].index(column)] = text
    return "\n".join(map(",".join, table)) + "\n"


def with_column(name, cells):
    lines = SHIPS.splitlines()
    return "\n".join(f"{line},{cell}" for line, cell in zip(lines, [name, *cells])) + "\n"


class Made(unittest.TestCase):
    def test_day(self):
        self.assertEqual(made(), DAY)
        done = subprocess.run([sys.executable, "port.py", "ships.csv", "port.json"], cwd=HERE, capture_output=True, text=True,
                              check=True)
        self.assertEqual((json.loads(done.stdout), done.stderr), (DAY, ""))

    def test_tables(self):
        rows = list(csv.reader(io.StringIO(SHIPS)))
        self.assertEqual(made("\r\n".join(";".join(row) for row in rows) + "\r\n;;;\r\n\r\n"), DAY)
        self.assertEqual(made("\n".join(",".join(f'" {cell} "' for cell in row[::-1]) for row in rows)), DAY)
        with tempfile.TemporaryDirectory() as room:
            name = os.path.join(room, "marked.csv")
            with open(name, "w", encoding="utf-8") as file:
                file.write("\ufeff" + SHIPS)
            self.assertEqual(port.read_text(name), (name, SHIPS))
        other = re.sub(r"2027-03-14 ([0-9:]+)", r"14.03.2027 \1:00", SHIPS)
        self.assertEqual(made(other, order="dmy"), DAY)

    def test_times(self):
        # Slot 0 begins at 03:40, and slot 8 at 05:40.
        for column, row, text, slot in [
                ("earliest", 2, "2027-03-14 05:40", 8), ("earliest", 2, "2027-03-14 05:41", 9),
                ("earliest", 2, "2027-03-14T05:40:01", 9), ("earliest", 2, "2027-03-13 23:00", 0),
                ("latest", 2, "2027-03-14 05:40", 8), ("latest", 2, "2027-03-14 05:54:59", 8),
                ("latest", 2, "2027-03-14 05:55", 9), ("latest", 2, "2027-03-20 00:00", 95), ("latest", 2, "", 95)]:
            self.assertEqual(made(edited(column, text, row))["ships"][row - 2][column], slot)

    def test_free_forms(self):
        # Letters of columns and directions, a column of one's own, and a duration with seconds, as spreadsheets have them.
        table = with_column("# agent", ["Meyer"] * 10)
        self.assertEqual(made(table.replace("name,direction", "Name,DIRECTION").replace("outgoing", "Outgoing")), DAY)
        table = with_column("after,gap", [",", "Gannet,18:00:00"] + [","] * 8).replace("after,gap,", "after,gap")
        self.assertEqual(made(table)["after"], [{"first": 6, "second": 1, "gap": 76}])

    def test_hours_and_minutes(self):
        # 15 minutes are a slot. What is exact is as in slots, and the rest is rounded to the safe side.
        exact = BASE.replace("[[3,4],[2,2]]", '[["0:45","1:00"],["0:30","0:30:00"]]').replace('"outgoing":2', '"outgoing":"0:30"')
        exact = exact.replace('"offset":4', '"offset":"1:00"').replace('"enter":1,"leave":3', '"enter":"0:15","leave":"0:45"')
        exact = exact.replace('"clear":4', '"clear":"1:00"')
        self.assertEqual(made(edited("job", "1:00"), exact), DAY)
        other = BASE.replace("[[3,4],[2,2]]", '[["0:31","0:46"],["0:16","0:30"]]').replace('"incoming":1', '"incoming":"0:01"')
        other = other.replace('"enter":1,"leave":3', '"enter":"0:29","leave":"0:31"').replace('"clear":4', '"clear":"0:50"')
        self.assertEqual(made(edited("job", "0:46"), other), DAY)
        # At the bar 65 minutes later: in the slots 4 and 5 after its own.
        late = made(base=BASE.replace('{"waypoint":"Bar","offset":4', '{"waypoint":"Bar","offset":"1:05"'))
        self.assertEqual(late["ships"][0]["route"], [*DAY["ships"][0]["route"], {**DAY["ships"][0]["route"][1], "offset": 5}])
        with self.assertRaises(port.Refused) as raised:
            made(base=BASE.replace('"clear":4', '"clear":"1h"'))
        self.assertEqual(str(raised.exception), 'port.json, berths.0.clear: "1h" is no integer')

    def test_may_stay(self):
        instance = made(with_column("may_stay", ["yes", "No"] + ["no"] * 8))
        self.assertEqual(instance["version"], 2)
        self.assertEqual([ship["may_stay"] for ship in instance["ships"]], [True] + [False] * 9)

    def test_incoming(self):
        ship = made(edited("deep", "", 8).replace("07:30,,900", "07:30,,"))["ships"][6]
        self.assertEqual([ship[column] for column in ("tpc", "light", "deep")], [0, 1050, 1050])

    def test_berths(self):
        self.assertEqual(made(edited("berth", ""))["berths"], DAY["berths"][1:])
        without = "\n".join(re.sub("(East|North|West|berth),", "", line) for line in SHIPS.splitlines())
        self.assertEqual(made(re.sub(r",,([0-9],[0-9])(\n|$)", r",\1\2", without))["berths"], [])

    def test_program(self):
        if not PROGRAM:
            self.skipTest("no built program was named")
        with tempfile.TemporaryDirectory() as room:
            with open(os.path.join(room, "made.json"), "w", encoding="utf-8") as file:
                file.write(port.text_of(made()))
            done = subprocess.run([PROGRAM, "solve", "port", "made.json", os.path.join(HERE, "day-tides.csv"), "1000", "p"],
                                  cwd=room, capture_output=True, text=True, check=True)
        self.assertEqual(done.stdout.splitlines()[0], "optimal 308296.0")


def third(**members):
    """The day in the third version, with these members."""
    return {**DAY, "version": 3, "start": "2027-03-14 03:40", "heights": "least", "closed": [], "after": [],
            "waypoints": [{**item, "closed": []} for item in DAY["waypoints"]],
            "ships": [{**ship, "may_stay": False, "closed": []} for ship in DAY["ships"]], **members}


def with_closed(times, place="port"):
    """The base file with closed times of the port, or of its second waypoint."""
    base = json.loads(BASE)
    (base if place == "port" else base["waypoints"][1])["closed"] = [{"from": first, "to": last} for first, last in times]
    return json.dumps(base)


def slots(*pairs):
    return [{"from": first, "to": last} for first, last in pairs]


class Third(unittest.TestCase):
    def test_calls(self):
        self.assertEqual(made(text_of("calls.csv"), text_of("calls-port.json")), json.loads(text_of("calls.json")))

    def test_heights(self):
        for heights in ("start", "least"):
            self.assertEqual(made(base=BASE.replace("{", f'{{"heights":"{heights}",', 1)), third(heights=heights))
        early = BASE.replace("{", '{"heights":"least",', 1).replace("2027-03-14 03:40", "1999-12-31 0:05")
        self.assertEqual(made(SHIPS.replace("2027-03-14", "1999-12-31"), early)["start"], "1999-12-31 00:05")

    def test_closed(self):
        # Slot 0 begins at 03:40, and slot 8 at 05:40; a slot counts as closed if any moment of it is.
        day = "2027-03-14 "
        for first, last, found in [
                (day + "05:40", day + "05:55", slots((8, 8))), (day + "05:41", day + "05:56", slots((8, 9))),
                (day + "05:54:59", day + "05:55:01", slots((8, 9))), ("2027-03-13 00:00", day + "03:40", []),
                ("2027-03-13 00:00", day + "03:40:01", slots((0, 0))), ("2027-03-15 03:30", "2027-04-01 00:00", slots((95, 95))),
                ("20:00", "05:30", slots((0, 7), (65, 95))), ("03:40", "3:55", slots((0, 0)))]:
            self.assertEqual(made(base=with_closed([(first, last)])), third(closed=found), (first, last))
            self.assertEqual(made(with_column("closed", [f"{first} to {last}"] + [""] * 9))["ships"][0]["closed"], found)
        # Waypoints are passed after the last slot too, up to slot 1534: every day slot 0, 96, and so on.
        bar = made(base=with_closed([("03:40", "03:55")], "Bar"))["waypoints"][1]["closed"]
        self.assertEqual(bar, slots(*((slot, slot) for slot in range(0, 1535, 96))))
        cell = "14/03/2027 05:40 to 14/03/2027 05:55|20:00 to 05:30"
        other = with_column("closed", [""] * 9 + [cell]).replace("2027-03-14", "14/03/2027")
        self.assertEqual(made(other, order="dmy")["ships"][9]["closed"], slots((8, 8), (0, 7), (65, 95)))

    def test_after(self):
        # Gannet comes in, and is at her berth 4 slots after she sails.
        for gap, count in [("18:00", 76), ("18:01", 77), ("0:00", 4), ("127:00", 512)]:
            table = with_column("after,gap", [",", f"Gannet,{gap}"] + [","] * 8).replace("after,gap,", "after,gap")
            self.assertEqual(made(table), third(after=[{"first": 6, "second": 1, "gap": count}]))

    def test_may_stay(self):
        table = with_column("may_stay,closed", ["yes,", "No,"] + ["no,"] * 8)
        self.assertEqual([ship["may_stay"] for ship in made(table)["ships"]], [True] + [False] * 9)


class Refused(unittest.TestCase):
    def refused(self, cause, **texts):
        with self.assertRaises(port.Refused) as raised:
            made(**texts)
        self.assertEqual(str(raised.exception), cause)

    def test_cells(self):
        for column, row, text, cause in [
                ("name", 2, "", '"" is no name of 1 to 40 plain characters'),
                ("name", 3, "Albatross", "there is a ship of this name already"),
                ("direction", 2, "out", """"out" is none of ['outgoing', 'incoming']"""),
                ("class", 2, "barge", '"barge" is no class of the port'),
                ("route", 2, "", '"" is no route of the port'),
                ("berth", 2, "South", '"South" is no berth of the port'),
                ("berth", 4, "East", "a second outgoing ship of this berth"),
                ("earliest", 4, "05:30", "05:30 is no date and time, such as 2027-03-14 03:40"),
                ("earliest", 4, "2027-02-29 05:30", "the date 2027-02-29 doesn't exist"),
                ("earliest", 4, "2027-03-14 25:30", "the time 25:30 doesn't exist"),
                ("earliest", 4, "2027-03-15 03:26", "no slot is left: it is after the last slot"),
                ("latest", 4, "2027-03-14 03:39", "it is before slot 0"),
                ("latest", 4, "2027-03-14 05:30", "7 is below earliest, which is 8"),
                ("tpc", 2, "100.0", '"100.0" is no whole number of tenths of a tonne'),
                ("tpc", 2, "", '"" is no whole number of tenths of a tonne'),
                ("deep", 2, "17.2", '"17.2" is no whole number of centimetres'),
                ("job", 2, "1h", '"1h" is no whole number of slots'),
                ("name", 2, "Чайка Nö", '"Чайка Nö" is no name of 1 to 40 plain characters: it has "Чайкö"'),
                ("earliest", 4, "14.03.2027 05:30",
                 "14.03.2027 is no date of the form 2027-03-14, with a year of four digits (--dates dmy or mdy?)"),
                ("tpc", 2, "3001", "3001 isn't from 0 to 3000"),
                ("deep", 2, "1099", "1099 is below light, which is 1100"),
                ("job", 2, "0", "0 isn't from 1 to 512")]:
            self.refused(f"ships.csv, row {row}, column {column}: {cause}", ships=edited(column, text, row))
        self.refused("ships.csv, row 4, column may_stay: it is neither yes nor no",
                     ships=with_column("may_stay", ["yes", "no", "", *["no"] * 7]))

    def test_tables(self):
        header = SHIPS.splitlines()[0]
        twice = "this column isn't known, or stands there twice; one that says nothing begins with #"
        for old, new, cause in [
                ("berth", "Quay", f"row 1, column Quay: {twice}"), ("berth", "JOB", f"row 1, column job: {twice}"),
                ("class,", "", "row 1, column class: this column is missing"),
                ("East,3,4", "East,3,4,5", "row 2, column 13: there are more cells than columns")]:
            self.refused(f"ships.csv, {cause}", ships=SHIPS.replace(old, new, 1))
        self.refused("ships.csv, row 1, column name: this column is missing", ships="")
        self.refused("ships.csv, row 2, column name: there are 0 ships, and not 1 to 40", ships=header)
        # One fault is told of each row.
        faults = SHIPS.replace("Albatross,outgoing", "Albatross,out").replace("Curlew,outgoing,cape", "Curlew,outgoing,barge")
        self.refused("""ships.csv, row 2, column direction: "out" is none of ['outgoing', 'incoming']\n"""
                     'ships.csv, row 4, column class: "barge" is no class of the port', ships=faults)
        many = header + "".join(f"\nA{number},incoming,cape,,,,900,,in,,1,4" for number in range(41))
        self.refused("ships.csv, row 2, column name: there are 41 ships, and not 1 to 40", ships=many)

    def test_base(self):
        for old, new, cause in [
                ('"fleet":9,', "", "fleet: this member is missing"),
                ('"fleet":9', '"fleet":1001', "fleet: 1001 isn't from 0 to 1000"),
                ('"fleet":9', '"fleet":9.0', "fleet: 9.0 is no integer"),
                ('"fleet":9', '"fleet":true', "fleet: true is no integer"),
                ('"fleet":9', '"fleet":9,"tugs":9', "tugs: there is no such member"),
                ('"fleet":9', '"fleet":9,"fleet":8', "fleet: this member stands there twice"),
                ('"depth":1400', '"depth":1400,"depth":1300', "depth: this member stands there twice"),
                ("03:40", "3h40", 'start: "2027-03-14 3h40" is no time such as 2027-03-14 03:40'),
                ('["cape","panamax"]', '["cape"]', "separation: there are 2 items, and 1 classes"),
                ("[2,2]", "[2]", "separation.1: there are 1 items, and 2 classes"),
                ('"panamax"', '"cape"', 'classes.1: "cape" stands there twice'),
                ('"waypoint":"Bar"', '"waypoint":"Sill"', 'routes.0.route.1.waypoint: "Sill" is no waypoint'),
                ('"section":"Narrows"', '"section":"Neck"', 'routes.0.channel.0.section: "Neck" is no section'),
                ('"enter":1', '"enter":3', "routes.0.channel.0.leave: it isn't above enter"),
                ('"offset":4', '"offset":1024', "routes.0.route.1.offset: 1024 isn't from 0 to 1023"),
                ('"clear":4', '"clear":0', "berths.0.clear: 0 isn't from 1 to 512")]:
            self.refused(f"port.json, {cause}", base=BASE.replace(old, new, 1))
        self.refused("port.json, line 1: Expecting value", base="")
        self.refused("port.json, root: [] is no object", base="[]")
        for text in ["[" * 100000, "9" * 5000]:
            self.refused("port.json, root: a number is too long, or lists stand too deep in each other", base=text)

    def test_third(self):
        when = "2027-03-14 05:00"
        for cell, cause in [
                ("05:00", '"05:00" has no to between two times'), ("|", '"" has no to between two times'),
                (f"{when} to 05:00", "05:00 is no date and time, such as 2027-03-14 03:40"),
                ("05:00 to 05:00", "from 05:00 to 05:00 there is no moment"), ("5:00 to 25:00", "the time 25:00 doesn't exist"),
                (f"{when} to {when}", f"{when} isn't after {when}")]:
            self.refused(f"ships.csv, row 3, column closed: {cause}", ships=with_column("closed", ["", cell] + [""] * 8))
        for cells, column, cause in [
                ("Stork,1:00", "after", '"Stork" is no other ship of the table'),
                ("Bittern,1:00", "after", '"Bittern" is no other ship of the table'),
                (",1:00", "gap", "no ship is named in the column after"),
                ("Gannet,", "gap", '"" is no number of hours and minutes, such as 18:00'),
                ("Gannet,18", "gap", '"18" is no number of hours and minutes, such as 18:00'),
                ("Gannet,127:01", "gap", "these are 513 slots after Gannet, and not 0 to 512")]:
            self.refused(f"ships.csv, row 3, column {column}: {cause}", ships=with_column("after,gap", [",", cells] + [","] * 8))
        for times, place, cause in [
                ([("5:00", "6:00"), ("6h00", "7:00")], "port", "closed.1: 6h00 is no date and time, such as 2027-03-14 03:40"),
                ([(when, when)], "Bar", f"waypoints.1.closed.0: {when} isn't after {when}"),
                ([(when, "2027-03-14 05:01")] * 65, "port", "closed: there are 65 items, and not 0 to 64"),
                ([("5:00", "6:00")] * 3, "Bar", "waypoints.1.closed: there are 48 items, and not 0 to 32")]:
            self.refused(f"port.json, {cause}", base=with_closed(times, place))
        self.refused("port.json, closed.0.to: this member is missing", base=BASE.replace("{", '{"closed":[{"from":"5:00"}],', 1))
        self.refused("""port.json, heights: "end" is none of ['start', 'least']""",
                     base=BASE.replace("{", '{"heights":"end",', 1))
        early = BASE.replace("{", '{"heights":"least",', 1).replace("2027-03-14", "1969-12-31")
        self.refused("port.json, start: the year is before 1970", ships=SHIPS.replace("2027-03-14", "1969-12-31"), base=early)

    def test_words(self):
        for words, cause in [([], "usage: port.py [--dates dmy|mdy|ymd] SHIPS.csv PORT.json"),
                             (["none.csv", "port.json"], "none.csv: No such file or directory"),
                             (["ships.csv", "ships.csv"], "ships.csv, line 1: Expecting value")]:
            done = subprocess.run([sys.executable, "port.py", *words], cwd=HERE, capture_output=True, text=True, check=False)
            self.assertEqual((done.returncode, done.stdout, done.stderr), (1, "", cause + "\n"))


def places():
    """The places of the table: place, kind and meaning, with those of items that have members, which are objects."""
    with open(os.path.join(HERE, "..", "docs", "FORMATS.md"), encoding="utf-8") as file:
        rows = [(place, kind, re.sub("^`[23]`", "", meaning.strip()).strip()) for place, kind, meaning in
                re.findall(r"^\| `([a-z_.*]+)` \| (object|list|text|number|truth value) \|(.*)\|$", file.read(), re.MULTILINE)]
    return rows + [(item, "object", "") for item in sorted({place.rpartition(".")[0] for place, _, _ in rows if ".*." in place})
                   if item.endswith("*") and item not in {place for place, _, _ in rows}]


def resolved(schema):
    return port.SCHEMA["definitions"][schema["$ref"].rpartition("/")[2]] if "$ref" in schema else schema


def schema_at(place):
    """The part of the schema for a place."""
    schema = port.SCHEMA
    for word in [] if place == "root" else place.split("."):
        schema = resolved(schema["items"] if word == "*" else schema["properties"][word])
    return schema


def range_of(meaning):
    """The least and the greatest number that a meaning in the table allows, whatever the rest of the instance."""
    found = re.fullmatch(LIMITS, meaning)
    if found:
        return int(found[1]), int(found[2])
    lists = {"a slot": "slots", "one of the classes": "separation", "the place of a waypoint": "waypoints",
             "the place of a section": "sections", "the place of an outgoing ship": "ships",
             "the place of an incoming ship": "ships", "the place of a ship": "ships"}
    place = lists[meaning.partition(",")[0]]
    schema = schema_at(place)
    return 0, schema.get("maxItems", schema.get("maximum")) - 1


class Schema(unittest.TestCase):
    def test_kinds(self):
        kinds = {"object": "object", "list": "array", "text": "string", "number": "integer", "truth value": "boolean"}
        self.assertEqual(len(places()), 64)
        for place, kind, _ in places():
            self.assertEqual(schema_at(place)["type"], kinds[kind], place)

    def test_members(self):
        for place, kind, _ in places():
            if kind == "object":
                front = "" if place == "root" else place + "."
                members = {other[len(front):] for other, _, _ in places()
                           if other.startswith(front) and other != "root" and "." not in other[len(front):]}
                schema = schema_at(place)
                self.assertEqual(set(schema["properties"]), members, place)
                self.assertEqual(set(schema["required"]), members - LATER, place)
                self.assertIs(schema["additionalProperties"], False)

    def test_limits(self):
        for place, kind, meaning in places():
            schema = schema_at(place)
            if place == "version":
                self.assertEqual((schema["enum"], meaning), ([1, 2, 3], "1, or 2 where ships may stay, or 3 with all places"))
            elif kind == "number":
                self.assertEqual((schema["minimum"], schema["maximum"]), range_of(meaning), place)
            elif place == "separation.*":
                outer = schema_at("separation")
                self.assertEqual((schema["minItems"], schema["maxItems"]), (outer["minItems"], outer["maxItems"]))
            elif kind == "list":
                found = re.match("([0-9]+) to ([0-9]+) items", meaning)
                self.assertEqual((schema["minItems"], schema["maxItems"]), (int(found[1]), int(found[2])), place)
            elif place == "start":
                self.assertTrue(re.fullmatch(schema["pattern"], DAY_3["start"]))
            elif place == "heights" or place.endswith("direction"):
                self.assertEqual(schema["enum"], re.findall("`([a-z]+)`", meaning))
            elif kind == "text":
                self.assertTrue(meaning.startswith("a name "))
                self.assertIs(schema, port.SCHEMA["definitions"]["name"])

    def test_names(self):
        pattern = port.SCHEMA["definitions"]["name"]["pattern"]
        for name, good in [("a", True), ("~", True), ("a b", True), ("a" * 40, True), ("a" * 41, False), ("", False),
                           (" a", False), ("a ", False), ("\xe9", False), ("a\n", False), ("a\tb", False)]:
            self.assertEqual(bool(re.fullmatch(pattern, name)), good, name)

    def test_examples(self):
        count = 0
        for name in glob.glob(os.path.join(HERE, "*.json")):
            with open(name, encoding="utf-8") as file:
                instance = json.load(file)
            if "version" in instance:
                port.check(instance, port.SCHEMA)
                count += 1
        self.assertGreater(count, 8)
        for change, place in [({"slots": 2.0}, "slots"), ({"version": 2}, "ships.0.may_stay"), ({"version": 3}, "start"),
                              ({"version": 4}, "version"), ({"start": DAY_3["start"]}, "start"), ({"after": []}, "after"),
                              ({"ships": [{**DAY["ships"][0], "may_stay": True}]}, "ships.0.may_stay")]:
            with self.assertRaises(port.Fault) as raised:
                port.check({**DAY, **change}, port.SCHEMA)
            self.assertEqual(".".join(map(str, raised.exception.place)), place)
        port.check(DAY_3, port.SCHEMA)
        for place in ["start", "heights", "closed", "after", "waypoints.0.closed", "ships.0.closed", "ships.0.may_stay"]:
            *front, last = [int(word) if word.isdigit() else word for word in place.split(".")]
            instance = json.loads(json.dumps(DAY_3))
            item = instance
            for word in front:
                item = item[word]
            del item[last]
            with self.assertRaises(port.Fault) as raised:
                port.check(instance, port.SCHEMA)
            self.assertEqual(".".join(map(str, raised.exception.place)), place)

    def test_program(self):
        if not PROGRAM:
            self.skipTest("no built program was named")
        for place, kind, meaning in places():
            if kind == "number" and place != "version":
                schema = schema_at(place)
                numbers = [(schema["minimum"] - 1, True), (schema["minimum"], False), (schema["maximum"] + 1, True)]
                # The greatest number of a place is allowed in this day too, unless it depends on other members.
                numbers += [(schema["maximum"], False)] if re.fullmatch(LIMITS, meaning) else []
                for number, refused in numbers:
                    self.assertEqual(self.out_of_range(place.replace("*", "0"), number), refused, (place, number))

    def out_of_range(self, place, number):
        """Whether the program finds this number out of its range there."""
        instance = json.loads(json.dumps(DAY_3))
        *front, last = [int(word) if word.isdigit() else word for word in place.split(".")]
        item = instance
        for word in front:
            item = item[word]
        item[last] = number
        with tempfile.TemporaryDirectory() as room:
            name = os.path.join(room, "instance.json")
            with open(name, "w", encoding="utf-8") as file:
                json.dump(instance, file)
            done = subprocess.run([PROGRAM, "explain", "port", name, os.path.join(HERE, "day-tides.csv")],
                                  capture_output=True, text=True, check=False)
        return done.stdout == f"bad instance {place} range\n"


if __name__ == "__main__":
    if len(sys.argv) > 1 and not sys.argv[1].startswith("-"):
        PROGRAM = os.path.abspath(sys.argv.pop(1))
    unittest.main()
