#!/usr/bin/env python3
"""Tests tides.py: worked heights, random lists, what it reads and what it refuses.

    python3 test_tides.py [PROGRAM]

With the path of a built program the tables are planned with too.
"""
import os
import random
import subprocess
import sys
import tempfile
import unittest
from fractions import Fraction
from math import floor

BOARD = os.path.join(os.path.dirname(os.path.abspath(__file__)), "..")
HERE = os.path.abspath(os.path.join(BOARD, "..", "examples"))
sys.path.insert(0, BOARD)
PROGRAM = os.environ.get("TIDEWISE")
from tidewise_board.library import tides  # noqa: E402

START = "2027-03-14 03:40"
DAY = ["Berth=waters-berth.txt", "Bar=waters-bar.txt"]
FROM_LOW = "2027-03-14 03:40 0.58\n2027-03-14 09:52 4.31\n2027-03-14 16:05 0.74\n"
# Waters of two days, with the steps that real ones have.
TWO_DAYS = """2027-03-14 03:40 0.58
2027-03-14 09:52 4.31
2027-03-14 16:05 0.74
2027-03-14 22:16 4.12
2027-03-15 04:31 0.66
2027-03-15 10:44 4.20
2027-03-15 16:58 0.81
2027-03-15 23:10 4.02
2027-03-16 05:25 0.75
"""


def run(words, room=HERE):
    return subprocess.run([sys.executable, os.path.join(HERE, "tides.py"), *words], cwd=room, capture_output=True,
                          text=True, check=False)


def table(words):
    """The header and the rows that are printed."""
    header, *rows = tides.lines_of(words)
    return header, [[int(value) for value in row.split(",")] for row in rows]


def corners(waters):
    """The times and heights between which the rule of twelfths has straight lines, all exact."""
    points = [(Fraction(waters[0][0]), Fraction(waters[0][1]))]
    for (begin, _), (end, high) in zip(waters, waters[1:]):
        low = points[-1][1]
        for parts in (1, 2, 3, 3, 2, 1):
            points.append((points[-1][0] + Fraction(end - begin, 6), points[-1][1] + (high - low) * Fraction(parts, 12)))
    return points


def true_height(points, time):
    for (begin, low), (end, high) in zip(points, points[1:]):
        if begin <= time <= end:
            return low + (high - low) * (time - begin) / (end - begin)
    raise AssertionError("not between two waters")


def listed(waters):
    """The list that would be printed of waters, as minutes from midnight of the first day and centimetres."""
    return "".join(f"2027-03-{1 + time // 1440:02} {time // 60 % 24:02}:{time % 60:02} {'-' * (height < 0)}"
                   f"{abs(height) // 100}.{abs(height) % 100:02}\n" for time, height in waters)


class Room(unittest.TestCase):
    """Each test has a folder of its own."""

    def setUp(self):
        room = tempfile.TemporaryDirectory()
        self.addCleanup(room.cleanup)
        self.room = room.name

    def put(self, name, text):
        with open(os.path.join(self.room, name), "wb") as file:
            file.write(text if isinstance(text, bytes) else text.encode())

    def heights(self, text, *words, start=START, minutes="15", source="waters.txt"):
        """The heights of one waypoint over this list."""
        self.put("waters.txt", text)
        return [height for _, height in table([*words, start, minutes, f"Berth={self.room}/{source}"])[1]]

    def refused(self, words, cause):
        done = run(words, self.room)
        self.assertEqual((done.returncode, done.stdout, done.stderr.strip()), (1, "", cause))

    def refused_list(self, text, cause, *options):
        self.put("waters.txt", text)
        self.refused([*options, START, "15", "Berth=waters.txt"], f"waters.txt, {cause}")


class Heights(Room):
    def test_worked(self):
        # From 0.58 the water rises by 373 cm in 6 h 12 min: by 31.08 cm in the first 62 minutes, then by 62.17, by 93.25
        # twice, by 62.17 and by 31.08. So at the sixths it is 89.08, 151.25, 244.5, 337.75 and 399.92 high.
        self.assertEqual(self.heights(FROM_LOW, minutes="62")[:7], [58, 89, 151, 244, 337, 399, 431])
        # After 15, 30, 45 and 60 minutes it is 65.52, 73.04, 80.56 and 88.08 high; after 75, 13 minutes into the second
        # sixth, 89.08 + 62.17 * 13 / 62 = 102.12.
        self.assertEqual(self.heights(FROM_LOW)[:6], [58, 65, 73, 80, 88, 102])
        # Slot 25 begins at 09:55. Of the 357 cm that it falls, 29.75 fall in the first 62.17 minutes, 1.44 in 3: 429.56.
        # Of a table by the nearest slots this slot had high water, 431.
        self.assertEqual(self.heights(FROM_LOW)[24:27], [424, 429, 422])

    def test_below_the_datum(self):
        # From -0.50 to 0.10 in 6 hours: -45 after the first hour, and half a centimetre less far after 54 minutes.
        low = "2027-03-14 03:40 -0.50\n2027-03-14 09:40 0.10\n"
        self.assertEqual(self.heights(low, minutes="60"), [-50, -45, -35, -20, -5, 5, 10])
        self.assertEqual(self.heights(low, minutes="54")[:2], [-50, -46])

    def test_least(self):
        # At 09:40 it is 424.98 high, at 09:55 429.56: the first of them is the least. From there on it falls.
        self.assertEqual(self.heights(FROM_LOW, "--least")[24:27], [424, 422, 415])
        # Low water, 0.74 at 16:05, lies within the slot from 15:55 to 16:10.
        self.assertEqual(self.heights(FROM_LOW + "2027-03-14 22:16 4.12\n", "--least")[49], 74)
        # The last slot ends at the last water.
        self.assertEqual(len(self.heights(FROM_LOW, "--least", minutes="745")), 1)
        self.assertEqual(len(self.heights(FROM_LOW, minutes="745")), 2)

    def test_random(self):
        draw = random.Random(12)
        for _ in range(8):
            time, waters = draw.randrange(300), []
            for number in range(draw.randrange(4, 9)):
                waters.append((time, draw.randrange(250, 700) if number % 2 else draw.randrange(-90, 200)))
                time += draw.randrange(355, 390)
            start, minutes = waters[0][0] + draw.randrange(600), draw.randrange(7, 61)
            points = corners(waters)
            words = {"start": f"2027-03-01 {start // 60:02}:{start % 60:02}", "minutes": str(minutes)}
            for slot, height in enumerate(self.heights(listed(waters), "--one-clock", **words)):
                self.assertEqual(height, floor(true_height(points, start + slot * minutes)))
            for slot, height in enumerate(self.heights(listed(waters), "--one-clock", "--least", **words)):
                within = range(start + slot * minutes, start + (slot + 1) * minutes + 1)
                self.assertEqual(height, floor(min(true_height(points, time) for time in within)))


class Reading(Room):
    def test_forms(self):
        plain = self.heights(TWO_DAYS)
        self.assertEqual(len(plain), 200)
        day = """# Heights in metres

2027-03-14 03:40 0.58 09:52 4.31 16:05 0.74 22:16 4.12
2027-03-15 0431 0,66 1044 4,20 1658 0,81 2310 4,02
2027-03-16;05:25;0,75;;
"""
        self.assertEqual(self.heights(day), plain)
        self.assertEqual(self.heights("\ufeff" + TWO_DAYS.replace("\n", "\r\n")), plain)
        for order, form in [("dmy", "{2}.{1}.{0}"), ("mdy", "{1}/{2}/{0}"), ("ymd", "{0}/{1}/{2}")]:
            lines = [line.split() for line in TWO_DAYS.splitlines()]
            other = "".join(" ".join([form.format(*line[0].split("-")), *line[1:]]) + "\n" for line in lines)
            self.assertEqual(self.heights(other, "--dates", order), plain)

    def test_feet(self):
        # 2 ft are 60.96 cm and 14 ft 426.72.
        feet = "2027-03-14 03:40 2.0\n2027-03-14 09:52 14.0\n"
        self.assertEqual(self.heights(feet, "--feet", minutes="372"), [60, 426])

    def test_differences(self):
        # 24 minutes later and 1.03 times as high, 5 cm less: 54.74 and 438.93; a minute before low water, 71.22, it is 71.71.
        early = "2027-03-14 03:16"
        self.assertEqual(self.heights(FROM_LOW, minutes="372", start="2027-03-14 04:04",
                                      source="waters.txt+24m*1.03-5cm"), [54, 438, 71])
        self.assertEqual(self.heights(FROM_LOW, minutes="372", start=early, source="waters.txt-24m"), [58, 431, 74])
        self.assertEqual(self.heights(FROM_LOW, minutes="372", source="waters.txt*0,5"), [29, 215, 37])
        self.assertEqual(self.heights(FROM_LOW, minutes="372", source="waters.txt+1ft"), [88, 461, 104])
        # Low waters at 04:11 and 16:36 with 48 and 64 cm, between them a high one at 10:16 with 411: 15 of the last 63 1/3
        # minutes before the second low one it is 64 + 347/12 * 15/63.33 = 70.8.
        self.assertEqual(self.heights(FROM_LOW, minutes="365", start="2027-03-14 04:11",
                                      source="waters.txt+24m/+31m-20cm/-10cm"), [48, 411, 70])
        self.assertEqual(self.heights(FROM_LOW, minutes="372", source="waters.txt-10cm/-0cm"), [58, 421, 74])

    def test_day_of_the_week(self):
        days = "Sun 2027-03-14 03:40 0.58 09:52 4.31\nMo., 2027-03-14 16:05 0.74\nSø;2027-03-14;22:16;4.12;\n"
        self.assertEqual(self.heights(days, minutes="372"), self.heights(
            "2027-03-14 03:40 0.58 09:52 4.31 16:05 0.74 22:16 4.12\n", minutes="372"))

    def test_last_slot(self):
        # In 2985 minutes, but a table has 2048 slots at most.
        self.assertEqual(len(self.heights(TWO_DAYS, minutes="1")), 2048)

    def test_waypoints_end_together(self):
        self.put("long.txt", TWO_DAYS)
        self.put("short.txt", FROM_LOW)
        header, rows = table([START, "15", f"Berth={self.room}/long.txt", f"Bar={self.room}/short.txt"])
        self.assertEqual((header, len(rows)), ("slot,Berth,Bar", 50))

    def test_example(self):
        with open(os.path.join(HERE, "slot-tides.csv"), encoding="utf-8") as file:
            self.assertEqual(run([START, "15", *DAY]).stdout, file.read())


class Refusals(Room):
    def test_lists(self):
        for old, new, cause in [
                ("4.31", "x4.31", "line 2: x4.31 is no number of metres"),
                ("4.31", "20.01", "line 2: the height must be from -20 to 20 metres"),
                ("4.31", "", "line 2: a line is a date, and then a time and a height for each of one to four waters"),
                ("4.31", "0.50", "line 4: this water and the one before aren't high and low in turn: is one missing?"),
                ("4.31", "0.58", "line 2: this water is as high as the one before"),
                ("2027-03-14 09:52", "14.03.2027 09:52",
                 "line 2: 14.03.2027 is no date of the form 2027-03-14, with a year of four digits (--dates dmy or mdy?)"),
                ("2027-03-15 04:31", "2027-02-29 04:31", "line 5: the date 2027-02-29 doesn't exist"),
                ("09:52", "24:00", "line 2: the time 24:00 doesn't exist"),
                ("09:52", "9", "line 2: 9 is no time such as 09:52"),
                ("16:05", "09:52", "line 3: this water isn't later than the one before"),
                ("2027-03-14 09:52 4.31\n", "",
                 "line 3: this water and the one before aren't high and low in turn: is one missing?")]:
            self.refused_list(TWO_DAYS.replace(old, new, 1), cause)
        self.refused_list(TWO_DAYS.encode() + b"\xff\n", "line 10: this isn't text in UTF-8")
        self.refused_list(FROM_LOW.replace("03:40", "03:41"), "line 1: the first water must be at START or earlier: "
                          "begin with the one before it")
        self.refused_list("2027-03-13 15:40 0.58\n2027-03-13 21:52 4.31\n",
                          "line 2: the last water is before the end of the first slot")
        self.refused_list("2027-03-14 03:40 2\n2027-03-14 09:52 7.0\n2027-03-14 16:05 x\n", "line 3: x is no number of feet",
                          "--feet")
        self.refused_list("03/14/27 03:40 2\n", "line 1: 03/14/27 is no date of the form month, day, year, with a year of four "
                          "digits", "--dates", "mdy")
        self.put("waters.txt", "# nothing\n")
        self.refused([START, "15", "Berth=waters.txt"], "waters.txt: there are fewer than two waters")

    def test_clock(self):
        asked = "was the clock changed, or is a water missing? (--one-clock if neither)"
        later = TWO_DAYS.splitlines()
        for place in range(3, 6):
            # From this water on the clock shows an hour more.
            shown = [line if number < place else self.hour_more(line) for number, line in enumerate(later)]
            self.put("waters.txt", "\n".join(shown))
            done = run([START, "15", "Berth=waters.txt"], self.room)
            self.assertEqual((done.returncode, done.stdout), (1, ""))
            self.assertIn(f"waters.txt, line {place + 1}: this water comes 7 h ", done.stderr)
            self.assertIn(asked, done.stderr)
            self.assertEqual(len(self.heights("\n".join(shown), "--one-clock")), 204)
        # Two waters are missing, and two come too soon.
        self.refused_list("\n".join(later[:3] + later[5:]), f"line 4: this water comes 24 h 52 min after the last one of its "
                          f"kind: {asked}")
        self.refused_list("2027-03-14 03:40 0.58\n2027-03-14 09:52 4.31\n2027-03-14 14:30 0.74\n",
                          f"line 3: this water comes 10 h 50 min after the last one of its kind: {asked}")

    @staticmethod
    def hour_more(line):
        day, clock, height = line.split()
        hours, minutes = map(int, clock.split(":"))
        day, hours = (day, hours + 1) if hours < 23 else (f"{day[:-1]}{int(day[-1]) + 1}", 0)
        return f"{day} {hours:02}:{minutes:02} {height}"

    def test_words(self):
        self.put("waters.txt", FROM_LOW)
        plain = "a waypoint's name has 1 to 40 plain characters, no comma, no quote, and no space at an end"
        for words, cause in [
                (["Berth, north=waters.txt"], f"Berth, north=waters.txt: {plain}"),
                (["=waters.txt"], f"=waters.txt: {plain}"),
                (["Bar =waters.txt"], f"Bar =waters.txt: {plain}"),
                (["waters.txt"], "waters.txt isn't NAME=FILE"),
                (["Bar=other.txt"], "other.txt: No such file or directory"),
                (["Bar=waters.txt+24"],
                 "waters.txt+24: No such file or directory; differences are written as +24m*1.03-5cm"),
                (["Bar=waters.txt+0m/+400m"],
                 "waters.txt with its differences, line 2: this water isn't later than the one before"),
                (["Bar=waters.txt-400cm/+0cm"], "waters.txt with its differences: high waters are below low ones"),
                ([f"Bar=waters.txt*{'9' * 5000}"], f"Bar=waters.txt*{'9' * 5000}: {'9' * 5000} is no number of times"),
                (["Bar=waters.txt*0"], "Bar=waters.txt*0: the factor must be above 0"),
                (["Bar=waters.txt*1.2.3"], "Bar=waters.txt*1.2.3: 1.2.3 is no number of times"),
                (["Bar=waters.txt*9"], "waters.txt, line 2: the height must be from -20 to 20 metres"),
                ([f"{number}=waters.txt" for number in range(17)], "there are more than 16 waypoints, or two of one name"),
                (["Bar=waters.txt", "Bar=waters.txt"], "there are more than 16 waypoints, or two of one name")]:
            self.refused([START, "15", *words], cause)
        for words, cause in [
                ([], "usage: tides.py [OPTION ..] START MINUTES NAME=FILE .."),
                (["2027-03-14", "15", "Bar=waters.txt"],
                 'START is a date and a time, as "2027-03-14 03:40", and not 2027-03-14'),
                (["2027-02-29 03:40", "15", "Bar=waters.txt"],
                 'START is a date and a time, as "2027-03-14 03:40", and not 2027-02-29 03:40'),
                ([START, "0", "Bar=waters.txt"], "MINUTES is a number from 1 to 1440, and not 0"),
                (["--dates", "ydm", START, "15", "Bar=waters.txt"],
                 "--dates is no option, or the order of dates isn't dmy, mdy or ymd")]:
            self.refused(words, cause)


class Planned(Room):
    """What the program makes of the tables."""

    def setUp(self):
        super().setUp()
        if not PROGRAM:
            self.skipTest("no built program was named")

    def program(self, *words):
        done = subprocess.run([PROGRAM, *words], cwd=self.room, capture_output=True, text=True, check=False)
        return done.stdout.splitlines()

    def example(self, name):
        return os.path.join(HERE, name)

    def test_same_rule(self):
        # The waters of tide.csv are at the beginnings of slots, so the program's own heights are these.
        for name, heights in [("berth.txt", ["0.60", "4.20", "0.80"]), ("bar.txt", ["0.60", "4.20", "0.80"])]:
            clocks = ["00:00", "06:00", "12:00"]
            self.put(name, "".join(f"2027-03-14 {clock} {height}\n" for clock, height in zip(clocks, heights)))
        printed = run(["2027-03-14 00:00", "15", "Berth=berth.txt", "Bar=bar.txt"], self.room).stdout
        self.put("slots.csv", printed)
        port = self.example("one-ship.json")
        flat = self.program("flatten", port, "slots.csv")
        self.assertEqual(flat[0], "flat 1")
        self.assertEqual(flat, self.program("flatten", port, self.example("tide.csv")))

    def test_day(self):
        plan = self.program("solve", "port", self.example("day.json"), self.example("slot-tides.csv"), "100000", "p")
        self.assertEqual(plan[0], "optimal 307976.0")
        with open(os.path.join(HERE, "README.md"), encoding="utf-8") as file:
            self.assertTrue(" 307976.0 tonnes" in file.read())


if __name__ == "__main__":
    if len(sys.argv) > 1 and not sys.argv[1].startswith("-"):
        PROGRAM = os.path.abspath(sys.argv.pop(1))
    unittest.main()
