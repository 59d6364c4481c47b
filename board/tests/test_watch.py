#!/usr/bin/env python3
"""Tests watch.sh over certificates that grow, and, with the path of a built program, what an interrupted run leaves.

    python3 test_watch.py [PROGRAM]
"""
import os
import subprocess
import sys
import tempfile
import threading
import unittest

HERE = os.path.abspath(os.path.join(os.path.dirname(os.path.abspath(__file__)), "..", "..", "examples"))
WATCH = os.path.join(HERE, "watch.sh")
PROGRAM = os.environ.get("TIDEWISE")
CONTESTED = [os.path.join(HERE, name) for name in ("contested.json", "day-tides.csv")]


class Room(unittest.TestCase):
    """Each test has a certificate of its own."""

    def setUp(self):
        room = tempfile.TemporaryDirectory()
        self.addCleanup(room.cleanup)
        self.proof = os.path.join(room.name, "proof")

    def put(self, text):
        with open(self.proof, "w", encoding="utf-8") as file:
            file.write(text)

    def watched(self, *words):
        done = subprocess.run(["bash", WATCH, self.proof, *words], capture_output=True, text=True, timeout=60, check=True)
        return done.stdout.splitlines()


class Watched(Room):
    def test_growing(self):
        self.put("cert 3\nt 2 0\n")
        with subprocess.Popen(["bash", WATCH, self.proof], stdout=subprocess.PIPE, text=True) as watch:
            self.assertEqual(watch.stdout.readline(), "lemmas 0: timetable 2 0\n")
            with open(self.proof, "a", encoding="utf-8") as file:
                # A line counts when it is whole.
                for part in ["g a1.1\nl a0.1 ; 1\nt 1", " 2\nb 4", "05\n"]:
                    file.write(part)
                    file.flush()
                self.assertEqual(watch.stdout.readline(), "lemmas 1: timetable 1 2\n")
                self.assertEqual(watch.stdout.readline(), "lemmas 1: bound 40.5\n")
                file.write("l a0.1 ; 1\n" * 99 + "d 1 2\nl ; 1 2\n")
            self.assertEqual(watch.stdout.read(), "lemmas 100\nlemmas 101: closed\n")
            self.assertEqual(watch.wait(60), 0)

    def test_closed(self):
        # Each kind of clause line, with a literal and then without.
        for line in ["g", "p", "e 3", "o 0 1 2"]:
            self.put(f"cert 3\n{line} a0.1\nt 1\n{line}\n")
            self.assertEqual(self.watched(), ["lemmas 0: timetable 1", "lemmas 0: closed"])
        with open(os.path.join(HERE, "day.cert"), encoding="utf-8") as file:
            lines = file.read().splitlines()
        self.put("\n".join(lines) + "\n")
        shown = self.watched()
        self.assertEqual(len(shown), 1 + sum(line.startswith("t ") for line in lines))
        self.assertEqual(shown[-1], f"lemmas {sum(line.startswith('l ') for line in lines)}: closed")

    def test_ended(self):
        self.put("cert 2\nt 2 0\nl a0.1 ; 1\nt 1")
        with subprocess.Popen(["sleep", "1"]) as other:
            threading.Thread(target=other.wait).start()
            self.assertEqual(self.watched(str(other.pid)), ["lemmas 0: timetable 2 0", "lemmas 1: the run has ended"])

    def test_words(self):
        done = subprocess.run(["bash", WATCH], capture_output=True, text=True, check=False)
        self.assertEqual((done.returncode, done.stdout, done.stderr), (1, "", "usage: watch.sh PROOF [PID]\n"))


class Interrupted(Room):
    """What examples/README.md says of runs that are stopped."""

    def setUp(self):
        super().setUp()
        if not PROGRAM:
            self.skipTest("no built program was named")

    def program(self, form, *words):
        done = subprocess.run([PROGRAM, form, "port", *CONTESTED, *words], capture_output=True, text=True, check=False)
        return done.returncode, done.stdout

    def test_prove(self):
        with subprocess.Popen([PROGRAM, "prove", "port", *CONTESTED, "1000", self.proof], stdout=subprocess.PIPE) as run:
            self.assertRegex(self.watched()[-1], "^lemmas [0-9]+: closed$")
            self.assertEqual(run.stdout.readline(), b"optimal 457229.0\n")

    def test_time_limit(self):
        # The first limit in which a timetable is found; the whole search takes many times as long.
        limit = .01
        while limit < 30:
            done = subprocess.run(["timeout", str(limit), PROGRAM, "solve", "port", *CONTESTED, "100000", self.proof],
                                  capture_output=True, text=True, check=False)
            if os.path.exists(self.proof):
                with open(self.proof, encoding="utf-8") as file:
                    if "\nt " in file.read():
                        break
            limit *= 1.5
        self.assertEqual((done.returncode, done.stdout), (124, ""))
        # What stands there can be checked and drawn; only its last line may be cut.
        subprocess.run(["sed", "-i", "$d", self.proof], check=True)
        code, report = self.program("verify", self.proof)
        self.assertEqual((code, report.split()[0]), (2, "unfinished"))
        best = report.split()[1]
        code, picture = self.program("chart", self.proof)
        self.assertEqual(code, 2)
        self.assertTrue(f"Not proved best: {best} t" in picture)
        # A cut line is refused as one.
        with open(self.proof, encoding="utf-8") as file:
            text = file.read()
        self.put(text[:-1])
        self.assertEqual(self.program("verify", self.proof), (5, f"refused {text.count(chr(10))} form\n"))
        subprocess.run(["sed", "-i", "$d", self.proof], check=True)
        self.assertEqual(self.program("verify", self.proof)[0], 2)


if __name__ == "__main__":
    if len(sys.argv) > 1 and not sys.argv[1].startswith("-"):
        PROGRAM = os.path.abspath(sys.argv.pop(1))
    unittest.main()
