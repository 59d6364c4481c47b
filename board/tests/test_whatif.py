#!/usr/bin/env python3
"""Tests whatif.py with a program that only seems to plan, and, where the path of a built one is given, with that.

    python3 test_whatif.py [PROGRAM]
"""
import json
import os
import shutil
import signal
import subprocess
import sys
import tempfile
import time
import unittest

HERE = os.path.abspath(os.path.join(os.path.dirname(os.path.abspath(__file__)), "..", "..", "examples"))
PROGRAM = os.environ.get("TIDEWISE")
# What it reports depends on the fleet alone, or else on all depths, slots and separations.
FAKE = """#!/usr/bin/env python3
import json
import os
import sys
import time
form, port, instance, tides, budget, proof, *seed = sys.argv[1:]
assert (form, port, tides, budget) == ("prove", "port", "tides.csv", "20")
day = json.load(open(instance))
open(proof, "w").write("cert 3\\n")
# With eight tugs it goes on for a minute, and says which process it is.
if day["fleet"] == 8:
    open("pid.part", "w").write(str(os.getpid()))
    os.rename("pid.part", "pid")
    time.sleep(60)
# In a race seed 1 spends its budget, seed 2 has a proof after that, and the others go on for a minute.
if seed and seed[0] != "1" and day["fleet"] == 4:
    time.sleep(0.5 if seed[0] == "2" else 60)
if seed == ["1"]:
    day["fleet"] = 3
reports = {1: "infeasible", 2: "unfinished 20 none\\nbound 900.5", 3: "unfinished 20 best 700.0\\nbound 812.5",
           5: "unfinished 20 best 700.0", 6: "bad instance fleet range", 7: "memory none"}
cargo = (sum(item["depth"] for item in day["waypoints"]) + sum(map(sum, day["separation"]))
         - sum(ship["earliest"] for ship in day["ships"]))
print(reports.get(day["fleet"], f"optimal {cargo}.0"), "end", sep="\\n")
sys.exit(0 if day["fleet"] not in reports else 2)
"""
DAY = {"waypoints": [{"name": "Berth", "depth": 400}, {"name": "Bar", "depth": 350}], "separation": [[1, 3], [2, 2]],
       "fleet": 4, "ships": [{"name": "Albatross", "earliest": 2}, {"name": "Curlew", "earliest": 5}]}


class WhatIf(unittest.TestCase):
    def setUp(self):
        room = tempfile.TemporaryDirectory()
        self.addCleanup(room.cleanup)
        self.room = room.name
        self.put("fake", FAKE)
        os.chmod(os.path.join(self.room, "fake"), 0o755)
        self.put("day.json", json.dumps(DAY))
        self.put("day.csv", "water,Berth,Bar\n0,10,10\n")

    def put(self, name, text):
        with open(os.path.join(self.room, name), "w", encoding="utf-8") as file:
            file.write(text)

    def run_it(self, *words):
        return subprocess.run([sys.executable, os.path.join(HERE, "whatif.py"), *words], cwd=self.room, capture_output=True,
                              text=True, check=False)

    def task(self, folder, number, job=None, place=None):
        """How a task of the array in a folder ends, and what it says: by hand, or as Slurm begins a job in a place."""
        slurm = {"SLURM_JOB_ID": job, "SLURM_ARRAY_JOB_ID": "7"} if job else {}
        done = subprocess.run(["bash", os.path.join(folder, "array.sh")], cwd=place, capture_output=True, text=True, check=False,
                              env={**os.environ, **slurm, "SLURM_ARRAY_TASK_ID": str(number),
                                   "PATH": self.room + os.pathsep + os.environ["PATH"]})
        return done.returncode, done.stdout + done.stderr

    def rows(self, *words):
        """The rows that are printed, by the columns of the header and without the seconds."""
        done = self.run_it(*words)
        self.assertEqual((done.returncode, done.stderr), (0, ""))
        header, *lines = done.stdout.splitlines()
        # Two columns are flush left, the others flush right.
        result = header.index("result")
        ends = [result + max(len(line[result:].split("  ")[0]) for line in [header, *lines])]
        ends += [header.index(name) + len(name) for name in ("tonnes", "bound", "difference")]
        starts = [0, result, *ends]
        return [[line[begin:end].strip() for begin, end in zip(starts, starts[1:])] for line in lines]

    def test_default(self):
        self.assertEqual(self.rows("--program", "fake", "--budget", "20", "day.json", "day.csv"), [
            ["as it is", "optimal", "751.0", "", ""],
            ["fleet 2", "unfinished", "", "900.5", "at most +149.5"],
            ["fleet 3", "unfinished", "700.0", "812.5", "-51.0 to +61.5"],
            ["fleet 5", "unfinished", "700.0", "", "at least -51.0"],
            ["fleet 6", "bad instance fleet range", "", "", ""],
            ["Berth 10 cm deeper", "optimal", "761.0", "", "+10.0"],
            ["Bar 10 cm deeper", "optimal", "761.0", "", "+10.0"],
            ["Albatross 4 slots later", "optimal", "747.0", "", "-4.0"],
            ["Curlew 4 slots later", "optimal", "747.0", "", "-4.0"],
            ["separation 1 less", "optimal", "748.0", "", "-3.0"]])

    def test_named(self):
        words = ["--program", "fake", "--budget", "20", "--at-once", "2", "--keep", "kept", "day.json", "day.csv", "fleet=7",
                 "fleet=1..1", "deeper=Bar:25", "later=Curlew:3"]
        self.assertEqual(self.rows(*words), [
            ["as it is", "optimal", "751.0", "", ""],
            ["fleet 7", "memory", "", "", ""],
            ["fleet 1", "infeasible", "", "", ""],
            ["Bar 25 cm deeper", "optimal", "776.0", "", "+25.0"],
            ["Curlew 3 slots later", "optimal", "748.0", "", "-3.0"]])
        with open(os.path.join(self.room, "kept", "3.json"), encoding="utf-8") as file:
            self.assertEqual(json.load(file)["waypoints"], [DAY["waypoints"][0], {"name": "Bar", "depth": 375}])
        self.assertTrue(os.path.exists(os.path.join(self.room, "kept", "3.cert")))
        # What is there isn't written over.
        self.assertEqual(self.run_it(*words).stderr, "whatif.py: kept: File exists\n")

    def test_slurm(self):
        words = ["--program", "fake", "--budget", "20", "day.json", "day.csv", "fleet=3", "separation=-1"]
        done = self.run_it("--slurm", "array", *words)
        self.assertEqual((done.returncode, done.stdout, done.stderr), (0, "", ""))
        folder = os.path.join(self.room, "array")
        with open(os.path.join(folder, "array.sh"), encoding="utf-8") as file:
            self.assertIn("\n#SBATCH --array=0-2\n", file.read())
        # The second job is still waiting.
        for number in (0, 2):
            self.assertEqual(self.task(folder, number), (0, ""))
        rows = self.rows(*words)
        self.assertEqual(self.rows("--table", "array"), [rows[0], ["fleet 3", "no report", "", "", ""], rows[2]])
        # A job of Slurm begins where it was submitted, or where it is told by --chdir.
        self.assertEqual(self.task(folder, 1, "1", folder), (0, ""))
        self.assertEqual(self.rows("--table", "array"), rows)
        self.assertEqual(self.task(folder, 1, "1", self.room), (
            1, f"there is no 1.json in {self.room}: is this the folder of array.sh?\n"))
        self.assertFalse(os.path.exists(os.path.join(self.room, "1.report")))

    def test_slurm_failed(self):
        self.run_it("--slurm", "array", "--program", "fake", "--budget", "20", "day.json", "day.csv", "fleet=9")
        folder = os.path.join(self.room, "array")
        # A budget that is spent is no failure of a task; a program that is gone, or ends otherwise, is.
        self.put("array/1.json", json.dumps({**DAY, "fleet": 2}))
        self.assertEqual(self.task(folder, 1), (0, ""))
        os.remove(os.path.join(self.room, "fake"))
        code, said = self.task(folder, 1)
        self.assertEqual((code, said.endswith("fake: No such file or directory\n")), (1, True))

    def test_slurm_race(self):
        done = self.run_it("--slurm", "array", "--program", "fake", "--budget", "20", "--race", "3", "day.json", "day.csv")
        self.assertEqual((done.returncode, done.stdout, done.stderr), (0, "", ""))
        folder = os.path.join(self.room, "array")
        self.put("scancel", f'#!/bin/sh\necho "$@" >> {self.room}/cancelled\n')
        os.chmod(os.path.join(self.room, "scancel"), 0o755)
        # Seed 1 spends its budget, and seed 2 ends the array.
        for seed, ended in (("1", False), ("2", True)):
            self.assertEqual(self.task(folder, seed, "8", folder), (0, ""))
            self.assertEqual(os.path.exists(os.path.join(self.room, "cancelled")), ended)
        with open(os.path.join(self.room, "cancelled"), encoding="utf-8") as file:
            self.assertEqual(file.read(), "7\n")
        done = self.run_it("--table", "array")
        self.assertEqual([line.split()[:3] for line in done.stdout.splitlines()[1:]], [
            ["0", "ended"], ["1", "unfinished", "700.0"], ["2", "optimal", "751.0"]])

    def test_no_day(self):
        self.put("day.json", json.dumps({**DAY, "fleet": 6}))
        done = self.run_it("--program", "fake", "--budget", "20", "day.json", "day.csv", "fleet=4")
        self.assertEqual((done.returncode, done.stderr), (1, "whatif.py: the day as it is: bad instance fleet range\n"))
        self.assertEqual(len(done.stdout.splitlines()), 3)

    def test_race(self):
        words = ["--program", "fake", "--budget", "20", "--keep", "kept", "day.json", "day.csv", "--race", "4"]
        begun = time.monotonic()
        done = self.run_it(*words)
        self.assertEqual((done.returncode, done.stderr), (0, ""))
        rows = [line.split() for line in done.stdout.splitlines()]
        self.assertEqual([rows[0], rows[1], rows[2][:4], rows[3][:3], rows[4]], [
            ["seed", "result", "tonnes", "bound", "seconds"], ["0", "ended"], ["1", "unfinished", "700.0", "812.5"],
            ["2", "optimal", "751.0"], ["3", "ended"]])
        self.assertLess(time.monotonic() - begun, 30)
        with open(os.path.join(self.room, "kept", "2.report"), encoding="utf-8") as file:
            self.assertEqual(file.readline(), "optimal 751.0\n")

        self.put("day.json", json.dumps({**DAY, "fleet": 2}))
        done = self.run_it("--program", "fake", "--budget", "20", "day.json", "day.csv", "--race", "1")
        self.assertEqual((done.returncode, done.stderr), (1, "whatif.py: no seed has a proof\n"))
        self.assertEqual(done.stdout.splitlines()[1].split()[:3], ["0", "unfinished", "900.5"])

        for more in (["fleet=3"], ["--form", "solve"], ["--race", "-1"]):
            done = self.run_it("--program", "fake", "--race", "2", "day.json", "day.csv", *more)
            self.assertEqual((done.returncode, done.stdout, done.stderr), (
                1, "", "whatif.py: --race N plans the day as it is by prove, with one seed or more\n"))

    def test_ended(self):
        for number in (signal.SIGTERM, signal.SIGHUP):
            self.ended_by(number)

    def ended_by(self, number):
        shutil.rmtree(os.path.join(self.room, "kept"), ignore_errors=True)
        words = [sys.executable, os.path.join(HERE, "whatif.py"), "--program", "fake", "--budget", "20", "--at-once", "1", "--keep",
                 "kept", "day.json", "day.csv", "fleet=8", "fleet=3"]
        with subprocess.Popen(words, cwd=self.room, stderr=subprocess.DEVNULL) as run:
            pid = os.path.join(self.room, "kept", "pid")
            while not os.path.exists(pid):
                self.assertIsNone(run.poll())
                time.sleep(0.1)
            run.send_signal(number)
            self.assertEqual(run.wait(60), 128 + number)
        # The run that went on is ended, and no other has begun.
        with open(pid, encoding="utf-8") as file:
            self.assertRaises(ProcessLookupError, os.kill, int(file.read()), 0)
        self.assertFalse(os.path.exists(os.path.join(self.room, "kept", "2.report")))

    def test_refused(self):
        for word, cause in [("tugs=3", "tugs=3 is no variant"), ("fleet", "fleet is no variant"),
                            ("fleet=x", "fleet=x is no number of tugs, as 7 or 4..8"),
                            ("deeper=Quay:3", "Quay:3: the day has no such name"),
                            ("later=Curlew", "Curlew: a number is missing"),
                            ("separation=1", "separation=1 is no number of slots less, as -1")]:
            done = self.run_it("--program", "fake", "day.json", "day.csv", word)
            self.assertEqual((done.returncode, done.stdout, done.stderr), (1, "", f"whatif.py: {cause}\n"))
        for words, cause in [(["--at-once", "0", "day.json", "day.csv"], "--at-once N is one run or more"),
                             (["--at-once", "-3", "day.json", "day.csv"], "--at-once N is one run or more"),
                             (["no\x1b[2J", "day.csv"], "no\\x1b[2J: No such file or directory"),
                             (["day.csv", "day.csv"], "day.csv is no instance: the program tells the first fault"),
                             (["none.json", "day.csv"], "none.json: No such file or directory"),
                             (["--program", "none", "day.json", "day.csv"], "none can't be run")]:
            done = self.run_it("--program", "fake", *words)
            self.assertEqual((done.returncode, done.stdout, done.stderr), (1, "", f"whatif.py: {cause}\n"))

    def test_program(self):
        if not PROGRAM:
            self.skipTest("no built program was named")
        # examples/README.md says what the shortage of tugs costs there: with 8 all three ships have theirs in slot 22.
        rows = self.rows("--program", PROGRAM, *(os.path.join(HERE, name) for name in ("tugs.json", "tide.csv")), "fleet=8",
                         "fleet=4", "fleet=2", "later=Curlew:4")
        self.assertEqual(rows[:2], [["as it is", "optimal", "106780.0", "", ""],
                                    ["fleet 8", "optimal", "108300.0", "", "+1520.0"]])
        self.assertEqual(rows[3:], [["fleet 2", "infeasible", "", "", ""],
                                    ["Curlew 4 slots later", "no slot is left", "", "", ""]])

        day = self.rows("--program", PROGRAM, *(os.path.join(HERE, name) for name in ("day.json", "day-tides.csv")),
                        "deeper=Bar:10")
        self.assertEqual(day[1], ["Bar 10 cm deeper", "optimal", "311956.0", "", "+3660.0"])
        with open(os.path.join(HERE, "README.md"), encoding="utf-8") as file:
            self.assertTrue(" 3660.0 tonnes" in file.read())


if __name__ == "__main__":
    if len(sys.argv) > 1 and not sys.argv[1].startswith("-"):
        PROGRAM = os.path.abspath(sys.argv.pop(1))
    unittest.main()
