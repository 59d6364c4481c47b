"""Tests a trial from a planner's own files to a verified plan, and through a late ship, broken tugs and a draft survey, without a text
made by hand."""
from __future__ import annotations

import os
import subprocess

import trial
from browser import PROGRAM
from ports import Tw, tw  # noqa: F401


def verified(folder: str, *form: str) -> str:
    """What the program says of the files that lie in the day's folder."""
    files = ["day.json", "tides.csv", *(["plan.txt"] if "repair" in form else []), "certificate"]
    done = subprocess.run([PROGRAM, "verify", *form, "port", *files], cwd=os.path.join(folder, "day", "2027-03-14"), capture_output=True, text=True,
                          check=False)
    return done.stdout


def test_trial(tw: Tw, tmp_path: object) -> None:  # noqa: F811
    folder = os.path.join(str(tmp_path), "trial")
    assert tw("init", folder).status == 0
    checked = tw("check", trial.lay(folder))
    assert (checked.status, checked.err) == (0, "")
    assert checked.out.splitlines()[-1] == ("nothing wrong: 14 movements from 2027-03-14 00:00 to 2027-03-17 00:00, 4 waypoints, 6 tugs")
    planned = tw("plan", folder, "--json")
    assert planned.status == 0 and planned.json()["cargo_t"] > 0
    assert verified(folder) == planned.json()["verdict"] + "\n"
    times = {row["ship"]: row["time"].removeprefix("14 Mar ") for row in planned.json()["sailings"]}
    assert len(times) == 14
    late(tw, folder, [f"{ship} sailed at {time}" for ship, time in times.items() if len(time) == 5 and time < "21:00"], planned.json()["cargo_t"])


def late(tw: Tw, folder: str, sailed: list[str], before: float) -> None:  # noqa: F811
    """In the evening of the first day a ship is late, tugs are out, and a survey says that another one may load less."""
    happened = ["Corvo in not before 15 Mar 02:00", "tugs 2 out from 15 Mar 08:00 to 15 Mar 20:00", "survey Egret out 16.00"]
    for sentence in sailed + happened:
        noted = tw("log", "--in", folder, "--now", "14 Mar 23:30", sentence)
        assert (noted.status, noted.err) == (0, ""), sentence
    repaired = tw("replan", folder, "--now", "14 Mar 23:40", "--json")
    assert repaired.status == 0 and repaired.json()["before"]["cargo_t"] == before
    rows = {row["ship"]: row for row in repaired.json()["sailings"]}
    assert rows["Egret out"]["draft_m"] <= 16.00
    assert repaired.json()["cargo_t"] < before
    assert tw("accept", folder).status == 0
    assert verified(folder, "repair") == repaired.json()["verdict"] + "\n"


def test_a_fault_in_each_file(tw: Tw, tmp_path: object) -> None:  # noqa: F811
    folder = os.path.join(str(tmp_path), "trial")
    tw("init", folder)
    trial.lay(folder)
    for name, old, new in (("ships.csv", "14.03.2027 12:00", "14/03/2027"), ("tides/Channel.csv", "14.03.2027 05:00", "14.03.2027 05:01")):
        path = os.path.join(folder, name)
        with open(path, encoding="utf-8") as file:
            text = file.read()
        with open(path, "w", encoding="utf-8") as file:
            file.write(text.replace(old, new, 1))
    assert tw("check", folder).out.splitlines() == [
        "ships.csv, row 4, column arrives: 14/03/2027 is no date and time, such as 2027-03-14 03:40",
        "tides/Channel.csv, line 8: this height comes 11 min after the one before, and the others every 10 min: is one missing?"]
