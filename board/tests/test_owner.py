"""The owner's page: a plan by hand beside the program's, and what every day's variants are worth."""
from __future__ import annotations

import csv
import io
from typing import Any

import pytest
from conftest import entered, example
from tidewise_board.core.facts import Port
from tidewise_board.core.hand import NoHand, slots_of
from tidewise_board.core.runs import Runs

PORT = Port(["Ibis", "Ibis Two", "Jacana"], ["outgoing"] * 3, [], 200, 15, "2027-03-14 18:00", 4)


@pytest.mark.parametrize(("text", "slots"), [
    ("Ibis\t18:15\nIbis Two\t0\nJacana\tstays", [1, 0, 200]),
    ("ship;time\nIBIS;20:00\nibis two;2027-03-15 18:05\nJacana;-", [8, 96, 200]),
    ("Ibis, 1d 18:00\nIbis Two, 17:45\nJacana, 199\n\n", [96, 95, 199]),
    ("Jacana 18:00\nIbis Two 18:15\nIbis 18:30", [2, 1, 0]),
    ("table 1\nt 3 200 5\n", [3, 200, 5]),
])
def test_how_a_plan_by_hand_is_written(text: str, slots: list[int]) -> None:
    assert slots_of(text, PORT) == slots


@pytest.mark.parametrize(("text", "said"), [
    ("Ibis\t18:15", "no time is given for Ibis Two, Jacana"),
    ("Ibis\t18:15\nNemo\t19:00\nIbis Two\t18:15\nJacana\t18:15", "line 2: Nemo\t19:00: there is no such ship"),
    ("Ibis\t18:15\nIbis\t19:00\nIbis Two\t18:15\nJacana\t18:15", "line 2: Ibis has a time already"),
    ("Ibis\t25:15\nIbis Two\t200\nJacana\t2027-03-14 17:59", "line 1: Ibis: 25:15 is no time of this day\nline 2: Ibis Two: 200 is no time of this day\n"
     "line 3: Jacana: 2027-03-14 17:59 is no time of this day"),
    ("x" * 100_001, "too long"),
])
def test_what_is_no_plan_by_hand(text: str, said: str) -> None:
    with pytest.raises(NoHand) as refused:
        slots_of(text, PORT)
    assert said in str(refused.value)


def planned_day(client: Any, runs: Runs, token: dict[str, str]) -> tuple[int, int]:
    files = [(io.BytesIO(text.encode()), name) for name, text in example("contested.json", "day-tides.csv")]
    day = client.post("/api/days", data={"files": files}, headers=token).json["day"]
    run = client.post(f"/api/day/{day}/plan", json={"budget": 2000}, headers=token).json["run"]
    runs.wait(run)
    return day, run


def test_a_plan_by_hand_is_judged_and_priced(client: Any, runs: Runs) -> None:
    token = entered(client)
    day, run = planned_day(client, runs, token)
    shown = client.get(f"/api/run/{run}").json
    rows = [(row["name"], int(row["slot"])) for row in shown["table"]]
    same = "\n".join(f"{name}\t{slot}" for name, slot in rows)
    said = client.post(f"/api/owner/hand/{day}", json={"text": same}, headers=token).json
    assert said["permitted"] and said["broken"] == [] and (said["cargo"], said["more"]) == ("457,229.0", "+0.0")
    # Two ships in one slot: the separation is broken, and the price is only what it would be.
    both = "\n".join(f"{name}\t{rows[0][1] if place < 2 else slot}" for place, (name, slot) in enumerate(rows))
    said = client.post(f"/api/owner/hand/{day}", json={"text": both}, headers=token).json
    assert not said["permitted"] and any("apart" in line or "meet" in line for line in said["broken"])
    assert client.post(f"/api/owner/hand/{day}", json={"text": "Nemo 1"}, headers=token).status_code == 400
    assert client.post("/api/owner/hand/99", json={"text": same}, headers=token).status_code == 404
    row = client.get("/api/owner").json["rows"][0]
    assert row["hand"]["permitted"] is False and row["hand"]["breaks"] == len(said["broken"])
    assert "by hand" in client.get("/owner.csv").data.decode()


def test_every_day_is_asked(client: Any, runs: Runs) -> None:
    token = entered(client)
    planned_day(client, runs, token)
    planned_day(client, runs, token)
    begun = client.post("/api/owner/whatif", json={"changes": ["close=05:00-06:00"]}, headers=token).json["runs"]
    assert len(begun) == 10 and client.post("/api/owner/whatif", json={"changes": ["close=x"]}, headers=token).status_code == 400
    for run in begun:
        runs.wait(run)
    rows = client.get("/api/owner").json["rows"]
    for row in rows:
        worth = {one["label"]: one["tenths"] for one in row["whatifs"]}
        assert worth["Bar 10 cm deeper"] == 40580 and min(value for value in worth.values() if value is not None) < 0, worth
    table = list(csv.DictReader(io.StringIO(client.get("/owner.csv").data.decode())))
    assert len(table) == 12 and {row["difference t"] for row in table if row["variant"] == "Bar 10 cm deeper"} == {"4058.0"}
