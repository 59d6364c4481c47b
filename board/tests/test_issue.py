"""Issues of a plan: numbers, what changed, and their forms."""
from __future__ import annotations

import csv
import io
from typing import Any

from conftest import entered, example, planned
from tidewise_board.core.bundle import opened
from tidewise_board.core.changes import changes
from tidewise_board.core.facts import port_of
from tidewise_board.core.issue import cell
from tidewise_board.core.runs import Runs
from tidewise_board.core.shown import table_of
from tidewise_board.core.store import Store


def test_issues_are_numbered_and_say_what_changed(client: Any, store: Store, runs: Runs) -> None:
    token = entered(client)
    first = planned(store, runs, "day.json", "day-tides.csv")
    one = client.post(f"/api/run/{first}/accept", json={}, headers=token).json["plan"]
    client.post(f"/api/plan/{one}/freeze", json={}, headers=token)
    client.post(f"/api/plan/{one}/events", json={"kind": "not before", "ship": "Bittern", "slot": 30, "now": 0}, headers=token)
    repair = client.post(f"/api/plan/{one}/repair", json={"now": 0}, headers=token).json["run"]
    runs.wait(repair)
    two = client.post(f"/api/run/{repair}/accept", json={}, headers=token).json["plan"]
    page = client.get("/day/1/publish").data.decode()
    assert "Issue 1:" in page and "Would change since issue 1" in page and "Bittern: 06:00 → " in page
    client.post(f"/api/plan/{two}/freeze", json={}, headers=token)
    client.post(f"/api/plan/{two}/freeze", json={}, headers=token)
    page = client.get("/day/1/publish").data.decode()
    assert "Issue 2:" in page and "Changes since issue 1" in page
    text = client.get(f"/plan/{two}/sailings.txt").data.decode()
    assert text.startswith("day.json, issue 2 (plan 2)\n") and "\nCHANGES SINCE THE LAST ISSUE\nBittern: 06:00 → " in text.replace("\n\n", "\n") or \
        "Bittern: 06:00 → " in text.partition("CHANGES SINCE")[2]
    assert "this is the first issue" in client.get(f"/plan/{one}/sailings.txt").data.decode()
    assert "issue 1 (plan 1)" in client.get(f"/plan/{one}/sailings.txt").data.decode()
    deeds = [deed["what"] for deed in store.rows("SELECT what FROM deed ORDER BY id")]
    assert deeds.count("issued plan 1 as issue 1") == deeds.count("issued plan 2 as issue 2") == 1


def test_the_forms_of_an_issue(client: Any, store: Store, runs: Runs) -> None:
    token = entered(client)
    files = [(io.BytesIO(text.encode()), name) for name, text in example("calls.csv", "calls-port.json", "waters-bar.txt", "waters-berth.txt")]
    day = client.post("/api/days", data={"files": files}, headers=token).json["day"]
    run = client.post(f"/api/day/{day}/plan", json={"budget": 2000}, headers=token).json["run"]
    runs.wait(run)
    plan = client.post(f"/api/run/{run}/accept", json={}, headers=token).json["plan"]
    text = client.get(f"/plan/{plan}/sailings.txt").data.decode()
    assert "NOT ISSUED. The day is 2027-03-14, and 1d the day after it." in text
    table = client.get(f"/api/run/{run}").json["table"]
    sails = {row["ship"]: row for row in csv.DictReader(io.StringIO(client.get(f"/plan/{plan}/sailings.csv").data.decode()))}
    port = port_of(runs.program, runs.get(run)["instance"])
    assert len(sails) == len(table) == len(port.ships)
    for row in table:
        line = sails[row["name"]]
        assert line["sails"] == (port.clock(int(row["slot"])) if row["slot"] else "stays") and line["cargo t"] == row["cargo t"]
        if row["slot"]:
            assert f"{line['sails']:>8}  {row['name']}" in text and line["passes Bar"][-5:] == row["Bar"][-5:]
    order = [line for line in text.splitlines() if "; passes" in line]
    assert len(order) == sum(bool(row["slot"]) for row in table)
    ics = client.get(f"/plan/{plan}/sailings.ics").data.decode()
    assert ics.count("BEGIN:VEVENT") == len(order)
    assert client.get(f"/plan/{plan}/sheet").status_code == 200


def test_a_calendar_needs_a_start(client: Any, store: Store, runs: Runs) -> None:
    token = entered(client)
    run = planned(store, runs, "day.json", "day-tides.csv")
    plan = client.post(f"/api/run/{run}/accept", json={}, headers=token).json["plan"]
    assert client.get(f"/plan/{plan}/sailings.ics").status_code == 404
    # Nor where something was closed, for which the program wants a start.
    client.post(f"/api/plan/{plan}/events", json={"kind": "closed", "where": "Bar", "first": 60, "last": 64, "now": 0}, headers=token)
    repair = client.post(f"/api/plan/{plan}/repair", json={"now": 0}, headers=token).json["run"]
    runs.wait(repair)
    again = client.post(f"/api/run/{repair}/accept", json={}, headers=token).json["plan"]
    client.post(f"/api/plan/{again}/freeze", json={}, headers=token)
    assert client.get(f"/plan/{again}/sailings.ics").status_code == 404
    assert "sailings.ics" not in opened(client.get(f"/plan/{again}/bundle.zip").data).files
    assert "04:15" in client.get(f"/plan/{again}/sailings.txt").data.decode()


def test_changes_between_line_ups(store: Store, runs: Runs) -> None:
    """Ships are matched by name: one that is new, one that is gone, one that moved, one that loads more."""
    run = runs.get(planned(store, runs, "day.json", "day-tides.csv"))
    port, table = port_of(runs.program, run["instance"]), table_of(runs, run)
    other = [dict(row) for row in table if row["name"] != "Ibis"]
    other[0]["name"] = "Newcomer"
    other[1]["slot"] = str(int(other[1]["slot"]) + 1)
    other[2]["cargo t"] = "99999.0"
    found = {one.ship: one for one in changes(port, table, other)}
    assert set(found) == {"Ibis", table[1]["name"], "Newcomer", other[1]["name"], other[2]["name"]}
    assert (found["Newcomer"].before, found["Ibis"].after) == ("–", "–") and found[other[1]["name"]].moved
    assert not found[other[2]["name"]].moved and found[other[2]["name"]].difference > 0 and changes(port, table, table) == []


def test_cells_that_are_no_formulas() -> None:
    assert [cell(text) for text in ("=1", "+1", "-1", "@x", "\tx", "Ibis", "")] == ["'=1", "'+1", "'-1", "'@x", "'\tx", "Ibis", ""]
