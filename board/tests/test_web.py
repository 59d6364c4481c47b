"""Who may ask the board, and what a bundle may hold."""
from __future__ import annotations

import io
import json
import zipfile
from dataclasses import asdict
from typing import Any

import pytest
from conftest import KEY, entered, example
from tidewise_board.core import days
from tidewise_board.core.bundle import NAMES, NoBundle, calendar, opened, packed
from tidewise_board.core.facts import Port
from tidewise_board.core.program import Program
from tidewise_board.core.runs import Inputs, Runs
from tidewise_board.core.store import Store

def test_who_may_ask(client: Any) -> None:
    assert client.get("/").status_code == 403
    assert client.get("/enter?key=another").status_code == 403
    token = entered(client)
    assert client.get("/").status_code == 200
    assert client.get("/", headers={"Host": "evil.example:8420"}).status_code == 421
    assert client.get("/", headers={"Host": "127.0.0.1:9"}).status_code == 421
    assert client.post("/api/run/1/stop", json={}).status_code == 403
    assert client.post("/api/run/1/stop", json={}, headers={**token, "Origin": "http://evil.example"}).status_code == 403
    assert client.post("/api/run/1/stop", json={}, headers={**token, "Origin": "http://127.0.0.1:8420"}).status_code == 200
    policy = client.get("/").headers["Content-Security-Policy"]
    assert "unsafe-inline" not in policy and "default-src 'none'" in policy


def test_a_day_from_files(client: Any) -> None:
    token = entered(client)
    files = [(io.BytesIO(text.encode()), name) for name, text in example("contested.json", "day-tides.csv")]
    day = client.post("/api/days", data={"files": files}, headers=token).json["day"]
    assert b"Albatross" in client.get(f"/day/{day}").data
    files = [(io.BytesIO(b"\xff\xfe"), "x.csv")]
    assert client.post("/api/days", data={"files": files}, headers=token).status_code == 400
    assert client.post(f"/api/day/{day}/draft", json={"rows": 1}, headers=token).status_code in (400, 404)
    assert client.post(f"/api/day/{day}/plan", json={"budget": 0}, headers=token).status_code == 400
    assert client.get("/day/99").status_code == 404 and client.get("/api/run/99").status_code == 404


def test_a_day_changed_since_its_plan(client: Any, runs: Runs) -> None:
    token = entered(client)
    files = [(io.BytesIO(text.encode()), name) for name, text in example("contested.json", "day-tides.csv")]
    day = client.post("/api/days", data={"files": files}, headers=token).json["day"]
    run = client.post(f"/api/day/{day}/plan", json={"budget": 1000}, headers=token).json["run"]
    runs.wait(run)
    assert not client.get(f"/api/run/{run}").json["outdated"]
    source = days.dropped(example("contested.json", "day-tides.csv"))
    source.rows[0][7] = "1640"
    said = client.post(f"/api/day/{day}/draft", json=asdict(source), headers=token).json
    page = client.get(f"/api/run/{run}").json
    assert said["good"] and said["picture"] and page["outdated"] and page["verdict"] == "optimal 457229.0"


def test_names_are_only_text(client: Any) -> None:
    token = entered(client)
    (name, text), tides = example("contested.json", "day-tides.csv")
    day = json.loads(text)
    day["ships"][0]["name"] = "</script><b>x"
    files = [(io.BytesIO(json.dumps(day).encode()), "<i>.json"), (io.BytesIO(tides[1].encode()), tides[0])]
    page = client.get(f"/day/{client.post('/api/days', data={'files': files}, headers=token).json['day']}").data
    assert b"</script><b>" not in page and b"<i>" not in page


def test_a_published_plan(client: Any, store: Store, runs: Runs, contested: Inputs) -> None:
    token = entered(client)
    number = runs.begin(1, contested, "plan", "day", 1000)
    runs.wait(number)
    plan = client.post(f"/api/run/{number}/accept", json={}, headers=token).json["plan"]
    assert client.get(f"/plan/{plan}/bundle.zip").status_code == 404
    client.post(f"/api/plan/{plan}/freeze", json={}, headers=token)
    data = client.get(f"/plan/{plan}/bundle.zip").data
    bundle = opened(data)
    assert bundle.sound and bundle.said() == "optimal 457229.0"
    with pytest.raises(Exception, match="never changes"), store.change() as db:
        db.execute("UPDATE plan SET bundle = NULL WHERE id = ?", (plan,))
    said = client.post("/api/audit", data={"bundle": (io.BytesIO(data), "b.zip")}, headers=token).json
    assert said["sound"] and said["agrees"] and said["second"] == said["line"] and said["known"] == ["plan 1 of contested"]
    assert [(part["name"], part["good"]) for part in said["parts"]] == [("picture.svg", True), ("table.csv", True)]
    files = {name: value for name, value in bundle.files.items() if name != "SHA256SUMS"}
    # Another tide: the sums are those of the files, and the certificate says nothing of them.
    files["tides.csv"] = files["tides.csv"].replace(b"424", b"414")
    said = client.post("/api/audit", data={"bundle": (io.BytesIO(packed(files)), "b.zip")}, headers=token).json
    assert said["sound"] and not said["agrees"] and "Proved" not in said["headline"]
    broken = io.BytesIO()
    with zipfile.ZipFile(io.BytesIO(data)) as old, zipfile.ZipFile(broken, "w") as new:
        for name in old.namelist():
            new.writestr(name, old.read(name) + (b" " if name == "table.csv" else b""))
    said = client.post("/api/audit", data={"bundle": (io.BytesIO(broken.getvalue()), "b.zip")}, headers=token).json
    assert not said["sound"] and [one["name"] for one in said["sums"] if not one["good"]] == ["table.csv"]


@pytest.mark.parametrize("names", [["../evil"], ["README.txt"], [*NAMES, "more"], []])
def test_what_is_no_bundle(names: list[str]) -> None:
    out = io.BytesIO()
    with zipfile.ZipFile(out, "w") as bundle:
        for name in names:
            bundle.writestr(name, b"")
    with pytest.raises(NoBundle):
        opened(out.getvalue())


def test_a_bundle_that_grows(monkeypatch: pytest.MonkeyPatch) -> None:
    monkeypatch.setattr("tidewise_board.core.bundle.MOST", 1000)
    with pytest.raises(NoBundle, match="too large"):
        opened(packed({name: bytes(600) for name in NAMES if name != "SHA256SUMS"}))
    with pytest.raises(NoBundle):
        opened(b"PK")


def test_the_same_files_make_the_same_bundle() -> None:
    files = {"README.txt": b"Verdict: infeasible\n", "day.json": b"{}", "tides.csv": b"", "certificate": b""}
    assert packed(files) == packed(dict(reversed(files.items())))


def test_a_calendar() -> None:
    port = Port(["A, B"], ["outgoing"], [], 96, 15, "2027-03-27 23:50", 1)
    row = {"slot": "1", "ship": "0", "name": "A, B", "direction": "outgoing", "draft cm": "1642", "cargo t": "41712.0"}
    text = calendar(port, [row], "optimal 41712.0", "ab" * 32) or ""
    assert "DTSTART:20270328T000500\r\n" in text and "SUMMARY:A\\, B sails\r\n" in text
    assert all(len(line) <= 75 for line in text.split("\r\n")) and calendar(Port([], [], [], 1, 1, None, 0), [], "", "") is None

