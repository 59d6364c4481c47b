"""What the pages of windows, berths and two plans answer to requests that are good, odd or wrong."""
from __future__ import annotations

import io
import json
import time
from typing import Any

import pytest
from conftest import entered, example, ready_made
from tidewise_board.core import race
from tidewise_board.core.loading import centimetres
from tidewise_board.core.runs import Inputs, Runs
from tidewise_board.core.store import Store


def day(client: Any, token: dict[str, str], *files: tuple[str, str]) -> int:
    sent = [(io.BytesIO(text.encode()), name) for name, text in files]
    return int(client.post("/api/days", data={"files": sent}, headers=token).json["day"])


def planned(client: Any, token: dict[str, str], runs: Runs, number: int, **asked: object) -> int:
    run = int(client.post(f"/api/day/{number}/plan", json={"budget": 20000, **asked}, headers=token).json["run"])
    runs.wait(run)
    return run


def test_windows_of_a_day_with_a_fault(client: Any) -> None:
    token = entered(client)
    (name, text), tides = example("contested.json", "day-tides.csv")
    instance = json.loads(text)
    instance["ships"][2]["deep"] = 5
    number = day(client, token, (name, json.dumps(instance)), tides)
    page = client.get(f"/day/{number}/windows")
    assert page.status_code == 200 and b"The day has faults" in page.data and b"windows.js" not in page.data
    said = client.get(f"/api/day/{number}/windows/0")
    assert said.status_code == 400 and "mend them first" in said.json["error"]


@pytest.mark.parametrize("draft", ["", "17.800", "-5", "a", "1e3", "17.8.0", "120", "１７"])
def test_what_is_no_draft(client: Any, draft: str) -> None:
    token = entered(client)
    number = day(client, token, *example("contested.json", "day-tides.csv"))
    said = client.get(f"/api/day/{number}/windows/0/to", query_string={"draft": draft})
    assert said.status_code == 400 and "draft" in said.json["error"]


def test_what_is_a_draft() -> None:
    assert [centimetres(text) for text in ("17.80", "17,8", " 16 ", "9.05", "0")] == [1780, 1780, 1600, 905, 0]


def test_a_ship_that_is_not_there(client: Any) -> None:
    token = entered(client)
    number = day(client, token, *example("contested.json", "day-tides.csv"))
    assert client.get(f"/api/day/{number}/windows/10").status_code == 404
    assert client.get(f"/api/day/{number}/windows/10/to?draft=16").status_code == 404
    assert client.get("/day/99/windows").status_code == 404 and client.get("/api/run/99/berths").status_code == 404


def test_a_day_that_fits_nowhere(client: Any, runs: Runs) -> None:
    """No lane has a stay, no row a slot, and a plan beside it has no difference in tonnes."""
    token = entered(client)
    (name, text), tides = example("contested.json", "day-tides.csv")
    nothing = planned(client, token, runs, day(client, token, (name, text.replace('"fleet":9', '"fleet":2')), tides))
    assert runs.get(nothing)["verdict"] == "infeasible"
    number = day(client, token, *example("contested.json", "day-tides.csv"))
    best = planned(client, token, runs, number)
    page = client.get(f"/compare/{best}/{nothing}").data.decode()
    assert "Against the first, the second nothing fits" not in page and "In the second nothing fits" in page
    assert client.get(f"/compare/{nothing}/{best}").status_code == 200
    assert all(not lane["stays"] for lane in client.get(f"/api/run/{nothing}/berths").json["lanes"])
    assert client.get(f"/day/{number}/compare/{best}/{best}").headers["Location"].endswith(f"/compare/{best}/{best}")
    assert client.get("/compare/99/1").status_code == 404


def test_an_unfinished_pin_is_searched_again(client: Any, runs: Runs, contested: Inputs) -> None:
    token = entered(client)
    number = runs.begin(1, contested, "plan", "day", 20000)
    runs.wait(number)
    pin = client.post(f"/api/run/{number}/pin", json={"pins": {"0": 25}, "budget": 1}, headers=token).json["run"]
    assert runs.wait(pin)["verdict"].startswith("unfinished ")
    again = client.post(f"/api/run/{pin}/resume", json={"budget": 20000}, headers=token).json["run"]
    assert runs.wait(again)["verdict"] == "optimal 457019.0 moved 4"
    said = client.get(f"/api/run/{again}").json
    assert said["kind"] == "pin" and said["pins"] == {"0": 25} and said["base"] == number
    # Nothing is left to go on with.
    assert client.post(f"/api/run/{again}/resume", json={"budget": 20000}, headers=token).status_code == 400
    assert client.post(f"/api/run/{pin}/resume", json={"budget": 0}, headers=token).status_code == 400


def test_a_race_answers_for_its_first_run(client: Any, runs: Runs, monkeypatch: pytest.MonkeyPatch) -> None:
    monkeypatch.setattr(race, "HEAD_START", 60.0)
    token = entered(client)
    number = day(client, token, *example("contested.json", "day-tides.csv"))
    run = planned(client, token, runs, number, race=True)

    end = time.monotonic() + 30
    while not (now := client.get(f"/api/run/{run}/progress").json)["ended"] and time.monotonic() < end:
        time.sleep(0.05)
    assert now["ended"] and now["run"] == run and now["searches"] == 0 and now["points"]


def test_what_is_asked_of_a_plan(client: Any, runs: Runs) -> None:
    """Changes in the words of `tw try`; what is none is refused in words, and what was asked before isn't planned again."""
    token = entered(client)
    run = planned(client, token, runs, day(client, token, *example("contested.json", "day-tides.csv")))

    def asked(*changes: object) -> Any:
        return client.post(f"/api/run/{run}/whatif", json={"changes": list(changes)}, headers=token)

    many = asked().json["runs"]
    assert len(many) == 4 and asked().json["runs"] == many
    more = asked("depth.Bar=+10", "without.Heron", "close=06:00-07:00").json["runs"]
    assert more[0] in many and len(more) == 3
    for number in [*many, *more]:
        assert runs.wait(number)["state"] == "done"
    rows = {row["label"]: row for row in client.get(f"/api/run/{run}/whatifs").json["rows"]}
    assert rows["Bar 10 cm deeper"]["difference"] == "wins 4,058.0 t" and rows["Bar 10 cm deeper"]["seal"] == ""
    assert rows["without Heron"]["tenths"] < 0 and rows["port closed 06:00-07:00"]["tenths"] < 0
    for bad in ("depth.Baar=+10", "fleet", "fleet=0..900", "x=1", 5, ""):
        assert asked(bad).status_code == 400, bad


def test_no_ship_is_left_out_of_a_day_under_way(client: Any, runs: Runs, store: Store, contested: Inputs) -> None:
    """Its plan has a line for each ship; another fleet is planned with what has happened."""
    token = entered(client)
    number = runs.begin(1, contested, "plan", "day", 20000)
    runs.wait(number)
    slots = runs.timetable(number) or []
    plan = "plan 1\n" + "".join(f"k {slot}\n" if ship == 1 else f"o {slot} 0\n" for ship, slot in enumerate(slots)) + "end\n"
    repair = runs.begin(1, Inputs(contested.instance, contested.tides, store.put(plan.encode())), "repair", "repair", 20000)
    assert runs.wait(repair)["verdict"] == "optimal 457229.0 moved 0"
    said = client.post(f"/api/run/{repair}/whatif", json={"changes": ["without.Heron"]}, headers=token)
    assert said.status_code == 400 and "no ship can be left out" in said.json["error"]
    (fleet,) = client.post(f"/api/run/{repair}/whatif", json={"changes": ["fleet=+1"]}, headers=token).json["runs"]
    assert runs.wait(fleet)["plan"] == runs.get(repair)["plan"] and runs.get(fleet)["verdict"].startswith("optimal ")


BASES = ["", "5", "null", "[]", "{", "[" * 100000, '{"a":' * 50000, '{"waypoints": 5}', '{"waypoints": [1], "routes": [null]}',
         '{"start": 5, "slot_minutes": 0, "waypoints": [{"name": 5, "depth": null}]}', '{"slots": 1e400}', '{"tides": 5, "dates": 7}']


@pytest.mark.parametrize("base", BASES, ids=range(len(BASES)))
@pytest.mark.parametrize("whole", [False, True])
def test_a_source_that_is_none(client: Any, base: str, whole: bool) -> None:
    """Whatever a planner writes is kept, and told as faults; a page over it opens."""
    token = entered(client)
    number = day(client, token, *example("calls.csv", "calls-port.json", "waters-bar.txt", "waters-berth.txt"))
    sent = {"whole": whole, "base": base, "columns": ["name", "direction", "x"], "rows": [["a", "outgoing", "1"], ["", "", ""]], "table": None,
            "lists": [{"waypoint": "Bar", "text": "\x00 not a list", "differences": "=/etc/passwd"}], "dates": "dmy", "origins": [7, -1]}
    said = client.post(f"/api/day/{number}/draft", json=sent, headers=token)
    assert said.status_code == 200 and not said.json["good"] and [one for one in said.json["told"] if not one["hint"]]
    assert client.get(f"/day/{number}").status_code == 200 and client.get(f"/day/{number}/windows").status_code == 200
    assert client.post(f"/api/day/{number}/plan", json={"budget": 1}, headers=token).status_code == 409


def test_a_day_has_a_name_and_is_copied(client: Any, runs: Runs) -> None:
    token = entered(client)
    number = day(client, token, *example("contested.json", "day-tides.csv"))
    planned(client, token, runs, number)
    assert client.post(f"/api/day/{number}/name", json={"name": " Monday\x07 "}, headers=token).json["name"] == "Monday"
    assert client.post(f"/api/day/{number}/name", json={"name": " "}, headers=token).status_code == 400
    other = client.post(f"/api/day/{number}/copy", json={}, headers=token).json["day"]
    page = client.get("/").data.decode()
    assert other != number and ">Monday copy</a>" in page and page.count("not planned") == 1
    assert b"Albatross" in client.get(f"/day/{other}").data
    assert client.post("/api/day/99/copy", json={}, headers=token).status_code == 404
    assert client.post(f"/api/day/{number}/copy", json={}).status_code == 403


def test_a_ship_that_never_sails_is_told_at_her_row(client: Any) -> None:
    """Of a line-up with a row for each call, whose ships are two for a row."""
    token = entered(client)
    files = dict(ready_made("start"))
    lines = files["ships.csv"].splitlines()
    place = next(number for number, line in enumerate(lines) if line.startswith("Curlew"))
    lines[place] = lines[place].replace("9.80,16.40", "18.90,19.40")
    files["ships.csv"] = "\n".join(lines) + "\n"
    number = day(client, token, *files.items())
    page = client.get(f"/day/{number}").data.decode()
    told = json.loads(page.partition('id="data">')[2].partition("</script>")[0])["first"]["told"]
    (one,) = [one for one in told if "in any slot" in one["said"]]
    assert (one["row"], one["column"]) == (2, "name") and "Curlew out can't sail in any slot: too little water" in one["said"]
