"""The day as it is sailed: what happens, what breaks, and the repair."""
from __future__ import annotations

import json
from typing import Any

import pytest
from conftest import entered, example, planned
from tidewise_board.core.facts import port_of
from tidewise_board.core.happened import Closed, Event, NotBefore, Sailed, Stays, TugsBack, TugsOut, event_of, kept_of, most_out
from tidewise_board.core.pins import bare_of
from tidewise_board.core.reading import timetable_of
from tidewise_board.core.runs import Inputs, Runs
from tidewise_board.core.store import Store
from tidewise_board.core.underway import Watch
from tidewise_board.core.wishes import wishes_of


class Day:
    """A day of the board, over its own address."""

    def __init__(self, client: Any, store: Store, runs: Runs, *names: str) -> None:
        self.client, self.store, self.runs, self.token = client, store, runs, entered(client)
        self.run = planned(store, runs, *names)
        self.plan = 0
        self.accept(self.run)

    def accept(self, run: int) -> None:
        self.run, self.plan = run, self.client.post(f"/api/run/{run}/accept", json={}, headers=self.token).json["plan"]

    def tell(self, kind: str, now: int = 0, **members: object) -> Any:
        return self.client.post(f"/api/plan/{self.plan}/events", json={"kind": kind, "now": now, **members}, headers=self.token)

    def told(self, kind: str, now: int = 0, **members: object) -> Any:
        answer = self.tell(kind, now, **members)
        assert answer.status_code == 200, answer.data
        return answer.json

    def refused(self, kind: str, **members: object) -> str:
        answer = self.tell(kind, **members)
        assert answer.status_code == 409, answer.data
        return str(answer.json["error"])

    def repair(self, now: int = 0) -> Any:
        begun = self.client.post(f"/api/plan/{self.plan}/repair", json={"now": now}, headers=self.token).json
        assert self.runs.wait(begun["run"])["state"] == "done"
        return {**self.client.get(f"/api/run/{begun['run']}").json, "noted": begun["noted"]}

    def wishes(self, run: int) -> list[str]:
        return self.store.get(self.runs.get(run)["plan"]).decode().splitlines()


@pytest.fixture
def day(client: Any, store: Store, runs: Runs) -> Day:
    return Day(client, store, runs, "day.json", "day-tides.csv")


def test_a_delay_outlives_a_repair(day: Day) -> None:
    """A plan of the program knows nothing of an earlier repair: the board tells it again what has sailed and which ships are late."""
    day.told("sailed", ship="Ibis", slot=0)
    day.told("sailed", ship="Egret", slot=17)
    day.told("not before", ship="Bittern", slot=30)
    day.told("tugs out", count=2, first=0, last=None)
    first = day.repair()
    assert first["word"] == "optimal"
    day.accept(first["id"])
    day.told("not before", ship="Jacana", slot=80)
    second = day.repair()
    lines = day.wishes(second["id"])
    assert lines[:2] == ["plan 2", "w 2"] and lines[2 + 8] == "k 0" and lines[2 + 4] == "k 17"
    assert lines[2 + 1].startswith("o ") and lines[2 + 1].endswith(" 30")
    day.accept(second["id"])
    day.told("sailed", ship="Albatross", slot=21, now=25)
    third = day.repair(25)
    wishes = wishes_of("\n".join(day.wishes(third["id"])))[0]
    assert {wish.first for wish in wishes} >= {None, 25, 30} and min(wish.first for wish in wishes if wish.first is not None) == 25
    day.accept(third["id"])
    assert day.refused("not before", ship="Ibis", slot=5) == "this ship has sailed already"
    assert day.refused("stays", ship="Ibis") == "this ship has sailed already"
    assert day.refused("sailed", ship="Ibis", slot=5) == "this ship has sailed already"


def test_the_events_of_the_guide(day: Day) -> None:
    """examples/README.md, "A plan is watched": what is broken after each of examples/events.txt."""
    slots = {0: 21, 1: 24}
    port = port_of(day.runs.program, day.runs.get(day.run)["instance"])
    for line in example("events.txt")[0][1].splitlines()[1:-1]:
        letter, *numbers = line.split(" ")
        first, *rest = map(int, numbers)
        if letter == "s":
            said = day.told("sailed", ship=port.ships[first], slot=rest[0])
        elif letter == "d":
            slots[first] += rest[0]
            said = day.told("not before", ship=port.ships[first], slot=slots[first])
        elif letter == "w":
            said = day.told("tugs out", count=first, first=0, last=None)
        else:
            said = day.told("tugs back", count=first, slot=0)
    assert [len(one["broken"]) for one in said["events"]] == [0, 0, 1, 3, 2, 3]
    assert said["events"][2]["broken"] == ["no more than 9 tugs at once"] and said["broken"][0] == "Bittern and Gannet don't meet in Narrows"
    undo = day.client.post(f"/api/plan/{day.plan}/events", json={"undo": said["events"][-1]["id"]}, headers=day.token).json
    assert len(undo["events"]) == 5 and len(undo["broken"]) == 2


def test_what_is_refused(day: Day) -> None:
    assert day.refused("sailed", ship="Nemo", slot=1) == "there is no ship Nemo"
    assert day.refused("closed", where="Nowhere", first=1, last=2) == "there is no waypoint Nowhere"
    assert day.refused("tugs out", count=10, first=0, last=None) == "there are not so many tugs"
    assert day.refused("tugs back", count=1, slot=3) == "there are not so many tugs"
    assert day.refused("not before", ship="Albatross", slot=200) == "the day has no such slot"
    for bad in ({"kind": "sunk", "ship": "Ibis"}, {"kind": "sailed", "ship": 3, "slot": 1}, {"kind": "sailed", "ship": "Ibis", "slot": True},
                {"kind": "closed", "where": None, "first": 5, "last": 5}, {"kind": "tugs out", "count": 0, "first": 0, "last": None}):
        assert day.client.post(f"/api/plan/{day.plan}/events", json=bad, headers=day.token).status_code == 400
    assert day.client.get(f"/api/plan/{day.plan}/events").json["events"] == []


def test_a_waypoint_that_is_closed(day: Day) -> None:
    """Nobody passes the bar while it is closed; each repair begins with the day's own instance, so closings are told once."""
    before = day.runs.timetable(day.run) or []
    said = day.told("closed", where="Bar", first=20, last=32)
    assert said["broken"] and any("own window" in line and "Bar closed" in line for line in said["broken"])
    found = day.repair()
    assert found["word"] == "optimal"
    day.accept(found["id"])
    sails = (day.runs.timetable(found["id"]) or [])[0]
    assert day.told("closed", where=None, first=sails, last=sails + 1)["broken"] == [
        "Albatross's own window and water (port closed 17:30 to 17:45 / Bar closed 05:00 to 08:00)"]
    again = day.repair()
    run = day.runs.get(again["id"])
    made = json.loads(day.store.get(run["instance"]))
    assert made["version"] == 3 and made["closed"] == [{"from": sails, "to": sails}]
    assert [point["closed"] for point in made["waypoints"]] == [[], [{"from": 20, "to": 31}]]
    for slot, old in zip(timetable_of(day.store.get(run["cert"])) or [], before):
        assert not 16 <= slot < 28 or slot != old
        assert slot != sails
    day.accept(again["id"])
    assert day.client.get(f"/api/plan/{day.plan}/events").json["broken"] == []


def test_a_ship_that_stays(day: Day) -> None:
    day.told("stays", ship="Curlew")
    found = day.repair()
    run = day.runs.get(found["id"])
    slots = port_of(day.runs.program, run["instance"]).slots
    assert found["word"] == "optimal" and (timetable_of(day.store.get(run["cert"])) or [])[2] == slots
    made = json.loads(day.store.get(run["instance"]))
    assert [place for place, ship in enumerate(made["ships"]) if ship["may_stay"]] == [2]
    rows = day.client.get(f"/api/plan/{day.plan}/changes/{found['id']}").json["rows"]
    assert [(row["before"], row["after"]) for row in rows if row["ship"] == "Curlew"] == [("17:30", "stays")]
    day.accept(found["id"])
    assert day.client.get(f"/api/plan/{day.plan}/events").json["broken"] == []
    assert day.refused("not before", ship="Curlew", slot=50) == "this ship stays"


def test_a_ship_that_cant_stay(day: Day) -> None:
    """Gannet waits for Albatross's berth: if she stays there, nothing fits, and the clash says why."""
    day.told("stays", ship="Albatross")
    found = day.repair()
    why = day.client.get(f"/api/run/{found['id']}/why").json
    assert found["word"] == "infeasible" and why["holds"]
    assert any(line.startswith("Albatross clears the berth") for line in why["kept"])
    assert "Albatross stays" in why["kept"]


def test_tugs_with_hours(day: Day, store: Store, runs: Runs) -> None:
    """Hours of tugs count as the rest of the day, and the page says so; once they are over, they count no more."""
    said = day.told("tugs out", count=4, first=10, last=20)
    assert "count as out" in said["noted"][0]
    assert day.wishes(day.repair()["id"])[:2] == ["plan 2", "w 4"]
    assert day.wishes(day.repair(20)["id"])[0] == "plan 1"
    events: list[Event] = [TugsOut(4, 10, 20), TugsOut(3, 15, None), TugsBack(2, 18)]
    assert [most_out(events, now, 96) for now in (0, 18, 20)] == [7, 5, 1]
    # Two spans that don't meet don't add up.
    assert day.tell("tugs out", count=9, first=30, last=40).status_code == 200


def test_nothing_before_now(day: Day) -> None:
    found = day.repair(30)
    table = day.runs.timetable(found["id"]) or []
    assert min(table) >= 30


def test_pins_stay_through_repairs(day: Day) -> None:
    pin = day.client.post(f"/api/run/{day.run}/pin", json={"pins": {"7": 40}}, headers=day.token).json["run"]
    day.runs.wait(pin)
    day.accept(pin)
    day.told("sailed", ship="Ibis", slot=0)
    first = day.repair()
    assert first["pins"] == {"7": 40} and day.wishes(first["id"])[1 + 7] == "k 40" and first["noted"] == []
    wishes = wishes_of(bare_of(day.store, day.runs.get(first["id"])) or "")[0]
    assert wishes[7].first == 0 and wishes[8].first is None
    # The layer of the plan's page: a held ship hasn't sailed.
    ships = day.client.get(f"/api/run/{first['id']}/facts").json["ships"]
    assert [ship["sailed"] for ship in ships].count(True) == 1 and ships[8]["sailed"]
    # It may be released, and held elsewhere.
    free = day.client.post(f"/api/run/{first['id']}/pin", json={"pins": {}}, headers=day.token).json["run"]
    assert free != first["id"] and day.runs.wait(free)["pins"] == "{}"
    moved = day.client.post(f"/api/run/{first['id']}/pin", json={"pins": {"7": 44}}, headers=day.token).json["run"]
    assert (day.runs.wait(moved), day.runs.timetable(moved) or [])[1][7] == 44
    day.accept(first["id"])
    day.told("not before", ship="Heron", slot=42)
    second = day.repair()
    assert second["pins"] == {} and second["noted"] == ["Heron is no longer held at 10:00: not before 10:30"]


def test_who_did_what(day: Day) -> None:
    assert day.client.post("/api/name", json={"name": " \n "}, headers=day.token).status_code == 400
    assert day.client.post("/api/name", json={"name": "Änne </b>"}, headers=day.token).json == {"name": "Änne </b>"}
    day.told("sailed", ship="Ibis", slot=0)
    day.client.post(f"/api/plan/{day.plan}/keep", json={}, headers=day.token)
    deeds = day.store.rows("SELECT who, what FROM deed ORDER BY id")
    assert [tuple(deed) for deed in deeds] == [("somebody", "made it plan 1: day"), ("Änne </b>", "told: Ibis sailed at 00:00"),
                                               ("Änne </b>", "kept plan 1, and not its repair")]
    page = day.client.get("/day/1/underway").data.decode()
    assert "UTC, somebody</span>" in page
    assert "Änne &lt;/b&gt;" in page and "Änne </b>" not in page
    for sql in ("UPDATE deed SET who = 'x'", "DELETE FROM deed"):
        with pytest.raises(Exception, match="stays"), day.store.change() as db:
            db.execute(sql)


def test_another_clock_isnt_mixed_in(day: Day, runs: Runs, store: Store) -> None:
    """A plan whose slots begin at other times can't take the place of one for which something was told."""
    day.told("sailed", ship="Ibis", slot=0)
    made = json.loads(store.get(runs.get(day.run)["instance"]))
    made["slot_minutes"] = 20
    other = runs.begin(1, Inputs(store.put(json.dumps(made).encode()), runs.get(day.run)["tides"]), "plan", "other", 20000)
    runs.wait(other)
    assert "clock" in day.client.post(f"/api/run/{other}/accept", json={}, headers=day.token).json["error"]


@pytest.mark.parametrize("event", [Sailed("a", 1), NotBefore("a", 2), Stays("a"), TugsOut(1, 2, None), TugsOut(1, 2, 3), TugsBack(1, 2),
                                   Closed(None, 1, 2), Closed("Bar", 1, 2)])
def test_an_event_is_kept_as_it_was(event: Event) -> None:
    assert event_of(json.loads(json.dumps(kept_of(event)))) == event


def test_a_ship_that_the_plan_lacks(store: Store, runs: Runs) -> None:
    """An event outlives its ship's row: it is told that the plan lacks it, and the rest holds."""
    run = runs.get(planned(store, runs, "day.json", "day-tides.csv"))
    inputs = Inputs(run["instance"], run["tides"])
    watch = Watch(runs.program, inputs, port_of(runs.program, run["instance"]), runs.timetable(run["id"]) or [], [Sailed("Gone", 3)])
    assert watch.broken() == [[], []] and watch.noted() == ["Gone sailed at 00:45: this plan has no such ship"]


def test_a_repair_and_what_it_holds_are_one(day: Day) -> None:
    """The plan without the held ships is kept in the same step as the run: no kill can come between."""
    pin = day.client.post(f"/api/run/{day.run}/pin", json={"pins": {"7": 40}}, headers=day.token).json["run"]
    day.runs.wait(pin)
    day.accept(pin)
    with day.store.change() as db:
        db.execute("CREATE TRIGGER no_hold BEFORE INSERT ON hold BEGIN SELECT RAISE(ABORT, 'a full disk'); END")
    before = day.store.rows("SELECT id FROM run")
    assert day.client.post(f"/api/plan/{day.plan}/repair", json={"now": 0}, headers=day.token).status_code == 500
    assert day.store.rows("SELECT id FROM run") == before
