"""What the pages of a day and a plan stand on: loading, lanes, a race of seeds, differences of inputs, rows removed from a sheet."""
from __future__ import annotations

import json
import os
import sqlite3
import time

import pytest
from conftest import example, ready_made
from hard import hard
from tidewise_board.core import days, race
from tidewise_board.core.differences import differences
from tidewise_board.core.lanes import Stay, lanes
from tidewise_board.core.loading import loading, to_load, when
from tidewise_board.core.pins import pinned
from tidewise_board.core.program import Program
from tidewise_board.core.reading import Verdict, windows_of
from tidewise_board.core.runs import ENDED, Inputs, Runs
from tidewise_board.core.shown import seal, shown, table_of, worth
from tidewise_board.core.store import Store


def inputs(store: Store, program: Program, files: list[tuple[str, str]]) -> Inputs:
    made = days.make(days.dropped(files), program)
    assert made.good and made.instance and made.tides
    store.insert("INSERT INTO day(name) VALUES ('a day')")
    return Inputs(store.put(made.instance.encode()), store.put(made.tides.encode()))


@pytest.fixture
def calls(store: Store, program: Program) -> Inputs:
    return inputs(store, program, example("calls.csv", "calls-port.json", "waters-bar.txt", "waters-berth.txt"))


@pytest.fixture
def long(store: Store, program: Program) -> Inputs:
    return inputs(store, program, hard())


def planned(runs: Runs, day: Inputs) -> int:
    number = runs.begin(1, day, "plan", "day", 20000)
    assert runs.wait(number)["state"] == "done"
    return number


def over(runs: Runs, leader: int, patience: float = 120) -> None:
    end = time.monotonic() + patience
    while leader in runs.races and time.monotonic() < end:
        time.sleep(0.02)
    assert leader not in runs.races


def test_a_slot_s_draft_is_that_of_windows_and_of_the_table(runs: Runs, program: Program, calls: Inputs) -> None:
    stretches = windows_of(program.ask("windows", "port", *calls.words()).output)
    rows = {int(row["ship"]): row for row in table_of(runs, runs.get(planned(runs, calls)))}
    for ship, own in enumerate(stretches):
        at = {one.slot: one for one in loading(program, calls, ship)}
        for one in own:
            found = [at[slot] for slot in range(one.first, one.last + 1)]
            if one.kind == "from":
                least, greatest = (int(word) for word in one.said.split(" ")[7:9])
                drafts = [here.draft for here in found if here.draft is not None]
                assert (min(drafts), max(drafts)) == (least, greatest) and len(drafts) == len(found)
            else:
                assert all(here.draft is None and here.why for here in found)
        sails = at[int(rows[ship]["slot"])]
        assert (str(sails.draft), str(sails.allowed)) == (rows[ship]["draft cm"], rows[ship]["allowed draft cm"])


def test_when_a_ship_may_sail_with_a_draft(program: Program, calls: Inputs) -> None:
    """The program's answer for a draft is each slot in which it lets her load as much."""
    at = loading(program, calls, 3)
    for draft in (1080, 1400, 1580, 1637, 1638, 1690):
        slots = [slot for first, last in to_load(program, calls, 3, draft) for slot in range(first, last + 1)]
        assert slots == [one.slot for one in at if one.draft is not None and one.draft >= draft]
    for draft in (1079, 1691):
        with pytest.raises(ValueError, match="10.80 to 16.90 m"):
            when(program, calls, 3, draft)
    with pytest.raises(KeyError):
        loading(program, calls, 4)


def test_lanes_of_a_day(store: Store, runs: Runs, program: Program, calls: Inputs) -> None:
    """A hull that comes in and sails again has one stay; what the day's sheet names a berth is the lane."""
    table = table_of(runs, runs.get(planned(runs, calls)))
    slot = {row["name"]: int(row["slot"]) for row in table}
    (lane,) = lanes(program, calls, table, {})
    assert lane.stays == [Stay("Grace", slot["Grace in"] + 4, slot["Grace out"], 1, slot["Grace out"])] and lane.clear is None
    named = lanes(program, calls, table, {1: "Quay 2", 0: "Quay 2", 2: "Quay 1"})
    assert [(one.name, [stay.name for stay in one.stays]) for one in named] == [("Quay 2", ["Grace"]), ("Quay 1", ["Hector"])]
    assert lanes(program, calls, [], {})[0].stays == []


def test_a_short_day_is_no_race(runs: Runs, contested: Inputs, monkeypatch: pytest.MonkeyPatch) -> None:
    monkeypatch.setattr(race, "HEAD_START", 60.0)
    leader = race.begin(runs, 1, contested, "day", 20000)
    over(runs, leader)
    assert race.members(runs, leader) == [leader] and race.winner(runs, leader) == leader
    assert runs.get(leader)["verdict"] == "optimal 457229.0"


def test_a_race_ends_with_one_plan(runs: Runs, store: Store, long: Inputs) -> None:
    leader = race.begin(runs, 1, long, "hard", 20000)
    end = time.monotonic() + 60
    while len([one for one in race.members(runs, leader) if one in runs.followers and runs.followers[one].best]) < 2 and time.monotonic() < end:
        time.sleep(0.05)
    many = race.members(runs, leader)
    assert len(many) > 1 and [runs.get(one)["seed"] for one in many] == [None, *range(1, len(many))]
    now = race.now(runs, many)
    assert now is not None and now[2] is not None
    race.stop(runs, leader)
    over(runs, leader)
    assert all(runs.get(one)["state"] in ENDED for one in many)
    assert len(store.rows("SELECT id FROM run WHERE kind = 'plan'")) == 1
    best = max(verdict.cargo or 0 for one in many if (verdict := runs.verdict(one)) is not None)
    chosen = runs.verdict(race.winner(runs, leader))
    assert chosen is not None and chosen.cargo == best


def test_the_first_to_close_a_day_ends_the_others(runs: Runs, store: Store, contested: Inputs, long: Inputs) -> None:
    """One member's day is another one here, which closes at once: the rest is stopped, and it is the plan."""
    leader = runs.begin(1, long, "plan", "hard", 20000)
    runs.races.add(leader)
    quick = dict(runs.get(leader)) | {"instance": contested.instance, "tides": contested.tides}
    winner = runs.begin_seeded(quick, 1)  # type: ignore[arg-type]
    race._follow(runs, leader)  # pylint: disable=protected-access
    assert runs.get(leader)["state"] == "stopped" and runs.get(winner)["verdict"].startswith("optimal ")
    assert race.settle(runs, leader) == winner and race.winner(runs, leader) == winner
    assert [row["id"] for row in store.rows("SELECT id FROM run WHERE kind = 'plan'")] == [winner]
    runs.races.discard(leader)


def test_pins_race_too(runs: Runs, store: Store, long: Inputs) -> None:
    """The run that stands is a pin of the same plan, with the same ships held; the second checker, which takes no repair, isn't asked."""
    first = runs.begin(1, long, "plan", "hard", 20000)
    end = time.monotonic() + 60
    while not ((found := runs.followers.get(first)) and found.best) and time.monotonic() < end:
        time.sleep(0.05)
    runs.stop(first)
    runs.wait(first)
    plan = store.put(pinned(runs.timetable(first) or [], {0: 25}, None).encode())
    pin = race.join(runs, lambda: runs.begin(1, Inputs(long.instance, long.tides, plan), "pin", "held", 100000, None, first, {0: 25}))
    while len(race.members(runs, pin)) < 2 and pin in runs.races and time.monotonic() < end:
        time.sleep(0.05)
    race.stop(runs, pin)
    over(runs, pin)
    standing = runs.get(race.winner(runs, pin))
    assert standing["kind"] == "pin" and (standing["base"], standing["plan"], json.loads(standing["pins"])) == (first, plan, {"0": 25})
    others = [runs.get(one) for one in race.members(runs, pin) if one != standing["id"]]
    assert others and all(one["kind"] == "race" and one["plan"] == plan and one["second"] is None for one in others)


def test_a_race_survives_its_board(store: Store, program: Program, long: Inputs) -> None:
    """A board that ends in a race leaves its searches to the next one, which verifies and settles them."""
    first = Runs(store, program)
    leader = race.begin(first, 1, long, "hard", 20000)
    end = time.monotonic() + 60
    while len(first.followers) < 2 and time.monotonic() < end:
        time.sleep(0.05)
    many = race.members(first, leader)
    first.close()
    with store.change() as db:
        db.execute("UPDATE run SET state = 'interrupted' WHERE id = ?", (many[-1],))
    again = Runs(store, program)
    race.take_up(again)
    assert all(again.get(one)["state"] in ENDED for one in many)
    assert len(store.rows("SELECT id FROM run WHERE kind = 'plan'")) == 1
    again.close()


def test_a_store_of_before_is_given_the_new_columns(store: Store) -> None:
    path = os.path.join(store.folder, "board.db")
    with sqlite3.connect(path) as db:
        db.execute("ALTER TABLE run DROP COLUMN seed")
        db.execute("ALTER TABLE run DROP COLUMN race")
    Store(store.folder)
    with sqlite3.connect(path) as db:
        assert {"seed", "race"} <= {row[1] for row in db.execute("PRAGMA table_info(run)")}


def test_the_words_of_a_difference() -> None:
    """A number is said to be proved where a proved program closed both; limits and an unproved build never are."""
    best, less = Verdict("optimal", 100, 100, None), Verdict("optimal", 90, 90, 2)
    unfinished, nothing = Verdict("unfinished", 80, 95, None), Verdict("infeasible", None, None, None)
    assert worth(best, less, True) == "costs 1.0 t, proved" and worth(best, less, False) == "costs 1.0 t"
    assert worth(best, nothing, True) == "nothing fits, proved" and worth(best, best, True) == "costs nothing, proved"
    assert "proved" not in worth(best, unfinished, True) and "proved" not in worth(unfinished, nothing, True)
    assert worth(None, less, True) == "" and worth(best, None, True) == ""
    assert seal(True, best, less) == "proved" and seal(True, best, unfinished) == seal(False, best) == seal(True, best, None) == ""


def test_what_a_page_says_of_an_unproved_build(runs: Runs, contested: Inputs) -> None:
    said = shown(runs, planned(runs, contested))
    assert said["seal"] == "" and not said["proved"] and said["table"][0]["time"] == "03:15"


def test_differences_of_two_days() -> None:
    one = json.loads(example("contested.json")[0][1])
    other = json.loads(json.dumps(one))
    assert differences(json.dumps(one), json.dumps(other)) == []
    other["fleet"], other["waypoints"][1]["depth"] = 8, 1410
    other["ships"].append({**other["ships"][0], "name": "Kestrel"})
    del other["ships"][2]
    assert differences(json.dumps(one), json.dumps(other)) == [
        "waypoint Bar depth: 1400, then 1410", "fleet: 9, then 8", "ships: Curlew only in the first", "ships: Kestrel only in the second"]
    many = json.loads(json.dumps(one))
    for place, ship in enumerate(many["ships"]):
        ship.update(tpc=place, light=place, deep=2000, tugs=9, job=9, latest=5, earliest=1)
    told = differences(json.dumps(one), json.dumps(many))
    assert len(told) == 61 and told[-1] == "and 10 more"


def test_ships_keep_their_route_and_their_pairs(program: Program) -> None:
    """Removing, adding and moving rows of a sheet over a whole instance."""
    base = json.loads(example("day.json")[0][1])
    source = days.dropped(example("day.json", "day-tides.csv"))
    rows = [source.rows[place] for place in (9, 3, 0)] + [["New", *source.rows[0][1:]]]
    made = json.loads(days.whole_instance(days.Source(**{**vars(source), "rows": rows, "origins": [9, 3, 0, -1]})))
    assert [ship["name"] for ship in made["ships"]] == ["Jacana", "Dunlin", "Albatross", "New"]
    assert made["ships"][0]["route"] == base["ships"][9]["route"] and made["ships"][3]["route"] == base["ships"][0]["route"]
    # Dunlin and Jacana share a berth; the other pairs have lost a ship.
    assert made["berths"] == [{**base["berths"][2], "outgoing": 1, "incoming": 0}]
    assert days.make(days.Source(**{**vars(source), "rows": rows, "origins": [9, 3, 0, -1]}), program).good
    assert json.loads(days.whole_instance(source))["berths"] == base["berths"]
    for origins in ([0], ["0"] * 10, [True] * 10):
        with pytest.raises(ValueError):
            days.source_of({**json.loads(source.bytes()), "origins": origins})


def test_a_line_up_with_a_row_for_each_call(store: Store, program: Program, runs: Runs) -> None:
    """The port that `tw init` begins with, dropped on the page: the same instance and tide as the command's, and berths by their names."""
    source = days.dropped(ready_made("start"))
    assert source.columns[:3] == ["name", "class", "arrives"] and [row[0] for row in source.rows][:2] == ["Albatross", "Bittern"]
    day = inputs(store, program, ready_made("start"))
    names = [ship["name"] for ship in json.loads(store.get(day.instance))["ships"]]
    table = table_of(runs, runs.get(planned(runs, day)))
    named = days.berths_of(source)
    assert {names[ship]: berth for ship, berth in named.items()}["Bittern in"] == "East"
    found = {lane.name: [stay.name for stay in lane.stays] for lane in lanes(program, day, table, named)}
    assert set(found) == {"East", "West"} and found["East"][:2] == ["Albatross out", "Bittern"]


def test_a_fault_of_a_call_stands_at_its_row(program: Program) -> None:
    """Also where the program refuses the second movement of a row, and where a head has another name."""
    source = days.dropped(ready_made("start"))
    deep, light = source.columns.index("draft m"), source.columns.index("light m")
    source.rows[1][deep] = "x"
    (told,) = [one for one in days.make(source, program).told if not one.hint]
    assert (told.row, told.column) == (1, "draft m") and "no number of metres" in told.said
    source.rows[1][deep], source.rows[1][light] = "16.505", "9.00"
    hints = [one for one in days.make(source, program).told if one.hint and one.where == "ships"]
    assert any((one.row, one.column) == (1, "draft m") and "rounded" in one.said for one in hints)


def test_the_list_that_a_port_names(program: Program) -> None:
    files = dict(ready_made("start"))
    port = json.loads(files["port.json"])
    port["waypoints"][0]["tide"], port["dates"] = "Bar.txt+4m-3cm", "ymd"
    source = days.dropped([("port.json", json.dumps(port)), ("ships.csv", files["ships.csv"]), ("Bar.txt", files["Bar.txt"])])
    assert [(one["waypoint"], one["differences"], one["text"] == files["Bar.txt"]) for one in source.lists] == [
        ("Berth", "+4m-3cm", True), ("Bar", "", True)]
    assert days.make(source, program).good
