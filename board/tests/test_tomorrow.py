"""A plan is rolled one day on."""
from __future__ import annotations

import io
import json
from typing import Any

from conftest import entered, example
from tidewise_board.core.days import dropped, source_of
from tidewise_board.core.facts import Port
from tidewise_board.core.happened import Event, NotBefore, Stays, TugsOut
from tidewise_board.core.runs import Runs
from tidewise_board.core.store import Store
from tidewise_board.core.tomorrow import rolled


def three_days() -> tuple[dict[str, Any], Port]:
    """The example of three days, and what the board reads of it."""
    made: dict[str, Any] = json.loads(example("thirty.json")[0][1])
    return made, Port([ship["name"] for ship in made["ships"]], [ship["direction"] for ship in made["ships"]], made["sections"], made["slots"],
                      made["slot_minutes"], None, made["fleet"], [point["name"] for point in made["waypoints"]])


def test_what_is_left_goes_on() -> None:
    made, port = three_days()
    slots = [5 + 8 * place for place in range(len(made["ships"]))]
    gone = [place for place, slot in enumerate(slots) if slot < 96]
    # The last ship of today is far enough from tomorrow.
    slots[gone[-1]] = 70
    events: list[Event] = [NotBefore(port.ships[-1], 250), TugsOut(2, 10, None)]
    found = rolled("port", json.dumps(made), port, slots, events, None)
    assert found.blocked == [] and found.source is not None
    new = json.loads(found.source.base)
    assert [ship["name"] for ship in new["ships"]] == port.ships[len(gone):] and new["fleet"] == made["fleet"] - 2
    last, old = new["ships"][-1], made["ships"][-1]
    assert last["earliest"] == 250 - 96 and last["latest"] == old["latest"] - 96
    pairs = {(new["ships"][pair["outgoing"]]["name"], new["ships"][pair["incoming"]]["name"]) for pair in new["berths"]}
    assert pairs == {(port.ships[pair["outgoing"]], port.ships[pair["incoming"]]) for pair in made["berths"]
                     if pair["outgoing"] not in gone and pair["incoming"] not in gone}
    assert "the tide table is today's: put in tomorrow's" in found.noted


def test_what_cant_be_taken_over() -> None:
    made, port = three_days()
    slots = [100 + place for place in range(len(made["ships"]))]
    slots[0] = 95
    found = rolled("port", json.dumps(made), port, slots, [TugsOut(1, 90, 100)], None)
    assert found.source is None
    assert any(line.startswith(f"{port.ships[0]} sails at 23:45 and is still under way") for line in found.blocked)
    assert any("waits for" in line for line in found.blocked) and any("no hours of tugs" in line for line in found.blocked)
    odd = Port(port.ships, port.directions, port.sections, port.slots, 7, None, port.fleet, port.waypoints)
    assert rolled("port", json.dumps(made), odd, slots, [], None).blocked == ["a day is no whole number of slots of 7 minutes"]


def test_a_start_and_printed_waters() -> None:
    source = dropped(example("calls.csv", "calls-port.json", "waters-bar.txt", "waters-berth.txt"))
    made = json.loads(example("calls.json")[0][1])
    port = Port([ship["name"] for ship in made["ships"]], [ship["direction"] for ship in made["ships"]], made["sections"], made["slots"],
                made["slot_minutes"], made["start"], made["fleet"], [point["name"] for point in made["waypoints"]])
    found = rolled("calls", json.dumps(made), port, [made["slots"]] * len(made["ships"]), [Stays(port.ships[0])], source)
    assert found.source is not None and found.source.lists == source.lists and "the tide as it was printed" in found.taken
    assert json.loads(found.source.base)["start"][11:] == made["start"][11:] and json.loads(found.source.base)["start"] > made["start"]


def test_a_day_is_rolled_on_the_board(client: Any, store: Store, runs: Runs) -> None:
    token = entered(client)
    files = [(io.BytesIO(text.encode()), name) for name, text in example("contested.json", "day-tides.csv")]
    day = client.post("/api/days", data={"files": files}, headers=token).json["day"]
    assert client.post(f"/api/day/{day}/roll", json={}, headers=token).status_code == 404
    run = client.post(f"/api/day/{day}/plan", json={"budget": 2000}, headers=token).json["run"]
    runs.wait(run)
    plan = client.post(f"/api/run/{run}/accept", json={}, headers=token).json["plan"]
    assert b"disabled" in client.get(f"/day/{day}/tomorrow").data
    assert "no ship of this plan is left" in client.post(f"/api/day/{day}/roll", json={}, headers=token).json["error"]
    client.post(f"/api/plan/{plan}/events", json={"kind": "stays", "ship": "Albatross", "now": 0}, headers=token)
    number = client.post(f"/api/day/{day}/roll", json={}, headers=token).json["day"]
    source = source_of(json.loads(store.get(store.row("SELECT draft FROM day WHERE id = ?", number)["draft"])))  # type: ignore[index]
    assert [row[0] for row in source.rows] == ["Albatross"] and client.get(f"/day/{number}").status_code == 200
