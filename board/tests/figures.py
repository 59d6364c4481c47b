"""How long a planner waits: python3 tests/figures.py [TIMES]. Seconds, medians and the least of each; the machine's load stands beside."""
from __future__ import annotations

import os
import statistics
import sys

HERE = os.path.dirname(os.path.abspath(__file__))
sys.path[:0] = [HERE, os.path.dirname(HERE)]

from browser import Planner, Served  # noqa: E402


def main(times: int) -> None:
    board = Served()
    planner = Planner(board)
    found: dict[str, list[float]] = {"files to picture": [], "button to verdict": [], "files to verdict": [], "drag to verdict": []}
    try:
        for turn in range(times + 1):
            dropped = planner.drop("contested.json", "day-tides.csv")
            planned = planner.plan()
            # Another slot each time: the answer to a pin that was asked before is kept.
            dragged = planner.drag(0, 24 + turn, 96)
            # The first time the browser has nothing of the board yet.
            if turn:
                for name, spent in zip(found, (dropped, planned, dropped + planned, dragged)):
                    found[name].append(spent)
    finally:
        planner.close()
        board.close()
    print(f"contested.json, 10 ships, {times} times, load {os.getloadavg()[0]:.1f} on {os.cpu_count()} processors")
    for name, all_of_it in found.items():
        print(f"{name}: median {statistics.median(all_of_it):.2f}, least {min(all_of_it):.2f}")


if __name__ == "__main__":
    main(int(sys.argv[1]) if sys.argv[1:] else 5)
