"""A port for a trial from its files on: three days of ten-minute slots, four waypoints, two berths, and seven ships that come, load and sail."""
from __future__ import annotations

import json
import math
import os
from datetime import datetime, timedelta

START = datetime(2027, 3, 14)
PORT = {
    "# trial": "ten-minute slots; the bar's tide as printed waters, the channel's as heights every ten minutes",
    "start": "2027-03-14 00:00", "slots": 432, "slot_minutes": 10, "heights": "start", "dates": "dmy",
    "closed": [],
    "waypoints": [{"name": "Berth", "depth": 1700, "tide": "Bar.txt+14m*1.02"}, {"name": "Basin", "depth": 1520, "tide": "Bar.txt+10m*1.01"},
                  {"name": "Channel", "depth": 1480}, {"name": "Bar", "depth": 1450}],
    "sections": ["Reach", "Narrows"], "classes": ["cape", "panamax"], "separation": [["0:30", "0:40"], ["0:20", "0:20"]],
    "turnaround": {"outgoing": "0:20", "incoming": "0:10"}, "fleet": 6,
    "berths": [{"name": "East", "clear": "1:00"}, {"name": "West", "clear": "1:00"}],
    "routes": [
        {"name": "out", "channel": [{"section": "Reach", "enter": "0:10", "leave": "0:40"}, {"section": "Narrows", "enter": "0:40", "leave": "1:10"}],
         "route": [{"waypoint": "Berth", "offset": "0:00", "clearance": 60}, {"waypoint": "Basin", "offset": "0:20", "clearance": 100},
                   {"waypoint": "Channel", "offset": "0:45", "clearance": 120}, {"waypoint": "Bar", "offset": "1:20", "clearance": 150}]},
        {"name": "in", "channel": [{"section": "Narrows", "enter": "0:10", "leave": "0:40"}, {"section": "Reach", "enter": "0:40", "leave": "1:10"}],
         "route": [{"waypoint": "Bar", "offset": "0:00", "clearance": 150}, {"waypoint": "Channel", "offset": "0:35", "clearance": 120},
                   {"waypoint": "Basin", "offset": "1:00", "clearance": 100}, {"waypoint": "Berth", "offset": "1:20", "clearance": 60}]}]}
LINE_UP = """Vessel;class;arrives;berth;loads;sails;tpc t;light m;draft m;arrival draft m;tugs in;tugs out;job;# agent
Albatross;cape;14.03.2027 00:30;East;10:00;;100;11,00;17,20;9,20;2;3;1:00;Meyer
Bürgermeister;panamax;14.03.2027 02:00;West;12:00;;70;10,00;16,50;8,90;1;2;1:00;Meyer
Corvo;cape;14.03.2027 12:00;East;14:00;;96;10,80;16,90;9,10;2;3;1:00;Olsen
Dunlin;panamax;14.03.2027 18:00;West;12:00;;68;9,80;16,40;8,80;1;2;1:00;Olsen
Egret;panamax;15.03.2027 08:00;East;10:00;;72;10,00;16,60;8,90;1;2;1:00;Meyer
Fulmar;cape;15.03.2027 10:00;West;11:00;;98;10,50;17,00;9,00;2;3;1:00;Olsen
Gannet;panamax;16.03.2027 00:00;East;9:00;;70;10,00;16,50;8,90;1;2;1:00;Meyer
"""
# From one water to the next, in minutes, and the heights at both, in centimetres.
STEPS, HIGH, LOW = (372, 373), (424, 412, 431, 405, 428, 410, 420), (58, 74, 62, 80, 66, 84, 70)


def waters() -> list[tuple[datetime, int]]:
    """High and low waters at the bar, from before the first day until after the last one."""
    found, time = [], START - timedelta(minutes=157)
    for number in range(14):
        found.append((time, (LOW if number % 2 else HIGH)[number // 2]))
        time += timedelta(minutes=STEPS[number % 2])
    return found


def heights() -> list[str]:
    """Heights in the channel every ten minutes, a line for each hour."""
    lines, time = [], START - timedelta(hours=2)
    while time < START + timedelta(days=3, hours=3):
        cells = []
        for step in range(6):
            moment = time + timedelta(minutes=10 * step)
            phase = 2 * math.pi * ((moment - START).total_seconds() / 60 + 150) / 745
            cells.append(f"{moment:%H:%M} {2.43 + 1.78 * math.cos(phase):.2f}".replace(".", ","))
        lines.append(f"{time:%d.%m.%Y} {' '.join(cells)}\n")
        time += timedelta(hours=1)
    return lines


def lay(folder: str) -> str:
    """Puts the trial's own files into a folder that `tw init` made."""
    for name in os.listdir(os.path.join(folder, "tides")):
        os.remove(os.path.join(folder, "tides", name))
    texts = {"port.json": json.dumps(PORT, indent=1), "ships.csv": LINE_UP, "tides/Channel.csv": "".join(heights()),
             "tides/Bar.txt": "".join(f"{time:%a %d.%m.%Y %H:%M} {height / 100:.2f}\n" for time, height in waters())}
    for name, text in texts.items():
        with open(os.path.join(folder, name), "w", encoding="utf-8") as file:
            file.write(text)
    return folder
