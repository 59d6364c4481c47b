#!/usr/bin/env python3
"""Draws every picture that the repository keeps a second time, by the other scripts of this folder, and compares.

usage: audit/pictures.py [--write PROGRAM] [--drawn N PROGRAM] [--seed N]

The pictures are those that the cases of crates/tidewise_cases/data want of files that stand there, and the kept ones of docs/ and
examples/. With --write all of them are first written anew, as a built program draws them: after a change of the rules. Then every
case is compared, also one whose certificate the program makes. With --drawn the program draws N random ports and flat problems,
and plans and clashes of them, too; the same seed gives the same ones. The last line says how many pictures were compared, and how many
differ; the status is 1 if one does.
"""

import argparse
import json
import os
import random
import re
import subprocess
import sys
import tempfile

sys.dont_write_bytecode = True
import chart
import chart_clash
import chart_repair
from compare import flat_drawn, port_drawn, text_of, written

TOP = os.path.dirname(os.path.dirname(os.path.abspath(__file__)))
CASES = os.path.join(TOP, "crates/tidewise_cases/data")
# Each kept picture: the folder of its files, and the words after `chart`.
KEPT = {
    "docs/day.svg": ("crates/tidewise/data", "port day waters day.cert"),
    "examples/day.svg": ("examples", "port day.json day-tides.csv day.cert"),
    "examples/contested.svg": ("examples", "port contested.json day-tides.csv contested.cert"),
    "examples/thirty.svg": ("examples", "port thirty.json thirty-tides.csv thirty.cert"),
    "examples/calls.svg": ("examples", "port calls.json day-tides.csv calls.cert"),
    "examples/none.svg": ("examples", "port no-room.json tide.csv none.cert"),
    "examples/clash.svg": ("examples", "clash port no-room.json tide.csv why.txt clash.cert"),
    "examples/late.svg": ("examples", "repair port late.json day-tides.csv late-plan.txt late.cert"),
}
# The script for a form whose words begin so; the others are those of chart.py.
SCRIPTS = {"clash": chart_clash, "repair": chart_repair}


def names_of(words):
    """The files that a form of `chart` names."""
    return words[2 if words[0] in SCRIPTS else 1:]


def drawn(words, read):
    """The picture that `chart` prints after these words, over files that `read` gives, a character for each byte."""
    by, kind = (SCRIPTS[words[0]], words[1]) if words[0] in SCRIPTS else (chart, words[0])
    return by.picture(kind, *map(read, names_of(words))).encode().decode("latin-1")


def kept(name):
    with open(os.path.join(TOP, name), encoding="latin-1", newline="") as file:
        return file.read()


def printed(program, words, folder):
    """What the program prints in this folder."""
    done = subprocess.run([program, *words], cwd=folder, stdout=subprocess.PIPE, check=False)
    return done.stdout.decode("latin-1")


# ---------------------------------------------------------------- cases


def blocks_of(topic):
    """The text before the first case, and then each case's head and what follows it."""
    return re.split("^(case .*\n)", kept(os.path.join(CASES, topic)), flags=re.MULTILINE)


def pieces_of(block):
    """What stands before the first file or run of a case, and then each of their heads and its lines."""
    return re.split("^((?:file|run|then)(?: .*)?\n)", block, flags=re.MULTILINE)


def is_compared(before):
    """Whether a case wants its pictures whole, from runs in which nothing fails."""
    return not re.search("^(?:fail|each|brief [0-9])", before, re.MULTILINE)


def of_block(block):
    """Of each run of a case that wants a picture: the words after `chart`, the files so far and the picture."""
    files, (before, *pieces) = {}, pieces_of(block)
    for head, body in zip(pieces[::2], pieces[1::2]):
        verb, *words = head.split()
        text = "".join(map(text_of, body.split("\n")))
        if verb == "file":
            files[words[0]] = text
        elif is_compared(before) and words[:1] == ["chart"] and text.startswith("<svg"):
            yield words[1:], files, text


def of_cases():
    """Of each run that wants a picture, over files that stand in its case: the case, words, files and picture."""
    for topic in sorted(os.listdir(CASES)):
        _, *blocks = blocks_of(topic)
        for head, block in zip(blocks[::2], blocks[1::2]):
            for words, files, text in of_block(block):
                if set(names_of(words)) <= set(files):
                    yield head[5:-1], words, files, text


# ---------------------------------------------------------------- what is written anew


def line_of_case(line):
    """A line of a picture as one that a case wants."""
    return "|" + re.sub(r"[^ -\[\]-~]", lambda byte: f"\\{ord(byte[0]):02x}", line) + "\n"


def rewritten(program, block, folder):
    """A case with the pictures that the program draws, and the words of those of its own certificates that a script draws otherwise."""
    before, *pieces = pieces_of(block)
    differing, files = [], set()
    for at in range(0, len(pieces), 2):
        verb, *words = pieces[at].split()
        if verb == "file":
            files.add(words[0])
            written(os.path.join(folder, words[0]), "".join(map(text_of, pieces[at + 1].split("\n"))))
        elif words and (said := printed(program, words, folder)).startswith("<svg"):
            kept_lines = re.sub("^[|+*-].*\n", "", pieces[at + 1], flags=re.MULTILINE)
            pieces[at + 1] = "".join(map(line_of_case, said.splitlines())) + kept_lines
            own = not set(names_of(words[1:])) <= files
            if own and drawn(words[1:], lambda name: kept(os.path.join(folder, name))) != said:
                differing.append(" ".join(words))
    return before + "".join(pieces), differing


def write(program):
    """Writes every picture anew. Gives the cases, with its words, of each of the program's own certificates that a script draws otherwise."""
    different = []
    for name, (folder, words) in KEPT.items():
        written(os.path.join(TOP, name), printed(program, ["chart", *words.split()], os.path.join(TOP, folder)))
    for topic in sorted(os.listdir(CASES)):
        text, *blocks = blocks_of(topic)
        for head, block in zip(blocks[::2], blocks[1::2]):
            if is_compared(pieces_of(block)[0]) and re.search("^(?:run|then) chart ", block, re.MULTILINE):
                with tempfile.TemporaryDirectory() as folder:
                    block, differing = rewritten(program, block, folder)
                different += [f"{head[5:-1]}: {words}" for words in differing]
            text += head + block
        written(os.path.join(CASES, topic), text)
    return different


# ---------------------------------------------------------------- random ones


def plan_drawn(r, ships, slots):
    """A plan of random slots, of which some ships have sailed."""
    lines = []
    for _ in range(ships):
        old = r.randrange(slots + 1)
        lines.append(f"k {old}" if r.randrange(4) == 0 else f"o {old} {r.randrange(slots)}")
    return "\n".join(["plan 1", *lines, "end", ""])


def name_drawn(r, letters, place):
    """A name of these letters, which ends with its place, so that no two are the same."""
    return "".join(r.choices(list(letters), k=r.choice([0, 7, 11, 19, 39]))).lstrip() + f"{place}"


def port_named(r):
    """A random port, every second one with names of any bytes and up to 40 of them, and its tide table."""
    instance, tides = port_drawn(r)
    if r.randrange(2):
        return instance, tides
    port, (head, rows) = json.loads(instance), tides.split("\n", 1)
    for place, ship in enumerate(port["ships"]):
        ship["name"] = name_drawn(r, map(chr, range(32, 127)), place)
    port["sections"] = [name_drawn(r, map(chr, range(32, 127)), place) for place, _ in enumerate(port["sections"])]
    for place, waypoint in enumerate(port["waypoints"]):
        # A tide table would put a name with a comma or a quote between quotes.
        waypoint["name"] = name_drawn(r, "MWilw.&<>' aK0", place)
    names = [waypoint["name"] for waypoint in port["waypoints"]]
    return json.dumps(port), ",".join([head.split(",")[0], *names]) + "\n" + rows


def random_pictures(program, count, seed, folder):
    """Of each picture that the program draws of a random problem: the words after `chart`, and what it drew."""
    r, files = random.Random(seed), ["problem", "tides"]
    for _ in range(count):
        kind = r.choice(["flat", "port", "port"])
        texts = [flat_drawn(r)] if kind == "flat" else port_named(r)
        named = files[:len(texts)]
        for name, text in zip(named, texts):
            written(os.path.join(folder, name), text)
        flat = texts[0] if kind == "flat" else printed(program, ["flatten", *named], folder)
        ships, slots = map(int, flat.split("\n")[1].split()[1:])
        written(os.path.join(folder, "plan"), plan_drawn(r, ships, slots))
        budget = r.choice(["1", "2", "20", "200"])
        printed(program, [r.choice(["solve", "prove"]), kind, *named, budget, "cert"], folder)
        printed(program, [*r.choice([[], ["prove"]]), "repair", kind, *named, "plan", budget, "repaired"], folder)
        written(os.path.join(folder, "clash"), printed(program, ["clash", kind, *named, budget, "clashed"], folder))
        for words in ([kind, *named, "cert"], ["repair", kind, *named, "plan", "repaired"], ["clash", kind, *named, "clash", "clashed"]):
            said = printed(program, ["chart", *words], folder)
            if said.startswith("<svg"):
                yield words, said


# ----------------------------------------------------------------


def main():
    parser = argparse.ArgumentParser(description=__doc__, formatter_class=argparse.RawDescriptionHelpFormatter)
    parser.add_argument("--write", metavar="PROGRAM")
    parser.add_argument("--drawn", nargs=2, metavar=("N", "PROGRAM"))
    parser.add_argument("--seed", type=int, default=1)
    given = parser.parse_args()
    different = write(os.path.abspath(given.write)) if given.write else []
    count = 0
    for case, words, files, wanted in of_cases():
        count += 1
        if drawn(words, files.get) != wanted:
            different.append(case)
    for name, (folder, words) in KEPT.items():
        count += 1
        if drawn(words.split(), lambda file: kept(os.path.join(folder, file))) != kept(name):
            different.append(name)
    if given.drawn:
        with tempfile.TemporaryDirectory() as folder:
            for words, said in random_pictures(os.path.abspath(given.drawn[1]), int(given.drawn[0]), given.seed, folder):
                count += 1
                if drawn(words, lambda name: kept(os.path.join(folder, name))) != said:
                    different.append(f"random picture, number {count}")
    print("".join(f"differs: {name}\n" for name in different), end="")
    print(f"{count} pictures, {len(different)} different")
    sys.exit(bool(different))


if __name__ == "__main__":
    main()
