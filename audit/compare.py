#!/usr/bin/env python3
"""Holds audit/check.py against a built program: of the same files both must print the same line and end with the same status.

usage: audit/compare.py PROGRAM [--changed N] [--drawn N] [--seed N] [--keep FOLDER]

First come the cases of `verify` and `check` in crates/tidewise_cases/data, beside what they want, and the certificates that stand in
examples/ and crates/tidewise/data. Then N of these are changed, or the files that they are about, in lines, words or bytes. Then N
small problems are drawn, each with a certificate by the program itself, which is tried as it is, changed, and with drawn lines at its
end. The same seed gives the same files. What differs is printed, and kept in FOLDER if one is named.
"""
import argparse
import ast
import collections
import json
import os
import random
import re
import shutil
import subprocess
import sys
import tempfile

sys.dont_write_bytecode = True
import check

TOP = os.path.dirname(os.path.dirname(os.path.abspath(__file__)))
DAY, DATA = ["examples/day.json", "examples/day-tides.csv"], "crates/tidewise/data/"
KEPT = [
    ["flat", DATA + "two", DATA + "c"],
    ["port", DATA + "day", DATA + "waters", DATA + "day.cert"],
    ["port", *DAY, "examples/day.cert"],
    ["port", "examples/worked.json", "examples/worked-tides.csv", "examples/worked.cert"],
    ["port", "examples/no-room.json", "examples/tide.csv", "examples/none.cert"],
    ["port", "examples/thirty.json", "examples/thirty-tides.csv", "examples/thirty.cert"],
    ["port", "examples/contested.json", DAY[1], "examples/contested.cert"],
    # These are certificates of a plan's repair and of a clash's part, so of the port alone they are refused.
    ["port", *DAY, "examples/repair.cert"],
    ["port", "examples/no-room.json", "examples/tide.csv", "examples/clash.cert"],
]
ODD = ["", "0", "1", "00", "-0", "-1", "2.0", "4294967295", "4294967296", "9" * 19, "1" + "0" * 18, "\t", "x", "-", ":", ";", "end"]


class Comparison:
    def __init__(self, program, keep):
        self.program, self.keep, self.reports, self.differences = program, keep, collections.Counter(), 0

    def hold(self, words):
        """Tries both on the same words of `verify`."""
        done = subprocess.run([self.program, "verify", *words], stdout=subprocess.PIPE, check=False)
        said, status = check.run(words)
        shown = done.stdout.decode("ascii").removesuffix("\n"), done.returncode
        # Where in the instance a fault is, only the program says.
        if re.fullmatch("bad instance .*", shown[0]):
            shown = "bad instance", shown[1]
        self.count(words, shown, (said, status))

    def flatten(self, files):
        """Tries both on the flat problem of a port."""
        text = subprocess.run([self.program, "flatten", *files], stdout=subprocess.PIPE, check=True).stdout
        told, own = check.flat_problem(text), check.problem_of("port", files)
        self.count(["flatten", *files], ("flattened", told.slots, told.values, told.rules), ("flattened", own.slots, own.values, own.rules))

    def count(self, words, shown, said):
        self.reports[re.sub("[0-9]+(?:[.][0-9])?", "N", said[0])] += 1
        if shown != said:
            self.differences += 1
            print(f"{' '.join(words)}: the program prints {shown}, and check.py {said}")
            if self.keep:
                folder = os.path.join(self.keep, str(self.differences))
                os.makedirs(folder, exist_ok=True)
                for name in words[1:]:
                    shutil.copy(name, folder)


def changed(r, text):
    """The same text with a change, or with a few."""
    for _ in range(r.choice([1, 1, 1, 2, 3])):
        how, lines = r.randrange(11), text.split("\n")
        place, other = r.randrange(len(lines)), r.randrange(len(lines))
        words = re.split("([ :;,.])", lines[place])
        word = r.choice([n for n, word in enumerate(words) if word.isdigit()] or [0])
        if how == 0:
            del lines[place]
        elif how == 1:
            lines.insert(place, lines[other])
        elif how == 2:
            lines[place], lines[other] = lines[other], lines[place]
        elif how == 3:
            lines = lines[:place] + [""] * r.randrange(2)
        elif how == 4:
            lines[0] = re.sub("cert .", "cert " + r.choice("0123"), lines[0])
        elif how == 5:
            at = r.randrange(len(text) + 1)
            lines = [text[:at] + r.choice(["", "\n", " ", "7", chr(r.randrange(256))]) + text[at + r.randrange(2):]]
        elif how == 6:
            words[r.randrange(len(words))] = r.choice(ODD)
        elif how == 7 and lines[place]:
            at = r.randrange(len(lines[place]))
            words = [lines[place][:at], r.choice("abfnegolptduhy;-"), lines[place][at + 1:]]
        elif words[word].isdigit():
            words[word] = str(max(0, int(words[word]) + r.choice([-9, -2, -1, -1, 1, 1, 2, 9])))
        if how > 5:
            lines[place] = "".join(words)
        text = "\n".join(lines)
    return text


def number_near(r, end):
    """A number below the end, most times."""
    return r.randrange(end) if end and r.randrange(40) else r.choice([end, end + 1])


def literals_drawn(r, problem):
    chosen = []
    for v in range(problem.ships):
        for letter in "ab":
            if r.randrange(problem.ships + 2) < 2 and problem.slots > 1:
                chosen.append(((0, v, letter), f"{letter}{v}.{1 + number_near(r, problem.slots - 1)}"))
    for v in range(problem.ships):
        for w in range(v + 1, problem.ships):
            if r.randrange(2 * problem.ships) == 0:
                chosen.append(((1, v, w), f"{r.choice('fn')}{v}.{w}"))
    if r.randrange(20) == 0:
        r.shuffle(chosen)
    return "".join(" " + literal for _, literal in chosen)


def lines_drawn(r, problem, lines):
    """The lines, and then drawn ones: each holds, as check.py says, but perhaps the last one."""
    checker, lines, letters = check.Checker(problem), list(lines), check.VERSIONS[b"cert 3\n"]
    for line in lines:
        checker.step(*check.line_read(problem, letters, line + "\n"))
    for _ in range(r.randrange(1, 40)):
        if checker.ended and r.randrange(4):
            break
        lines.append(line_drawn(r, problem, lines, checker))
        try:
            checker.step(*check.line_read(problem, letters, lines[-1] + "\n"))
        except check.Ends:
            if r.randrange(8) == 0:
                break
            lines.pop()
    return lines


def line_drawn(r, problem, lines, checker):
    """A line of some kind, which has its form and is about this problem, after these lines."""
    ships, slots, restrictions = problem.ships, problem.slots, problem.ships + len(problem.rules)
    clauses, tolls, priced = (sum(line[0] in letters for line in lines) for letters in ("eoglp", "nu", "y"))
    literals, letter = literals_drawn(r, problem), r.choice("tteeeeeogglldnnuu" + "yyy" * (tolls > 0) + "ppppbb" * (priced > 0) + "ypb")
    if letter == "t":
        return "t " + " ".join(str(number_near(r, slots)) for _ in range(ships))
    if letter == "e":
        return f"e {number_near(r, restrictions)}{literals}"
    if letter == "o":
        return "o " + " ".join(map(str, sorted(number_near(r, ships) for _ in range(3)))) + literals
    if letter in "gp":
        return letter + literals
    if letter == "l":
        return f"l{literals} ;" + "".join(f" {1 + number_near(r, clauses)}" for _ in range(r.randrange(5)))
    if letter == "d":
        return "d " + " ".join(map(str, sorted({1 + number_near(r, clauses) for _ in range(r.randrange(1, 4))})))
    if letter == "n":
        some = sorted(r.sample(range(ships), r.randrange(1, min(ships, 4) + 1)))
        lows = [number_near(r, slots) for _ in some]
        return "n " + " ".join(f"{ship}:{low}:{low + r.randrange(3)}" for ship, low in zip(some, lows))
    if letter == "u":
        tugs = [n for n, rule in enumerate(problem.rules, ships) if rule[0] == "u"]
        rule = r.choice(tugs) if tugs and r.randrange(20) else number_near(r, restrictions)
        jobs = problem.rules[rule - ships][2] if rule in tugs and r.randrange(20) else [0] * r.randrange(4)
        weights = [r.randrange(4) for _ in jobs]
        return f"u {rule} {number_near(r, slots)} {r.randrange(sum(weights) + 2)}" + "".join(f" {weight}" for weight in weights)
    if letter == "y":
        some = sorted({1 + number_near(r, tolls) for _ in range(r.randrange(4))})
        return f"y {r.choice([0, 1, 1, 3])}" + "".join(f" {toll}:{r.randrange(60)}" for toll in some)
    if not checker.scale or r.randrange(4) == 0:
        return f"b {r.randrange(200)}"
    # Near the least bound that the prices in force show.
    gains = [max((gain for gain in row if gain is not None), default=0) for row in checker.earned]
    return f"b {max(0, (checker.allowance + sum(gains)) // checker.scale + r.choice([-1, -1, 0, 0, 0, 1, 9]))}"


def flat_drawn(r):
    ships, slots, stay, hours = r.randrange(1, 6), r.choice([1, 2, 3, 4, 6, 9]), r.randrange(2), r.randrange(3) == 0
    lines = [f"size {ships} {slots}"]
    for _ in range(ships):
        row = ["-" if r.randrange(5) == 0 else str(r.randrange(30)) for _ in range(slots)]
        lines.append(" ".join(["v", *row, *[r.choice("yn")] * stay]))
    for _ in range(r.randrange(ships * 2 + 1)):
        v, w, kind = r.randrange(ships), r.randrange(ships), r.choice("ppppsu")
        if kind == "p" and v < w:
            holes = [(low, low + r.randrange(3)) for low in (r.randrange(-slots, slots) for _ in range(r.choice([1, 1, 2, 3])))]
            lines.append(f"p {v} {w} " + " ".join(f"{low}:{high}" for low, high in holes))
        elif kind == "s" and v != w:
            lines.append(f"s {v} {w} {r.randrange(slots + 2)}")
        elif kind == "u":
            jobs = [f"{ship}:{r.randrange(1, 4)}:{r.randrange(1, slots + 2)}" for ship in range(ships) if r.randrange(4)]
            steps = [f"{first}:{r.randrange(7)}" for first in range(1, slots) if hours and r.randrange(3) == 0]
            fleet = r.choice([1000, 1001, 2560]) if hours and r.randrange(9) == 0 else r.randrange(0 if steps else 1, 7)
            lines += [" ".join([f"{'h' if steps else 'u'} {fleet}", *steps, *jobs])] * bool(jobs)
    hourly = any(line.startswith("h") or line.startswith("u") and int(line.split(" ")[1]) > 1000 for line in lines)
    return "\n".join([f"flat {1 + stay + 2 * hourly}", *lines, "end", ""])


def closed_drawn(r, slots):
    """The closed slots of something, mostly none, below this number."""
    starts = [r.randrange(slots) for _ in range(r.choice([0, 0, 0, 1, 1, 2]))]
    return {"closed": [{"from": start, "to": r.randrange(start, min(slots, start + 3))} for start in starts]}


def third_drawn(r, port):
    """The same port in the third version: with a start, heights, closed slots and ships after others."""
    ships = range(len(port["ships"]))
    after = [{"first": first, "second": second, "gap": r.randrange(port["slots"] + 1)} for first, second in
             ((r.choice(ships), r.choice(ships)) for _ in range(r.randrange(3))) if first != second]
    start = f"{r.choice(['2028-02-29', '2027-02-28', '1970-01-01', '9999-12-31'])} {r.randrange(24):02}:{r.randrange(60):02}"
    return {**port, "start": start, "heights": r.choice(["start", "least"]), **closed_drawn(r, port["slots"]), "after": after,
            "waypoints": [{**waypoint, **closed_drawn(r, port["slots"] + 5)} for waypoint in port["waypoints"]],
            "ships": [{**ship, **closed_drawn(r, port["slots"])} for ship in port["ships"]]}


def port_drawn(r):
    slots, classes, version, sections = r.randrange(1, 12), r.randrange(1, 3), r.randrange(1, 4), r.randrange(3)
    names = ["Berth", "Bar", "Sill"][:r.randrange(1, 4)]
    ships = []
    for place in range(r.randrange(1, 5)):
        ship = {"name": f"Ship {place}", "direction": r.choice(["outgoing", "incoming"]), "class": r.randrange(classes)}
        ship["earliest"] = r.choice([0, 0, r.randrange(slots)])
        ship["latest"] = r.choice([slots - 1, r.randrange(ship["earliest"], slots)])
        ship |= {"tpc": r.randrange(5), "light": r.randrange(10), "deep": r.randrange(10, 20), "tugs": r.randrange(4), "job": r.randrange(1, 5)}
        ship["route"] = [{"waypoint": r.randrange(len(names)), "offset": r.randrange(4), "clearance": r.randrange(4)}
                         for _ in range(r.randrange(1, 4))]
        ship["channel"] = [{"section": section, "enter": enter, "leave": enter + r.randrange(1, 4)}
                           for section in range(sections) if r.randrange(3) for enter in [r.randrange(4)]]
        if version > 1:
            ship["may_stay"] = r.randrange(3) == 0
        ships.append(ship)
    sides = [[place for place, ship in enumerate(ships) if ship["direction"] == side] for side in ("outgoing", "incoming")]
    berths = [{"outgoing": r.choice(sides[0]), "incoming": r.choice(sides[1]), "clear": r.randrange(1, 4)}
              for _ in range(r.randrange(3)) if all(sides)]
    port = {"version": version, "slots": slots, "slot_minutes": 15, "waypoints": [{"name": name, "depth": r.randrange(20)} for name in names],
            "sections": [f"Cut {n}" for n in range(sections)], "separation": [[r.randrange(1, 4) for _ in range(classes)] for _ in range(classes)],
            "turnaround": {"outgoing": r.randrange(3), "incoming": r.randrange(3)}, "fleet": r.randrange(1, 8), "ships": ships, "berths": berths}
    port = third_drawn(r, port) if version == 3 else port
    kind, end = r.choice(["slot", "water"]), slots + r.randrange(7)
    times = list(range(end)) if kind == "slot" else [0, *sorted(r.sample(range(1, end + 1), r.randrange(min(end, 4))))]
    rows = [[kind, *names], *([str(time), *[str(r.randrange(-9, 20)) for _ in names]] for time in times)]
    return json.dumps(port, indent=r.choice([None, 1])), "\n".join(map(",".join, rows)) + "\n"


def changes(comparison, r, count, folder):
    """Kept certificates, or the files that they are about, with changes."""
    for _ in range(count):
        kind, *names = r.choice(KEPT)
        one = r.choice([len(names) - 1] * 4 + list(range(len(names))))
        with open(names[one], encoding="latin-1", newline="") as file:
            text = changed(r, file.read())
        names[one] = os.path.join(folder, "changed")
        written(names[one], text)
        comparison.hold([kind, *names])


def written(name, text):
    with open(name, "w", encoding="latin-1", newline="") as file:
        file.write(text)


def cases(comparison, folder):
    """The cases in crates/tidewise_cases/data: crates/tidewise_cases/src/main.rt has their form."""
    for topic in sorted(os.listdir("crates/tidewise_cases/data")):
        with open(f"crates/tidewise_cases/data/{topic}", encoding="utf-8") as file:
            blocks = re.split("^case .*\n", file.read(), flags=re.MULTILINE)[1:]
        for block in blocks:
            if not re.search("^(?:fail|each|calm|room)", block, re.MULTILINE):
                case(comparison, folder, block)


def case(comparison, folder, block):
    """The runs of `verify` and `check` of a case, over the files that stand before them."""
    files, runs = {}, re.split("^(file .*|run .*|then .*)\n", block, flags=re.MULTILINE)[1:]
    for head, body in zip(runs[::2], runs[1::2]):
        kind, *words = head.split(" ")
        if kind == "file":
            files[words[0]] = "".join(map(text_of, body.split("\n")))
        elif kind == "run" and re.fullmatch(r"(?:check|verify) (?:flat \S+ \S+|port \S+ \S+ \S+)", head[4:]) and set(words[2:]) <= set(files):
            wanted = re.search("^[|](.*)\nstatus ([0-9])", body, re.MULTILINE)
            # `check` doesn't take the third version.
            if wanted and (words[0] == "verify" or not files[words[-1]].startswith("cert 3")):
                for name, text in files.items():
                    written(os.path.join(folder, name), text)
                shown = re.sub("^bad instance .*", "bad instance", wanted[1]), int(wanted[2])
                words = [words[1], *(os.path.join(folder, name) for name in words[2:])]
                comparison.count(words, shown, check.run(words))


def text_of(line):
    """The bytes that a line of a case gives to a file."""
    if not (form := re.fullmatch("([|+]|([*-])([0-9]+) )(.*)", line)):
        return ""
    text = re.sub(r"\\([0-9a-fA-F]{2})", lambda code: chr(int(code[1], 16)), form[4])
    return (text + "\n" * (form[1] == "|" or form[2] == "*")) * int(form[3] or 1)


def draws(comparison, r, count, folder):
    """Drawn problems, each with a certificate of the program's and with others made from it."""
    names = [os.path.join(folder, name) for name in ("problem", "tides", "cert", "other")]
    for _ in range(count):
        kind = r.choice(["flat", "flat", "port"])
        files = names[:1] if kind == "flat" else names[:2]
        for name, text in zip(files, [flat_drawn(r)] if kind == "flat" else port_drawn(r)):
            written(name, text)
        command, budget = r.choice(["solve", "prove", "prove", "crew", "renew", "resume"]), r.choice(["1", "2", "5", "20", "200"])
        first = {"renew": "solve", "resume": r.choice(["solve", "prove"])}.get(command, command)
        order = ["".join(r.choices("gel", k=r.randrange(1, 4)))] if command == "crew" else []
        seed = [str(r.randrange(1 << 32))] if first == "prove" and r.randrange(2) else []
        quiet = {"stdout": subprocess.DEVNULL, "check": False}
        subprocess.run([comparison.program, first, kind, *files, *order, budget, names[2], *seed], **quiet)
        if command == "renew":
            subprocess.run([comparison.program, "renew", kind, *files, names[2], names[3]], **quiet)
            shutil.copy(names[3], names[2])
        elif command == "resume":
            with open(names[2], encoding="ascii") as file:
                start = file.readlines()
            written(names[3], "".join(start[:r.randrange(1, len(start) + 1)]))
            subprocess.run([comparison.program, "resume", kind, *files, names[3], budget, names[2]], **quiet)
        comparison.hold([kind, *files, names[2]])
        if kind == "port":
            comparison.flatten(files)
        with open(names[2], encoding="latin-1", newline="") as file:
            text = file.read()
        problem = check.problem_of(kind, files)
        for _ in range(5):
            written(names[3], changed(r, text))
            comparison.hold([kind, *files, names[3]])
        one = r.randrange(len(files))
        with open(files[one], encoding="latin-1", newline="") as file:
            written(names[3], changed(r, file.read()))
        comparison.hold([kind, *files[:one], names[3], *files[one + 1:], names[2]])
        lines = text.split("\n")[:-1]
        for _ in range(5):
            some = lines_drawn(r, problem, lines[1:r.randrange(1, len(lines) + 1)])
            written(names[3], "\n".join(["cert 3", *some]) + "\n")
            comparison.hold([kind, *files, names[3]])


def quotes_missing():
    """What check.py has in double quotes, in its docstrings and comments, and docs/FORMATS.md hasn't."""
    with open("audit/check.py", encoding="utf-8") as file:
        source = file.read()
    with open("docs/FORMATS.md", encoding="utf-8") as file:
        formats = " ".join(file.read().replace("*", "").split()).lower()
    texts = [ast.get_docstring(node) or "" for node in ast.walk(ast.parse(source)) if isinstance(node, (ast.FunctionDef, ast.ClassDef))]
    texts += [re.sub("^ *# ", "", comment, flags=re.M) for comment in re.findall("(?:^ *# .*\n)+|  # .*", source, re.M)]
    quotes = [part for text in texts for quote in re.findall('"([^"]*)"', " ".join(text.split())) for part in quote.split(" .. ")]
    return [part for part in quotes if part.lower().strip(" ,;.") not in formats]


def main():
    parser = argparse.ArgumentParser(description=__doc__, formatter_class=argparse.RawDescriptionHelpFormatter)
    parser.add_argument("program")
    for name, value in (("--changed", 100), ("--drawn", 0), ("--seed", 1)):
        parser.add_argument(name, type=int, default=value)
    parser.add_argument("--keep")
    given = parser.parse_args()
    comparison, r = Comparison(os.path.abspath(given.program), given.keep and os.path.abspath(given.keep)), random.Random(given.seed)
    os.chdir(TOP)
    missing = quotes_missing()
    print("".join(f"check.py cites what docs/FORMATS.md hasn't: {quote}\n" for quote in missing), end="")
    with tempfile.TemporaryDirectory() as folder:
        cases(comparison, folder)
        for words in KEPT:
            comparison.hold(words)
            if words[0] == "port":
                comparison.flatten(words[1:3])
        changes(comparison, r, given.changed, folder)
        draws(comparison, r, given.drawn, folder)
    for report, times in sorted(comparison.reports.items()):
        print(f"{times:8} {report}")
    print(f"{sum(comparison.reports.values())} compared, {comparison.differences} different")
    sys.exit(bool(missing) or comparison.differences > 0)


if __name__ == "__main__":
    main()
