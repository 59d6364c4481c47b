#!/usr/bin/env python3
"""Holds a built program against trying: drawn flat problems with fleets by the hour, small enough to judge each list of slots.

usage: audit/tried.py PROGRAM [--drawn N] [--seed N] [--keep FOLDER]

Of each of N problems of versions 3 and 4 the lists of slots that its rules permit are found by trying all, by docs/FORMATS.md alone and
by nothing of the program's. They are held against the reports of `solve`, `prove`, `check` and `verify`, and of audit/check.py; against
the 0-1 points that keep the rows which `model` and `opb` print; against `repair` and `prove repair` of a drawn plan, with tugs withdrawn or
not; and against `clash` and `check clash`, where nothing is permitted or nothing meets the plan. The same seed gives the same problems.
What differs is printed, and kept in FOLDER if one is named; then the status is 1.
"""
import argparse
import collections
import itertools
import os
import random
import re
import shutil
import subprocess
import sys
import tempfile

sys.dont_write_bytecode = True
import check

BUDGET = "100000"


# ---------------------------------------------------------------- what a flat text means


def fleet_of(rule, slot):
    """The fleet of a slot: "that of the last step whose FROM is at most the slot, and the first fleet before all steps"."""
    _, first, steps, _ = rule
    found = first
    for begins, fleet in steps:
        if begins <= slot:
            found = fleet
    return found


class Day:
    """A flat problem: rules are ("p", V, W, holes), ("s", V, W, gap) and ("u", first fleet, steps, jobs)."""

    def __init__(self, slots, stay, values, rules):
        self.slots, self.stay, self.values, self.rules = slots, stay, values, rules

    def text(self):
        lines = [f"flat {4 if self.stay else 3}", f"size {len(self.values)} {self.slots}"]
        for row in self.values:
            words = ["-" if value is None else str(value) for value in row[:self.slots]]
            lines.append(" ".join(["v", *words, *["n" if value is None else "y" for value in row[self.slots:]]]))
        return "\n".join([*lines, *map(rule_text, self.rules), "end", ""])

    def holds(self, rule, table):
        """Whether a rule holds of a list of slots."""
        if rule[0] == "u":
            held = [0] * self.slots
            for ship, tugs, hold in rule[3]:
                for slot in range(table[ship], min(self.slots, table[ship] + hold)):
                    held[slot] += tugs
            return all(tugs <= fleet_of(rule, slot) for slot, tugs in enumerate(held))
        v_stays, w_stays = table[rule[1]] == self.slots, table[rule[2]] == self.slots
        later = table[rule[2]] - table[rule[1]]
        if rule[0] == "s":
            return w_stays or not v_stays and later >= rule[3]
        return v_stays or w_stays or not any(low <= later <= high for low, high in rule[3])

    def tables(self, kept=None):
        """The lists of slots that meet the restrictions of these numbers, all of them where none are named."""
        ships = len(self.values)
        rows = [[slot for slot, value in enumerate(row) if value is not None or kept is not None and ship not in kept]
                for ship, row in enumerate(self.values)]
        rules = [rule for place, rule in enumerate(self.rules, ships) if kept is None or place in kept]
        return [table for table in itertools.product(*rows) if all(self.holds(rule, table) for rule in rules)]

    def cargo(self, table):
        return sum(row[slot] for row, slot in zip(self.values, table))

    def lessened(self, withdrawn):
        """The same with so many tugs fewer in each fleet, 0 where it has no more than these."""
        rules = [("u", max(0, rule[1] - withdrawn), [(slot, max(0, fleet - withdrawn)) for slot, fleet in rule[2]], rule[3])
                 if rule[0] == "u" else rule for rule in self.rules]
        return Day(self.slots, self.stay, self.values, rules)

    def greatest_fleets(self):
        return [max([rule[1], *(fleet for _, fleet in rule[2])]) for rule in self.rules if rule[0] == "u"]


def rule_text(rule):
    if rule[0] == "p":
        return " ".join(["p", str(rule[1]), str(rule[2]), *(f"{low}:{high}" for low, high in rule[3])])
    if rule[0] == "s":
        return " ".join(["s", *map(str, rule[1:])])
    steps = [f"{slot}:{fleet}" for slot, fleet in rule[2]]
    return " ".join(["h" if steps else "u", str(rule[1]), *steps, *(f"{ship}:{tugs}:{hold}" for ship, tugs, hold in rule[3])])


# ---------------------------------------------------------------- what is drawn


def fleets_drawn(r, slots, most):
    """A first fleet and steps: mostly some, and at times one for each slot, or a fleet that is larger than all jobs together."""
    count = r.choice([0, 1, 1, 2, 2, 3, slots - 1])
    begins = sorted(r.sample(range(1, slots), min(count, slots - 1)))
    first, *later = [r.choice([0, 1, 1, 2, 2, 3, 3, 4, most, most, 1000, 1001, 2560]) if r.randrange(6) == 0 else r.randrange(most + 1)
                     for _ in range(len(begins) + 1)]
    return first, list(zip(begins, later))


def tugs_drawn(r, ships, slots):
    jobs = [(ship, r.randrange(1, 4), r.choice([1, 1, 2, 2, 3, slots, slots + 2])) for ship in range(ships) if r.randrange(6)]
    jobs = jobs or [(r.randrange(ships), r.randrange(1, 4), 1)]
    return ("u", *fleets_drawn(r, slots, 1 + sum(tugs for _, tugs, _ in jobs)), jobs)


def has_hours(rule):
    return rule[0] == "u" and (rule[2] or rule[1] > 1000)


def day_drawn(r):
    ships, slots, stay = r.randrange(2, 5), r.randrange(3, 9), r.randrange(2)
    values = [[None if r.randrange(6) == 0 else r.randrange(40) for _ in range(slots)] + [r.choice([0, 0, None])] * stay for _ in range(ships)]
    rules = []
    for v, w in itertools.combinations(range(ships), 2):
        kind = r.randrange(8)
        if kind < 3:
            low = r.randrange(-slots, 2)
            holes = [(low, low + r.randrange(4))] + [(1, 1 + r.randrange(3))] * (r.randrange(4) == 0)
            rules.append(("p", v, w, holes))
        elif kind == 3:
            rules.append(("s", *r.choice([(v, w), (w, v)]), r.randrange(4)))
    rules += [tugs_drawn(r, ships, slots) for _ in range(r.choice([1, 1, 1, 2]))]
    while not any(map(has_hours, rules)):
        rules.append(tugs_drawn(r, ships, slots))
    r.shuffle(rules)
    return Day(slots, stay, values, rules)


def plan_drawn(r, day):
    """How many tugs are withdrawn, and for each ship its slot and the slot from which another one may be given, or None."""
    last, withdrawn = day.slots + day.stay - 1, r.choice([0, 0, 1, 1, 2, 3])
    return withdrawn, [(r.randrange(last + 1), None if r.randrange(5) == 0 else r.choice([0, 0, r.randrange(last + 1)])) for _ in day.values]


def plan_text(withdrawn, wishes):
    lines = ["plan 2", f"w {withdrawn}"] if withdrawn else ["plan 1"]
    lines += [f"k {slot}" if first is None else f"o {slot} {first}" for slot, first in wishes]
    return "\n".join([*lines, "end", ""])


def meets(wish, slot):
    return slot == wish[0] if wish[1] is None else slot >= wish[1]


# ---------------------------------------------------------------- what the program says


class Trial:
    def __init__(self, program, folder, keep):
        self.program, self.folder, self.keep, self.counts, self.differences = program, folder, keep, collections.Counter(), 0

    def run(self, *words):
        done = subprocess.run([self.program, *words], cwd=self.folder, stdout=subprocess.PIPE, check=False)
        return done.stdout.decode("ascii").split("\n")[:-1], done.returncode

    def write(self, name, text):
        with open(os.path.join(self.folder, name), "w", encoding="ascii") as file:
            file.write(text)

    def same(self, what, found, wanted):
        self.counts[what] += 1
        if found == wanted:
            return
        self.differences += 1
        print(f"{what} of problem {self.number}: {found}, and by trying {wanted}", flush=True)
        if self.keep:
            shutil.copytree(self.folder, os.path.join(self.keep, f"{self.number}-{self.differences}"), dirs_exist_ok=True)

    # A report's head, and the timetable under it.
    def table_of(self, day, lines):
        table = [None] * len(day.values)
        for line in lines:
            if sail := re.fullmatch("sail ([0-9]+) ([0-9]+) ([0-9]+)", line):
                table[int(sail[3])] = int(sail[1])
            elif stay := re.fullmatch("stay ([0-9]+)", line):
                table[int(stay[1])] = day.slots
        return tuple(table)

    def searched(self, day, tables):
        best = max(map(day.cargo, tables), default=None)
        head, status = ("infeasible", 1) if best is None else (f"optimal {best}", 0)
        for verb, checked in (("solve", "check"), ("prove", "verify")):
            lines, code = self.run(verb, "flat", "day", BUDGET, verb)
            self.same(verb, (lines[:1], code), ([head], status))
            if best is not None:
                table = self.table_of(day, lines)
                self.same(f"{verb}, its timetable", table in tables and day.cargo(table), best)
            self.same(checked, self.run(checked, "flat", "day", verb), ([head], status))
            names = [os.path.join(self.folder, name) for name in ("day", verb)]
            self.same("audit/check.py", check.run(["flat", *names]), (head, status))

    def programmes(self, day, tables):
        """The points that keep the rows, and what the objective says of each."""
        wanted = sorted((table, day.cargo(table)) for table in tables)
        lines, code = self.run("model", "flat", "day")
        bounds, objective = rows_of_model(lines)
        self.same("model", (points(day, objective, bounds), code), (wanted, 0))
        lines, code = self.run("opb", "flat", "day")
        bounds, lacks, most = rows_of_opb(day, lines)
        found = [(table, most - lack) for table, lack in points(day, lacks, bounds)]
        self.same("opb", (found, code), (wanted, 0))

    def repaired(self, day, withdrawn, wishes):
        """Of those that meet the plan with the tugs left, the one of the greatest cargo that moves the fewest ships."""
        if any(withdrawn > fleet for fleet in day.greatest_fleets()):
            self.same("plan", self.run("repair", "flat", "day", "plan", BUDGET, "p"), (["bad plan 2 fleet"], 4))
            return
        left = day.lessened(withdrawn)
        tables = [table for table in left.tables() if all(map(meets, wishes, table))]
        best = max(((day.cargo(table), -moved(wishes, table)) for table in tables), default=None)
        heads, status = (["infeasible"], 1) if best is None else ([f"optimal {best[0]}", f"moved {-best[1]}"], 0)
        for form, checked in ((["repair"], ["check", "repair"]), (["prove", "repair"], ["verify", "repair", "flat"])):
            lines, code = self.run(*form, "flat", "day", "plan", BUDGET, "repair")
            self.same(" ".join(form), (lines[:len(heads)], code), (heads, status))
            if best is not None:
                self.same(" ".join(form) + ", its timetable", self.table_of(day, lines) in tables, True)
            self.same(" ".join(checked), self.run(*checked, "day", "plan", "repair"), ([" ".join(heads)], status))
        if best is None:
            self.clash(left, ["clash", "repair", "flat", "day", "plan"], ["check", "clash", "repair", "flat", "day", "plan"], wishes)

    def clash(self, day, form, checked, wishes):
        """What is left when each restriction, in turn, is dropped if the others left still can't be met together."""
        count = len(day.values) + len(day.rules)

        def met(kept):
            return [table for table in day.tables(kept) if all(count + ship not in kept or meets(wish, slot)
                                                               for ship, (wish, slot) in enumerate(zip(wishes, table)))]

        kept = list(range(count + len(wishes)))
        for restriction in list(kept):
            rest = [one for one in kept if one != restriction]
            kept = kept if met(rest) else rest
        lines, code = self.run(*form, BUDGET, "why.cert")
        self.same(" ".join(form[:2]), (lines[:2], code), (["clash 1", " ".join(["keep", *map(str, kept)])], 1))
        self.write("why", "\n".join([*lines, ""]))
        self.same(" ".join(checked[:3]), self.run(*checked, "why", "why.cert"), (["clash holds"], 1))

    def one(self, number, r):
        self.number, day = number, day_drawn(r)
        withdrawn, wishes = plan_drawn(r, day)
        self.write("day", day.text())
        self.write("plan", plan_text(withdrawn, wishes))
        tables = day.tables()
        self.counts["problems with a timetable"] += bool(tables)
        self.searched(day, tables)
        self.programmes(day, tables)
        if not tables:
            self.clash(day, ["clash", "flat", "day"], ["check", "clash", "day"], [])
        self.repaired(day, withdrawn, wishes)


def moved(wishes, table):
    return sum(slot != wish[0] for wish, slot in zip(wishes, table))


# ---------------------------------------------------------------- rows of a programme: the weights of its points and an end


def rows_of_model(lines):
    """The rows, each its weights by ship and slot and its end, and the weights of the objective."""
    first, last = lines.index("Subject To"), lines.index("Binary")

    def weights(part):
        return {(int(ship), int(slot)): int(weight) for weight, ship, slot in re.findall(r"^ [+] ([0-9]+) x_([0-9]+)_([0-9]+)$", "\n".join(part), re.M)}

    bounds, terms = [], []
    for line in lines[first + 1:last]:
        if end := re.fullmatch(" (=|<=) ([0-9]+)", line):
            bounds.append((weights(terms), end[1], int(end[2])))
            terms = []
        else:
            terms.append(line)
    return bounds, weights(lines[2:first])


def rows_of_opb(day, lines):
    """The same of the text in OPB, its rows turned, and the most that all ships together carry."""
    slots = day.slots + day.stay

    def weights(text):
        return {divmod(int(place) - 1, slots): int(weight) for weight, place in re.findall("([+-][0-9]+) x([0-9]+)", text)}

    bounds = []
    for line in lines[4:]:
        terms, sign, end = re.fullmatch("(.*) (=|>=) (-?[0-9]+) ;", line).groups()
        turned = -1 if sign == ">=" else 1
        bounds.append(({at: turned * weight for at, weight in weights(terms).items()}, "=" if sign == "=" else "<=", turned * int(end)))
    most = int(re.fullmatch("[*] cargo: ([0-9]+) less this sum", lines[2])[1])
    return bounds, weights(lines[3]), most


def points(day, objective, bounds):
    """The lists of slots of ships with values whose points keep all rows, and what the objective sums to."""
    found = []
    for table in itertools.product(*([slot for slot, value in enumerate(row) if value is not None] for row in day.values)):
        sums = [(sum(weights.get(at, 0) for at in enumerate(table)), sign, end) for weights, sign, end in bounds]
        if all(total == end if sign == "=" else total <= end for total, sign, end in sums):
            found.append((table, sum(objective.get(at, 0) for at in enumerate(table))))
    return sorted(found)


def main():
    parser = argparse.ArgumentParser(description=__doc__, formatter_class=argparse.RawDescriptionHelpFormatter)
    parser.add_argument("program")
    for name, value in (("--drawn", 100), ("--seed", 1)):
        parser.add_argument(name, type=int, default=value)
    parser.add_argument("--keep")
    given = parser.parse_args()
    with tempfile.TemporaryDirectory() as folder:
        trial = Trial(os.path.abspath(given.program), folder, given.keep and os.path.abspath(given.keep))
        for number in range(given.drawn):
            trial.one(number, random.Random(f"{given.seed} {number}"))
    for what, times in sorted(trial.counts.items()):
        print(f"{times:8} {what}")
    print(f"{given.drawn} problems, {sum(trial.counts.values())} compared, {trial.differences} different")
    sys.exit(trial.differences > 0)


if __name__ == "__main__":
    main()
