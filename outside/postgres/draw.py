"""Workloads drawn at random by the rows of the page, held to the server like trials. Every third is drawn until it is robust and two of its programs
each write what the other reads or writes; the rows take turns, so that each is drawn."""
import math
import os
import random
import re

import main
import play
import rows
import trial
from lines import SETS, World, clash, text_of

KEYS = {
    "fk-insert": " REFERENCES p", "fk-deferred": " REFERENCES p DEFERRABLE INITIALLY DEFERRED",
    "fk-cascade": " REFERENCES p ON DELETE CASCADE", "fk-set-null": " REFERENCES p ON DELETE SET NULL",
}
# rows that are drawn by another row's SQL: what has to be there besides
BY = {"fk-deferred": "fk-insert", "fk-cascade": "fk-delete", "fk-set-null": "fk-delete", "two-transactions": "select-key"}
# beside the row, the first program often reads or writes one row more, by which its place among the others shows
OBSERVERS = ("select-key", "select-key", "counter", "update-key")
PLAYS = 2  # a robust text is played with so many draws of values
MOST = 100  # interleavings, as far as they can be told before


def page_rows():
    """The first trial of each row of the page's tables."""
    found, tried = [], False
    with open(os.path.join(main.ROOT, "docs", "FORMAT.md"), encoding="utf-8") as f:
        for line in f:
            cells = [c.strip() for c in line.strip().strip("|").split("|")]
            if not line.startswith("|"):
                tried = False
            elif cells[-1] == "tried by":
                tried = True
            elif tried and not set(cells[-1]) <= set("-"):
                found.append(re.split(r",\s*", cells[-1])[0])
    return found


class Workload:
    """Programs by rows, with their runs."""

    def __init__(self, rng, forced):
        self.forced, self.option = forced, forced if forced in KEYS else rng.choice(list(KEYS))
        self.focus = rng.choice("ab")
        self.names = self.drawn_names(rng, list(rows.ROWS))
        self.shapes = [[rng.getrandbits(32) for _ in names] for names in self.names]
        self.targets = None
        self.draw_values(rng)
        plain = [self.instance(k, 0)[1] for k in range(len(self.names))]
        world = World(plain, self.option)
        self.programs = [world.program(lines) for lines in plain]
        self.text = text_of(self.programs, not world.writes("c", ["pid"]))
        self.tags = {name for names in self.names for name in names if name != "met"} | ({forced} if forced in BY else set())

    def drawn_names(self, rng, names):
        """The rows of each program: the first has the row that is wanted; the others often write what it touches."""
        sizes = rng.choice(((1, 1), (1, 2), (1, 2), (2, 2), (2, 2), (2, 2), (2, 2), (1, 1, 1), (2,)))
        if self.forced == "two-transactions":  # the two halves of a program that commits in between, and another
            sizes = (1, 1, 1)
        drawn = [[rng.choice(OBSERVERS if rng.random() < 0.6 else names) for _ in range(size)] for size in sizes]
        drawn[0][rng.randrange(len(drawn[0]))] = BY.get(self.forced, self.forced)
        return drawn[:1] + [["met"] * len(more) if rng.random() < 0.8 else more for more in drawn[1:]]

    def draw_values(self, rng):
        """What the runs are given; the programs, and so the text, stay."""
        self.values = rng.getrandbits(32)
        if self.targets is None:
            first = [self.part(name, shape, rows.Draw(None, random.Random(0), 0, self.focus, None)) for name, shape in
                     zip(self.names[0], self.shapes[0])]
            self.targets = [rows.touched_by(" ".join(sql)) or [("a", "x")] for sql, _ in first]
            rng.shuffle(self.targets)
        runs = list(range(len(self.names))) if len(self.names) > 1 else [0, 0]
        self.runs = [(k, self.instance(k, number)[0]) for number, k in enumerate(runs)]

    @staticmethod
    def part(name, shape, d):
        d.shape = random.Random(shape)
        return rows.met(d) if name == "met" else rows.ROWS[name](d)

    def instance(self, program, number):
        """A run of a program: its SQL and its lines."""
        d = rows.Draw(None, random.Random("%d %d" % (self.values, number)), 100 * (number + 1), self.focus, self.targets)
        parts = [self.part(name, shape, d) for name, shape in zip(self.names[program], self.shapes[program])]
        return [line for sql, _ in parts for line in sql], [line for _, lines in parts for line in lines]

    def interleavings(self):
        steps = [sum(";" in line for line in sql) + 1 for _, sql in self.runs]
        count = math.factorial(sum(steps))
        for s in steps:
            count //= math.factorial(s)
        return count

    def trial(self):
        used = {line[1] for lines in self.programs for line in lines if line[0] in SETS}
        used |= {more for table in used for more in rows.SCHEMA[table][0].split()}
        # a table that a foreign key points from counts even if no line names it
        used |= {table for table in "ce" if "p" in used}
        made = [rows.SCHEMA[t][1].replace("{c_key}", KEYS[self.option]) for t in rows.SCHEMA if t in used]
        start = ["INSERT INTO %s VALUES %s;" % (t, rows.SCHEMA[t][2]) for t in rows.SCHEMA if t in used and rows.SCHEMA[t][2]]
        runs = ["run %d:\n%s" % (k, "\n".join(sql)) for k, sql in self.runs]
        return "# Drawn at random.\nexpect: robust\ntables:\n%s\nrows:\n%s\n%s\ntext:\n%s" % (
            "\n".join(made), "\n".join(start), "\n".join(runs), self.text)


def drawn(rng, verdict, forced, wanted):
    """A workload with the row; where it is wanted robust with a clash, one that is so, or None if none is found soon."""
    for _ in range(40 if wanted else 200):
        w = Workload(rng, forced)
        if w.interleavings() > MOST or wanted and not clash(w.programs):
            continue
        w.word = verdict.report(w.text).split()[0]
        w.clash = clash(w.programs)
        if not wanted or w.word == "robust":
            return w
    return None


def held(player, w, tally, number, seed, rng):
    """Plays one workload, counts it, and says whether it is as it must be."""
    counts, wrong = dict.fromkeys(main.COLUMNS, 0), False
    for _ in range(PLAYS if w.word == "robust" else 1):
        found = trial.Trial("drawn", w.trial())
        player.prepare(found.tables)
        try:
            more, without = main.counted(player, found.runs, found.rows)
        except play.NotRepeatable:
            more, without = dict.fromkeys(main.COLUMNS, 0), []
            tally["all"]["again"] += 1
        counts = {column: counts[column] + more[column] for column in main.COLUMNS}
        if w.word != "danger" and (without or w.word != "robust"):
            kept(w, number, seed, len(without))
            wrong = True
        w.draw_values(rng)
    for tag in w.tags | {"all"}:
        entry = tally[tag]
        entry["texts"] += 1
        entry["robust"] += w.word == "robust"
        entry["clash"] += w.word == "robust" and w.clash
        for column in main.COLUMNS:
            entry[column] += counts[column]
    return not wrong


def kept(w, number, seed, without):
    """Keeps a workload that is not as it must be."""
    keep = os.path.join(main.ROOT, "found", "postgres-%d-%d.trial" % (seed, number))
    os.makedirs(os.path.dirname(keep), exist_ok=True)
    with open(keep, "w", encoding="utf-8") as f:
        f.write(w.trial())
    print("%s: the text is %s, %d interleavings without a serial order; kept as %s" % (number, w.word, without, keep), flush=True)


def run(player, verdict, seed, count, only):
    page = page_rows()
    names = page + [name for name in rows.ROWS if name not in page]
    lost = [name for name in page if name not in rows.ROWS and name not in BY]
    if lost or not set(only) <= set(names):
        main.fail("no such rows to draw: %s" % ", ".join(lost or sorted(set(only) - set(names))))
    rng, failed, turns = random.Random(seed), 0, [0, 0]
    tally = {name: dict.fromkeys(("texts", "robust", "clash", "again") + main.COLUMNS, 0) for name in names + ["all"]}
    for number in range(count):
        w, tries = None, 5 if number % 3 == 0 else 0
        while w is None:  # a row that is always danger gives its turn among the robust ones to the next
            w = drawn(rng, verdict, (only or names)[turns[tries > 0] % len(only or names)], tries > 0)
            turns[tries > 0] += 1
            tries -= 1
        failed += not held(player, w, tally, number, seed, rng)
    show(tally, [name for name in names if tally[name]["texts"]], page)
    return conclude(tally["all"], failed, [name for name in page if not tally[name]["texts"]], count)


def show(tally, names, page):
    print("%-30s %6s %7s %6s %9s %6s %8s %12s %9s" % (("row", "texts", "robust", "clash") + main.COLUMNS))
    for name in names + ["all"]:
        e = tally[name]
        print("%-30s %6d %7d %6d %9d %6d %8d %12d %9d" % (
            (name if name in page or name == "all" else name + " *", e["texts"], e["robust"], e["clash"]) + tuple(e[c] for c in main.COLUMNS)))
    print("texts: with this row; clash: robust ones in which two programs each write what the other reads or writes; the others count interleavings\n"
          "of all texts with the row. no order: none of them is of a robust text unless it is said above. *: no row of the tables.")


def conclude(e, failed, missed, count):
    enough = 3 * e["clash"] >= count
    print("%d texts: %d robust, %d of these with a clash%s; rows of the page not drawn: %s; not repeatable: %d; %s" % (
        count, e["robust"], e["clash"], "" if enough else " (under a third)", len(missed) or "none", e["again"],
        "no robust text ends as no serial order does" if not failed else "%d NOT as they must be" % failed))
    return failed or e["again"]
