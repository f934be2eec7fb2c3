#!/usr/bin/env python3
"""Runs random sessions with 1 to 16 workers, and reads their texts: bench/sessions.py [PROGRAM [COUNT [SEED]]]

A reader of its own holds each text against what a journal has to be: the passes that enter, each planner's tasks in their
order and each once, edits with their numbers, edits refused by the rule for which `stairs` refuses them, each published
answer the one that `compress` gives for the timetable at the edit that it names and held by no later edit, each reply the
one of its place, every section with an answer that holds in the end, and then the text of `report`. Which edits touch a
section it finds from the blocking times that `stairs` writes. Builds the program unless it is given. Says how many of each
kind of entry were read, and ends with status 1 at the first text that is none of a journal.
"""
import collections
import csv
import io
import os
import pathlib
import random
import subprocess
import sys

TOP = pathlib.Path(__file__).resolve().parent.parent
PROGRAM = TOP / "crates" / "capacity" / "out" / "capacity"
SIGNAL = "signal,S%s,%s,%d,10,5,%d,5"


def call(program, words, rows):
    ended = subprocess.run([program, *words], input="".join(row + "\n" for row in rows).encode(), capture_output=True, timeout=120)
    return ended.returncode, list(csv.reader(io.StringIO(ended.stdout.decode())))


def fields_of(row):
    return next(csv.reader([row]))


# ---- random sessions


def random_run(dice, name, verb):
    route, signals = dice.choice([("R", 4), ("Q", 4), ("P", 2), ("O", 1)])
    legs = ",".join("%d,%d" % (dice.choice([40, 60, 75]), dice.choice([0, 0, 20])) for _ in range(signals - 1))
    return "%s,%s,%s,%d,10,%d,%s60" % (verb, name, route, dice.choice([100, 400]), dice.randrange(0, 4000, 50), legs + "," * (signals > 1))


def random_section(dice, name, verb):
    first = dice.randrange(3)
    blocks = "ABCD"[first : first + dice.choice([1, 2, 4])]
    return "%s,%s,%d,%d,33,%s" % (verb, name, dice.choice([0, 500]), dice.choice([3000, 3600]), ",".join(blocks))


def random_base(dice):
    rows = ["block,%s,1000" % block for block in "ABCD"]
    rows += [SIGNAL % (block, block, dice.choice([0, 800]), dice.choice([0, 50])) for block in "ABCD"]
    rows += ["route,R,SA,SB,SC,SD", "route,P,SB,SC", "route,O,SD"]
    rows.append("route,Q,SD,SC,SB,SA" if dice.random() < 0.3 else "route,Q,SA,SB,SD,SC")
    runs = dice.randrange(1, 7)
    rows += [random_run(dice, "T%d" % (number + 1), "run") for number in range(runs)]
    rows += [random_section(dice, name, "section") for name in "STU"[: dice.randrange(1, 4)]]
    return rows + (["connect,X,T1,T2,%d" % dice.choice([0, 300])] if dice.random() < 0.4 and runs > 1 else [])


def random_task(dice):
    run, section = "T%d" % dice.randrange(1, 7), dice.choice("SSSTTU")
    kind = dice.randrange(12)
    if kind < 4:
        return "ask," + section
    if kind < 10:
        return [
            lambda: random_run(dice, run, "change-run"),
            lambda: random_run(dice, run, "run"),
            lambda: "drop-run," + run,
            lambda: "change-" + SIGNAL % ("B", dice.choice("BC"), dice.choice([0, 500]), 0),
            lambda: "connect,%s,%s,T%d,%d" % (dice.choice("XYA"), run, dice.randrange(1, 7), dice.choice([0, 200])),
            lambda: "drop-connect,X",
        ][kind - 4]()
    return random_section(dice, section, dice.choice(["section", "change-section"])) if kind == 10 else "drop-section," + section


# ---- timetables, by their rows


class Timetable:
    """What accepted rows make: the items of each kind, and the cuts of its sections."""

    def __init__(self, program, rows, stairs=None):
        self.program, self.rows = program, rows
        self.items = collections.defaultdict(dict)
        for row in rows:
            verb, name, *_ = fields = fields_of(row)
            if verb.startswith("drop-"):
                del self.items[verb[5:]][name]
            else:
                self.items[verb.removeprefix("change-")][name] = fields[1:]
        self.stairs = collections.defaultdict(list)
        for row in stairs or call(program, ["stairs"], rows)[1]:
            self.stairs[row[1]].append((row[2], int(row[3]), int(row[4])))
        self.cuts = {name: self.cut(fields) for name, fields in self.items["section"].items()}
        self.after, self.texts = {}, {}

    def cut(self, section):
        start, end, blocks = int(section[1]), int(section[2]), section[4:]
        members = {}
        for run, uses in self.stairs.items():
            inside = [use for use in uses if use[0] in blocks]
            if inside and start <= min(use[1] for use in inside) < end:
                members[run] = (min(use[1] for use in inside), inside)
        bound = [self.bound(fields, members) for _, fields in sorted(self.items["connect"].items())]
        return section, members, [connection for connection in bound if connection]

    def bound(self, connection, members):
        """What a connection binds of two members, if it does."""
        name, first, second, least = connection
        if first not in members or second not in members:
            return None
        own = int(self.items["run"][second][4])
        if not (members[first][0], first) < (own, second):
            return None
        legs = [int(seconds) for seconds in self.items["run"][first][4:]]
        return name, first, members[first][0], sum(legs) + int(least), second, own

    def edited(self, row):
        """The timetable after a row, or the rule for which it is refused."""
        if row not in self.after:
            status, text = call(self.program, ["stairs"], self.rows + [row])
            self.after[row] = text[0][2] if status == 1 else Timetable(self.program, self.rows + [row], text)
        return self.after[row]

    def text(self, *words):
        """The rows of a command for the timetable."""
        if words not in self.texts:
            self.texts[words] = call(self.program, words, self.rows)[1]
        return self.texts[words]

    def answer(self, section):
        rows = self.text("compress", section)
        places = [place for place, row in enumerate(rows) if row[0] == "critical"]
        return rows[: places[0]] if places else rows


# ---- journals


class Wrong(Exception):
    pass


class Early(Wrong):
    """All is right up to where the text ends, but it isn't all."""


def expect(found, wanted):
    if found != wanted:
        raise Wrong("%r in place of %r" % (found, wanted))


class Reader:
    def __init__(self, opened, scripts, workers, rows, counts):
        self.rows, self.place, self.counts = rows, 0, counts
        self.first = self.last = len(opened.rows)
        self.times = {self.first: opened}
        self.left = [list(script) for script in scripts]
        self.published, self.touched = {}, {}
        self.workers = workers

    def take(self):
        if self.place == len(self.rows):
            raise Early("the text ends early")
        self.place += 1
        return self.rows[self.place - 1]

    def now(self):
        return self.times[self.last]

    def is_current(self, section):
        return section in self.published and self.touched.get(section, 0) <= self.published[section]

    def task(self, planner):
        script = self.left[int(planner) - 1]
        if not script:
            raise Wrong("planner %s has no task left" % planner)
        return script.pop(0)

    def read(self):
        expect(self.take(), ["opened", str(self.first), str(len(self.left)), str(len(self.now().cuts))])
        for number in range(1, len(self.left) + self.workers + 1):
            expect(self.take(), ["entered", str(number)])
        kinds = {"edited": self.edit, "rejected": self.reject, "asked": self.ask, "published": self.publish}
        while self.place < len(self.rows) and self.rows[self.place][0] in kinds:
            row = self.take()
            self.counts[row[0]] += 1
            kinds[row[0]](row)
        if self.place == len(self.rows):
            raise Early("the text ends before the report")
        expect(self.left, [[] for _ in self.left])
        expect([section for section in self.now().cuts if not self.is_current(section)], [])
        left, report = self.rows[self.place :], self.now().text("report")
        if len(left) < len(report) and left == report[: len(left)]:
            raise Early("the report ends early")
        expect(left, report)

    def edit(self, row):
        task = self.task(row[1])
        expect(row[2:], [str(self.last + 1)] + fields_of(task))
        after = self.now().edited(task)
        if isinstance(after, str):
            raise Wrong("an edit that a rule refuses: " + task)
        before, self.last = self.now().cuts, self.last + 1
        self.times[self.last] = after
        for section in {*before, *after.cuts}:
            if before.get(section) != after.cuts.get(section):
                self.touched[section] = self.last

    def reject(self, row):
        task = self.task(row[1])
        expect(row[2:], [self.now().edited(task)] + fields_of(task))

    def ask(self, row):
        section = row[2]
        expect(["ask", section], fields_of(self.task(row[1])))
        at, by = self.published.get(section), self.touched.get(section, 0)
        if section not in self.now().cuts:
            reply = ["unknown"]
        elif at is None:
            reply = ["not-yet"]
        else:
            reply = ["stale", str(at), str(by)] if by > at else ["ready", str(at)]
        self.counts[reply[0]] += 1
        expect(row[3:], reply)

    def publish(self, row):
        section, at = row[1], int(row[2])
        if not self.first <= at <= self.last or section not in self.times[at].cuts:
            raise Wrong("no section %s at %d" % (section, at))
        if self.touched.get(section, 0) > at or self.is_current(section):
            raise Wrong("an answer of %s at %d, which doesn't hold, or holds already" % (section, at))
        self.counts["published of an earlier edit"] += at < self.last
        for answer in self.times[at].answer(section):
            expect(self.take(), answer)
        self.published[section] = at


def one_session(program, dice, counts):
    base = random_base(dice)
    scripts = [[random_task(dice) for _ in range(dice.randrange(6))] for _ in range(dice.randrange(5))]
    workers = dice.randrange(1, 17)
    given = base + [row for number, script in enumerate(scripts) for row in ["planner,%d" % (number + 1), *script]]
    status, rows = call(program, ["session", str(workers)], given)
    try:
        expect(status, 0)
        Reader(Timetable(program, base), scripts, workers, rows, counts).read()
    except Wrong as wrong:
        print("\n".join(given), *(",".join(row) for row in rows), sep="\n")
        sys.exit("session %d: %s" % (workers, wrong))


def main():
    program = pathlib.Path(os.path.abspath(sys.argv[1])) if len(sys.argv) > 1 else PROGRAM
    count = int(sys.argv[2]) if len(sys.argv) > 2 else 2000
    seed = int(sys.argv[3]) if len(sys.argv) > 3 else 1
    if program == PROGRAM:
        subprocess.run(["rt", "run", "--", "check"], cwd=TOP / "crates" / "capacity", stdin=subprocess.DEVNULL, stdout=subprocess.DEVNULL, check=True)
    dice, counts = random.Random(seed), collections.Counter()
    for _ in range(count):
        one_session(program, dice, counts)
    print("%d sessions: %s" % (count, ", ".join("%d %s" % (number, kind) for kind, number in sorted(counts.items()))))


if __name__ == "__main__":
    main()
