#!/usr/bin/env python3
"""Refuses allocations, starts of threads, reads and writes of calls of the program: bench/refuse.py [PROGRAM] [--busy N] ..

Builds the program unless it is given, and bench/refuse.c, which is preloaded into it. The calls are those of
bench/refuse_cases.py; --only WORDS makes those that begin so: --only session, --only 'session 16, 3 planners'. Each is made
with ample memory first. Then its first, second, .. allocation is refused, one a run, and so are each start of a thread and
all, each read, and each write. Calls whose threads make a number of allocations that differs from run to run go on past the
greatest number that was seen, several times. With --seconds S or --runs N, calls and what is refused are drawn instead, from
--seed on, for so long or so many: also two allocations, two threads, or an allocation beside a thread, a read or a write.

--busy N makes N runs at a time. A run that isn't over after --limit seconds is told as a hang and killed. All else has to end

- with status 5 and nothing written, if an allocation was refused before a write was;
- with status 3 and nothing written, if a read was refused;
- with status 4 and what was written before it, if a write was refused;
- or, if no read or write was, as the call ends with ample memory: with its status and its whole text,

and has to give back all blocks of memory, but for as many as are left with ample memory. A call without workers has one text,
and a session with workers and one planner four, worked out by hand. With more planners the reader of bench/sessions.py reads
each text, to its last row: the passes, each planner's tasks once and in their order, the number of each edit or the rule
that refuses it, the rows of each published answer against those of `compress` at the edit that it names and with no later
edit of that section before it, each reply by the state at its place, all sections answered in the end, and the report. For
this the program is called with ample memory, so that its answers are right isn't looked at here. Of a text that a write cut
off whole rows are read. Not looked at: which legal journals come, what stands on standard error, and runs that a signal
would disturb.

A word that isn't UTF-8 has to end a call with status 2 and nothing written. Ends with status 1 where a run hung or ended
otherwise. The last line tells how many runs ended in each way.
"""
import argparse
import collections
import os
import pathlib
import random
import subprocess
import sys
import tempfile
import time

from refuse_cases import CASES, LINE, TOP
from refuse_runs import HANG, WAYS, WHOLE, WRONG, Call, Crowd, is_met

PROGRAM = TOP / "crates" / "capacity" / "out" / "capacity"
ROUNDS = 5  # of calls on threads
MORE = 20  # allocations beyond the most that were seen of calls on threads
NEAR = 8  # how far from one another two refused allocations mostly are

# What is drawn to be refused in one run, and how often.
DRAWS = {
    ("memory",): 6,
    ("memory", "memory"): 6,
    ("memory", "thread"): 4,
    ("thread",): 1,
    ("thread", "thread"): 1,
    ("read",): 1,
    ("write",): 1,
    ("memory", "read"): 1,
    ("memory", "write"): 1,
}


# ---- each in turn


def refuse_each(crowd, call):
    for _ in range(ROUNDS if call.is_raced() else 1):
        ways, for_nothing = collections.Counter(), set()

        def heard(refused, way, ended):
            ways[way] += 1
            if way == WHOLE and is_met(refused, ended.told, "memory"):
                for_nothing.update(refused["memory"])

        crowd.go(all_allocations(call), heard)
        print("%s: %d allocations, status %d with ample memory" % (call.case.name(), call.most["memory"], call.status))
        print("    %d runs without memory, %d as with ample memory%s" % (ways[WAYS[5]], len(for_nothing), spans(for_nothing)))
    threads = call.most["thread"]
    crowd.go((call, {"thread": [number]}) for number in [*range(1, threads + 1), *["all"] * (threads > 0)])
    crowd.go((call, {"read": [number]}) for number in range(1, call.most["read"] + 2))
    lengths = {}
    writes = ((call, {"write": [number]}) for number in range(1, call.most["write"] + 2))
    crowd.go(writes, lambda refused, way, ended: lengths.update({refused["write"][0]: len(ended.text)} if way == WAYS[4] else {}))
    crowd.counts[WRONG] += tell_lengths([lengths[number] for number in sorted(lengths)])
    counted = threads, call.most["read"], call.most["write"], call.blocks
    print("    %d threads, each refused once, and all; %d reads and %d writes, each refused once; %d blocks left with ample memory" % counted, flush=True)


def all_allocations(call):
    number = 0
    while number < call.most["memory"] + MORE * call.is_raced():
        number += 1
        yield call, {"memory": [number]}


def tell_lengths(lengths):
    """How many runs whose second, third, .. write was refused wrote no more than the one before; tells so."""
    wrong = sum(later <= earlier for earlier, later in zip(lengths, lengths[1:]))
    if wrong:
        print("    WRONG: in %d of %d runs a write that was refused came no later than that of the run before" % (wrong, len(lengths)))
    return wrong


def spans(numbers):
    return " (%s)" % ", ".join(str(number) for number in sorted(numbers)) if 0 < len(numbers) < 20 else ""


# ---- drawn runs


def drawn(dice, call):
    """What is refused in a drawn run of a call."""
    kinds = dice.choices(list(DRAWS), list(DRAWS.values()))[0]
    refused = {}
    for kind in kinds if call.most["thread"] else [kind for kind in kinds if kind != "thread"] or ["memory"]:
        refused.setdefault(kind, []).append(drawn_number(dice, call, kind, refused.get(kind)))
    is_all = call.most["thread"] + 1 in refused.get("thread", [])
    return {**refused, "thread": ["all"]} if is_all else refused


def drawn_number(dice, call, kind, before):
    """At most one more than there are, or some more where their number differs from run to run."""
    if kind == "memory" and before and dice.random() < 0.7:
        return before[0] + dice.randint(1, NEAR)
    return dice.randint(1, call.most[kind] + (MORE if kind == "memory" and call.is_raced() else 1))


def drawn_runs(options, calls):
    dice = random.Random(options.seed)
    end = float("inf") if options.seconds is None else time.monotonic() + options.seconds
    number = 0
    while time.monotonic() < end and number != options.runs:
        number += 1
        call = dice.choice(calls)
        yield call, drawn(dice, call)


# ---- all


def refuse_word(program):
    ended = subprocess.run([program, "compress", b"\xff"], input=LINE.encode(), capture_output=True, timeout=60)
    is_right = (ended.returncode, ended.stdout) == (2, b"")
    print("%sa word that isn't UTF-8: status %d" % ("" if is_right else "WRONG: ", ended.returncode))
    return not is_right


def build(folder, program):
    shim = folder / "refuse.so"
    subprocess.run(["cc", "-O1", "-shared", "-fPIC", "-o", str(shim), str(TOP / "bench" / "refuse.c"), "-ldl"], check=True)
    if program is None:
        run = ["rt", "run", "--", "check"]
        built = subprocess.run(run, cwd=TOP / "crates" / "capacity", input=LINE.encode(), capture_output=True)
        if built.returncode != 0:
            sys.exit(built.stderr.decode())
    return shim


def options_of(words):
    parser = argparse.ArgumentParser(description=__doc__, formatter_class=argparse.RawDescriptionHelpFormatter)
    parser.add_argument("program", nargs="?", type=lambda path: pathlib.Path(os.path.abspath(path)))
    parser.add_argument("--busy", type=int, default=1, metavar="N")
    parser.add_argument("--limit", type=float, default=20, metavar="SECONDS")
    parser.add_argument("--only", default="", metavar="WORDS")
    parser.add_argument("--seconds", type=float)
    parser.add_argument("--runs", type=int)
    parser.add_argument("--seed", type=int, default=1)
    options = parser.parse_args(words)
    if options.busy < 1 or options.limit <= 0:
        parser.error("--busy is at least 1, and --limit more than 0")
    if not chosen(options.only):
        parser.error("no call begins with " + options.only)
    return options


def chosen(only):
    """The calls whose name begins with these words."""
    wanted = only.replace(",", " ,").split()
    return [case for case in CASES if case.name().replace(",", " ,").split()[: len(wanted)] == wanted]


def refuse_all(folder, options):
    shim, program = build(folder, options.program), options.program or PROGRAM
    crowd, is_wrong = Crowd(program, shim, options), False
    calls = [Call(case, folder / ("input-%d" % number), crowd.slots[0]) for number, case in enumerate(chosen(options.only))]
    crowd.go((call, {}) for call in calls)
    if options.seconds is None and options.runs is None:
        is_wrong = refuse_word(program)
        for call in calls:
            refuse_each(crowd, call)
    else:
        crowd.go(drawn_runs(options, calls))
    read = sum(call.judge.count() for call in calls if call.is_raced() and not call.case.texts)
    print("{:,} different texts of sessions with more than one planner were read".format(read))
    print(crowd.line())
    return is_wrong or crowd.counts[HANG] + crowd.counts[WRONG] > 0


def main():
    options = options_of(sys.argv[1:])
    with tempfile.TemporaryDirectory() as folder:
        sys.exit(1 if refuse_all(pathlib.Path(folder), options) else 0)


if __name__ == "__main__":
    main()
