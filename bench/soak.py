#!/usr/bin/env python3
"""Runs sessions of 256 tasks with 16 workers for some minutes: bench/soak.py PROGRAM [MINUTES [JOBS [SEED]]]

The inputs are drawn as in bench/sessions.py, 16 planners with 16 tasks each, and each text is read by its reader. Every
50th session of a job is the job's first input again. Says how many sessions were run, how many of each kind of entry were
read, and the most memory of a call, and that of the first inputs' calls, in each tenth of the time. Each call is a process
of its own, so its memory depends on its input and on how its threads happen to run; the calls of one input show the second.
Ends with status 1 at the first text that is none of a journal, and where a job's last calls of its first input take more
than twice the memory of its first ones.
"""
import collections
import csv
import io
import multiprocessing
import os
import random
import subprocess
import sys
import tempfile
import time

import sessions

PLANNERS, TASKS, WORKERS, AGAIN, TENTHS, SECONDS = 16, 16, 16, 50, 10, 120


def session(program, rows):
    """The rows of a session's text, its status, and the most memory that the call had, in KiB, by GNU time."""
    with tempfile.NamedTemporaryFile() as memory:
        words = ["time", "-q", "-f", "%M", "-o", memory.name, "timeout", str(SECONDS), program, "session", str(WORKERS)]
        ended = subprocess.run(words, input="".join(row + "\n" for row in rows).encode(), stdout=subprocess.PIPE)
        return list(csv.reader(io.StringIO(ended.stdout.decode()))), ended.returncode, int(memory.read())


def drawn(dice):
    base = sessions.random_base(dice)
    return base, [[sessions.random_task(dice) for _ in range(TASKS)] for _ in range(PLANNERS)]


def job(given):
    program, seconds, seed = given
    dice, counts, begun = random.Random(seed), collections.Counter(), time.monotonic()
    most, again = [0] * TENTHS, [0] * TENTHS
    first, number = drawn(dice), 0
    while time.monotonic() - begun < seconds:
        base, scripts = first if number % AGAIN == 0 else drawn(dice)
        lines = base + [row for planner, script in enumerate(scripts) for row in ["planner,%d" % (planner + 1), *script]]
        rows = []
        try:
            rows, status, used = session(program, lines)
            sessions.expect(status, 0)
            sessions.Reader(sessions.Timetable(program, base), scripts, WORKERS, rows, counts).read()
        except Exception as wrong:
            return "\n".join([*lines, *(",".join(row) for row in rows), repr(wrong)]), number, counts, most, again
        tenth = min(TENTHS - 1, int(TENTHS * (time.monotonic() - begun) / seconds))
        most[tenth] = max(most[tenth], used)
        if number % AGAIN == 0:
            again[tenth] = max(again[tenth], used)
        number += 1
    return None, number, counts, most, again


def main():
    program = os.path.abspath(sys.argv[1])
    minutes, jobs, seed = (int(given) if given else usual for given, usual in zip(sys.argv[2:] + [""] * 3, (60, 2, 1)))
    counts, number, grown = collections.Counter(), 0, False
    most, again = [0] * TENTHS, [0] * TENTHS
    with multiprocessing.Pool(jobs) as pool:
        for wrong, done, read, high, same in pool.imap_unordered(job, [(program, 60 * minutes, seed + n) for n in range(jobs)]):
            if wrong is not None:
                sys.exit(wrong)
            counts.update(read)
            number += done
            most, again = ([max(pair) for pair in zip(*lists)] for lists in ((most, high), (again, same)))
            seen = [used for used in same if used]
            grown = grown or bool(seen) and seen[-1] > 2 * seen[0]
    print("%d sessions in %d minutes: %s" % (number, minutes, ", ".join("%d %s" % (count, kind) for kind, count in sorted(counts.items()))))
    print("most memory of a call in each tenth of the time, KiB:", *most)
    print("of the first inputs' calls:", *again)
    if grown:
        sys.exit("a first input's calls take more memory in the end")


if __name__ == "__main__":
    main()
