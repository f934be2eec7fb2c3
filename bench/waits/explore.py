#!/usr/bin/env python3
"""Searches a model of the waits of a session in every interleaving: bench/waits/explore.py [--quick] [--only NAME]

Builds bench/waits/waits.pml by `spin` and `cc`, once for each search, and says of each how many states it saw, how deep and
how long it went, and how it ended. As the code is, nobody may sleep for ever. Where a wake or a look is left out somebody
must; where another wake covers it, nobody may, and the name says which. A search that was cut short, for want of memory or
of depth, isn't as it must be. Ends with status 1 where a search isn't, and with status 2 where spin isn't installed.
--quick has at most two planners and two workers, the whole run three and three. --only makes the searches whose name has
NAME in it.
"""
import argparse
import pathlib
import re
import shutil
import subprocess
import sys
import tempfile
import time

MODEL = pathlib.Path(__file__).resolve().parent / "waits.pml"
AWAKE, ASLEEP, ENDLESS = "nobody sleeps for ever", "somebody sleeps for ever", "somebody goes round for ever"
BROKEN, SHORT, UNKNOWN = "an assertion fails", "CUT SHORT", "NOT KNOWN"
MEMORY, DEPTH = 6000, 1_000_000  # MiB, steps
CUT = "out of memory|memory bound|MEMLIM|max search depth too small|search not completed|truncated"

# A name, planners, workers, tasks of each planner, flags of the model, and how the search must end.
SMALL = [
    ("each step by itself", 1, 2, 1, "FINE", AWAKE),
    ("each step by itself", 2, 1, 1, "FINE", AWAKE),
    ("each step by itself: all work ends", 1, 1, 1, "FINE ONLY_BY_WAKES", AWAKE),
    ("steps together", 2, 2, 1, "", AWAKE),
    ("steps together, a gate holds planners", 2, 2, 2, "GATED ALL_MADE", AWAKE),
]
LARGE = [
    ("each step by itself: all work ends", 1, 2, 1, "FINE ONLY_BY_WAKES", AWAKE),
    ("each step by itself", 2, 2, 1, "FINE", AWAKE),
    ("steps together, two tasks each", 2, 2, 2, "", AWAKE),
    ("steps together", 3, 3, 1, "", AWAKE),
]
LEFT_OUT = [
    ("short is looked at before the count is taken", 2, 2, 1, "LOOKS_BEFORE_COUNT", ASLEEP),
    ("watch: no look whether memory is short", 2, 2, 1, "NO_LOOK_AT_SHORT", ASLEEP),
    ("watch: planners don't look, who wait for nobody", 2, 1, 1, "NO_LOOK_BY_PLANNERS", AWAKE),
    ("sleep: no look at the count", 2, 2, 1, "NO_LOOK_AT_COUNT", ASLEEP),
    ("sleep: no look whether tasks are left", 2, 2, 1, "NO_LOOK_AT_TASKS", ASLEEP),
    ("leave: short isn't told", 2, 2, 1, "NO_TELL", ASLEEP),
    ("leave: no wake where memory failed", 2, 2, 1, "NO_WAKE_WHERE_FAILED", ASLEEP),
    ("leave: no wake else: stepped wakes before", 1, 2, 1, "NO_WAKE_WHERE_NOT_FAILED", AWAKE),
    ("stepped: no wake: leave wakes, later", 1, 2, 1, "NO_WAKE_AFTER_STEP", AWAKE),
    ("stepped: no wake, and a gate holds planners", 1, 1, 1, "NO_WAKE_AFTER_STEP GATED ALL_MADE", ASLEEP),
    ("neither stepped nor leave wakes, but on failure", 1, 1, 1, "NO_WAKE_AFTER_STEP NO_WAKE_WHERE_NOT_FAILED", ASLEEP),
    ("wake: the count stays", 2, 2, 1, "NO_COUNT", ASLEEP),
    ("wake: nobody is woken", 2, 2, 1, "NO_WAKE_ALL", ASLEEP),
    ("wake: before the count", 2, 2, 1, "WAKES_BEFORE_COUNT", ASLEEP),
    ("wake: one of all: who leaves wakes the next", 1, 2, 1, "WAKES_ONE_OF_ALL", AWAKE),
    ("wake: one of all, and a gate holds planners", 1, 2, 2, "WAKES_ONE_OF_ALL GATED ALL_MADE", ASLEEP),
    ("give: nobody is woken", 2, 2, 1, "NO_WAKE_ONE", ASLEEP),
    ("give: the wake before the store", 2, 2, 1, "WAKES_ONE_BEFORE_GIVING", ASLEEP),
    ("give: not where memory failed", 2, 2, 1, "KEEPS_TURN", ASLEEP),
    ("park: no look at the word", 2, 2, 1, "NO_LOOK_AT_DESK", ASLEEP),
    ("park: no try after it", 2, 2, 1, "NO_LOOK_AFTER_PARK", BROKEN),
    ("start: the first half first in one thread", 2, 2, 1, "FIRST_HALF_FIRST", ASLEEP),
    ("join: main doesn't wait", 2, 2, 1, "NO_JOIN", BROKEN),
]


def run(words, folder):
    return subprocess.run(words, cwd=folder, stdout=subprocess.PIPE, stderr=subprocess.STDOUT, text=True)


def search(planners, workers, tasks, flags, must):
    """How a search ended, its states, depth and seconds."""
    flags = ["PLANNERS=%d" % planners, "WORKERS=%d" % workers, "TASKS=%d" % tasks, *flags.split()]
    cycles = "ONLY_BY_WAKES" in flags  # where nobody wakes for no reason, no work goes on for ever
    speed = "-O0" if must != AWAKE else "-O1" if planners + workers < 6 else "-O2"  # what is built for a second must run longer
    kind, words = ("-DNP", ["-l"]) if cycles else ("-DSAFETY", [])
    words += ["-A"] if must == ASLEEP else []  # a sleep is to be found, not an assertion
    with tempfile.TemporaryDirectory() as folder:
        made = run(["spin", *("-D" + flag for flag in flags), "-a", str(MODEL)], folder)
        built = run(["cc", speed, kind, "-DCOLLAPSE", "-DMEMLIM=%d" % MEMORY, "-o", "pan", "pan.c"], folder)
        if made.returncode or built.returncode:
            sys.exit(made.stdout + built.stdout)
        begun = time.monotonic()
        told = run(["./pan", *words, "-m%d" % DEPTH], folder)
        seconds = time.monotonic() - begun
    states, depth = re.search(r"(\d+) states, stored", told.stdout), re.search(r"depth reached (\d+), errors: (\d+)", told.stdout)
    return how(told, depth), int(states[1]) if states else 0, int(depth[1]) if depth else 0, seconds


def how(told, depth):
    """How a search ended, by what it told."""
    for words, end in [("invalid end state (", ASLEEP), ("assertion violated", BROKEN), ("non-progress cycle (", ENDLESS)]:
        if words in told.stdout:
            return end
    if re.search(CUT, told.stdout, re.IGNORECASE):
        return SHORT
    return AWAKE if depth and depth[2] == "0" and not told.returncode else UNKNOWN


def main():
    words = argparse.ArgumentParser(description=__doc__.split("\n")[0])
    words.add_argument("--quick", action="store_true", help="at most two planners and two workers")
    words.add_argument("--only", default="", metavar="NAME", help="searches whose name has NAME in it")
    words = words.parse_args()
    if not shutil.which("spin"):
        print("spin isn't installed: nothing was searched")
        sys.exit(2)
    searches = SMALL + [] if words.quick else SMALL + LARGE
    searches = searches + [(name, *size, "FINE " + flags, must) for name, *size, flags, must in LEFT_OUT]
    searches = [one for one in searches if words.only in one[0]]
    wrong = 0
    print("%-48s %-7s %11s %6s %8s  %s" % ("search", "actors", "states", "depth", "seconds", "end"))
    for name, planners, workers, tasks, flags, must in searches:
        end, states, depth, seconds = search(planners, workers, tasks, flags, must)
        wrong += end != must
        actors = "%d+%d" % (planners, workers) + ("*%d" % tasks if tasks > 1 else "")
        told = end if end == must else "%s, AND MUST NOT: %s" % (end, must)
        print("%-48s %-7s %11s %6d %8.1f  %s" % (name, actors, "{:,}".format(states), depth, seconds, told), flush=True)
    print("%d searches, %d not as they must be" % (len(searches), wrong))
    sys.exit(1 if wrong or not searches else 0)


if __name__ == "__main__":
    main()
