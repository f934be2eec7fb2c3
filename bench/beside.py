#!/usr/bin/env python3
"""Measures two programs beside each other: bench/beside.py PROGRAM PLAIN [CASE ..] [--only counts | --only walls] ..

PLAIN is a program of the same commands. Prints a table in Markdown, a row for each case: how many times PLAIN's the program's
instructions, peak memory, page faults and wall time are. Below 1.00 the program needs less. --figures keeps the figures themselves.
Where the texts differ, but for those of threads, the case says so and the script ends with status 1.

- Instructions are callgrind's, of the whole program, reading and writing included; the peak and the page faults are GNU time's.
  These are the counts. They don't depend on what else the machine does, so --jobs N measures N cases at once.
- Wall times are those of one processor and of all. The two programs take turns, and the least of 9 calls counts, of three
  where these take long. They want a quiet machine, for some five minutes.

--figures FILE keeps what is measured in FILE, and takes from it what is not: so counts and walls can be measured at different
times, and the table has both. A figure that isn't known, or whose tool isn't there, is left out.

The inputs are those of bench/make_line.py, make_hard.py and make_session.py. A case is named by the first words of its row,
as `headways` or `session-mid`; without names all are measured.
"""
import argparse
import concurrent.futures
import hashlib
import json
import os
import pathlib
import re
import shutil
import subprocess
import sys
import tempfile
import time

BENCH = pathlib.Path(__file__).resolve().parent
TIMES, FEWEST, LONG = 9, 3, 3.0  # calls that are timed, or fewer once they have taken so many seconds together

# Of each case its name, the words, the script that makes the input and the script's words, and what the table says of it.
CASES = [
    ("stairs", "stairs", "make_line 2048 256 4", "2,048 runs over 256 blocks"),
    ("check", "check", "make_line 2048 256 4", "the same"),
    ("report", "report", "make_line 2048 256 4", "the same"),
    ("stairs-512", "stairs", "make_line 512 256 4", "512 runs over 256 blocks"),
    ("check-512", "check", "make_line 512 256 4", "the same"),
    ("report-512", "report", "make_line 512 256 4", "the same, in which trains overtake"),
    ("cut-512", "cut whole", "make_line 512 256 4", "the same"),
    ("headways-512", "headways whole", "make_line 512 256 4", "the same"),
    ("hard-together", "check", "make_hard together", "2,048 runs over 256 blocks at one moment"),
    ("hard-falling", "stairs", "make_hard falling", "names in falling order"),
    ("hard-changes", "stairs", "make_hard changes", "500,000 changes of a signal of 4,096 routes"),
    ("hard-moves", "stairs", "make_hard moves", "400,000 changes of its block"),
    ("hard-names", "stairs", "make_hard names", "300,000 blocks put and dropped, the last row refused"),
    ("report-32", "report", "make_session mid base", "32 sections of 500 trains and 128 blocks"),
    ("compress", "compress q00", "make_session mid base", "one of them"),
    ("headways", "headways q00", "make_session mid base", "the same"),
    ("cut", "cut q00", "make_session mid base", "the same"),
    ("delays", "delays q00 r0001 600 r0200 3000", "make_session mid base", "the same"),
    ("fill", "fill q00 r0001", "make_session mid base", "the same"),
    ("cycle", "cycle q00", "make_session mid base", "the same"),
    ("compress-connections", "compress q00", "make_session connections base", "the same with connections"),
    ("cycle-connections", "cycle q00", "make_session connections base", "the same with connections"),
    ("report-disorder", "report", "make_session disorder base", "32 sections in which trains overtake"),
    ("cut-disorder", "cut q10", "make_session disorder base", "one of them"),
    ("session-mid", "session 0", "make_session mid", "256 tasks on 32 sections of 500 trains and 128 blocks"),
    ("session-connections", "session 0", "make_session connections", "the same with connections"),
    ("session-disorder", "session 0", "make_session disorder", "the same where trains overtake"),
    ("session-wide", "session 0", "make_session wide", "edits of all kinds on 64 sections of 700 trains and 4 blocks"),
    ("session-crowded", "session 0", "make_session crowded", "64 sections of 2,048 trains"),
    ("session-trains", "session 0", "make_session trains", "the same where trains are dropped and put"),
    ("session-four", "session 4", "make_session mid", "`session-mid` with four workers"),
    ("made", "made 12345", None, "a line of its own"),
]


def made_input(folder, script):
    path = folder / (script.replace(" ", "-") + ".csv") if script else pathlib.Path(os.devnull)
    if not path.exists():
        name, *words = script.split()
        with open(path, "wb") as out:
            subprocess.run([sys.executable, BENCH / (name + ".py"), *words], stdout=out, check=True)
    return path


def call(before, program, words, given):
    """The status, the text's digest, what is said on standard error, and the wall seconds."""
    with open(given, "rb") as source, tempfile.TemporaryFile() as text:
        begun = time.perf_counter()
        ended = subprocess.run([*before, program, *words.split()], stdin=source, stdout=text, stderr=subprocess.PIPE)
        seconds = time.perf_counter() - begun
        text.seek(0)
        return ended.returncode, hashlib.file_digest(text, "sha256").hexdigest(), ended.stderr.decode(errors="replace"), seconds


def instructions(program, words, given):
    if shutil.which("valgrind") is None:
        return None
    with tempfile.NamedTemporaryFile() as file:
        said = call(["valgrind", "--tool=callgrind", "--callgrind-out-file=" + file.name], program, words, given)[2]
    return int(re.search(r"refs:\s+([\d,]+)", said).group(1).replace(",", ""))


def memory(program, words, given):
    """The peak in bytes and the page faults, by GNU time: a child of this script would count the script's own memory."""
    if shutil.which("time") is None:
        return None, None
    # (what the program tells stands before the figures)
    lines = [call(["time", "-q", "-f", "%M %R"], program, words, given)[2].splitlines()[-1] for _ in range(3)]
    peaks, faults = zip(*((int(kib) * 1024, int(count)) for kib, count in map(str.split, lines)))
    return min(peaks), min(faults)


def walls(programs, words, given, processors):
    """The least seconds of each program on these processors, the programs taking turns."""
    ours, least, begun = os.sched_getaffinity(0), [float("inf")] * len(programs), time.perf_counter()
    os.sched_setaffinity(0, processors)  # (a child has its parent's)
    for number in range(TIMES):
        if number >= FEWEST and time.perf_counter() - begun > LONG:
            break
        least = [min(before, call([], program, words, given)[3]) for before, program in zip(least, programs)]
    os.sched_setaffinity(0, ours)
    return least


def counts_of(programs, case, given):
    """Figures of a case that don't depend on the load, each of both programs."""
    words = case[1]
    ends = [call([], program, words, given)[:2] for program in programs]
    peaks, faults = zip(*(memory(program, words, given) for program in programs))
    return {
        "same": ends[0] == ends[1] or ends[0][0] == ends[1][0] and words == "session 4",
        "instructions": [instructions(program, words, given) for program in programs],
        "peak": peaks,
        "faults": faults,
    }


def walls_of(programs, case, given):
    every = os.sched_getaffinity(0)
    return {
        "one": walls(programs, case[1], given, {max(every)}),
        "all": walls(programs, case[1], given, every),
        "processors": len(every),
    }


def cell(figures, name):
    """How many times the second figure the first is."""
    pair = figures.get(name) or [None]
    return "" if None in pair else "%.2f" % (pair[0] / pair[1])


def row(case, figures):
    name, words, _, about = case
    told = [] if words.split()[0] == name.split("-")[0] else ["`%s`" % words]
    cells = [
        "%s: %s" % (name, ", ".join([*told, about])),
        *(cell(figures, figure) for figure in ("instructions", "peak", "faults", "one", "all")),
    ]
    return "| %s |%s" % (" | ".join(cells), "" if figures.get("same", True) else " THE TEXTS DIFFER")


def table(cases, known):
    processors = [figures["processors"] for figures in known.values() if "processors" in figures]
    every = "%d processors" % max(processors) if processors else "all processors"
    heads = ["Case", "Instructions", "Peak memory", "Page faults", "Wall time, one processor", "Wall time, " + every]
    return ["| %s |" % " | ".join(heads), "|---" * len(heads) + "|"] + [row(case, known.get(case[0], {})) for case in cases]


def measured(options, cases, folder):
    """The figures of each case, as soon as they are there."""
    programs = [os.path.abspath(path) for path in (options.program, options.plain)]
    given = {case[2]: made_input(folder, case[2]) for case in cases}
    if options.only != "walls":
        with concurrent.futures.ThreadPoolExecutor(options.jobs) as pool:
            yield from zip(cases, pool.map(lambda case: counts_of(programs, case, given[case[2]]), cases))
    if options.only != "counts":
        yield from ((case, walls_of(programs, case, given[case[2]])) for case in cases)


class Figures:
    """What is known of each case, kept in a file if there is one; of these programs and of no others."""

    def __init__(self, path, programs):
        self.path, self.builds = path, [hashlib.sha256(pathlib.Path(program).read_bytes()).hexdigest() for program in programs]
        kept = json.loads(path.read_text()) if path and path.exists() else {"builds": self.builds, "cases": {}}
        if kept["builds"] != self.builds:
            sys.exit("%s has the figures of other programs" % path)
        self.cases = kept["cases"]

    def add(self, name, figures):
        self.cases.setdefault(name, {}).update(figures)
        if self.path:
            self.path.write_text(json.dumps({"builds": self.builds, "cases": self.cases}, indent=1))


def main():
    parser = argparse.ArgumentParser(description=__doc__, formatter_class=argparse.RawDescriptionHelpFormatter)
    parser.add_argument("program")
    parser.add_argument("plain")
    parser.add_argument("cases", nargs="*", metavar="CASE")
    parser.add_argument("--only", choices=["counts", "walls"])
    parser.add_argument("--figures", type=pathlib.Path)
    parser.add_argument("--jobs", type=int, default=1)
    options = parser.parse_intermixed_args()
    cases = [case for case in CASES if not options.cases or case[0] in options.cases]
    known = Figures(options.figures, [options.program, options.plain])
    with tempfile.TemporaryDirectory() as folder:
        for case, figures in measured(options, cases, pathlib.Path(folder)):
            known.add(case[0], figures)
            print(row(case, figures), file=sys.stderr, flush=True)
    print(*table(cases, known.cases), sep="\n")
    sys.exit(0 if all(known.cases[case[0]].get("same", True) for case in cases) else 1)


if __name__ == "__main__":
    main()
