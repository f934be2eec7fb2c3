#!/usr/bin/env python3
"""The tests that need no proof, as ./test runs them: bench/all_tests.py [--gate STATUS] [--all]

Without words, each program is built without a proof (bench/unproved.py) and its text compared with its file stdout, and so
are the tests in the crates. With --gate, `rt ci` has done so, its status is STATUS, what it wrote stands in out/gate.txt,
and the program that it built is tried. Then come

- the examples of the documents (docs/check_examples.py);
- random inputs beside the plain program (bench/differential.py), where cargo is there;
- the tests of the Python tools, in bench/tests and docs/tests;
- the model of waits (bench/waits/explore.py), where spin is there.

The last line is 'N passed, M failed' over all, and the status 1 where one failed. --all counts what is left out as failed.
"""
import argparse
import concurrent.futures
import hashlib
import json
import os
import pathlib
import re
import shutil
import subprocess
import sys
import tempfile
import time
import unittest

import differential
import unproved

TOP = unproved.TOP
PROGRAM = TOP / "crates" / "capacity" / "out" / "capacity"
PLAIN = TOP / "bench" / "plain"
INPUTS = 300
SECONDS = 1800  # for one text, on a machine that may be busy

# Cases, by a program's lines, that the gate alone tries, and why. What is built without a proof has memory of its own.
ONLY_GATE = {"acceptance_seats": (b"shortage ", "a program without proof doesn't run out of memory")}


class Tally:
    """What passed, what failed, what was left out."""

    def __init__(self, needs_all):
        self.passed, self.failed, self.needs_all = 0, 0, needs_all
        self.begun = time.monotonic()

    def add(self, what, passed, failed, said=""):
        self.passed, self.failed = self.passed + passed, self.failed + failed
        at = "%4d s" % (time.monotonic() - self.begun)
        print("%s  %s: %d passed, %d failed" % (at, what, passed, failed), flush=True)
        if failed and said:
            print(said.rstrip(), flush=True)

    def leave_out(self, what, why):
        print("        %s: left out, %s" % (what, why), flush=True)
        self.failed += self.needs_all


def called(words, **how):
    """The status of a call, and all that it wrote."""
    ended = subprocess.run([str(word) for word in words], stdout=subprocess.PIPE, stderr=subprocess.STDOUT, stdin=subprocess.DEVNULL, errors="replace", **how)
    return ended.returncode, ended.stdout


def last_lines(said):
    return "\n".join(said.splitlines()[-30:])


def file_of(crate, name):
    path = unproved.CRATES / crate / name
    return path.read_bytes() if path.is_file() else b""


def without_cases(crate, given, wanted):
    """A program's standard input and its text without the cases that the gate alone tries: of each its line, and the next."""
    if crate not in ONLY_GATE:
        return given, wanted
    word, _ = ONLY_GATE[crate]
    lines, kept = iter(wanted.splitlines(keepends=True)), []
    for line in lines:
        kept.append(line)
        if line.startswith(word):
            kept.pop()
            next(lines, None)
    return b"".join(line for line in given.splitlines(keepends=True) if not line.startswith(word)), b"".join(kept)


def files_of(crate):
    """What a program gets, as `rt ci` gives it: its words, its standard input, the files of its folder data/."""
    data = unproved.CRATES / crate / "data"
    files = {str(path.relative_to(data)): path.read_bytes() for path in sorted(data.rglob("*")) if path.is_file()}
    return file_of(crate, "args").decode(errors="surrogateescape").splitlines(), file_of(crate, "stdin"), files


def end_of(program, words, given, files):
    """The status of a program, its text, and the last of what it said."""
    with tempfile.TemporaryDirectory() as folder:
        for name, data in files.items():
            path = pathlib.Path(folder, name)
            path.parent.mkdir(parents=True, exist_ok=True)
            path.write_bytes(data)
        how = {"cwd": folder, "env": {"PATH": "/usr/bin:/bin", "HOME": folder, "TMPDIR": folder, "LANG": "C.UTF-8"}}
        ended = subprocess.run([program, *words], input=given, capture_output=True, timeout=SECONDS, **how)
    return [ended.returncode, ended.stdout.decode("latin-1"), last_lines(ended.stderr.decode(errors="replace"))]


def try_program(crate):
    """Compares a program's end, or that of an earlier run of the same program on the same files: some runs take minutes."""
    program, is_new = unproved.program(crate)
    words, stdin, files = files_of(crate)
    stdin, wanted_text = without_cases(crate, stdin, file_of(crate, "stdout"))
    given, kept = (words, stdin, files), unproved.KEPT / (crate + ".end")
    run = hashlib.sha256(program.read_bytes() + repr(given).encode()).hexdigest()
    earlier = json.loads(kept.read_text()) if kept.is_file() else [None]
    if earlier[0] != run:
        earlier = [run, *end_of(program, *given)]
        kept.write_text(json.dumps(earlier))
    status, text, said = earlier[1:]
    wanted = int(file_of(crate, "status") or 0)
    if status != wanted:
        return is_new, "status %d in place of %d: %s" % (status, wanted, said)
    different = differential.first_difference(wanted_text, text.encode("latin-1"))
    return is_new, different and "its file stdout and what it wrote, %s" % different


def try_tests(crate):
    program, is_new = unproved.program(crate, ["--test"])
    runner = pathlib.Path(shutil.which("rt")).resolve().with_name("rattle-test")
    status, said = called([runner, "--seconds", SECONDS, program])
    return is_new, last_lines(said) if status else None


def try_programs(tally):
    tasks = []
    for crate in unproved.libraries((TOP / "crates.txt").read_text()):
        sources = list((unproved.CRATES / crate / "src").rglob("*.rt"))
        if any(path.name == "main.rt" for path in sources):
            tasks.append((crate, "its text", try_program))
        if any("#[test]" in path.read_text() for path in sources):
            tasks.append((crate, "its tests", try_tests))
    for crate, (word, why) in ONLY_GATE.items():
        tally.leave_out("%s, cases '%s'" % (crate, word.decode().strip()), why)
    with concurrent.futures.ThreadPoolExecutor(min(2, len(os.sched_getaffinity(0)))) as pool:
        begun = {pool.submit(task, crate): (crate, what) for crate, what, task in tasks}
        for done in concurrent.futures.as_completed(begun):
            try:
                is_new, wrong = done.result()
            except (unproved.NotBuilt, subprocess.TimeoutExpired) as why:
                is_new, wrong = True, "%s: %s" % (type(why).__name__, why)
            how = "built without a proof" if is_new else "of a build that was kept"
            tally.add("%s, %s, %s" % (*begun[done], how), not wrong, bool(wrong), wrong or "")
    return unproved.KEPT / "capacity"


def check_documents(tally, program):
    status, said = called([sys.executable, TOP / "docs" / "check_examples.py", program])
    found = re.search(r"^(\d+) compared, (\d+) different$", said, re.M)
    compared, different = map(int, found.groups()) if found else (0, 1)
    tally.add("examples of the documents", compared - different if found else 0, max(different, status != 0), said)


def check_random_inputs(tally, program):
    what = "%d random inputs beside the plain program" % INPUTS
    for tool in ("cargo", "cc"):
        if not shutil.which(tool):
            return tally.leave_out(what, "for want of " + tool)
    if called(["cargo", "fetch", "--offline"], cwd=PLAIN)[0]:
        return tally.leave_out(what, "for want of the libraries that bench/plain/setup.sh installs")
    status, said = called(["cargo", "build", "--release", "--offline"], cwd=PLAIN)
    if status:
        return tally.add(what, 0, 1, last_lines(said))
    plain, jobs = PLAIN / "target" / "release" / "plain", len(os.sched_getaffinity(0))
    status, said = called([sys.executable, TOP / "bench" / "differential.py", program, plain, INPUTS, "--jobs", jobs])
    found = re.search(r"^(\d+) inputs from seed \d+: (\d+) differences$", said, re.M)
    different = max(int(found[2]) if found else 1, status != 0)
    return tally.add(what, max(0, INPUTS - different) if found else 0, different, said if found else last_lines(said))


def check_tools(tally):
    for name in ("bench/tests", "docs/tests"):
        found = unittest.defaultTestLoader.discover(str(TOP / name), top_level_dir=str(TOP / name))
        result = unittest.TextTestRunner(stream=sys.stdout, verbosity=0).run(found)
        wrong = len(result.failures) + len(result.errors) + len(result.unexpectedSuccesses)
        tally.add("tests in %s" % name, max(0, result.testsRun - wrong - len(result.skipped)), wrong or not result.testsRun)
        for test, why in result.skipped:
            tally.leave_out(test.id(), why)


def check_waits(tally):
    explore = TOP / "bench" / "waits" / "explore.py"
    if not explore.is_file():
        return None
    if not shutil.which("spin"):
        return tally.leave_out("the model of waits", "for want of spin")
    status, said = called([sys.executable, explore, "--quick"])
    return tally.add("the model of waits", not status, status != 0, last_lines(said))


def take_gate(tally, status):
    lines = (TOP / "out" / "gate.txt").read_text(errors="replace").splitlines()
    found = re.match(r"(\d+) passed, (\d+) failed", lines[-1]) if lines else None
    passed, failed = map(int, found.groups()) if found else (0, 1)
    tally.add("rt ci", passed, max(failed, status != 0))
    return PROGRAM


def main():
    parser = argparse.ArgumentParser(description=__doc__, formatter_class=argparse.RawDescriptionHelpFormatter)
    parser.add_argument("--gate", type=int, metavar="STATUS")
    parser.add_argument("--all", action="store_true")
    options = parser.parse_args()
    tally = Tally(options.all)
    check_tools(tally)
    check_waits(tally)
    program = try_programs(tally) if options.gate is None else take_gate(tally, options.gate)
    if program.is_file():
        check_documents(tally, program)
        check_random_inputs(tally, program)
    else:
        tally.add("examples and random inputs, without a program", 0, 1)
    print("%d passed, %d failed" % (tally.passed, tally.failed))
    return 1 if tally.failed else 0


if __name__ == "__main__":
    sys.exit(main())
