#!/usr/bin/env python3
"""Builds the program and measures its commands on large lines: bench/measure.py [RUNSxBLOCKS ...]

Prints for each line the size of its input, the wall time (best of five), the peak memory and, where
valgrind is there, the instructions of the whole program for each hop, reading and writing included.
A line has RUNS trains over one route of BLOCKS blocks, each with some five stops on its way.
"""
import pathlib
import re
import shutil
import subprocess
import sys
import tempfile
import time

TOP = pathlib.Path(__file__).resolve().parent.parent
PROGRAM = TOP / "crates" / "capacity" / "out" / "capacity"
SIZES = ["2048x64", "512x256", "2048x256"]
DWELLS = 4


def build():
    with open(TOP / "examples" / "two-blocks.csv", "rb") as line:
        built = subprocess.run(["rt", "run", "--", "compress", "S"], cwd=TOP / "crates" / "capacity", stdin=line, capture_output=True)
    if built.returncode != 0:
        sys.exit(built.stderr.decode())


def make_line(runs, blocks, path):
    with open(path, "wb") as out:
        make = [sys.executable, TOP / "bench" / "make_line.py", str(runs), str(blocks), str(DWELLS)]
        subprocess.run(make, stdout=out, check=True)


def run_once(line, command, before=()):
    """The wall seconds of one call, and what is said on standard error."""
    with open(line, "rb") as source:
        begun = time.perf_counter()
        ended = subprocess.run([*before, PROGRAM, *command.split()], stdin=source, stdout=subprocess.DEVNULL, stderr=subprocess.PIPE)
        seconds = time.perf_counter() - begun
    said = ended.stderr.decode()
    if ended.returncode != 0:
        sys.exit("the program ended with %d: %s" % (ended.returncode, said))
    return seconds, said


def peak_bytes(line, command):
    """By GNU time: a child of this script would count the script's own memory."""
    if shutil.which("time") is None:
        return None
    # (what the program tells stands before the figure)
    said = run_once(line, command, ["time", "-f", "%M"])[1]
    return int(said.splitlines()[-1]) * 1024


def instructions(line, command, folder):
    if shutil.which("valgrind") is None:
        return None
    tool = ["valgrind", "--tool=callgrind", "--callgrind-out-file=%s" % (folder / "callgrind.out")]
    said = run_once(line, command, tool)[1]
    return int(re.search(r"refs:\s+([\d,]+)", said).group(1).replace(",", ""))


def measure(size, folder):
    runs, blocks = (int(part) for part in size.split("x"))
    line = folder / ("%s.csv" % size)
    make_line(runs, blocks, line)
    hops, input_bytes = runs * blocks, line.stat().st_size
    print("%s runs x blocks: %d hops, %d bytes" % (size, hops, input_bytes))
    for command in ["stairs", "check", "report", "compress whole", "headways whole"]:
        seconds = min(run_once(line, command)[0] for _ in range(5))
        peak = peak_bytes(line, command)
        count = instructions(line, command, folder)
        print("  %s: %.3f s" % (command, seconds))
        print("    no GNU time for the peak" if peak is None else "    peak %.1f MB, %.1f times the input" % (peak / 1e6, peak / input_bytes))
        print("    no valgrind for the count" if count is None else "    %d instructions a hop" % round(count / hops))


def main():
    build()
    with tempfile.TemporaryDirectory() as folder:
        for size in sys.argv[1:] or SIZES:
            measure(size, pathlib.Path(folder))


if __name__ == "__main__":
    main()
