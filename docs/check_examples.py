#!/usr/bin/env python3
"""Runs the examples of README.md and docs/*.md, and compares what the documents say with what the program writes.

    docs/check_examples.py PROGRAM [DOCUMENT ..]

PROGRAM is the built program. Without further words all documents of the repository are read. The script prints
each difference and how many texts it compared; its status is 1 where there was a difference, else 0. With -l
before PROGRAM it also lists the indented blocks that are no example.

An example is a line that is indented by four spaces (in a list by more):

    capacity compress S < examples/two-blocks.csv

`$ ` may stand before it. Where `2>&1 >/dev/null` stands behind it, the text is that of standard error. Below it, in the same indented block or in the next one, stands the text of standard
output. A line `..` there stands for any number of lines. A command may be followed by another one in the same
block only behind the text of the first. `capacity made 1` has no input.

An input that isn't in examples/ is shown as a block of its own, whose first line names it:

    # line.csv
    block,A,1000

Examples below it in the same document may read `< line.csv`. Where the first line is
`# line.csv: examples/two-blocks.csv and`, the rows of the block stand below those of that file.

A table is checked too where its header has a cell `Example` or `Example below FILE` and a cell `Row written` or
`Line on standard error`. Each code in the example's cell is a row of the input, which stands below the rows of FILE
(a file, or an input that the document shows). An empty cell, or one without code, isn't checked. A table on standard
error takes the command from a cell `Command`, without which it is `report`; a code that ends with `..` is compared
up to there.
"""
import os
import re
import subprocess
import sys

ROOT = os.path.dirname(os.path.dirname(os.path.abspath(__file__)))
COMMAND = re.compile(r"(?:\$ )?(?:\S*/)?capacity ([^<>|]*[^<>| ]) *(?:< *(\S+))?( 2>&1 >/dev/null)?$")
WORDS = {"stairs", "check", "report", "compress", "headways", "cut", "cycle", "delays", "fill", "session", "made"}
INPUT = re.compile(r"# (\S+\.csv)(?:: (\S+\.csv) and)?$")


class Checker:
    def __init__(self, program, listing):
        self.program = os.path.abspath(program)
        self.listing = listing
        self.compared = 0
        self.differences = 0

    def run(self, words, data):
        try:
            done = subprocess.run([self.program] + words, input=data, capture_output=True, timeout=1800)
        except (OSError, subprocess.TimeoutExpired) as why:
            return None, str(why), ""
        return done.returncode, done.stdout.decode("utf-8", "replace"), done.stderr.decode("utf-8", "replace")

    def tell(self, where, what, said, written):
        self.differences += 1
        print("%s: %s" % (where, what))
        for line in said:
            print("  document  %s" % line)
        for line in written:
            print("  program   %s" % line)

    def compare(self, where, words, data, said, on_error):
        """The text of one example, line by line; `..` stands for any number of lines."""
        self.compared += 1
        status, out, err = self.run(words, data)
        expected = 1 if out.startswith("refused,") else 0
        written = (err if on_error else out).split("\n")
        if written and written[-1] == "":
            written.pop()
        if status != expected:
            self.tell(where, "status %s of %s" % (status, " ".join(words)), [], written[:3])
        elif not matches(said, written):
            self.tell(where, " ".join(words), said, written)

    def compare_cell(self, where, words, data, said, on_error):
        self.compared += 1
        _, out, err = self.run(words, data)
        written = (err if on_error else out).rstrip("\n")
        fits = written.startswith(said[:-2].rstrip()) if said.endswith("..") else written == said
        if not fits:
            self.tell(where, " ".join(words), [said], written.split("\n"))


def matches(said, written):
    """Whether the lines written are those said, where `..` stands for any number of lines."""
    if ".." not in said:
        return said == written
    parts, part = [], []
    for line in said:
        if line == "..":
            parts.append(part)
            part = []
        else:
            part.append(line)
    parts.append(part)
    first, last = parts[0], parts[-1]
    if written[:len(first)] != first:
        return False
    at, end = len(first), len(written) - len(last)
    if end < at or written[end:] != last:
        return False
    for middle in parts[1:-1]:
        while at + len(middle) <= end and written[at:at + len(middle)] != middle:
            at += 1
        if at + len(middle) > end:
            return False
        at += len(middle)
    return True


def blocks_of(lines):
    """The indented blocks of a document: (number of the first line, lines without their indent)."""
    found, block, first, indent, in_item = [], [], 0, 4, 0
    for number, line in enumerate(lines + [""], 1):
        spaces = len(line) - len(line.lstrip(" "))
        if line.strip() and spaces == 0:
            in_item = 0
        item = re.match(r"(\s*)([-*]|\d+\.)(\s+)\S", line)
        if item and not block:
            in_item = len(item.group(0)) - 1
            continue
        needed = in_item + 4
        if line.strip() and spaces >= needed:
            if not block:
                first, indent = number, spaces
            block.append(line[min(spaces, indent):])
        elif block:
            found.append((first, block))
            block = []
    return found


def data_of(name, shown):
    if name in shown:
        return shown[name]
    path = os.path.join(ROOT, name)
    if name.startswith("examples/") and os.path.exists(path):
        with open(path, "rb") as file:
            return file.read()
    return None


def command_of(line):
    found = COMMAND.match(line)
    if not found:
        return None
    words = found.group(1).split()
    return (words, found.group(2), found.group(3) is not None) if words[0] in WORDS else None


def check_blocks(checker, name, lines, shown):
    waiting = None
    for number, block in blocks_of(lines):
        start = INPUT.match(block[0])
        if start:
            base = data_of(start.group(2), shown) if start.group(2) else b""
            if base is None:
                checker.tell("%s:%d" % (name, number), "no input %s" % start.group(2), [], [])
                base = b""
            shown[start.group(1)] = base + "".join(row + "\n" for row in block[1:]).encode()
            continue
        text, used = [], False
        for place, line in enumerate(block):
            command = command_of(line)
            if command is None:
                text.append(line)
                continue
            if waiting and text:
                run_example(checker, waiting, text, shown)
            elif text:
                print("%s:%d: no command above this text" % (name, number))
            waiting, text, used = ("%s:%d" % (name, number + place),) + command, [], True
        if waiting and text:
            run_example(checker, waiting, text, shown)
            waiting, used = None, True
        if checker.listing and not used:
            print("%s:%d: no example: %s" % (name, number, block[0]))


def run_example(checker, waiting, text, shown):
    where, words, source, on_error = waiting
    data = b"" if source is None else data_of(source, shown)
    if data is None:
        # a reader's own file, as LINE.csv
        if source.startswith("examples/") or source != source.upper().replace(".CSV", ".csv"):
            checker.tell(where, "no input %s" % source, [], [])
        return
    checker.compare(where, words, data, text, on_error)


def codes(cell):
    return [code.strip() for code in re.findall(r"`([^`]+)`", cell)]


def check_tables(checker, name, lines, shown):
    header = None
    for number, line in enumerate(lines, 1):
        if not line.startswith("|"):
            header = None
            continue
        cells = [cell.strip() for cell in line.strip().strip("|").split("|")]
        if header is None:
            header = cells
            continue
        if set(line) <= set("|-: "):
            continue
        example = [i for i, cell in enumerate(header) if cell.startswith("Example")]
        result = [i for i, cell in enumerate(header) if cell in ("Row written", "Line on standard error")]
        if not example or not result or len(cells) != len(header):
            continue
        rows, said = codes(cells[example[0]]), codes(cells[result[0]])
        if not rows or not said:
            continue
        below = re.match(r"Example below `?(\S+?)`?$", header[example[0]])
        base = data_of(below.group(1), shown) if below else b""
        command = cells[header.index("Command")] if "Command" in header else ""
        words = (codes(command) or [command])[0].split() or ["report"]
        on_error = header[result[0]] != "Row written"
        where = "%s:%d" % (name, number)
        if base is None:
            checker.tell(where, "no input %s" % below.group(1), [], [])
            continue
        data = base + "".join(row + "\n" for row in rows).encode()
        checker.compare_cell(where, words, data, said[0], on_error)


def main():
    words = sys.argv[1:]
    listing = words[:1] == ["-l"]
    words = words[1:] if listing else words
    if not words:
        print("usage: docs/check_examples.py [-l] PROGRAM [DOCUMENT ..]")
        return 2
    checker = Checker(words[0], listing)
    documents = words[1:]
    if not documents:
        docs = os.path.join(ROOT, "docs")
        documents = [os.path.join(ROOT, "README.md")]
        documents += sorted(os.path.join(docs, name) for name in os.listdir(docs) if name.endswith(".md"))
    for path in documents:
        before = checker.compared
        with open(path, encoding="utf-8") as file:
            lines = file.read().split("\n")
        shown = {}
        name = os.path.relpath(path, ROOT)
        check_blocks(checker, name, lines, shown)
        check_tables(checker, name, lines, shown)
        print("%s: %d compared" % (name, checker.compared - before))
    print("%d compared, %d different" % (checker.compared, checker.differences))
    return 1 if checker.differences else 0


if __name__ == "__main__":
    sys.exit(main())
