#!/usr/bin/env python3
"""Runs two programs on the same long texts: bench/long_texts.py PROGRAM PLAIN [COUNT [SEED]]

PLAIN is a program of the same commands. COUNT texts are made, 100 if it isn't given, mostly of 1.4 to 17 MB: one of
bench/make_line.py, make_hard.py or make_session.py, with one or two things changed that matter to a text that is read piece by
piece: line ends, blank lines, bytes of a byte order mark, double quotes, a version row, a row that is refused, very long rows.
The two texts on standard output have to be the same, byte for byte, and the two statuses.

Prints each difference with what was changed, then how often each status came, and ends with status 1 where there was one.
"""
import collections
import pathlib
import random
import subprocess
import sys

BENCH = pathlib.Path(__file__).resolve().parent
# The scripts that make the texts, and the commands that read them.
TEXTS = [
    ("make_line 2048 256 4", ["check", "stairs"]),
    ("make_hard names", ["stairs"]),
    ("make_hard changes", ["report"]),
    ("make_hard moves", ["stairs"]),
    ("make_session mid base", ["report", "compress q00"]),
    ("make_session mid", ["session 0"]),
]
BAD_FIELDS = [b"", b"x", b"1234567890", b"\x01", b"\xff"]


def with_row(lines, place, row):
    return b"\n".join(lines[:place] + [row] + lines[place + 1:])


def with_field(row, drawn, field):
    fields = row.split(b",")
    fields[drawn.randrange(len(fields))] = field
    return b",".join(fields)


def blank_lines(lines, drawn):
    lines = list(lines)
    for _ in range(200):
        lines.insert(drawn.randrange(len(lines)), b"")
    return b"\n".join(lines)


def twice(lines, drawn, place):
    lines = list(lines)
    lines.insert(drawn.randrange(len(lines)), lines[place])
    return b"\n".join(lines)


def changed(text, drawn):
    """What is changed, and the text with it."""
    lines = text.split(b"\n")
    place = drawn.randrange(len(lines))
    row = lines[place]
    changes = {
        "nothing": lambda: text,
        "carriage returns and line feeds": lambda: text.replace(b"\n", b"\r\n"),
        "carriage returns": lambda: text.replace(b"\n", b"\r"),
        "blank lines": lambda: blank_lines(lines, drawn),
        "blank lines first": lambda: b"\n" * drawn.choice([10, 300_000, 1_100_000]) + text,
        "a mark first": lambda: b"\xef\xbb\xbf" + text,
        "a mark before a row": lambda: with_row(lines, place, b"\xef\xbb\xbf" + row),
        "a byte of a mark before a row": lambda: with_row(lines, place, b"\xef" + row),
        "a quoted field": lambda: with_row(lines, place, with_field(row, drawn, b'"1000"')),
        "a quoted row first": lambda: b'"' + lines[0].replace(b",", b'","') + b'"\n' + b"\n".join(lines[1:]),
        "a version row": lambda: drawn.choice([b"version,1\n", b"version,2\n", b"version,3\n", b"\n\nversion,1\n"]) + text,
        "a version row below": lambda: with_row(lines, place, b"version,1"),
        "a bad field": lambda: with_row(lines, place, with_field(row, drawn, drawn.choice(BAD_FIELDS))),
        "a row twice": lambda: twice(lines, drawn, place),
        "a row less": lambda: b"\n".join(lines[:place] + lines[place + 1:]),
        "a planner's row": lambda: with_row(lines, place, b"planner,1"),
        "a long row": lambda: with_row(lines, place, row + b"," * drawn.choice([1_000, 400_000])),
        "a space before a row": lambda: with_row(lines, place, b" " + row),
        "an end in a row": lambda: text[: drawn.randrange(len(text) // 2, len(text) + 1)],
        "no line end last": lambda: text.rstrip(b"\n"),
    }
    name = drawn.choice(list(changes))
    return name, changes[name]()


def text_of(words):
    script, *others = words.split()
    return subprocess.run([sys.executable, BENCH / f"{script}.py", *others], stdout=subprocess.PIPE, check=True).stdout


def answer(program, words, text):
    ended = subprocess.run([program, *words.split()], input=text, stdout=subprocess.PIPE, stderr=subprocess.DEVNULL)
    return ended.returncode, ended.stdout


def main(program, plain, count=100, seed=1):
    made = {words: text_of(words) for words, _ in TEXTS}
    statuses, different = collections.Counter(), 0
    for number in range(int(seed), int(seed) + int(count)):
        drawn = random.Random(number)
        words, commands = drawn.choice(TEXTS)
        text, names, command = made[words], [], drawn.choice(commands)
        for _ in range(drawn.choice([1, 1, 2])):
            name, text = changed(text, drawn)
            names.append(name)
        ours, theirs = answer(program, command, text), answer(plain, command, text)
        statuses[ours[0]] += 1
        if ours != theirs:
            different += 1
            print(f"{number}: {command}, {words}, {' and '.join(names)}: statuses {ours[0]} and {theirs[0]}, "
                  f"{len(ours[1])} and {len(theirs[1])} bytes")
    often = ", ".join(f"status {status} {times} times" for status, times in sorted(statuses.items()))
    print(f"{count} texts: {different} differences; {often}")
    return 1 if different else 0


if __name__ == "__main__":
    if not 3 <= len(sys.argv) <= 5:
        sys.exit(__doc__)
    sys.exit(main(*sys.argv[1:]))
