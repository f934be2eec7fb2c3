#!/usr/bin/env python3
"""Runs two programs on the same random inputs: bench/differential.py PROGRAM PLAIN [COUNT [SEED]] [--jobs N] ..

PLAIN is a program of the same commands. COUNT inputs are made, 1,000 if it isn't given, each from a seed of its own, SEED,
SEED + 1, .., and several calls with each: small lines, edits of every kind and for every rule that refuses, planners'
scripts, rows of both versions and of no form, words of every command and wrong ones (bench/random_lines.py). The two texts on
standard output have to be the same, byte for byte, and the two statuses, but for what the documents leave free:

- of `cycle` the ring isn't compared; that of each program is held against the rule of docs/METHOD.md: it goes from its least
  train on back to it, each of its steps asks for a time, and together they refuse one second less;
- of `session W` with workers each text is read by the reader of bench/sessions.py, with the answers of the other program;
  the reports at the end are compared where both made the same edits in the same order.

Prints each difference with its seed, then a table of how often each outcome came, and ends with status 1 where there was a
difference. --keep FOLDER writes the input of each difference there, without the rows that it doesn't need, and both texts;
--only COMMAND,.. makes calls of these commands alone. 100,000 inputs are some 450,000 calls of each program.
"""
import argparse
import collections
import csv
import io
import itertools
import multiprocessing
import os
import pathlib
import random
import signal
import sys

import random_lines
import sessions
from random_lines import Spelling

COMMANDS = {"stairs": 4, "check": 4, "report": 4, "compress": 8, "headways": 4, "cut": 5, "cycle": 6, "delays": 6, "fill": 6}
SECONDS = 600  # for one call, on a machine that may be busy
CHUNK = 20  # inputs that a process takes at a time
TOO_LONG = 16_777_217


def table(text):
    return list(csv.reader(io.StringIO(text.decode())))


def csv_rows(edits):
    """Edits as the journal writes them, one string each."""
    rows = []
    for edit in edits:
        out = io.StringIO()
        csv.writer(out, lineterminator="").writerow(edit if isinstance(edit, list) else random_lines.canonical(edit))
        rows.append(out.getvalue())
    return rows


# ---- calls


class Pair:
    """Both programs, and files in memory for their input and their text."""

    def __init__(self, programs):
        self.programs = programs
        self.source, self.text = os.memfd_create("input"), os.memfd_create("text")
        signal.signal(signal.SIGALRM, too_long)

    def call(self, program, words):
        """The status and the text. (subprocess would take as long as the program itself.)"""
        os.lseek(self.source, 0, os.SEEK_SET)
        os.lseek(self.text, 0, os.SEEK_SET)
        os.ftruncate(self.text, 0)
        files = [(os.POSIX_SPAWN_DUP2, self.source, 0), (os.POSIX_SPAWN_DUP2, self.text, 1), (os.POSIX_SPAWN_OPEN, 2, os.devnull, os.O_WRONLY, 0)]
        child = os.posix_spawn(program, [program, *words], os.environ, file_actions=files)
        try:
            signal.alarm(SECONDS)
            status = os.waitstatus_to_exitcode(os.waitpid(child, 0)[1])
        except TimeoutError:
            os.kill(child, signal.SIGKILL)
            os.waitpid(child, 0)
            return "no end", b""
        finally:
            signal.alarm(0)
        return status, os.pread(self.text, os.fstat(self.text).st_size, 0)

    def both(self, words, given):
        os.ftruncate(self.source, 0)
        written = 0
        while written < len(given):
            written += os.pwrite(self.source, given[written:], written)
        return [self.call(program, words) for program in self.programs]


def too_long(*_):
    raise TimeoutError


class Call:
    """The words and the input of a call, and what its texts are held against."""

    def __init__(self, words, given, base=None, scripts=None):
        self.words, self.given, self.base, self.scripts = words, given, base, scripts

    def is_raced(self):
        return self.words[:1] == ["session"] and len(self.words) == 2 and self.words[1].isdigit() and 0 < int(self.words[1]) < 17


# ---- comparing


def difference(pair, call, counts):
    """In words, what is different, or nothing; and both ends."""
    ends = pair.both(call.words, call.given)
    (status, text), (other, other_text) = ends
    tally(call, status, text, counts)
    if status != other:
        return "status %s and %s" % (status, other), ends
    if status == 0 and call.is_raced():
        return difference_of_journals(pair, call, [text, other_text], counts), ends
    if status == 0 and call.words[0] == "cycle":
        return difference_of_cycles(pair, call, [text, other_text], counts), ends
    return first_difference(text, other_text), ends


def first_difference(text, other):
    if text == other:
        return None
    for number, (line, other_line) in enumerate(itertools.zip_longest(text.split(b"\n"), other.split(b"\n"))):
        if line != other_line:
            return "line %d: %r and %r" % (number + 1, line and line.decode(errors="replace"), other_line and other_line.decode(errors="replace"))


def difference_of_cycles(pair, call, texts, counts):
    outer = [without_ring(text) for text in texts]
    if outer[0] != outer[1]:
        return first_difference(*outer)
    if not call.base or not texts[0].startswith(b"period,"):
        return None
    section, members, bound = sessions.Timetable(pair.programs[0], csv_rows(call.base)).cuts[call.words[1]]
    for text in texts:
        wrong = wrong_ring(table(text), set(section[4:]), members, bound, counts if text is texts[0] else collections.Counter())
        if wrong:
            return "a ring that is none: %s in %r" % (wrong, text.decode())
    counts["cycle", "the rings are " + ("the same" if texts[0] == texts[1] else "others")] += 1
    return None


def without_ring(text):
    """The text of `cycle` without its steps and their number."""
    first, *lines = text.split(b"\n")
    return b"\n".join([first.rpartition(b",")[0] if first.startswith(b"period,") else first, *(line for line in lines if not line.startswith(b"step,"))])


def wrong_ring(rows, blocks, members, bound, counts):
    """What is wrong with the ring of a text of `cycle`, if anything."""
    period, steps = int(rows[0][2]), [row for row in rows if row[0] == "step"]
    uses = {name: {block: (start, end) for block, start, end in inside} for name, (_, inside) in members.items()}
    for place, first, start, end, second, own in bound:
        uses[first][place], uses[second][place] = (start, end), (own, own + 1)
    if not members:
        return None if rows[0][2:] == ["0", "0"] and not steps else "no train"
    if int(rows[0][3]) != len(steps) or not steps or steps[0][1] != min(step[1] for step in steps):
        return "its number or its first train"
    asked = 0
    for step, after in zip(steps, steps[1:] + steps[:1]):
        _, train, place, following, pattern = step
        if following != after[1] or place not in uses.get(train, {}) or place not in uses.get(following, {}):
            return "the step of %s" % train
        if pattern == "same" and not (uses[train][place][0], train) < (uses[following][place][0], following):
            return "the order of %s and %s" % (train, following)
        if pattern not in ("same", "next") or pattern == "next" and place not in blocks:
            return "the place %s" % place
        asked += uses[train][place][1] - members[train][0] - (uses[following][place][0] - members[following][0])
    patterns = sum(step[4] == "next" for step in steps)
    counts["cycle", "ring over %s" % amount(patterns, "pattern")] += 1
    counts["cycle", "ring of %s" % amount(len(steps), "step")] += 1
    return None if patterns and asked > patterns * (period - 1) else "%d s in %d patterns" % (asked, patterns)


def difference_of_journals(pair, call, texts, counts):
    rows = [table(text) for text in texts]
    base, scripts = csv_rows(call.base), [csv_rows(script) for script in call.scripts]
    reports, kinds = [], collections.Counter()
    for program, own in zip(reversed(pair.programs), rows):
        reader = sessions.Reader(sessions.Timetable(program, base), scripts, int(call.words[1]), own, kinds)
        try:
            reader.read()
        except (sessions.Wrong, LookupError, ValueError) as wrong:
            return "a text that is no journal's, of the %s program: %r" % ("first" if own is rows[0] else "second", wrong)
        reports.append(own[reader.place :])
    counts.update({("session W", "both texts: " + kind): number for kind, number in kinds.items()})
    edits = [[row for row in own if row[0] in ("edited", "rejected")] for own in rows]
    counts["session W", "both made the edits in one order" if edits[0] == edits[1] else "edits in another order"] += 1
    return None if edits[0] != edits[1] or reports[0] == reports[1] else "reports %r and %r" % tuple(reports)


# ---- how often each outcome came


def amount(number, one, many=None):
    """Such as 3 to 9 trains, in words that sort."""
    many = many or one + "s"
    for least, most in [(0, 0), (1, 1), (2, 2), (3, 9), (10, 99), (100, 767)]:
        if number <= most:
            return "%3s %s" % (least, one if most == 1 else many) if least == most else "%3d to %d %s" % (least, most, many)
    return "768 %s or more" % many


def tally(call, status, text, counts):
    command = call.words[0] if call.words and call.words[0] in [*COMMANDS, "session", "made"] else "other words"
    if command == "session" and call.is_raced():
        command = "session W"
    counts[command, "status %s" % status] += 1
    if status not in (0, 1) or len(text) > 1_000_000:
        return
    places = {edit[2] for edit in call.base or [] if edit[1] == "connect"}
    rows = table(text)
    for row in rows:
        for label in labels(row, places):
            counts[command, label] += 1
    if command == "headways" and status == 0:
        counts[command, amount(sum(row[0] == "headway" for row in rows), "row")] += 1


def labels(row, places):
    """The outcomes that a row of a text tells."""
    word = row[0]
    if word == "refused":
        yield "refused " + row[2]
    elif word == "ordered":
        yield "ordered, " + amount(int(row[2]), "train")
    elif word == "rate":
        yield row[6]
    elif word in ("train", "held"):
        yield "%s %s" % (word, row[5] if row[5] == "start" else "after, at a connection" if row[7] in places else "after, on a block")
    elif word in ("opposite", "crowded"):
        yield word
    elif word == "ring":
        yield "ring, " + amount(int(row[2]), "train")
    elif word == "critical":
        yield "chain of " + amount(int(row[2]), "link")
    elif word == "conflicts":
        yield "conflicts, more than are listed" if int(row[2]) else amount(int(row[1]), "conflict")
    elif word == "headway":
        yield "headway, negative" if int(row[3]) < 0 else "headway"
    elif word == "cut":
        yield "cut, " + amount(int(row[2]), "piece")
    elif word == "knock-on":
        yield "late: " + amount(int(row[1]), "train")
    elif word == "fill":
        yield "fill, none" if row[3] == "none" else "fill, " + amount(int(row[3]), "copy", "copies")
    elif word == "period":
        yield "period"
    elif word == "step":
        yield "step, %s" % row[4] + (" at a connection" if row[2] in places else "")
    elif word == "edited":
        yield "edited " + row[3]
    elif word == "rejected":
        yield "rejected %s" % row[2]
    elif word == "asked":
        yield "asked, " + row[3]
    elif word in ("published", "opened", "use"):
        yield word


# ---- inputs


def inputs(dice):
    """The calls of one seed."""
    kind = dice.choices(["line", "hostile", "words", "session", "workers", "made", "great", "long"], [72, 12, 2, 10, 4, 0.3, 0.1, 0.02])[0]
    maker = random_lines.make_line(dice)
    base, spelling = maker.line.edits, Spelling(dice)
    if kind == "line":
        more = refused_edits(dice, maker) if dice.random() < 0.08 else []
        yield from calls_of_line(dice, maker, None if more else base, spelling.text(spelling.rows(base + more)))
    elif kind == "hostile":
        scripts = random_lines.make_scripts(maker, 4) if dice.random() < 0.4 else []
        given = random_lines.make_hostile(dice, maker, scripts)
        commands = ["session"] if scripts else dice.sample([*COMMANDS, "session"], 2)
        yield from (Call(random_lines.words_of(dice, maker, command), given) for command in commands)
    elif kind == "words":
        yield from (Call(words, spelling.text(spelling.rows(base))) for words in dice.sample(random_lines.BAD_WORDS, 3))
    elif kind in ("session", "workers"):
        is_full = dice.random() < 0.02
        scripts = random_lines.too_many_tasks(dice, maker) if is_full else random_lines.make_scripts(maker, 7 if kind == "session" else 4)
        given = spelling.text(spelling.rows([*base, *random_lines.script_rows(scripts)]))
        workers = "0" if kind == "session" else dice.choice(["%d", "%02d"]) % dice.randrange(1, 17)
        yield Call(["session", workers], given, base, scripts)
        if dice.random() < 0.05:
            yield Call(["report"], given, base)
    elif kind == "made":
        yield Call(random_lines.words_of(dice, maker, "made"), b"")
    elif kind == "great":
        given = random_lines.make_great(dice, maker)
        yield from (Call([command], given) for command in ["stairs", "report"])
    elif kind == "long":
        given = spelling.text(spelling.rows(base))
        given += b"\n" * (TOO_LONG - dice.choice([0, 1, 2]) - len(given))
        yield Call(["report"], given)


def refused_edits(dice, maker):
    """An edit that a rule refuses, and now and then another one below it."""
    is_full = any(len(maker.line.items[kind]) == random_lines.LIMITS[kind] for kind in random_lines.KINDS)
    edit = random_lines.wanted_edit(maker, maker.line, "limit" if is_full else dice.choice(random_lines.RULES))
    return [edit] + [random_lines.any_edit(maker, maker.line) for _ in range(dice.randrange(2))]


def calls_of_line(dice, maker, base, given):
    commands = dict(COMMANDS)
    if len(maker.line.items["run"]) > 300:
        commands = dict.fromkeys(["report", "compress", "cut", "delays", "fill", dice.choice(["headways", "cycle", "check"])], 1)
    some = [dice.choices(list(commands), list(commands.values()))[0] for _ in range(6)]
    for command in dict.fromkeys(some):
        yield Call(random_lines.words_of(dice, maker, command), given, base)


# ---- differences


def shrunk(pair, call):
    """The call on an input of fewer lines, as long as the two differ."""
    differs = lambda lines: plainly_differ(pair, Call(call.words, b"".join(lines)))
    lines = call.given.splitlines(keepends=True)
    if call.is_raced() or not differs(lines):
        return call.given
    size = max(1, len(lines) // 2)
    while size:
        place = 0
        while place < len(lines):
            fewer = lines[:place] + lines[place + size :]
            lines, place = (fewer, place) if differs(fewer) else (lines, place + size)
        size //= 2
    return b"".join(lines)


def plainly_differ(pair, call):
    (status, text), (other, other_text) = pair.both(call.words, call.given)
    return status != other or without_ring(text) != without_ring(other_text)


def keep(folder, pair, seed, number, call, ends):
    path = os.path.join(folder, "%d-%d" % (seed, number))
    os.makedirs(folder, exist_ok=True)
    small = shrunk(pair, call)
    ends = ends if call.is_raced() else pair.both(call.words, small)
    for end, data in [("input", call.given), ("small", small), ("program", ends[0][1]), ("plain", ends[1][1])]:
        pathlib.Path("%s.%s" % (path, end)).write_bytes(data)
    return path + ".small"


def one_input(seed):
    """The differences of a seed, in words, and what was counted."""
    pair, options = SETTING
    differences, counts = [], collections.Counter()
    for number, call in enumerate(inputs(random.Random(seed))):
        if options.only and call.words[:1] != [] and call.words[0] not in options.only.split(","):
            continue
        found, ends = difference(pair, call, counts)
        counts["all", "calls"] += 1
        if found:
            kept = ", kept as %s" % keep(options.keep, pair, seed, number, call, ends) if options.keep else ""
            differences.append("seed %d, %s: %s%s" % (seed, " ".join(map(repr, call.words)), found, kept))
    return seed, differences, counts


def begin(options):
    global SETTING
    SETTING = Pair([os.path.abspath(options.program), os.path.abspath(options.plain)]), options


def main():
    parser = argparse.ArgumentParser(description=__doc__, formatter_class=argparse.RawDescriptionHelpFormatter)
    parser.add_argument("program")
    parser.add_argument("plain")
    parser.add_argument("count", nargs="?", type=int, default=1000)
    parser.add_argument("seed", nargs="?", type=int, default=1)
    parser.add_argument("--jobs", type=int, default=1)
    parser.add_argument("--only")
    parser.add_argument("--keep")
    options = parser.parse_args()
    counts, different = collections.Counter(), 0
    with multiprocessing.Pool(options.jobs, begin, [options]) as pool:
        for seed, differences, counted in pool.imap_unordered(one_input, range(options.seed, options.seed + options.count), CHUNK):
            counts.update(counted)
            different += len(differences)
            for line in differences:
                print(line, flush=True)
                print("    again: bench/differential.py %s %s 1 %d --keep FOLDER" % (options.program, options.plain, seed), flush=True)
    tell(options, counts, different)
    sys.exit(1 if different else 0)


def tell(options, counts, different):
    for command in sorted({command for command, _ in counts}):
        print("\n%s" % command)
        for (other, label), number in sorted(counts.items()):
            if other == command:
                print("  %9s  %s" % ("{:,}".format(number), label))
    print("\n%d inputs from seed %d: %d differences" % (options.count, options.seed, different))


if __name__ == "__main__":
    main()
