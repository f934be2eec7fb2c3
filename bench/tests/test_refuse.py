"""Tests of bench/refuse.py, without the program: python3 -m unittest discover -s bench/tests"""
import argparse
import contextlib
import io
import pathlib
import random
import subprocess
import sys
import tempfile
import unittest

BENCH = pathlib.Path(__file__).resolve().parent.parent
sys.path.insert(0, str(BENCH))

import refuse
import refuse_cases
import refuse_runs
import sessions
from refuse_runs import HANG, WHOLE, WRONG, Ended, Told

# Eight allocations of which the refused ones are written as 0; each is given back but for those that a word asks to lose.
SMALL = """
#include <stdlib.h>
#include <unistd.h>
int main(int count, char **words) {
  for (int i = 0; i < 8; i++) {
    void *volatile block = malloc(8);
    write(1, block ? "1" : "0", 1);
    if (count == 1) free(block);
  }
  return 0;
}
"""


class Named(argparse.Namespace):
    """What a run needs to know of a call."""

    def env(self, shim, refused):
        return refuse_runs.Call.env(self, shim, refused)

    def is_raced(self):
        return False


def call_of(**more):
    case = refuse_cases.Case("stairs", "")
    most = {"memory": 50, "thread": 2, "read": 9, "write": 7}
    judge = refuse_cases.Listed([b"a text of some length\n"])
    return Named(**{"case": case, "words": ["stairs"], "status": 0, "blocks": 0, "piece": 10, "most": most, "judge": judge, **more})


def way(refused, status, text=b"", told=(50, 2, 9, 7, 0), call=None):
    return refuse_runs.way_of(call or call_of(), refused, Ended(status, text, told and Told(*told)))[0]


WHOLE_TEXT = b"a text of some length\n"


class Options(unittest.TestCase):
    def test_defaults(self):
        options = refuse.options_of([])
        self.assertEqual((options.program, options.busy, options.limit, options.only), (None, 1, 20, ""))
        self.assertEqual((options.seconds, options.runs), (None, None))

    def test_all(self):
        options = refuse.options_of("/bin/cat --busy 6 --limit 2.5 --only session --seconds 9 --runs 7 --seed 3".split())
        self.assertEqual((str(options.program), options.busy, options.limit, options.only), ("/bin/cat", 6, 2.5, "session"))
        self.assertEqual((options.seconds, options.runs, options.seed), (9, 7, 3))

    def test_wrong_ones(self):
        for words in ["--busy 0", "--limit 0", "--only none", "a b"]:
            with self.subTest(words), contextlib.redirect_stderr(io.StringIO()), self.assertRaises(SystemExit):
                refuse.options_of(words.split())

    def test_chosen(self):
        names = lambda only: [case.name() for case in refuse.chosen(only)]
        self.assertEqual(names("session 1"), ["session 1"])
        self.assertEqual(names("session 16"), ["session 16", "session 16, 2 planners", "session 16, 3 planners"])
        self.assertEqual(names("session 4, 3"), ["session 4, 3 planners"])
        self.assertEqual(len(names("")), len(refuse_cases.CASES))

    def test_nothing_is_built_where_a_program_is_named(self):
        called, real = [], subprocess.run
        try:
            subprocess.run = lambda words, **how: called.append(words[0])
            refuse.build(pathlib.Path("/none"), pathlib.Path("/bin/cat"))
        finally:
            subprocess.run = real
        self.assertEqual(called, ["cc"])


class Ends(unittest.TestCase):
    def test_ways(self):
        self.assertEqual(way({}, 0, WHOLE_TEXT), WHOLE)
        self.assertEqual(way({"memory": [50]}, 5), "without memory")
        self.assertEqual(way({"memory": [50]}, 0, WHOLE_TEXT), WHOLE)
        self.assertEqual(way({"read": [9]}, 3), "with status 3")
        self.assertEqual(way({"write": [2]}, 4, WHOLE_TEXT[:10]), "with status 4")
        self.assertEqual(way({"thread": ["all"]}, 0, WHOLE_TEXT), WHOLE)
        self.assertEqual(way({}, None, b"", None), HANG)

    def test_two_refused(self):
        self.assertEqual(way({"memory": [7, 51]}, 5), "without memory")
        self.assertEqual(way({"memory": [7], "read": [2]}, 5), "without memory")
        self.assertEqual(way({"memory": [7], "read": [2]}, 3), "with status 3")
        self.assertEqual(way({"memory": [7], "thread": [1]}, 0, WHOLE_TEXT), WHOLE)

    def test_wrong_ones(self):
        wrong = {
            "no text": ({}, 0),
            "another text": ({"memory": [7]}, 0, WHOLE_TEXT[:-1]),
            "a text without memory": ({"memory": [7]}, 5, WHOLE_TEXT),
            "memory that wasn't refused": ({"memory": [51]}, 5),
            "a thread that wasn't made": ({"thread": [1]}, 5),
            "a read that wasn't refused": ({"read": [10]}, 3),
            "a read that was refused": ({"read": [9]}, 0, WHOLE_TEXT),
            "a text where a read was refused": ({"read": [9]}, 3, b"a"),
            "a write that was refused": ({"write": [7]}, 0, WHOLE_TEXT),
            "more than was written": ({"write": [1]}, 4, b"a"),
            "other than was written": ({"write": [2]}, 4, b"b"),
            "memory after a write": ({"memory": [7], "write": [1]}, 5),
            "a signal": ({"memory": [7]}, -11),
            "nothing told": ({}, 0, WHOLE_TEXT, None),
            "a block": ({"memory": [7]}, 5, b"", (50, 2, 9, 7, 1)),
            "a block too many": ({}, 0, WHOLE_TEXT, (50, 2, 9, 7, -1)),
        }
        for what, end in wrong.items():
            with self.subTest(what):
                self.assertEqual(way(*end), WRONG)

    def test_blocks_that_are_left_with_ample_memory(self):
        call = call_of(blocks=2)
        self.assertEqual(way({"memory": [7]}, 5, b"", (50, 2, 9, 7, 2), call), "without memory")
        self.assertEqual(way({"memory": [7]}, 5, b"", (50, 2, 9, 7, 3), call), WRONG)

    def test_told(self):
        self.assertEqual(refuse_runs.told_in(b"1 2 3 4 5\n"), Told(1, 2, 3, 4, 5))
        self.assertIsNone(refuse_runs.told_in(b""))

    def test_lengths(self):
        with contextlib.redirect_stdout(io.StringIO()):
            self.assertEqual([refuse.tell_lengths(lengths) for lengths in ([], [0], [0, 10, 20], [0, 10, 10, 5])], [0, 0, 0, 2])


class Draws(unittest.TestCase):
    def test_what_is_drawn(self):
        dice, seen = random.Random(1), set()
        for _ in range(3000):
            refused = refuse.drawn(dice, call_of())
            seen.add(tuple(sorted((what, len(numbers)) for what, numbers in refused.items())))
            self.assertTrue(all(number == "all" or number > 0 for numbers in refused.values() for number in numbers))
            self.assertTrue(all(refused.get("read", [0])[0] <= 10 and refused.get("write", [0])[0] <= 8 for _ in [0]))
        one_kind = {(("memory", 1),), (("memory", 2),), (("thread", 1),), (("thread", 2),), (("read", 1),), (("write", 1),)}
        self.assertEqual(seen, one_kind | {(("memory", 1), (other, 1)) for other in ["thread", "read", "write"]})

    def test_a_call_without_threads(self):
        call = call_of(most={"memory": 50, "thread": 0, "read": 9, "write": 7})
        dice = random.Random(1)
        self.assertFalse(any("thread" in refuse.drawn(dice, call) for _ in range(1000)))

    def test_so_many(self):
        options = refuse.options_of(["--runs", "20", "--seed", "5"])
        first, second = [list(refuse.drawn_runs(options, [call_of()])) for _ in range(2)]
        self.assertEqual(len(first), 20)
        self.assertEqual([refused for _, refused in first], [refused for _, refused in second])

    def test_for_so_long(self):
        options = refuse.options_of(["--seconds", "0.05"])
        self.assertGreater(len(list(refuse.drawn_runs(options, [call_of()]))), 1)

    def test_words(self):
        self.assertEqual(refuse_runs.spelled({"memory": [7, 9], "thread": ["all"]}), "allocation 7,9 and thread all")
        env = call_of().env("refuse.so", {"memory": [7, 9]})
        self.assertEqual(env, {"LD_PRELOAD": "refuse.so", "REFUSED_TOLD": "3", "REFUSED_MEMORY": "7,9"})
        self.assertEqual(call_of().env("refuse.so", {"write": [2]})["REFUSED_PIECE"], "10")


class Runs(unittest.TestCase):
    """Of other programs, which the shim is preloaded into where it is needed."""

    def setUp(self):
        folder = tempfile.TemporaryDirectory()
        self.addCleanup(folder.cleanup)
        self.folder = pathlib.Path(folder.name)
        (self.folder / "input").write_bytes(b"an input\n")

    def run_small(self, words, refused):
        (self.folder / "small.c").write_text(SMALL)
        subprocess.run(["cc", "-w", "-o", self.folder / "small", self.folder / "small.c"], check=True)
        slot = refuse_runs.Slot(self.folder / "small", refuse.build(self.folder, self.folder / "small"), 20)
        return slot.run(call_of(words=words, path=self.folder / "input"), refused)

    def test_two_allocations(self):
        self.assertEqual(self.run_small([], {"memory": [3, 5]}), Ended(0, b"11010111", Told(8, 0, 0, 8, 0)))

    def test_lost_blocks(self):
        self.assertEqual(self.run_small(["lose"], {"memory": [1]}).told.blocks, 7)

    def test_a_hang_is_told_and_the_others_go_on(self):
        (self.folder / "some").write_text('#!/bin/sh\n[ "$1" = hang ] && exec sleep 60\ncat\n')
        (self.folder / "some").chmod(0o755)
        crowd = refuse_runs.Crowd(self.folder / "some", "", refuse.options_of(["--busy", "2", "--limit", "1"]))
        runs = [call_of(words=words, path=self.folder / "input") for words in (["hang"], ["go"], ["go"], ["go"])]
        with contextlib.redirect_stdout(io.StringIO()) as told:
            crowd.go((call, {"memory": [7, 9]}) for call in runs)
        self.assertEqual(crowd.counts, {HANG: 1, WRONG: 3})  # (wrong, since nothing is told of them)
        self.assertIn("HANG: run 4, stairs, allocation 7,9 refused: not over, threads that are left: 1", told.getvalue())

    def test_a_fault_of_the_script_ends_it(self):
        crowd = refuse_runs.Crowd("/none", "", refuse.options_of(["--busy", "2"]))
        with self.assertRaises(FileNotFoundError):
            crowd.go((call_of(path=self.folder / "input"), {}) for _ in range(9))


def table(text):
    return [line.split(",") for line in text.splitlines()]


def stairs(*starts):
    """The rows of `stairs` for two-blocks.csv where T1 and T2 have these first seconds of use."""
    rows = "use,T%d,A,%d,%d,5,10,0,60,6,5\nuse,T%d,B,%d,%d,5,10,60,60,10,5\n"
    return table("".join(rows % (train, start, start + 86, train, start, start + 150) for train, start in zip([1, 2], starts)))


class Texts(unittest.TestCase):
    """Journals of the session on two-blocks.csv, whose texts are worked out by hand."""

    def setUp(self):
        lines, edit = refuse_cases.LINE.splitlines(), refuse_cases.ONE[0][0]
        answer = lambda second, late: table(refuse_cases.ORDERED + refuse_cases.TRAINS % (second, late))
        opened = sessions.Timetable(None, lines, stairs(85, 385))
        after = sessions.Timetable(None, [*lines, edit], stairs(85, 85))
        opened.after[edit] = after
        opened.texts["compress", "S"], after.texts["compress", "S"] = answer(385, -235), answer(85, 65)
        after.texts["report",] = table(refuse_cases.TOTAL)
        self.journals = refuse_cases.Journals(opened, refuse_cases.ONE, 2)

    def test_legal_ones(self):
        for text in refuse_cases.races(2):
            self.assertIsNone(self.journals.fault(text.encode()))
        self.assertEqual(self.journals.count(), 4)

    def test_beginnings(self):
        text = refuse_cases.races(2)[2].encode()
        for length in range(0, len(text), 7):
            self.assertIsNone(self.journals.fault(text[:length], True))
            self.assertIsNotNone(self.journals.fault(text[:length]))

    def test_wrong_ones(self):
        first, _, third, _ = refuse_cases.races(2)
        wrong = {
            "other workers": refuse_cases.races(3)[0],
            "an answer of an earlier edit": first.replace("published,S,9", "published,S,8"),
            "other rows of an answer": first.replace("T2,85,150,65", "T2,85,150,66"),
            "another reply": third.replace("stale,8,9", "ready,8"),
            "a task that is left out": third.replace("asked,1,S,stale,8,9\n", ""),
            "a task that is done twice": third.replace("asked,1,S,stale,8,9\n", 2 * "asked,1,S,stale,8,9\n"),
            "no answer in the end": third.replace(refuse_cases.LATER, ""),
            "another total": first.replace("total,1,1,1", "total,1,1,0"),
            "no total": first.replace("total,1,1,1,0,0,0\n", ""),
            "a last line without its end": first[:-1],
            "another spelling": first.replace("asked,1,S", 'asked,1,"S"'),
            "a row more": first + "total,1,1,1,0,0,0\n",
        }
        for what, text in wrong.items():
            with self.subTest(what):
                self.assertIsNotNone(self.journals.fault(text.encode()))

    def test_wrong_beginnings(self):
        text = refuse_cases.races(2)[0].replace("T2,385,150,-235", "T2,385,150,235").encode()
        place = text.index(b",235") + len(b",235,after,T1,B\n")
        self.assertIsNotNone(self.journals.fault(text[:place], True))
        self.assertIsNotNone(self.journals.fault(b"\xff\n", True))


if __name__ == "__main__":
    unittest.main()
