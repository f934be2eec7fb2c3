"""Tests of bench/differential.py, with short scripts for the two programs."""
import collections
import os
import pathlib
import signal
import sys
import tempfile
import unittest

sys.path.insert(0, str(pathlib.Path(__file__).resolve().parent.parent))
import differential


class Texts(unittest.TestCase):
    def test_the_first_difference(self):
        self.assertIsNone(differential.first_difference(b"a\nb\n", b"a\nb\n"))
        self.assertEqual(differential.first_difference(b"a\nb\n", b"a\nc\n"), "line 2: 'b' and 'c'")
        self.assertEqual(differential.first_difference(b"a", b"a\nb"), "line 2: None and 'b'")

    def test_a_cycle_without_its_ring(self):
        text = b"period,S,300,2\nstep,T1,A,T2,same\nstep,T2,A,T1,next\nlast,1\n"
        self.assertEqual(differential.without_ring(text), b"period,S,300\nlast,1\n")
        self.assertEqual(differential.without_ring(b"refused,0,name"), b"refused,0,name")

    def test_amounts(self):
        words = [differential.amount(number, "train").strip() for number in (0, 1, 2, 3, 9, 767, 768)]
        self.assertEqual(words, ["0 trains", "1 train", "2 trains", "3 to 9 trains", "3 to 9 trains", "100 to 767 trains", "768 trains or more"])

    def test_labels(self):
        places = {"A": "N"}.values()
        labels = lambda row: list(differential.labels(row.split(","), places))
        self.assertEqual(labels("refused,3,twice"), ["refused twice"])
        self.assertEqual(labels("train,T2,85,0,-85,after,T1,N"), ["train after, at a connection"])
        self.assertEqual(labels("train,T2,85,0,-85,after,T1,A"), ["train after, on a block"])
        self.assertEqual(labels("headway,T1,T2,-5"), ["headway, negative"])


class Rings(unittest.TestCase):
    """Two trains keep block A for 100 s each, the second 100 s after the first: they repeat each 200 s."""

    MEMBERS = {"T1": (0, [("A", 0, 100)]), "T2": (100, [("A", 100, 200)])}

    def wrong(self, period, *steps):
        rows = [["period", "S", str(period), str(len(steps))], *(("step,%s" % step).split(",") for step in steps)]
        return differential.wrong_ring(rows, {"A"}, self.MEMBERS, [], collections.Counter())

    def test_a_ring(self):
        self.assertIsNone(self.wrong(200, "T1,A,T2,same", "T2,A,T1,next"))

    def test_a_period_that_is_too_long(self):
        self.assertEqual(self.wrong(201, "T1,A,T2,same", "T2,A,T1,next"), "200 s in 1 patterns")

    def test_rings_that_are_none(self):
        self.assertEqual(self.wrong(200, "T1,B,T2,same", "T2,A,T1,next"), "the step of T1")
        self.assertEqual(self.wrong(200, "T2,A,T1,next", "T1,A,T2,same"), "its number or its first train")
        self.assertEqual(self.wrong(200, "T1,A,T2,next", "T2,A,T1,same"), "the order of T2 and T1")


class Ends(unittest.TestCase):
    def setUp(self):
        self.folder = tempfile.TemporaryDirectory()
        self.addCleanup(self.folder.cleanup)
        self.addCleanup(signal.signal, signal.SIGALRM, signal.getsignal(signal.SIGALRM))

    def program(self, name, text):
        path = os.path.join(self.folder.name, name)
        pathlib.Path(path).write_text("#!/bin/sh\n" + text)
        os.chmod(path, 0o755)
        return path

    def difference(self, first, second):
        pair = differential.Pair([self.program("first", first), self.program("second", second)])
        return differential.difference(pair, differential.Call(["check"], b"one\n"), collections.Counter())[0]

    def test_the_same_text(self):
        self.assertIsNone(self.difference("cat", "read line; echo $line"))

    def test_another_text(self):
        self.assertEqual(self.difference("cat", "echo two"), "line 1: 'one' and 'two'")

    def test_another_status(self):
        self.assertEqual(self.difference("cat; exit 1", "cat"), "status 1 and 0")


if __name__ == "__main__":
    unittest.main()
