"""Tests of bench/measure.py: the lines that it measures on, and what it reads from a call."""
import collections
import os
import pathlib
import sys
import tempfile
import unittest

sys.path.insert(0, str(pathlib.Path(__file__).resolve().parent.parent))
import measure


class Lines(unittest.TestCase):
    def test_a_line_of_three_runs_over_eight_blocks(self):
        with tempfile.TemporaryDirectory() as folder:
            path = pathlib.Path(folder) / "line.csv"
            measure.make_line(3, 8, path)
            rows = [row.split(",") for row in path.read_text().splitlines()]
        kinds = collections.Counter(row[0] for row in rows)
        self.assertEqual((kinds["block"], kinds["signal"], kinds["run"], kinds["section"]), (8, 8, 3, 2))
        self.assertTrue(all(len(row) == 5 + 2 * 8 for row in rows if row[0] == "run"))


class Calls(unittest.TestCase):
    def setUp(self):
        self.folder = tempfile.TemporaryDirectory()
        self.addCleanup(self.folder.cleanup)
        self.addCleanup(setattr, measure, "PROGRAM", measure.PROGRAM)
        measure.PROGRAM = os.path.join(self.folder.name, "program")
        self.line = os.path.join(self.folder.name, "line.csv")
        pathlib.Path(self.line).write_text("block,A,1000\n")

    def stands(self, text):
        pathlib.Path(measure.PROGRAM).write_text("#!/bin/sh\n" + text)
        os.chmod(measure.PROGRAM, 0o755)

    def test_what_a_call_says(self):
        self.stands('echo "$1 $2" >&2')
        seconds, said = measure.run_once(self.line, "compress S")
        self.assertEqual(said, "compress S\n")
        self.assertGreater(seconds, 0)

    def test_a_call_that_fails_ends_all(self):
        self.stands("echo why >&2; exit 3")
        with self.assertRaisesRegex(SystemExit, "ended with 3: why"):
            measure.run_once(self.line, "report")


if __name__ == "__main__":
    unittest.main()
