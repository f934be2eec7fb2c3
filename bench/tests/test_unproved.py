"""Tests of bench/unproved.py and bench/all_tests.py, as far as nothing is built."""
import contextlib
import io
import pathlib
import sys
import unittest

sys.path.insert(0, str(pathlib.Path(__file__).resolve().parent.parent))
import all_tests
import unproved


class Crates(unittest.TestCase):
    USES = unproved.libraries("# Lowest first.\nlow:\nmiddle: low csv\n\nhigh status=3: middle io\nother: low\n")

    def test_lines(self):
        self.assertEqual(self.USES, {"low": [], "middle": ["low", "csv"], "high": ["middle", "io"], "other": ["low"]})

    def test_what_a_crate_is_made_from(self):
        self.assertEqual(unproved.below("high", self.USES), ["high", "low", "middle"])
        self.assertEqual(unproved.below("low", self.USES), ["low"])


class Tallies(unittest.TestCase):
    def told(self, needs_all):
        tally = all_tests.Tally(needs_all)
        with contextlib.redirect_stdout(io.StringIO()) as out:
            tally.add("one", 3, 1, "why it failed")
            tally.leave_out("two", "for want of a tool")
        return tally, out.getvalue()

    def test_what_is_left_out_fails_only_where_all_is_asked_for(self):
        tally, out = self.told(False)
        self.assertEqual((tally.passed, tally.failed), (3, 1))
        self.assertIn("why it failed", out)
        self.assertIn("for want of a tool", out)
        self.assertEqual(self.told(True)[0].failed, 2)


if __name__ == "__main__":
    unittest.main()
