"""Tests of docs/check_examples.py, whose program is a short script here."""
import contextlib
import io
import os
import pathlib
import sys
import tempfile
import unittest

sys.path.insert(0, str(pathlib.Path(__file__).resolve().parent.parent))
import check_examples

# It writes its first word, and the number of its lines of input.
PROGRAM = """#!/bin/sh
echo "$1,$(wc -l | tr -d ' ')"
echo "told" >&2
"""


class Matches(unittest.TestCase):
    def test_equal_lines(self):
        self.assertTrue(check_examples.matches(["a", "b"], ["a", "b"]))
        self.assertFalse(check_examples.matches(["a", "b"], ["a", "c"]))
        self.assertFalse(check_examples.matches(["a"], ["a", "b"]))

    def test_two_dots_are_any_number_of_lines(self):
        self.assertTrue(check_examples.matches(["a", "..", "d"], ["a", "b", "c", "d"]))
        self.assertTrue(check_examples.matches(["a", "..", "d"], ["a", "d"]))
        self.assertTrue(check_examples.matches(["..", "b", ".."], ["a", "b", "c"]))
        self.assertFalse(check_examples.matches(["..", "x", ".."], ["a", "b", "c"]))
        self.assertFalse(check_examples.matches(["a", "..", "a"], ["a"]))


class Reading(unittest.TestCase):
    def test_commands(self):
        self.assertEqual(check_examples.command_of("capacity compress S < examples/a.csv"), (["compress", "S"], "examples/a.csv", False))
        self.assertEqual(check_examples.command_of("$ capacity made 1"), (["made", "1"], None, False))
        self.assertEqual(check_examples.command_of("capacity check < a.csv 2>&1 >/dev/null"), (["check"], "a.csv", True))
        self.assertIsNone(check_examples.command_of("capacity of a line"))
        self.assertIsNone(check_examples.command_of("rate,S,1/12,8.34,133/1200,11.09,within"))

    def test_blocks(self):
        lines = ["Text", "", "    one", "    two", "", "- item", "", "      three", ""]
        self.assertEqual(check_examples.blocks_of(lines), [(3, ["one", "two"]), (8, ["three"])])


class Documents(unittest.TestCase):
    def differences(self, text):
        """What was compared and what differs in a document with this text."""
        with tempfile.TemporaryDirectory() as folder:
            program = os.path.join(folder, "program")
            pathlib.Path(program).write_text(PROGRAM)
            os.chmod(program, 0o755)
            checker, shown, lines = check_examples.Checker(program, False), {}, text.split("\n")
            with contextlib.redirect_stdout(io.StringIO()):
                check_examples.check_blocks(checker, "page", lines, shown)
                check_examples.check_tables(checker, "page", lines, shown)
        return checker.compared, checker.differences

    def test_a_right_number_and_a_wrong_one(self):
        page = "    # line.csv\n    block,A,1000\n    block,B,1000\n\nThen\n\n    capacity report < line.csv\n    report,%d\n"
        self.assertEqual(self.differences(page % 2), (1, 0))
        self.assertEqual(self.differences(page % 3), (1, 1))

    def test_standard_error(self):
        page = "    # line.csv\n    block,A,1000\n\nThen\n\n    capacity report < line.csv 2>&1 >/dev/null\n    %s\n"
        self.assertEqual(self.differences(page % "told"), (1, 0))
        self.assertEqual(self.differences(page % "said"), (1, 1))

    def test_an_input_that_is_nowhere(self):
        self.assertEqual(self.differences("    capacity report < lost.csv\n    report,1\n"), (0, 1))

    def test_a_table(self):
        page = "    # line.csv\n    block,A,1000\n\n| Example below `line.csv` | Row written |\n|---|---|\n| `block,B,1` | `report,%d` |\n| | `none` |\n"
        self.assertEqual(self.differences(page % 2), (1, 0))
        self.assertEqual(self.differences(page % 1), (1, 1))


if __name__ == "__main__":
    unittest.main()
