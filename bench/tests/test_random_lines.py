"""Tests of bench/random_lines.py: the rules that a line keeps, and that a seed makes one input alone."""
import pathlib
import random
import sys
import unittest

sys.path.insert(0, str(pathlib.Path(__file__).resolve().parent.parent))
import random_lines

BASE = [
    ("", "block", "A", [1000]),
    ("", "block", "B", [1000]),
    ("", "signal", "P", ["A", 0, 10, 10, 0, 10]),
    ("", "signal", "Q", ["B", 0, 10, 10, 0, 10]),
    ("", "route", "R", ["P", "Q"]),
    ("", "run", "T1", ["R", 100, 0, 60, 60, 0, 60]),
    ("", "section", "S", [0, 3600, 33, "A", "B"]),
]


def small_line():
    line = random_lines.Line()
    for edit in BASE:
        assert line.take(edit), edit
    return line


class Rules(unittest.TestCase):
    CASES = [
        (None, ("", "block", "C", [1_000_000])),
        ("range", ("", "block", "C", [1_000_001])),
        ("range", ("change-", "section", "S", [3600, 3600, 33, "A"])),
        ("twice", ("", "block", "A", [1])),
        ("twice", ("", "route", "R2", ["P", "P"])),
        ("unknown", ("", "route", "R2", ["P", "X"])),
        ("unknown", ("drop-", "run", "T2", [])),
        ("count", ("", "run", "T2", ["R", 100, 0, 60, 60])),
        ("count", ("change-", "route", "R", ["P"])),
        ("in-use", ("drop-", "block", "A", [])),
        (None, ("drop-", "run", "T1", [])),
    ]

    def test_each_rule(self):
        for rule, edit in self.CASES:
            with self.subTest(edit=edit):
                self.assertEqual(small_line().rule(edit), rule)

    def test_a_name_of_a_block_is_none_of_a_connection(self):
        line = small_line()
        self.assertTrue(line.take(("", "run", "T2", ["R", 100, 0, 360, 60, 0, 60])))
        self.assertEqual(line.rule(("", "connect", "A", ["T1", "T2", 60])), "twice")
        self.assertIsNone(line.rule(("", "connect", "N", ["T1", "T2", 60])))

    def test_a_refused_edit_changes_nothing(self):
        line = small_line()
        self.assertFalse(line.take(("drop-", "signal", "P", [])))
        self.assertEqual(line.edits, BASE)
        self.assertIn("P", line.items["signal"])


class Inputs(unittest.TestCase):
    def made(self, seed):
        dice = random.Random(seed)
        maker = random_lines.make_line(dice)
        spelling = random_lines.Spelling(dice)
        return maker, spelling.text(spelling.rows(maker.line.edits))

    def test_a_seed_makes_one_input(self):
        for seed in range(20):
            self.assertEqual(self.made(seed)[1], self.made(seed)[1])
        self.assertGreater(len({self.made(seed)[1] for seed in range(20)}), 15)

    def test_the_edits_of_a_line_are_accepted(self):
        for seed in range(20):
            again = random_lines.Line()
            for edit in self.made(seed)[0].line.edits:
                self.assertTrue(again.take(edit), (seed, edit))

    def test_a_wanted_edit_is_refused_by_its_rule(self):
        maker = self.made(1)[0]
        maker.line = small_line()
        for rule in random_lines.RULES:
            with self.subTest(rule=rule):
                self.assertEqual(maker.line.rule(random_lines.wanted_edit(maker, maker.line, rule)), rule)


if __name__ == "__main__":
    unittest.main()
