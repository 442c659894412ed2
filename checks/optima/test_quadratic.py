"""Exact optima against ones that were found by hand."""
import unittest
from fractions import Fraction

from .quadratic import Program


class Optima(unittest.TestCase):
    def test_one_entry(self):
        # u^2 + (1 + u)^2 with u at most 1, at least -1, and 1 + u at most 1/4
        program = Program([[Fraction(4)]], [[Fraction(1)], [Fraction(-1)], [Fraction(1)]])
        self.assertEqual(program.unlimited([Fraction(2)]), [Fraction(-1, 2)])
        self.assertEqual(program.best([Fraction(2)], [1, 1, Fraction(-3, 4)]), ([Fraction(-3, 4)], True))
        self.assertEqual(program.best([Fraction(2)], [1, 1, 1]), ([Fraction(-1, 2)], False))
        self.assertIsNone(program.best([Fraction(2)], [1, Fraction(1, 2), Fraction(-3, 4)]))

    def test_row_that_binds_no_more(self):
        # half of u^2 + v^2 + uv, less 2u: the row that is exceeded most, 100 u at most 250, binds no longer once u + v is at most -2
        program = Program([[Fraction(1), Fraction(1, 2)], [Fraction(1, 2), Fraction(1)]], [[Fraction(100), Fraction(0)], [Fraction(1), Fraction(1)]])
        self.assertEqual(program.unlimited([Fraction(-2), Fraction(0)]), [Fraction(8, 3), Fraction(-4, 3)])
        self.assertEqual(program.best([Fraction(-2), Fraction(0)], [250, -2]), ([1, -3], True))

    def test_rows_that_are_one(self):
        program = Program([[Fraction(2)]], [[Fraction(1)], [Fraction(2)], [Fraction(1)]])
        self.assertEqual(program.best([Fraction(-8)], [2, 3, 5]), ([Fraction(3, 2)], True))


if __name__ == "__main__":
    unittest.main()
