"""Cells of a box: their cuts, their order, what they cost, and that the cells of an example are a policy for each."""
import contextlib
import io
import os
import random
import sys
import unittest

from scripts.common.libraries import PACKAGES, Refusal, missing

from .worked import EXAMPLES, FIRST, TOP, folder_with

LACKING = missing(*PACKAGES)
if not LACKING:
    from scripts import cells
    from scripts.common import cell_pictures, matching
    from scripts.common.budget import Budget
    from scripts.common.corners import corners_of, margin_of, multiplier_of, steps_of
    from scripts.common.design_text import design_of, read_design
    from scripts.common.texts import read_text, records_of

# the box -1 to 2 times -2 to 3
BOXES = """version = 1
states = 2
inputs = 1
stages = 1
plant = { den = 2, a = [[1, 0], [0, 1]], b = [[1], [1]] }
cost = { den = 1, row_den = 1, input = [1], stage = [[1, 0, 0, 1]], final = [] }
limits = { den = 1, stage = [[0, 0, 1, 4], [0, 0, -1, 4]], final = [] }
box = { grid = 0, lo = [-1, -2], hi = [2, 3] }
targets = { den = 1, violation = 1, gap = 1 }
"""


@unittest.skipIf(LACKING, f"missing: {', '.join(LACKING)}")
class Cuts(unittest.TestCase):
    def test_cells_in_their_order(self):
        found = [(cell.lo, cell.hi) for cell in cells.cells_of(design_of(BOXES), [[0], [-2, 1]])]
        wanted = [([-1, -2], [0, -2]), ([1, -2], [2, -2]), ([-1, -1], [0, 1]), ([1, -1], [2, 1]), ([-1, 2], [0, 3]), ([1, 2], [2, 3])]
        self.assertEqual(found, wanted)

    def test_each_grid_state_is_in_one_cell(self):
        design = design_of(BOXES)
        parts = cells.cells_of(design, [[-1, 0], [2]])
        for x in range(-1, 3):
            for y in range(-2, 4):
                inside = [cell for cell in parts if cell.lo[0] <= x <= cell.hi[0] and cell.lo[1] <= y <= cell.hi[1]]
                self.assertEqual(len(inside), 1, (x, y))
        self.assertEqual(sum(map(cells.states_in, parts)), cells.states_in(design))
        self.assertEqual(cells.states_in(design), 24)

    def test_text(self):
        self.assertEqual(cells.cuts_text([[0], []]), "1,0\n0\n")
        _, paths = folder_with(self, cuts="2,-1,1\n 1 , 0 \n")
        self.assertEqual(cells.cuts_in(paths["cuts"], design_of(BOXES)), [[-1, 1], [0]])

    def test_faults(self):
        for text, fault in (
            ("64\n0\n", "record 1 begins with no number of cuts from 0 to 63"),
            ("0\n2,0\n", "record 2 has 2 numbers, and with 2 cuts it should have 3"),
            ("1,2\n0\n", "record 1, number 2: a cut above -2 and below 2 is expected, and 2 stands there"),
            ("1,-2\n0\n", "record 1, number 2: a cut above -2 and below 2 is expected, and -2 stands there"),
            ("2,1,1\n0\n", "record 1, number 3: a cut above 1 and below 2 is expected, and 1 stands there"),
            ("0\n", "it has 1 records, and the design 2 states"),
            ("x\n0\n", "records of whole numbers are expected"),
        ):
            _, paths = folder_with(self, cuts=text)
            with self.assertRaises(Refusal) as told:
                cells.cuts_in(paths["cuts"], design_of(BOXES))
            self.assertIn(fault, str(told.exception))
        # the first fault is that of the records, and then their number, and then the cells
        wide = design_of(BOXES.replace("hi = [2, 3]", "hi = [20, 20]"))
        many = [[8, *range(8)], [7, *range(7)]]
        self.assertEqual(cells.fault_of(wide, many), "its cuts make 72 cells, and at most 64 are served")
        self.assertIsNone(cells.fault_of(wide, [many[0], [6, *range(6)]]))
        self.assertIn("3 records", cells.fault_of(wide, [*many, [0]]))

    def test_more_cuts(self):
        design, draw = design_of(BOXES), random.Random(1)
        cuts = [[], []]
        while trials := cells.with_more(design, cuts, 20):
            for trial in trials:
                self.assertIsNone(cells.fault_of(design, [[len(own), *own] for own in trial]), trial)
                self.assertTrue(cells.count_of(cuts) < cells.count_of(trial) <= 20)
            cuts = draw.choice(trials)


@unittest.skipIf(LACKING, f"missing: {', '.join(LACKING)}")
class Costs(unittest.TestCase):
    """x+ = x + u from 0 to 1, by its worked policies: in the cell of 0 coasting takes 1 step, in that of 1 it takes 4."""

    def test_worked_cells(self):
        found = [cells.made(cell, 0) for cell in cells.cells_of(design_of(FIRST), [[0]])]
        self.assertEqual([(cell.design.lo, cell.design.hi) for cell in found], [([0], [0]), ([1], [1])])
        self.assertTrue(found[0].steps <= 1 and found[1].steps <= 4)
        self.assertLess(cells.mean(found), cells.made(design_of(FIRST), 0).steps + 1e-9)

    def test_mean_is_over_grid_states(self):
        design = design_of(BOXES)
        parts = [cells.Cell(cell, [], 1, steps) for cell, steps in zip(cells.cells_of(design, [[], [2]]), (10, 60))]
        self.assertEqual(cells.mean(parts), (20 * 10 + 4 * 60) / 24)

    def test_a_cell_without_a_policy(self):
        self.assertIsNone(cells.made(design_of(FIRST.replace("final = [[4, 1]]", "final = [[4, 1], [-4, -5]]")), 0))

    def test_search_lowers_the_mean(self):
        design = read_design(os.path.join(EXAMPLES, "motor", "design.toml"))
        cuts = cells.search(design, 3, cells.Guesses(design), Budget(60.0))
        self.assertEqual(cells.count_of(cuts), 3)
        found = [cells.made(cell, 0) for cell in cells.cells_of(design, cuts)]
        self.assertLess(cells.mean(found), 0.85 * 452)
        self.assertLessEqual(max(cell.steps for cell in found), 452)

    def test_what_gains(self):
        """A number counts where those before are about the same: less than a hundredth is nothing."""
        found = [cells.against(worth, (100.0, 50.0)) for worth in ((100.0, 50.0), (99.5, 40.0), (98.0, 70.0), (101.0, 49.9), (99.5, 49.6))]
        self.assertEqual(found, [(100.0, 50.0), (100.0, 40.0), (98.0, 70.0), (100.0, 50.0), (100.0, 50.0)])

    def test_a_guess_where_a_corner_has_no_plan(self):
        """Of 0 to 9 only 0 and 1 can be at most 1/4 after a stage."""
        beyond = design_of(FIRST.replace("hi = [1]", "hi = [9]"))
        guesses = cells.Guesses(beyond)
        self.assertEqual(guesses.worth(beyond, [[]]), (1.0, 0.0, 0.0))
        lacking, greatest, mean = guesses.worth(beyond, [[0]])
        self.assertEqual((lacking, greatest), (0.9, mean))
        self.assertEqual(guesses.words((0.9, 4.0, 4.0)), "the greatest K 4, the mean 4, 90 % of the box without a policy")
        self.assertEqual(cells.search(beyond, 9, guesses, Budget(60.0))[0][0], 0)
        # where the time is over nothing is tried
        self.assertEqual(cells.search(beyond, 9, guesses, Budget(1e-9)), [[]])

    def test_mean_over_the_turns_of_loops(self):
        design = design_of(BOXES)
        parts = [cells.Cell(cell, [], 1, steps) for cell, steps in zip(cells.cells_of(design, [[0], []]), (10, 40))]
        self.assertEqual([cells.serving(parts, [x, 3]).steps for x in (-1, 0, 1, 2)], [10, 10, 40, 40])
        # x+ = x / 2 + u / 2 for both coordinates, ties upward
        _, paths = folder_with(self, lines="1 1 2 3 8 0\n1 2 1 2 8 0\n1 3 1 1 8 -8\n1 4 0 0 8 0\n", other="1 1 2 3 8 0\n1 2 0 2 8 0\n", none="")
        self.assertEqual(cells.mean_of_lines(design, parts, paths["lines"]), "the mean over the 4 turns of 1 loops is 32.5")
        with self.assertRaisesRegex(Refusal, "after turn 1 of start 1"):
            cells.mean_of_lines(design, parts, paths["other"])
        with self.assertRaisesRegex(Refusal, "has no line"):
            cells.mean_of_lines(design, parts, paths["none"])

    @unittest.skipUnless(os.path.exists(os.path.join(TOP, "crates/mpc_cli/out/mpc_cli")), "the program isn't built")
    def test_the_program_makes_each_cell(self):
        """By their worked policies the cells of 0 and of 1 take 1 step and 4."""
        policies = [[[1, 0], [1, 0]], [[8, -7], [8, -7]]]
        parts = [cells.Cell(cell, policy, 0, 0) for cell, policy in zip(cells.cells_of(design_of(FIRST), [[0]]), policies)]
        folder, _ = folder_with(self)
        with contextlib.redirect_stderr(io.StringIO()) as said:
            cells.generate(parts, os.path.join(folder, "made"), "the first design")
        self.assertEqual(said.getvalue(), "cell 1: its controller takes 1 steps\ncell 2: its controller takes 4 steps\n")
        parts[1].policy = [[1, 0], [1, 0]]
        with self.assertRaisesRegex(Refusal, "cell 2 is refused") as told, contextlib.redirect_stderr(io.StringIO()):
            cells.generate(parts, os.path.join(folder, "made"), "the first design")
        self.assertEqual(told.exception.status, 6)

    def test_picture(self):
        design = design_of(BOXES)
        parts = [cells.Cell(cell, [], 1, steps) for cell, steps in zip(cells.cells_of(design, [[0], [2]]), (1, 10, 100, 1000))]
        axes = cell_pictures.draw(design, parts).axes[0]
        self.assertEqual([text.get_text() for text in axes.texts], ["1", "10", "100", "1000"])
        self.assertEqual([patch.get_xy() for patch in axes.patches], [(-1.0, -2.0), (1.0, -2.0), (-1.0, 3.0), (1.0, 3.0)])
        self.assertEqual((axes.get_xlabel(), axes.get_ylabel()), ("x1", "x2"))


@unittest.skipIf(LACKING, f"missing: {', '.join(LACKING)}")
class Example(unittest.TestCase):
    """The satellite's nine cells."""

    def test_each_cell_has_its_policy(self):
        folder = os.path.join(EXAMPLES, "satellite")
        design = read_design(os.path.join(folder, "design.toml"))
        cuts = cells.cuts_in(os.path.join(folder, "cells", "cuts.csv"), design)
        policies = records_of(read_text(os.path.join(folder, "cells", "policies.csv")))
        parts = cells.cells_of(design, cuts)
        self.assertEqual(len(policies), 4 * len(parts))
        steps = []
        for number, cell in enumerate(parts):
            own = policies[4 * number : 4 * number + 4]
            self.assertIsNone(matching.policy_fault(own, cell))
            steps.append(steps_of(cell, cells.step_of(design), multiplier_of(*margin_of(corners_of(cell, own)))))
        whole = 808 * cells.states_in(design)
        self.assertLess(sum(k * cells.states_in(cell) for k, cell in zip(steps, parts)), whole / 2)

    def ran(self, words, status):
        """What the command says."""
        before, sys.argv = sys.argv, ["cells.py", *words]
        try:
            with contextlib.redirect_stderr(io.StringIO()) as said:
                self.assertEqual(cells.main(), status)
        finally:
            sys.argv = before
        return said

    def test_a_cell_that_is_left_out(self):
        """Beyond 1 no input keeps the limits: this cell gets `none`, if that is asked for."""
        beyond = FIRST.replace("hi = [1]", "hi = [9]")
        folder, paths = folder_with(self, design=beyond, cuts="1,0\n")
        out = [os.path.join(folder, name) for name in ("made", "policies")]
        self.assertIn("cell 2 has no policy", self.ran([paths["design"], *out, "--cuts", paths["cuts"]], 6).getvalue())
        self.assertFalse(os.path.exists(out[1]))
        self.assertIn("without a controller: cell 2 of 2", self.ran([paths["design"], *out, "--cuts", paths["cuts"], "--leave-out"], 0).getvalue())
        with open(out[1], encoding="utf-8") as policies:
            first, second, third = policies.read().splitlines()
        self.assertEqual((first, second, third), ("1,0", "1,0", "none"))

    def test_command_with_cuts(self):
        folder, paths = folder_with(self, design=FIRST, cuts="1,0\n")
        out = [os.path.join(folder, name) for name in ("made", "policies")]
        said = self.ran([paths["design"], *out, "--cuts", paths["cuts"]], 0)
        self.assertRegex(said.getvalue(), r"(?s)cell 1: x1 0 to 0: R 1, .*cell 2: x1 1 to 1: R [0-9]+, .*2 cells: the greatest K")
        with open(out[0], encoding="utf-8") as made, open(out[1], encoding="utf-8") as policies:
            self.assertEqual((made.read(), len(policies.read().splitlines())), ("1,0\n", 4))


if __name__ == "__main__":
    unittest.main()
