"""Policies where limits are one-sided, few, far or none: each design's best margin is searched."""
import contextlib
import functools
import io
import os
import unittest

from scripts.common import design_text
from scripts.common.libraries import PACKAGES, missing

from .worked import EXAMPLES

LACKING = missing(*PACKAGES)
if not LACKING:
    from scripts import draft, policy
    from scripts.common import corners, excess, models, programs, sizes

PLANT = "period = 0.5\nstages = 5\na = [[0.0, 1.0], [0.0, 0.0]]\nb = [[0.0], [1.0]]\n"
WIDE = PLANT.replace("b = [[0.0], [1.0]]", "b = [[0.0, 0.1], [1.0, 0.0]]")
REST = "[cost]\ninput = [1.0]\nrows = [{ state = [1.0, 0.0], weight = 1.0 }]\n[box]\nhi = [2.0, 0.5]\n"
LIMIT = "[[limit]]\ninput = [1.0]\nbound = 1.0\ntolerance = 0.25\n"
CASES = {
    "one side": PLANT + LIMIT + REST,
    "one side, below": PLANT + LIMIT.replace("bound = 1.0", "least = -1.0") + REST,
    "one state": PLANT + "[[limit]]\nstate = [0.0, 1.0]\nbound = 0.6\ntolerance = 0.1\n" + REST,
    "a far side": PLANT + LIMIT.replace("bound", "least = -1e6\nbound") + REST,
    "none": PLANT + REST,
    "no limit": PLANT + LIMIT.replace("1.0\ntol", "inf\ntol") + REST,
    "one input of two": WIDE + LIMIT.replace("[1.0]", "[1.0, 0.0]").replace("bound", "least = -1.0\nbound") + REST.replace("[1.0]\n", "[1.0, 1.0]\n"),
    "that never bind": PLANT + LIMIT.replace("bound = 1.0", "bound = 50.0\nleast = -50.0") + REST,
}


@unittest.skipIf(LACKING, f"missing: {', '.join(LACKING)}")
class Policies(unittest.TestCase):
    @staticmethod
    @functools.cache
    def found(case):
        """The design of a case, its policy's R, not rounded, and what was said."""
        design = draft.draft(models.Model(CASES[case]))
        with contextlib.redirect_stderr(io.StringIO()) as said:
            made = policy.find(design)
            policy.tell(design, made, 0)
        return design, policy.bound_of(design, made), said.getvalue()

    def best(self, design):
        """The least R of plans with a slack of 2^-1 to 2^14, two a doubling."""
        of = programs.Programs(design)
        return min(policy.plans_with(of, 2 ** (k / 2))[1] for k in range(-2, 29))

    def test_best_margin_of_each(self):
        for case in CASES:
            design, bound, said = self.found(case)
            self.assertLess(bound, float("inf"), case)
            self.assertTrue(1 <= design.gap <= 2147483647, case)
            # a R below 1 counts as 1; rounding the plans costs at most 4 %, and R is flat about its best
            self.assertLessEqual(max(1, bound), max(1, 1.05 * self.best(design)), case)
            for words in ("Rank", "at : ", "inf,", "nan"):
                self.assertNotIn(words, said, case)

    def test_what_stops_no_margin_is_told(self):
        self.assertIn("of any: plans can keep every limit with as much slack as they like", self.found("one side")[2])
        self.assertIn("which is stopped at corner 1", self.found("a far side")[2])

    def test_limits_that_hardly_bind_are_told(self):
        for case in ("none", "no limit", "that never bind"):
            self.assertIn("no limit binds anywhere in the box", self.found(case)[2])
        self.assertRegex(self.found("one input of two")[2], "limits bind at [1-4] of 4 corners")

    def test_plan_without_limits_is_kept_where_nothing_binds(self):
        design, _, _ = self.found("that never bind")
        of = programs.Programs(design)
        for corner in range(1, 5):
            state = [float(v) for v in design.corner(corner)]
            self.assertGreater((of.room(state) - of.rows @ of.unlimited(state)).min(), 0)

    def test_design_of_no_limits_takes_four_steps(self):
        design, bound, said = self.found("none")
        self.assertEqual((len(design.stage_rows), design.stage_rows[0][:-1]), (1, [0, 0, 0]))
        self.assertLessEqual(bound, 1)
        self.assertIn("R 1, curvature 0, so step 0 and K about 4", said)

    def test_no_plan_names_corner_and_row_with_one_side(self):
        design = draft.draft(models.Model(CASES["one side"]))
        design.stage_rows = [[4, 0, 0, 1]]
        with contextlib.redirect_stderr(io.StringIO()) as said:
            self.assertIsNone(policy.find(design))
        self.assertRegex(said.getvalue(), r"corner 2 \(x1 high, x2 low\): stage row 1 \(limit 1\) at stage 0")


@unittest.skipIf(LACKING, f"missing: {', '.join(LACKING)}")
class Lean(unittest.TestCase):
    """Policies of lean controllers with their references."""

    @staticmethod
    @functools.cache
    def found(case):
        """The design of a case, its policy and reference plans, and what was said."""
        design = draft.draft(models.Model(CASES[case]))
        with contextlib.redirect_stderr(io.StringIO()) as said:
            policies = policy.find_lean(design)
            policy.tell(design, policies[0], 0, policies[1])
        return design, *policies, said.getvalue()

    def bound(self, design, plans, references):
        margin, _ = corners.margin_of(corners.corners_of(design, plans))
        found, _ = excess.excesses_of(design, sizes.form_of(design), plans, references)
        return corners.lean_multiplier_of(design, margin, max(0, *found))

    def test_bound_of_each(self):
        for case in CASES:
            design, plans, references, said = self.found(case)
            bound = self.bound(design, plans, references)
            best = min(float(v) for v in self.ratios(design))
            self.assertLessEqual(bound, max(1, -(-best * 1.05 // 1)), case)
            self.assertRegex(said, f"greatest excess .* with references over at most {max(r[0] for r in references)}; R {bound}, curvature")
            for words in ("inf,", "nan"):
                self.assertNotIn(words, said, case)

    def ratios(self, design):
        """What the plans with a slack of 2^-13 to 2^4, two a doubling, cost above the best without limits, over the slack and the target."""
        of, target = programs.Programs(design), design.violation / design.target_den
        states = [[float(v) for v in design.corner(c)] for c in range(1, 2**design.states + 1)]
        for k in range(-26, 9):
            plans, _ = policy.plans_with(of, 2 ** (k / 2))
            if plans:
                yield max(of.cost(x, u) - of.cost(x, of.unlimited(x)) for x, u in zip(states, plans)) / (2 ** (k / 2) + target)

    def test_where_nothing_binds_the_policy_is_its_reference(self):
        design, plans, references, said = self.found("that never bind")
        self.assertIn("; R 1, curvature", said)
        self.assertIn("so step 0 and K about 3", said)
        self.assertEqual(self.bound(design, plans, references), 1)

    def test_motor(self):
        design = design_text.read_design(os.path.join(EXAMPLES, "motor", "design.toml"))
        with contextlib.redirect_stderr(io.StringIO()):
            plans, references = policy.find_lean(design)
            other, _ = policy.find_lean(design, denominator=100)
            given, _ = policy.find_lean(design, margin=0.5)
        self.assertEqual(self.bound(design, plans, references), 4)
        self.assertLessEqual(max(record[0] for record in plans + references), 64)
        self.assertEqual({record[0] for record in other}, {100})
        self.assertLess(abs(corners.margin_of(corners.corners_of(design, given))[0] / 65536 - 0.5), 0.1)

    def test_no_plan(self):
        design = draft.draft(models.Model(CASES["one side"]))
        design.stage_rows = [[4, 0, 0, 1]]
        with contextlib.redirect_stderr(io.StringIO()) as said:
            self.assertIsNone(policy.find_lean(design))
        self.assertIn("no plan keeps every limit", said.getvalue())


if __name__ == "__main__":
    unittest.main()
