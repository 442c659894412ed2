"""From a continuous model to a design, its policy and its picture: what needs the field's libraries."""
import contextlib
import io
import math
import os
import re
import sys
import unittest
import xml.dom.minidom

from scripts.common.libraries import PACKAGES, missing

from .worked import AXIS, AXIS_POLICY, EXAMPLES, FIRST, SIX, TOP, as_command, folder_with

LACKING = missing(*PACKAGES)
if not LACKING:
    import numpy

    from scripts import discretise, draft, exact_loop, judge, plot, policy
    from scripts.common import models, programs, sizes
    from scripts.common.condensed import condense
    from scripts.common.corners import corners_of, margin_of
    from scripts.common.design_text import design_of, read_design
    from scripts.common.enclosures import condense_fine
    from scripts.common.texts import loop_lines_of, records_of

# the examples that were drafted from their models
MADE = ("antenna", "kiln", "motor", "pmsm", "rendezvous", "satellite", "wheel")
DOUBLE = "period = 0.5\nstages = 5\na = [[0.0, 1.0], [0.0, 0.0]]\nb = [[0.0], [1.0]]\n"


@unittest.skipIf(LACKING, f"missing: {', '.join(LACKING)}")
class Drafts(unittest.TestCase):
    def quiet(self, call, *arguments):
        """What a call answers, and what it said on standard error."""
        with contextlib.redirect_stderr(io.StringIO()) as said:
            answer = call(*arguments)
        return answer, said.getvalue()

    def model(self, name):
        return models.read_model(os.path.join(EXAMPLES, name, "model.toml"))

    def design(self, name):
        return read_design(os.path.join(EXAMPLES, name, "design.toml"))

    def test_hold_of_a_double_integrator(self):
        a, b = models.hold(numpy.array([[0.0, 1.0], [0.0, 0.0]]), numpy.array([[0.0], [1.0]]), 0.5)
        self.assertTrue(numpy.allclose(a, [[1, 0.5], [0, 1]]))
        self.assertTrue(numpy.allclose(b, [[0.125], [0.5]]))

    def test_hold_of_a_lag(self):
        a, b = models.hold(numpy.array([[-2.0]]), numpy.array([[3.0]]), 0.1)
        self.assertAlmostEqual(a[0][0], math.exp(-0.2))
        self.assertAlmostEqual(b[0][0], 1.5 * (1 - math.exp(-0.2)))

    def test_coordinates_and_units(self):
        a, b = self.model("satellite").scaled()
        self.assertTrue(numpy.allclose(a, [[1, 1], [0, 1]]))
        self.assertTrue(numpy.allclose(b, [[3], [1]]))

    def test_units_that_are_left_out_keep_row_sums_small(self):
        model = models.Model(DOUBLE + "[box]\nhi = [100.0, 0.001]\n", plant_alone=True)
        self.assertLess(max(abs(numpy.hstack(model.scaled())).sum(1)), 2)

    def test_lost_coupling(self):
        a, b = self.model("pmsm").scaled()
        self.assertEqual(len(discretise.lost(a, b, 16)), 2)
        self.assertEqual(discretise.lost(a, b, 256), [])

    def test_rounding_of_whole_plants_is_exact(self):
        a, b = self.model("satellite").scaled()
        self.assertLess(discretise.response_error(a, b, 1, 10), 1e-9)

    def test_examples_are_what_their_models_give(self):
        for name in MADE:
            self.assertEqual(draft.draft(self.model(name)), self.design(name))

    def test_curvature_is_just_below_the_power_of_the_step(self):
        for name in MADE:
            design = self.design(name)
            self.assertTrue(0.97 < draft.curvature(design) / 2 ** draft.STEP[design.version] <= 1)

    def test_model_of_version_2(self):
        sides = "".join(f"[[limit]]\ninput = [{side}]\nbound = 1.0\ntolerance = 0.25\n" for side in (1.0, -1.0))
        text = DOUBLE + sides + "[cost]\ninput = [1.0]\nrows = [{ state = [1.0, 0.0], weight = 1.0 }]\n[box]\nhi = [2.0, 0.5]\n"
        first, second = (draft.draft(models.Model(version + text)) for version in ("", "version = 2\n"))
        self.assertEqual((first.version, second.version), (1, 2))
        self.assertTrue(0.99 < draft.curvature(first) <= 1 and 15.84 < draft.curvature(second) <= 16)
        for design in (first, second):
            self.assertAlmostEqual(design.input_weights[0] / design.stage_cost[0][-1] / (0.037 / 0.94) ** 2, 1, delta=0.001)
        second.version, second.cost_den, second.input_weights, second.stage_cost, second.gap = first.version, first.cost_den, first.input_weights, first.stage_cost, first.gap
        self.assertEqual(second, first)

    def test_lean_step_in_version_2(self):
        sides = "".join(f"[[limit]]\ninput = [{side}]\nbound = 0.5\ntolerance = 0.25\n" for side in (1.0, -1.0))
        model = models.Model("version = 2\n" + DOUBLE + sides + "[cost]\ninput = [1.0]\nrows = [{ state = [1.0, 0.0], weight = 1.0 }]\n[box]\nhi = [2.0, 0.5]\n")
        made = draft.drafted(model, lean=True).design
        step = draft.lean_step(draft.draft(model))
        self.assertTrue(0.98 < draft.curvature(made) / 2**step <= 1)
        # where R is a whole number already above ten, it loses little with the greatest step
        heavy = draft.draft(model)
        heavy.stage_cost[0][-1] *= 10**4
        heavy.input_weights[0] *= 10**4
        self.assertEqual(draft.lean_step(heavy), 4)

    def test_sizes_by_version(self):
        six = f"period = 1.0\nstages = 3\na = {[[0.0] * 6] * 6}\nb = {[[1.0]] * 6}\n"
        with self.assertRaisesRegex(ValueError, "version 1 has at most 4 states and 20 stages: version = 2 has more"):
            models.Model(six)
        self.assertEqual(models.Model("version = 2\n" + six, plant_alone=True).n, 6)
        for text, fault in (
            (six.replace("stages = 3", "stages = 31"), "version 2 has at most 6 states and 30 stages, and this model has 6 states and 31 stages"),
            (f"period = 1.0\na = {[[0.0] * 7] * 7}\nb = {[[1.0]] * 7}\n", "version 2 has at most 6 states"),
        ):
            with self.assertRaisesRegex(ValueError, fault):
                models.Model("version = 2\n" + text)
        self.assertEqual(models.Model("version = 2\n" + DOUBLE.replace("stages = 5", "stages = 30"), plant_alone=True).stages, 30)
        with self.assertRaisesRegex(ValueError, "version 1 has at most 4 states and 20 stages"):
            models.Model(DOUBLE.replace("stages = 5", "stages = 21"))
        with self.assertRaisesRegex(ValueError, "version is 1, 2 or 3, not 4"):
            models.Model("version = 4\n" + DOUBLE)

    def test_growth_of_exact_numbers_and_of_enclosures(self):
        design = self.design("antenna")
        found = sizes.exact_sizes(design, condense(design))["prediction"], sizes.fine_sizes(design, condense_fine(design))["prediction"]
        for bits, size in zip(discretise.growth_bits(sizes.growth(design), design.plant_den, design.stages), found):
            self.assertAlmostEqual(float(bits), sizes.bits(size), places=6)

    def test_state_limit_holds_for_the_next_state(self):
        design = self.design("pmsm")
        row, scale = design.stage_rows[6], design.limit_den / design.plant_den
        for given, exact in zip(row, [v * scale for v in design.a[1] + design.b[1]] + [7 * design.limit_den]):
            self.assertLessEqual(abs(given - exact), 0.5)

    def test_policies_of_the_examples(self):
        for name in MADE:
            found, _ = self.quiet(policy.find, self.design(name))
            with open(os.path.join(EXAMPLES, name, "policy.csv"), encoding="ascii") as file:
                self.assertEqual(found, records_of(file.read()))

    def test_lean_policies_of_the_examples(self):
        for name in MADE:
            found, _ = self.quiet(policy.find_lean, self.design(name))
            for records, file in zip(found, ("lean.csv", "reference.csv")):
                with open(os.path.join(EXAMPLES, name, file), encoding="ascii") as text:
                    self.assertEqual(records, records_of(text.read()), (name, file))

    def test_policy_is_better_than_coasting(self):
        design = design_of(AXIS)
        found, _ = self.quiet(policy.find, design)
        self.assertLess(policy.bound_of(design, found), policy.bound_of(design, records_of(AXIS_POLICY)))

    def test_denominator_that_is_asked_for(self):
        found, _ = self.quiet(policy.find, design_of(FIRST), None, 1024)
        self.assertEqual([record[0] for record in found], [1024, 1024])
        self.assertGreater(margin_of(corners_of(design_of(FIRST), found))[0], 0)

    def test_no_policy_names_corner_and_row(self):
        found, said = self.quiet(policy.find, design_of(AXIS.replace("lo = [-64, -16]", "lo = [-144, -16]")))
        self.assertIsNone(found)
        self.assertIn("corner 1 (x1 low, x2 low): stage row 4 at stage 0", said)

    def test_margin_that_is_too_large(self):
        found, said = self.quiet(policy.find, design_of(FIRST), 2.0)
        self.assertIsNone(found)
        self.assertIn("no plan keeps every limit with a slack of 2", said)

    def test_best_plan_at_a_limit(self):
        self.assertAlmostEqual(float(programs.Programs(design_of(FIRST)).best([1.0])[0]), -0.75, places=6)

    def test_exact_loop_lines(self):
        found = loop_lines_of("\n".join(exact_loop.lines(design_of(FIRST), [[1]], 2)), 1, 1, 0)
        self.assertAlmostEqual(float(found[1][0][1][0]), -0.75, places=6)
        self.assertEqual(found[1][1][0], [0])

    def test_loops_of_the_examples_stay(self):
        for name in MADE:
            self.assertLessEqual(max(programs.reach_of(self.design(name))), 1)

    def test_judge_of_the_first(self):
        found = judge.judge(design_of(FIRST), [[0], [1]], ["4096 0", "4096 -2224"])
        self.assertEqual(float(max(found)[0]), 1 - 2224 / 4096 - 0.25)

    def drawn(self, lines):
        """The picture of loop lines of the first design, as a document."""
        folder, paths = folder_with(self, d=FIRST, lines=lines)
        out, words = os.path.join(folder, "out.svg"), sys.argv
        sys.argv = ["plot.py", paths["d"], paths["lines"], "--out", out]
        try:
            plot.main()
        finally:
            sys.argv = words
        with open(out, encoding="utf-8") as file:
            return file.read()

    def test_picture(self):
        text = self.drawn("1 1 1 4096 -2224\n1 2 0 4096 0\n2 1 0 4096 0\n2 2 0 4096 0\n")
        self.assertEqual(xml.dom.minidom.parseString(text).documentElement.tagName, "svg")
        self.assertEqual(len(re.findall("stroke: #(1f77b4|ff7f0e)", text)), 6)

    def test_picture_of_nine_curves(self):
        turns = [([1.0] * 6, [0.0] * 3)] * 2
        figure = plot.draw(design_of(SIX), [{1: turns}], ["still"])
        self.assertEqual((len(figure.axes), figure.axes[0].get_gridspec().get_geometry()), (9, (3, 3)))
        self.assertEqual([axes.get_ylabel() for axes in figure.axes], ["first\nm", "x2", "x3", "fourth\nm/s", "x5", "x6", "u1", "u2", "last\nN"])

    def test_same_lines_same_picture(self):
        self.assertEqual(self.drawn("1 1 1 4096 -2224\n"), self.drawn("1 1 1 4096 -2224\n"))


class Libraries(unittest.TestCase):
    def test_missing_library_names_its_package(self):
        import subprocess

        code = "import sys; sys.argv = ['policy.py']; from scripts.common import libraries; libraries.SYSTEM = '/nowhere'; libraries.PACKAGES['no_such'] = 'python3-no-such'; libraries.need('no_such')"
        got = subprocess.run([sys.executable, "-c", code], cwd=TOP, capture_output=True, text=True)
        self.assertEqual(got.returncode, 1)
        self.assertIn("has no no_such: apt-get install python3-no-such", got.stderr)

    def test_every_script_has_help(self):
        import subprocess

        for name in ("refusals", "pages"):
            got = subprocess.run([*as_command(name), "--help"], capture_output=True, text=True)
            self.assertEqual((got.returncode, f"./mpc {name}" in got.stdout), (0, True))

    @unittest.skipIf(LACKING, f"missing: {', '.join(LACKING)}")
    def test_every_script_with_libraries_has_help(self):
        import subprocess

        for name in ("discretise", "draft", "policy", "exact_loop", "plot", "judge", "explain", "faces", "staying", "disturbances", "disturbed_loop", "cells"):
            got = subprocess.run([*as_command(name), "--help"], capture_output=True, text=True)
            self.assertEqual((got.returncode, len(got.stdout) > 200), (0, True), name)


if __name__ == "__main__":
    unittest.main()
