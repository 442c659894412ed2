"""The numbers that the scripts compute anew, against worked rows: those of another program, and those that the prover computes in FineWorked and CornersWorked of
trials_definitions."""
import os
import unittest
from fractions import Fraction

from scripts.common import sizes
from scripts.common.condensed import condense, curvature
from scripts.common.corners import corners_of, cost_limit, exact_corner, fine_corner, lean_multiplier_of, margin_of, multiplier_of, steps_of
from scripts.common.design_text import design_of, plain, read_design, text_of
from scripts.common.enclosures import combined, condense_fine, product
from scripts.common.excess import excesses_of
from scripts.common.libraries import Refusal
from scripts.common.texts import controller_of, kind_of, loop_lines_of, read_text, records_of, report_of
from scripts.common.trajectories import slacks_of
from scripts.explain import explain, ranges

from .worked import (
    AXIS,
    AXIS_OVER_1000,
    AXIS_POLICY,
    CORNERS_OF_CROSSED,
    CORNERS_OF_THIRD,
    CROSSED,
    EXAMPLES,
    FAR,
    FAR_POLICY,
    FINE_AXIS,
    FINE_AXIS_POLICY,
    FIRST,
    FIRST_CONTROLLER,
    FIRST_LEAN_CONTROLLER,
    FIRST_LEAN_JSON,
    FIRST_LEAN_REPORT,
    FIRST_POLICY,
    FIRST_REFERENCE,
    FIRST_REPORT,
    FIRST_TIGHT,
    LONG,
    LONG_POLICY,
    LONG_REFERENCE,
    ROOMY,
    ROOMY_FINE_AXIS,
    ROOMY_POLICY,
    SECOND,
    SECOND_CONTROLLER,
    SECOND_JSON,
    SECOND_REPORT,
    SIX,
    STEEP,
    STEEP_POLICY,
    THIRD,
    THIRDS,
    THIRDS_POLICY,
)


class Corners(unittest.TestCase):
    def test_first(self):
        corners = corners_of(design_of(FIRST), records_of(FIRST_POLICY))
        self.assertEqual([c.cost for c in corners], [0, Fraction(50, 64)])
        self.assertEqual(corners[1].slacks, [Fraction(15, 8), Fraction(1, 8), Fraction(1, 8)])
        self.assertEqual(margin_of(corners), (8192, 1))
        self.assertEqual(steps_of(design_of(FIRST), 1, multiplier_of(8192, 1)), 4)

    def test_axis(self):
        margin, cost = margin_of(corners_of(design_of(AXIS), records_of(AXIS_POLICY)))
        self.assertEqual((margin, cost, multiplier_of(margin, cost)), (65536, 159, 159))
        self.assertEqual(steps_of(design_of(AXIS), 1, 159), 20352)

    def test_no_margin(self):
        design = design_of(FIRST)
        corner = corners_of(design, records_of("1,0\n131072,-131071\n"))[1]
        self.assertEqual(corner.least, (Fraction(4, 524288), 2))

    def test_margin_is_rounded_down_and_cost_up(self):
        # the slack is 1/36, and 65536/36 lies between 1820 and 1821; the cost is 53/81
        self.assertEqual(margin_of(corners_of(design_of(FIRST), records_of("1,0\n9,-7\n"))), (1820, 1))

    def test_negative_slack(self):
        self.assertEqual(min(slacks_of(design_of(FIRST), [1], [0])), Fraction(-3, 4))

    def test_corners_in_enclosures(self):
        corner = fine_corner(design_of(THIRD), 2, records_of(CORNERS_OF_THIRD)[1])
        self.assertEqual([v * 2**42 for v in corner.slacks], [6754142856334, 5026338869832, -17])
        self.assertEqual(corner.cost * 50 * 2**80, 478364545235733991924080324 + 46259916566953637499130800)
        corner = fine_corner(design_of(CROSSED), 3, records_of(CORNERS_OF_CROSSED)[2])
        self.assertEqual([v * 2**42 for v in corner.slacks][1:], [7655858741530, 3719335629734])
        self.assertEqual(corner.cost * 50 * 2**80, 1044396930298356345419780034 + 3731252529749439600362250)

    def test_enclosures_show_no_more_than_there_is(self):
        for text, policy in ((FIRST, FIRST_POLICY), (LONG, LONG_POLICY), (THIRD, CORNERS_OF_THIRD), (CROSSED, CORNERS_OF_CROSSED), (THIRDS, THIRDS_POLICY)):
            for number, record in enumerate(records_of(policy), 1):
                exact, fine = exact_corner(design_of(text), number, record), fine_corner(design_of(text), number, record)
                self.assertTrue(all(shown <= slack < shown + Fraction(1, 2**34) for slack, shown in zip(exact.slacks, fine.slacks, strict=True)))
                self.assertTrue(exact.cost <= fine.cost < exact.cost + Fraction(1, 2**30))

    def test_margin_by_class(self):
        policy = records_of(FINE_AXIS_POLICY * 4)
        self.assertEqual(margin_of(corners_of(design_of(ROOMY_FINE_AXIS), policy)), (65536, 487))
        # a sum of 2/3 and 1/3 is 1, and with its radius a little more
        wide = THIRDS.replace("final = [[1, 1, 1]]", "final = [[1, 1, 2]]")
        self.assertEqual(margin_of(corners_of(design_of(wide), records_of(THIRDS_POLICY))), (65535, 2))
        self.assertEqual(margin_of(corners_of(design_of(wide.replace("16777216", "1").replace("grid = 24", "grid = 0")), records_of("1,0\n" * 4))), (65536, 1))

    def test_curvature_is_covered_by_the_step(self):
        self.assertTrue(1 < curvature(design_of(AXIS)) <= 2)


class Lean(unittest.TestCase):
    """R, K and the bits of lean controllers."""

    def excesses(self, text, policy, reference):
        design = design_of(text)
        return excesses_of(design, sizes.form_of(design), records_of(policy), records_of(reference))

    def test_excess(self):
        self.assertEqual(self.excesses(FIRST, FIRST_POLICY, FIRST_REFERENCE), ([0, 18432], 680020773533228910772224))
        for reference, excess in (("1,0\n1,-1\n", 51200), ("1,0\n4,-3\n", 26624), ("1,5\n1,-7\n", 5556224)):
            self.assertEqual(max(self.excesses(FIRST, FIRST_POLICY, reference)[0]), excess)
        self.assertGreater(self.excesses(FIRST, FIRST_POLICY, "1,0\n1,-999999999999999\n")[1], 2**126)

    def test_excess_of_enclosures(self):
        self.assertEqual(max(self.excesses(LONG, LONG_POLICY, LONG_REFERENCE)[0]), 12903)
        rounded = LONG.replace("a = [[1048576]]\nb = [[1048576]]", "a = [[1048577]]\nb = [[1048573]]")
        self.assertEqual(max(self.excesses(rounded, LONG_POLICY, LONG_REFERENCE)[0]), 12904)

    def test_bound_steps_and_bits(self):
        for text, excess, bound, steps, bits in ((FIRST, 18432, 1, 1, 6), (FIRST_TIGHT, 18432, 2, 86, 13), (FIRST_TIGHT, 51200, 4, 171, 14), (FIRST_TIGHT, 5556224, 377, 16086, 21)):
            design = design_of(text)
            self.assertEqual(lean_multiplier_of(design, 8192, excess), bound)
            self.assertEqual(steps_of(design, 1, bound, True), steps)
            errors = sizes.Errors(design, sizes.form_of(design), bound)
            self.assertEqual(next(f for f in range(49) if errors.cost(f) <= cost_limit(design, bound, True)), bits)
        self.assertIsNone(lean_multiplier_of(design_of(FIRST), 0, 1))

    def test_examples(self):
        """R and K of the examples' lean controllers."""
        for name, step, bound, steps in (("first", 1, 1, 1), ("motor", 0, 4, 9), ("pmsm", 0, 9, 20), ("satellite", 0, 3, 7), ("wheel", 0, 1, 3), ("antenna", 0, 159, 340), ("rendezvous", 4, 2, 69),
                                         ("kiln", 0, 120, 256)):
            design = read_design(os.path.join(EXAMPLES, name, "design.toml"))
            policy, reference = (records_of(read_text(os.path.join(EXAMPLES, name, file))) for file in ("lean.csv", "reference.csv"))
            margin, _ = margin_of(corners_of(design, policy))
            found = lean_multiplier_of(design, margin, max(excesses_of(design, sizes.form_of(design), policy, reference)[0]))
            self.assertEqual((name, found, steps_of(design, step, found, True)), (name, bound, steps))

    def test_report(self):
        for text in (FIRST_LEAN_REPORT, FIRST_LEAN_JSON):
            report = report_of(text)
            self.assertEqual((report["lean"], report["excess"], report["undercut"], report["violations"]), (True, Fraction(18, 64), 16, []))
            self.assertNotIn("cost", report)
        self.assertFalse(report_of(FIRST_REPORT)["lean"])


class Sizes(unittest.TestCase):
    def exact(self, text):
        return sizes.exact_sizes(design_of(text), condense(design_of(text)))

    def fine(self, text):
        return sizes.fine_sizes(design_of(text), condense_fine(design_of(text)))

    def errors(self, text, multiplier):
        design = design_of(text)
        return sizes.Errors(design, sizes.form_of(design), multiplier)

    def test_exact_corners_of_a_fine_axis_are_too_wide(self):
        design, policy = design_of(FINE_AXIS), records_of(FINE_AXIS_POLICY * 4)
        self.assertEqual(sizes.exact_corner_sizes(design, policy)["prediction"], (65536 + 32768 + 8192) ** 10)
        self.assertTrue(sizes.has_fine_corners(design, policy))
        self.assertLess(max(sizes.corner_sizes(design, policy).values()), 2**103)

    def test_sizes_of_fine_corners(self):
        self.assertEqual(sizes.fine_corner_sizes(design_of(THIRD), records_of(CORNERS_OF_THIRD)), {
            "prediction": 3298534883346, "corner_slack": 1297036692689780736, "corner_cost": 4242120701074032009666489716})
        found = sizes.fine_corner_sizes(design_of(CROSSED), records_of(CORNERS_OF_CROSSED))
        self.assertEqual((found["corner_slack"], found["corner_cost"]), (49084565538849816576, 1846032233962639460264122696848))

    def test_class_of_the_corners(self):
        far = f"{2**40},{2**62},{-(2**60)}\n" * 2
        for text, policy, fine in ((FIRST, FIRST_POLICY, False), (LONG, LONG_POLICY, False), (CROSSED, CORNERS_OF_CROSSED, False), (THIRD, far, True), (THIRDS, THIRDS_POLICY, True)):
            self.assertEqual(sizes.has_fine_corners(design_of(text), records_of(policy)), fine)
        found = sizes.corner_sizes(design_of(THIRD), records_of(far))
        self.assertEqual((found["corner_slack"], found["corner_cost"]), (5440166188265831295614976, 74628176595348317027229843410966932581696))

    def test_rounding_errors_of_the_first(self):
        errors = self.errors(FIRST, 8)
        self.assertEqual(errors.cost(10), 804534616064)
        self.assertGreater(errors.cost(9), 2**40)

    def test_rounding_errors_of_the_axis(self):
        self.assertEqual(self.errors(AXIS, 159).cost(28), 699629521553)

    def test_errors_of_fine_designs(self):
        self.assertEqual(self.errors(LONG, 8).cost(14), 574834507776)
        self.assertGreater(self.errors(LONG, 8).cost(13), 2**40)
        self.assertEqual(self.errors(AXIS_OVER_1000, 159).cost(29), 555748056634)
        self.assertGreater(self.errors(AXIS_OVER_1000, 159).cost(28), 2**40)
        self.assertEqual(self.errors(AXIS_OVER_1000, 159).size, 34555865003461202887548)

    def test_errors_by_radii(self):
        errors = sizes.Errors(design_of(CROSSED), condense_fine(design_of(CROSSED)), 8)
        self.assertEqual((errors.cost(29), errors.moved(29), errors.row_radii(29), errors.size), (44506093, 36955, 94112, 3321497633389921874))

    def test_exact_sizes(self):
        self.assertEqual(self.exact(LONG)["curvature"], 239261039241284857122685270850462023680)
        self.assertEqual(self.exact(THIRD)["curvature"], 149461848)

    def test_fine_sizes(self):
        found = {"prediction": 2**21 * (2**42 + 9), "hessian": 1547425049113058530599901520, "rows": 26584559915807120781841569156882759680}
        self.assertEqual(self.fine(LONG), found | {"curvature": 217606647531525092816191598})

    def test_fine_sizes_with_radii(self):
        found = {"prediction": 3298534883346, "hessian": 67873931217184512154663835456, "rows": 1175075896678244261440817328}
        self.assertEqual(self.fine(THIRD), found | {"curvature": 2028827651687440642})
        self.assertEqual(self.fine(CROSSED)["curvature"], 13614437949588862459912)

    def test_hessian_by_its_radii(self):
        # a row of these radii adds up to 2^40 + 1, and the numbers are small
        form = condense_fine(design_of(THIRD))
        form.hess_radii[1][0] += 2**40 + 1 - sum(form.hess_radii[1])
        self.assertEqual(sizes.fine_sizes(design_of(THIRD), form)["hessian"], sizes.LIMIT + 2**86)

    def test_classes(self):
        for text, fine in ((FIRST, False), (AXIS, False), (THIRD, False), (CROSSED, False), (LONG, True), (AXIS_OVER_1000, True), (FINE_AXIS, True)):
            self.assertEqual(sizes.form_of(design_of(text)).fine, fine)

    def test_fine_from_above_the_limit_alone(self):
        # the exact curvature of these is 2^126, and more
        for bound, fine in ((1048576, False), (1048577, True)):
            text = (
                FIRST.replace("stages = 1", "stages = 2")
                .replace("[plant]\nden = 1\na = [[1]]\nb = [[1]]", "[plant]\nden = 1048576\na = [[524288]]\nb = [[524288]]")
                .replace("stage = [[1, 0, 1]]", "stage = []")
                .replace("den = 4\nstage = [[0, 4, 4], [0, -4, 4]]\nfinal = [[4, 1]]", f"den = 1048576\nstage = [[0, 0, 1048576], [0, 0, {bound}]]\nfinal = []")
            )
            self.assertEqual(self.exact(text)["curvature"] > 2**126, fine)
            self.assertEqual(sizes.form_of(design_of(text)).fine, fine)

    def test_room_for_rows_that_count_16_times(self):
        self.assertEqual(sizes.lowered_sizes(design_of(FIRST), condense(design_of(FIRST)))["rows"], 16 * self.exact(FIRST)["rows"])
        for bound, has_room in ((524285, True), (524286, False)):
            design = design_of(ROOMY.replace("524285", str(bound)))
            found, own = sizes.lowered_sizes(design, sizes.form_of(design)), sizes.form_sizes(design, sizes.form_of(design))
            self.assertEqual((found["rows"] <= sizes.LIMIT, found["curvature"] < 2**107, max(own.values()) < 2**124), (has_room, True, True))

    def test_width_covers_the_first_controller(self):
        design, form = design_of(FIRST), condense(design_of(FIRST))
        _, bounds = sizes.gain_bounds(design, form, 10)
        self.assertGreaterEqual(sizes.greatest_width(design, form, 8, 1, 4, 10, bounds), 26214400)

    def test_gains_of_a_fine_design(self):
        # the column of the first row is 2 * 25 (-3 * 2^40, 0), and the floor 4 (2 * 75 * 2^40 - 604) = 659706976663184
        _, bounds = sizes.gain_bounds(design_of(THIRD), condense_fine(design_of(THIRD)), 10)
        self.assertEqual(bounds[2], -(-(2**11 * 50 * 3298534883328) // 659706976663184))


class Texts(unittest.TestCase):
    def test_kinds(self):
        self.assertEqual(
            [kind_of(t) for t in (FIRST, FIRST_POLICY, FIRST_CONTROLLER, FIRST_REPORT, "4096 -2224\n", '{"bits":"10"}\n', "# a comment\n" + FIRST)],
            ["design", "policy", "controller", "report", "lines", "report", "design"],
        )

    def test_report_as_json(self):
        text = (
            '{"bits":"10","cost":"1","gap":"438095052800","margin":"8192","multiplier":"8","step":"1","steps":"4","undercut":"70806839230464","version":"1",'
            '"violation":"8850854903808","width":"26","words":"6"}\n'
        )
        self.assertEqual(report_of(text), report_of(FIRST_REPORT))

    def test_design_text_is_read_as_written(self):
        for name, version in (("motor", 1), ("rendezvous", 2)):
            design = read_design(os.path.join(EXAMPLES, name, "design.toml"))
            self.assertEqual((design_of(text_of(design)), design.version), (design, version))
        self.assertEqual(design_of(text_of(design_of(SIX))), design_of(SIX))
        self.assertIn("version = 2\nstates = 6\n", text_of(design_of(SIX)))

    def test_kinds_of_version_2(self):
        self.assertEqual([kind_of(t) for t in (SECOND, SECOND_CONTROLLER, SECOND_REPORT, SECOND_JSON)], ["design", "controller", "report", "report"])

    def test_report_of_version_2(self):
        report = report_of(SECOND_REPORT)
        self.assertEqual(report, report_of(SECOND_JSON))
        self.assertEqual([v * 2**40 for v in report["violations"]], [6651831648256, 8850854903808, 8850854903808])
        self.assertEqual((report["version"], report_of(FIRST_REPORT)["version"]), (2, 1))
        self.assertEqual({key: v for key, v in report.items() if report_of(FIRST_REPORT)[key] != v}, {"version": 2, "violations": report["violations"]})

    def test_greatest_violation_of_version_2(self):
        rows = [5, 7, 6]
        text = SECOND_REPORT
        for number, row in enumerate(rows, 1):
            text = text.replace(f"violation {number} {(6651831648256, 8850854903808)[number > 1]} ", f"violation {number} {row * 2**40} ")
        self.assertEqual((report_of(text)["violation"], report_of(text)["violations"]), (7, rows))

    def test_controllers_of_both_versions(self):
        first, second = controller_of(FIRST_CONTROLLER), controller_of(SECOND_CONTROLLER)
        self.assertEqual((first.version, first.exps, second.version, second.exps), (1, [1, 1, 1], 2, [0, 1, 1]))
        second.version, second.exps = first.version, first.exps
        self.assertEqual(second, first)

    def test_corners_of_six_states(self):
        design = design_of(SIX)
        self.assertEqual([corner.cost for corner in corners_of(design, records_of(64 * "1,0,0,0,0,0,1\n"))], [1] * 64)
        self.assertEqual((design.corner(64), design.corner(33)), ([1] * 6, [0, 0, 0, 0, 0, 1]))

    def test_rows_of_a_kind(self):
        design = design_of(AXIS)
        self.assertEqual(design.rows_of("stage row", 2), [(2, 0), (8, 1), (14, 2), (20, 3), (26, 4)])
        self.assertEqual(design.rows_of("final row", 4), [(34, 5)])

    def test_names(self):
        design = design_of("# state 1: angle, 1 is 0.0625 rad\n# stage row 2: force\n# a stage lasts 0.5 s\n" + FIRST)
        self.assertEqual(design.name("state", 1).shown(4), "0.25 rad")
        self.assertEqual(design.row_words(2), "stage row 2 (force) at stage 0")
        self.assertEqual((design.period, design.corner_words(2)), (0.5, "corner 2 (angle high)"))

    def test_loop_lines(self):
        self.assertEqual(loop_lines_of("1 1 1 4096 -2224\n1 2 0 4096 0\n", 1, 1, 0), {1: [([1], [Fraction(-2224, 4096)]), ([0], [0])]})

    def test_loop_lines_of_another_design(self):
        with self.assertRaises(ValueError):
            loop_lines_of("1 1 1 4096 -2224\n", 2, 1, 0)

    def test_plain(self):
        self.assertEqual(
            [plain(v) for v in (0, 1, 16.0118, -0.00012346, 123456, 1e9, Fraction(1, 8))], ["0", "1", "16.01", "-0.0001235", "123456", "1e+09", "0.125"]
        )


class Explain(unittest.TestCase):
    def told(self, **files):
        return "\n".join(explain(files))

    def test_report(self):
        told = self.told(report=FIRST_REPORT)
        self.assertIn("R = 8: the greatest cost 1 over the least slack 0.125", told)
        self.assertIn("exceeded by at most 8.05", told)

    def test_cells(self):
        cells = f"mpc-cells 2\n{FIRST_CONTROLLER.replace('hi 1', 'hi 0')}{FIRST_CONTROLLER.replace('lo 0', 'lo 1')}end\n"
        told = self.told(cells=cells, report=2 * FIRST_REPORT, design=FIRST)
        self.assertIn("cell 1: x1 0 to 0\nevery run takes K = 4 steps, a step is 2^-1", told)
        self.assertIn("\ncell 2: x1 1 to 1\nevery run takes K = 4 steps", told)
        self.assertIn("cell 2: x1 1 to 1\nevery run takes K = 4 steps, with f = 10 fraction bits in a signed word of 26 bits", self.told(cells=cells))
        self.assertEqual(self.told(report=2 * FIRST_REPORT).count(self.told(report=FIRST_REPORT)), 2)
        for files, fault in (({"cells": cells, "report": FIRST_REPORT}, "there are 2 cells, and 1 reports"), ({"cells": cells, "policy": "1,0\n8,-7\n"}, "and not with a policy"),
                             ({"report": 2 * FIRST_REPORT, "design": AXIS}, "is of another design")):
            with self.assertRaisesRegex(Refusal, fault):
                self.told(**files)
        with self.assertRaisesRegex(ValueError, "2 reports stand in one text"):
            report_of(2 * FIRST_REPORT)

    def test_report_of_version_2(self):
        told = self.told(report=SECOND_REPORT)
        self.assertIn("a step is 2^-1 or more, plans", told)
        self.assertIn("a limit is exceeded by at most 8.05, in the unit of its row: 8.05 in rows 2 and 3, 6.05 in row 1", told)
        self.assertEqual(told, self.told(report=SECOND_JSON))
        self.assertNotIn("or more", self.told(report=SECOND_REPORT.replace("6651831648256", "8850854903808")))

    def test_rows_of_version_2_by_name(self):
        names = "# stage row 1: force above, 1 is 3 N\n# final row 1: place, 1 is 2 m\n"
        told = self.told(report=SECOND_REPORT, design=names + SECOND)
        self.assertIn("stage row 1 (force above) is exceeded by at most 18.15 N, at any state of the box\nstage row 2 is exceeded by at most 8.05, at any", told)
        self.assertIn("final row 1 (place) is exceeded by at most 16.1 m, at any state of the box", told)

    def rolled(self, exponents):
        """A report of the axis: row i has the violation 2^exponent, at the stages one after the other, and last the final rows."""
        lines = "".join(f"violation {row} {2**exponent << 40} 1099511627776\n" for row, exponent in enumerate(exponents, 1))
        return SECOND_REPORT[: SECOND_REPORT.index("violation")].replace("words 6", "words 46") + lines + SECOND_REPORT[SECOND_REPORT.index("gap") :]

    def test_stages_of_version_2(self):
        exponents = [0, 4, 4, 4, 4, 4] + [1, 4, 4, 4, 4, 4] + [1, 3, 4, 4, 4, 4] + [0, 4, 4, 4, 4, 4] + [0, 4, 4, 4, 4, 4] + [4, 4, 4, 2]
        axis = AXIS.replace("version = 1", "version = 2").replace("violation = 1", "violation = 256")
        told = self.told(report=self.rolled(exponents), design="# stage row 1: torque, 1 is 5 mNm\n" + axis)
        self.assertIn("stage row 1 (torque) is exceeded by at most 10 mNm at stages 1 and 2, 5 mNm at stages 0, 3 and 4, at any state of the box", told)
        self.assertIn("stage row 2 is exceeded by at most 16 at stages 0, 1, 3 and 4, 8 at stage 2, at any state of the box", told)
        self.assertIn("stage row 3 is exceeded by at most 16, at any state of the box", told)
        self.assertIn("final row 4 is exceeded by at most 4, at any state of the box", told)

    def test_report_of_another_design(self):
        with self.assertRaises(ValueError):
            self.told(report=SECOND_REPORT, design=AXIS)

    def test_ranges(self):
        self.assertEqual([ranges(v) for v in ([3], [3, 4], [3, 4, 5], [0, 1, 3, 5, 6, 7], [1, 3])], ["3", "3 and 4", "3 to 5", "0, 1, 3 and 5 to 7", "1 and 3"])

    def test_exponents(self):
        told = self.told(controller=SECOND_CONTROLLER)
        self.assertIn("the step exponent of a row is 1 in 2 rows, 0 in 1 row; its multiplier is shifted left by what that is below 1, which is no product", told)
        self.assertIn("each row has the step exponent 1", self.told(controller=SECOND_CONTROLLER.replace("exps 0", "exps 1")))
        self.assertNotIn("exponent", self.told(controller=FIRST_CONTROLLER))

    def test_no_room_for_smaller_exponents(self):
        wide = ROOMY.replace("524285", "524286")
        self.assertIn("with rows that count 16 times, sizes pass 126 bits (rows 126.0), so that no row has a smaller", self.told(design=wide, policy=ROOMY_POLICY))
        self.assertNotIn("16 times", self.told(design=ROOMY, policy=ROOMY_POLICY))
        self.assertNotIn("16 times", self.told(design=wide.replace("version = 2", "version = 1"), policy=ROOMY_POLICY))

    def test_controller(self):
        told = self.told(controller=FIRST_CONTROLLER)
        self.assertIn("a step has 10 products as the machine is written; 6 where the state's share is made once a run; 6 of these are not with 0", told)
        self.assertIn("a run has 24 products", told)
        self.assertIn("gains W 10 bits, P 11, rows G 12, E 12, multipliers 17, plan 15", told)

    def test_where_the_bound_comes_from(self):
        told = self.told(design=FIRST, policy=FIRST_POLICY)
        self.assertIn("R = 8: cost 1 (from corner 2 (x1 high)) over margin 0.125 (from corner 2 (x1 high), stage row 2 at stage 0)", told)
        self.assertIn("the greatest cost is below 10 and is rounded up", told)
        self.assertIn("K = 2^(s+2) R / target = 8 * 8 / 16 = 4", told)

    def test_no_margin(self):
        self.assertIn("there is no margin", self.told(design=FIRST, policy="1,0\n1,0\n"))

    def test_lean_report(self):
        told = self.told(report=FIRST_LEAN_REPORT, design=FIRST, policy=FIRST_POLICY, reference=FIRST_REFERENCE, controller=FIRST_LEAN_CONTROLLER)
        for words in (
            "every run takes K = 1 steps, a step is 2^-1, plans and gains have f = 6 fraction bits",
            "R = 1: the excess 0.2812 over the sum of the least slack 0.125 and the violation target, rounded up",
            "stage row 1 is exceeded by at most 10.14, at any state of the box",
            "the plan costs at most 0.2832 more than any feasible plan\nand some feasible plan costs at most 16 more than it (R times the violation target, loose)",
            "corner 2 (x1 high): excess 0.2812, least slack 0.125 in stage row 2 at stage 0",
            "R = 1: excess 0.2812 (from corner 2 (x1 high)) over the sum of margin 0.125 (from corner 2 (x1 high), stage row 2 at stage 0) and target 16",
            "K = 2^(s+1) R over 15/16 of the target = 4 * 1 / 15 = 1",
            "corner_cost 9.6, excess 79.2, multiplier 82.0, hessian",
        ):
            self.assertIn(words, told)

    def test_lean_report_without_references(self):
        told = self.told(report=FIRST_LEAN_REPORT, design=FIRST, policy=FIRST_POLICY)
        self.assertIn("R = 1, of the report: its reference plans, named after the policy, show where it comes from", told)
        self.assertIn("some feasible plan costs at most 16 more than it (R times the violation target, loose)", self.told(report=FIRST_LEAN_REPORT))

    def test_lean_bound_that_is_rounded_up(self):
        # an excess of 9/32 over 1/8 and 1/10 is 1.25, and counts as 2
        told = self.told(design=FIRST_TIGHT, policy=FIRST_POLICY, reference=FIRST_REFERENCE)
        self.assertIn("R is rounded up to a whole number: with all weights by 2 the step would be 2^-0, and K about 64", told)

    def test_reports_of_others(self):
        with self.assertRaisesRegex(ValueError, "the report is of a controller that `generate` made, which has no reference plans"):
            self.told(report=FIRST_REPORT, design=FIRST, policy=FIRST_POLICY, reference=FIRST_REFERENCE)
        with self.assertRaisesRegex(ValueError, "the report is of another policy: its excess is 18432, and that of the policy 51200"):
            self.told(report=FIRST_LEAN_REPORT, design=FIRST, policy=FIRST_POLICY, reference="1,0\n1,-1\n")
        with self.assertRaisesRegex(ValueError, "the file of reference plans is of another design: it has 1 plans, and the design 2 corners"):
            self.told(design=FIRST, policy=FIRST_POLICY, reference="1,0\n")

    def test_sizes_of_an_exact_design(self):
        told = self.told(design=FIRST, policy=FIRST_POLICY)
        self.assertIn("sizes in bits, at most 126 each: prediction 1.0, corner_slack", told)
        self.assertNotIn("enclosures", told)

    def test_sizes_of_a_fine_design(self):
        told = self.told(design=LONG, policy=LONG_POLICY)
        self.assertIn("exact condensed numbers pass 126 bits (curvature 127.5), so they are held as enclosures, midpoints and radii over 2^40: a fine design", told)
        self.assertIn("corner_cost 92.3, multiplier 85.0; of the enclosures: prediction 63.0, hessian 90.3, rows 124.3, curvature 87.5, error", told)
        self.assertNotIn("too wide", told)

    def test_sizes_of_fine_corners(self):
        told = self.told(design=ROOMY_FINE_AXIS, policy=FINE_AXIS_POLICY * 4)
        self.assertIn("exact numbers of the corners pass 126 bits (prediction 167.0, corner_slack 194.1, corner_cost 351.0), so the plans are simulated in enclosures", told)
        self.assertIn("over 2^40: fine corners\nexact condensed numbers pass 126 bits", told)
        self.assertIn("126 each: of the corners' enclosures: prediction 63.7, corner_slack 70.1, corner_cost 103.0; multiplier 90.9; of the enclosures: prediction 63.7, hessian", told)
        self.assertNotIn("too wide", told)

    def test_sizes_of_fine_corners_of_an_exact_design(self):
        told = self.told(design=THIRDS.replace("final = [[1, 1, 1]]", "final = [[1, 1, 2]]"), policy=THIRDS_POLICY)
        self.assertIn("126 each: of the corners' enclosures: prediction 41.6, corner_slack 59.3, corner_cost 83.6; multiplier 83.6, prediction 1.6, hessian", told)
        self.assertNotIn("a fine design", told)

    def test_sizes_of_fine_corners_that_are_too_wide(self):
        self.assertIn("too wide of the corners' enclosures: corner_cost (docs", self.told(design=FAR, policy=FAR_POLICY))

    def test_sizes_of_enclosures_that_are_too_wide(self):
        self.assertIn("too wide of the enclosures: prediction, hessian, rows, curvature, error (docs", self.told(design=STEEP, policy=STEEP_POLICY))

    def test_plan_line(self):
        self.assertEqual(self.told(design=FIRST, lines="4096 -2224\n"), "stage 0: u1 -0.543")

    def test_loop_line(self):
        self.assertEqual(self.told(design=FIRST, lines="1 1 1 4096 -2224\n"), "start 1, turn 1: x1 1; u1 -0.543")

    def test_exceeded_limit(self):
        design = "# stage row 1: force above, 1 is 3 N\n" + FIRST
        self.assertEqual(self.told(design=design, lines="1 1 1 4096 6144\n"), "start 1, turn 1: x1 1; u1 1.5; force above is exceeded by 1.5 N")
        self.assertEqual(self.told(design=design, lines="4096 6144\n"), "stage 0: u1 1.5; force above is exceeded by 1.5 N")

    def test_line_of_another_design(self):
        self.assertIn("no line of this design", self.told(design=AXIS, lines="4096 -2224\n"))


class Forms(unittest.TestCase):
    def test_condensed_first(self):
        form = condense(design_of(FIRST))
        self.assertEqual((form.hess, form.lin, form.off, form.hess_den), ([[4]], [[2]], [0], 1))
        self.assertEqual((form.rows, form.state_rows, form.bounds, form.row_den), ([[4], [-4], [4]], [[0], [0], [4]], [4, 4, 1], 4))

    def test_enclosures(self):
        third = combined([1], [(2**40, 0)], 3)
        self.assertEqual(third, (366503875925, 1))
        self.assertEqual(combined([1], [product(third, third)], 2**40), (122167958642, 2))
        self.assertEqual([combined([v], [(1, 0)], 2) for v in (1, -1, 2)], [(1, 1), (0, 1), (1, 0)])

    def test_fine_third(self):
        form = condense_fine(design_of(THIRD))
        self.assertEqual((form.hess, form.hess_radii), ([[202717366039482, 21501560720884], [21501560720884, 197179085247770]], [[366, 238], [238, 180]]))
        self.assertEqual((form.lin, form.lin_radii), ([[-75581243746286], [-43003121441856]], [[548], [296]]))
        self.assertEqual((form.off, form.off_radii), ([196446077495700, 109951162777500], [1080, 372]))
        self.assertEqual((form.rows, form.row_radii), ([[-3298534883328, 0], [-366503875925, -3298534883328], [-1710351420981, -2565527131475]], [[0, 0], [1, 0], [14, 7]]))
        self.assertEqual((form.state_rows, form.state_radii), ([[1099511627776], [733007751851], [3420702841969]], [[0], [1], [14]]))
        self.assertEqual((form.bounds[2], form.hess_den, form.row_den), (2199023255552, 54975581388800, 2**42))

    def test_fine_crossed(self):
        form = condense_fine(design_of(CROSSED))
        self.assertEqual((form.hess[1][2], form.hess[3][3], max(map(sum, form.hess_radii))), (166148423753170, 641381782869526, 8178))
        self.assertEqual((form.lin[2][1], form.off[1], form.rows[1][1], form.rows[1][3]), (129009364325922, 102621085259112, -3665038759254, 8796093022208))
        self.assertEqual((form.state_rows[1][1], form.lin_radii[2][1], form.off_radii[1], form.row_radii[1][1], form.state_radii[1][1]), (-2565527131477, 1004, 732, 2, 3))

    def test_exact_numbers_lie_within_the_radii(self):
        for text in (THIRD, CROSSED, LONG, AXIS_OVER_1000, AXIS):
            exact, fine = condense(design_of(text)), condense_fine(design_of(text))
            parts = [("hess", "hess_radii", "hess_den"), ("lin", "lin_radii", "hess_den"), ("rows", "row_radii", "row_den"), ("state_rows", "state_radii", "row_den")]
            for number, radius, den in parts:
                for row, mids, radii in zip(getattr(exact, number), getattr(fine, number), getattr(fine, radius), strict=True):
                    for v, mid, r in zip(row, mids, radii, strict=True):
                        self.assertLessEqual(abs(Fraction(v, getattr(exact, den)) * getattr(fine, den) - mid), r)
            for v, mid, r in zip(exact.off, fine.off, fine.off_radii, strict=True):
                self.assertLessEqual(abs(Fraction(v, exact.hess_den) * fine.hess_den - mid), r)


if __name__ == "__main__":
    unittest.main()
