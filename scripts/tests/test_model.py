"""The independent model of checks/fuzz, on worked designs whose exact numbers are too long, and against the numbers that the prover computes in
crates/trials_definitions/proofs/FineWorked.antt and CornersWorked.antt."""
import os
import unittest

from checks.fuzz import at_corners, cases, forms, model, program
from scripts.common.condensed import condense
from scripts.common.design_text import design_of

from .worked import AXIS, FIRST, ROOMY_FINE_AXIS, SECOND_JSON, SECOND_REPORT, TOP

BASE = {"n": 1, "p": 1, "stages": 1, "den": 1, "a": [[1]], "b": [[1]], "cost_den": 1, "row_den": 1, "input": [1], "cost": [[1, 0, 1]], "final_cost": [], "limit_den": 4,
        "rows": [[0, 4, 4], [0, -4, 4]], "final_rows": [[4, 1]], "grid": 0, "lo": [0], "hi": [1], "target_den": 1, "violation": 16, "gap": 1}
# 1048576 written over itself
LONG = {"stages": 2, "den": 1048576, "a": [[1048576]], "b": [[1048576]], "limit_den": 131072, "rows": [[0, 131072, 131072], [0, -131072, 131072]], "final_rows": [[131072, 32768]]}
LONG_POLICY = [(1, [0, 0]), (8, [-7, 0])]
THIRD = {"stages": 2, "den": 3, "a": [[2]], "b": [[-1]], "cost_den": 2, "row_den": 5, "input": [3], "cost": [[4, 7, 6]], "final_cost": [[-2, 1, 9]], "rows": [[1, -3, 5]],
         "final_rows": [[7, 2]]}
CROSSED = {**THIRD, "n": 2, "p": 2, "a": [[2, 1], [0, -4]], "b": [[1, 0], [2, -5]], "input": [3, 2], "cost": [[4, -1, 7, 6]], "final_cost": [[-2, 3, 1, 9]],
           "rows": [[1, 2, -3, 8, 5]], "final_rows": [[7, 0, 2]], "lo": [0, 0], "hi": [1, 1]}


# the rows of `checks/rows` whose exponents were computed by hand
FLAT = {"version": 2, "rows": [[0, 64, 64], [0, -16, 64], [0, 4, 64], [0, 1, 64]], "final_rows": [[1, 9]]}
ROOMY = {"version": 2, "stages": 2, "den": 1048576, "a": [[524288]], "b": [[524288]], "row_den": 1024, "cost": [], "limit_den": 1, "rows": [[0, 2, 524285], [0, 1, 4]], "final_rows": []}
THIRDS = [(3, [1, -2]), (7, [5, 0])]
NINTHS = [(3, [1, -2, 4, 0]), (7, [5, 0, -1, 2]), (9, [1, 1, 1, 1]), (11, [3, -3, 2, -2])]


def design(**changes):
    return model.read_design(cases.design_text({**BASE, **changes}))


def twice(x):
    return forms.multiple(2, x)


class Enclosures(unittest.TestCase):
    def test_third(self):
        third = forms.divided(forms.FINE, 0, 3)
        self.assertEqual(third, (366503875925, 1))
        self.assertEqual(forms.product([1], [third], [third], forms.FINE), (122167958642, 2))

    def test_ties_are_rounded_upward(self):
        self.assertEqual([forms.divided(v, 0, 2).mid for v in (1, -1, 3, -3)], [1, 0, 2, -1])


class FineForms(unittest.TestCase):
    def test_one_state(self):
        form = forms.fine_form(design(**THIRD))
        self.assertEqual([[twice(v) for v in row] for row in form.q], [[(202717366039482, 366), (21501560720884, 238)], [(21501560720884, 238), (197179085247770, 180)]])
        self.assertEqual((form.f, form.h0), ([[(-75581243746286, 548)], [(-43003121441856, 296)]], [(196446077495700, 1080), (109951162777500, 372)]))
        self.assertEqual(form.g, [[(-3298534883328, 0), (0, 0)], [(-366503875925, 1), (-3298534883328, 0)], [(-1710351420981, 14), (-2565527131475, 7)]])
        self.assertEqual((form.e, form.b), ([[(1099511627776, 0)], [(733007751851, 1)], [(3420702841969, 14)]], [5497558138880, 5497558138880, 2199023255552]))
        self.assertEqual((form.hess_den, form.hess_rad, model.gain_floor(design(**THIRD), form)), (54975581388800, 604, 659706976663184))

    def test_two_states(self):
        form = forms.fine_form(design(**CROSSED))
        self.assertEqual((twice(form.q[1][2]), twice(form.q[3][3]), form.f[2][1], form.h0[1]), ((166148423753170, 1210), (641381782869526, 584), (129009364325922, 1004), (102621085259112, 732)))
        self.assertEqual((form.g[1][1], form.g[1][3], form.e[1][1]), ((-3665038759254, 2), (8796093022208, 0), (-2565527131477, 3)))
        self.assertEqual((form.hess_rad, model.gain_floor(design(**CROSSED), form)), (8178, 439804651077688))

    def test_each_encloses_the_exact_form(self):
        for changes in ({}, THIRD, CROSSED, LONG):
            self.assertIsNone(forms.fault(design(**changes)))

    def test_exact_form_is_that_of_the_scripts(self):
        for text in (FIRST, AXIS):
            form, other = forms.exact_form(model.read_design(text.encode())), condense(design_of(text))
            mids = lambda rows: [[v.mid for v in row] for row in rows]
            self.assertEqual(([[2 * v for v in row] for row in mids(form.q)], mids(form.f), mids([form.h0])[0]), (other.hess, other.lin, other.off))
            self.assertEqual((mids(form.g), mids(form.e), form.b), (other.rows, other.state_rows, other.bounds))
            self.assertEqual((form.hess_den, form.row_den), (other.hess_den, other.row_den))


class FineSizes(unittest.TestCase):
    def test_one_state(self):
        d = design(**THIRD)
        self.assertEqual(forms.sizes(d, forms.fine_form(d)), {
            "prediction": 3298534883346, "hessian": 67873931217184512154663835456, "rows": 1175075896678244261440817328, "curvature": 2028827651687440642})
        self.assertEqual(forms.squares_exponent(d, forms.fine_form(d)), 1)
        self.assertEqual(forms.sizes(d, forms.exact_form(d))["curvature"], 149461848)
        self.assertFalse(model.form_of(d).is_fine)

    def test_two_states(self):
        d = design(**CROSSED)
        self.assertEqual(forms.sizes(d, forms.fine_form(d))["curvature"], 13614437949588862459912)

    def test_long(self):
        d = design(**LONG)
        found = forms.sizes(d, forms.fine_form(d))
        self.assertEqual((found["hessian"], found["rows"], found["curvature"]), (1547425049113058530599901520, 26584559915807120781841569156882759680, 217606647531525092816191598))
        self.assertEqual(forms.sizes(d, forms.exact_form(d))["curvature"], 239261039241284857122685270850462023680)
        self.assertEqual(twice(forms.fine_form(d).q[0][0]), (6597069766656, 0))


class FineCorners(unittest.TestCase):
    def corner(self, number, plans, changes):
        d = design(**changes)
        return at_corners.fine_corner(d, at_corners.states(d)[number - 1], *plans[number - 1])

    def test_one_state(self):
        corner = self.corner(2, THIRDS, THIRD)
        self.assertEqual((corner.slacks, corner.over), ([6754142856334, 5026338869832, -17], 2**42))
        self.assertEqual(corner.cost * 2 * 25 * 2**80, 478364545235733991924080324 + 46259916566953637499130800)
        self.assertEqual((self.corner(1, THIRDS, THIRD).slacks[2], self.corner(1, THIRDS, THIRD).cost * 50 * 2**80), (1058788974877, 768439020980419981610594784))

    def test_two_states(self):
        corner = self.corner(3, NINTHS, CROSSED)
        self.assertEqual(corner.slacks[1:], [7655858741530, 3719335629734])
        self.assertEqual(corner.cost * 50 * 2**80, 1044396930298356345419780034 + 3731252529749439600362250)

    def test_sizes(self):
        self.assertEqual(at_corners.fine_sizes(design(**THIRD), THIRDS), {
            "prediction": 3 * (2**40 + 6), "corner_slack": 1297036692689780736, "corner_cost": 4242120701074032009666489716})
        found = at_corners.fine_sizes(design(**CROSSED), NINTHS)
        self.assertEqual((found["corner_slack"], found["corner_cost"]), (49084565538849816576, 1846032233962639460264122696848))

    def test_class_by_a_long_plan(self):
        longs = [(2**40, [2**62, -(2**60)])] * 2
        self.assertFalse(at_corners.are_fine(design(**CROSSED), NINTHS))
        self.assertTrue(at_corners.are_fine(design(**THIRD), longs))
        found = at_corners.sizes(design(**THIRD), longs)
        self.assertEqual((found["corner_slack"], found["corner_cost"]), (5440166188265831295614976, 74628176595348317027229843410966932581696))
        self.assertEqual(next(at_corners.shown(design(**THIRD), longs)).slacks[1], -1921530343453272748)

    def test_each_shows_less_than_the_exact_corners(self):
        for changes, plans in (({}, [(1, [0]), (8, [-7])]), (LONG, LONG_POLICY), (THIRD, THIRDS), (CROSSED, NINTHS)):
            self.assertIsNone(at_corners.fault(design(**changes), plans))


class RowExponents(unittest.TestCase):
    def found(self, plan=(0,), **changes):
        return model.choose(design(**changes), [(1, list(plan))] * 2 ** changes.get("n", 1)).exponents

    def test_first(self):
        d, plans = design(version=2), [(1, [0]), (8, [-7])]
        c, b = program.generate(d, plans, model.exact_gains)
        self.assertEqual((c.version, c.exps, b["violation"], b["violations"]), (2, [0, 1, 1], 8850854903808, [6651831648256, 8850854903808, 8850854903808]))
        self.assertEqual((b["gap"], b["undercut"]), (438095052800, 70806839230464))
        first, bounds = program.generate(design(), plans, model.exact_gains)
        self.assertEqual((first.version, first.exps, bounds["violations"]), (1, [1, 1, 1], [8850854903808] * 3))

    def test_flat_rows_are_lowered_by_4_at_most(self):
        self.assertEqual(self.found(**FLAT), [8, 5, 4, 4, 4])

    def test_room(self):
        self.assertEqual(self.found(plan=(0, 0), **ROOMY), [3, 1, 3, 1])
        self.assertEqual(self.found(plan=(0, 0), **{**ROOMY, "rows": [[0, 2, 524286], [0, 1, 4]]}), [3, 3, 3, 3])

    def test_each_weighted_sum_is_rounded_once(self):
        products = forms.RowProducts(forms.fine_form(design(**THIRD)))
        before = products.matrix()
        products.count(1, 3)
        # (3 * 2^40 / 3)^2 is 366503875925^2, whose thrice is added before the sum is rounded over 2^40
        rows = [(-3298534883328, 0), (-366503875925, 1), (-366503875925, 1), (-366503875925, 1), (-366503875925, 1), (-1710351420981, 14)]
        mid, rad = sum(m * m for m, _ in rows), sum(2 * abs(m) * r + r * r for m, r in rows)
        self.assertEqual(products.matrix()[0][0], forms.divided(mid, rad, 2**40))
        products.count(1, -3)
        self.assertEqual(products.matrix(), before)

    def test_rendezvous(self):
        texts = []
        for file in ("design.toml", "policy.csv"):
            with open(os.path.join(TOP, "examples", "rendezvous", file), "rb") as text:
                texts.append(text.read())
        d = model.read_design(texts[0])
        choice = model.choose(d, model.read_policy(texts[1], d))
        self.assertEqual([choice.report[key] for key in ("multiplier", "step", "steps", "bits", "words")], [64, 4, 4096, 33, 176])
        by_row = [choice.exponents[row :: len(d.stage_rows)] for row in range(len(d.stage_rows))]
        # the rows of the thrust across the plane, and then those of the rates, of which a stage or two are lowered
        self.assertEqual(by_row[4:6], [[0] * 10] * 2)
        self.assertEqual([min(row) for row in by_row[6:]], [3, 3, 2, 4, 2])
        self.assertEqual(sorted(choice.exponents), [0] * 20 + [1] * 2 + [2] * 4 + [3] * 7 + [4] * 77)

    def test_sizes_by_version(self):
        for changes, fault in (({"n": 5}, ("range", 2)), ({"version": 2, "n": 7}, ("range", 2)), ({"version": 2, "n": 5}, ("shape", 6)), ({"stages": 21}, ("range", 4)), ({"version": 2, "stages": 31}, ("range", 4)), (
                {"version": 3, "n": 7}, ("range", 2)), ({"version": 4}, ("range", 1))):
            with self.assertRaises(model.Refused) as caught:
                design(**changes)
            self.assertEqual(caught.exception.args, (5, *fault))
        self.assertEqual(design(version=2, stages=30).stages, 30)

    def test_report_as_json(self):
        b = program.generate(design(version=2), [(1, [0]), (8, [-7])], model.exact_gains)[1]
        self.assertEqual((program.report_text(b).decode(), program.report_json(b).decode()), (SECOND_REPORT, SECOND_JSON))


class FineDesigns(unittest.TestCase):
    def refused(self, plans, **changes):
        with self.assertRaises(model.Refused) as caught:
            model.choose(design(**changes), plans)
        return caught.exception.args

    def test_long(self):
        report = program.generate(design(**LONG), LONG_POLICY, model.exact_gains)[1]
        self.assertEqual([report[key] for key in ("margin", "cost", "multiplier", "step", "steps", "bits", "words", "gap")], [8192, 1, 8, 1, 4, 14, 10, 102143918080])
        errors = model.Errors(design(**LONG), forms.fine_form(design(**LONG)), 8)
        self.assertEqual(errors.epsilon(14), 574834507776)
        self.assertGreater(errors.epsilon(13), 2**40)

    def test_large_plant(self):
        self.assertEqual(self.refused([(1, [0] * 20)] * 2, stages=20, a=[[2147483647]]), (10, "prediction"))

    def told(self, d, plans):
        return [model.choose(d, plans).report[key] for key in ("margin", "cost", "multiplier", "step", "steps", "bits", "words")]

    def test_fine_grid(self):
        self.assertEqual(self.told(design(grid=24, hi=[2**24]), [(2**40, [0]), (2**40, [-962072674304])]), [8192, 1, 8, 1, 4, 24, 6])

    def test_fine_axis(self):
        d = model.read_design(ROOMY_FINE_AXIS.encode())
        self.assertEqual(self.told(d, [(1, [0] * 10)] * 4), [65536, 487, 487, 1, 62336, 36, 86])

    def test_no_margin_over_fine_corners(self):
        # the second plan leaves 2^-18 to the last row
        self.assertEqual(self.refused([(2**40, [0]), (2**40, [-3 * 2**38 - 2**22])], grid=24, hi=[2**24]), (6, 2, 3, 2**24, 2**42))


if __name__ == "__main__":
    unittest.main()
