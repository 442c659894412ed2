"""What a draft rounds moves by no more than it says, and the drafted design settles where the model does."""
import os
import re
import unittest
from fractions import Fraction

from scripts.common.libraries import PACKAGES, missing

from .worked import EXAMPLES

LACKING = missing(*PACKAGES)
if not LACKING:
    import numpy

    from scripts import discretise, draft
    from scripts.common import models, rounding

# Two zones of a house, 5 degrees outside, with heaters; the third state is 1. What the zones settle at follows from what heats them and from what they lose.
HOUSE = """period = 900.0
stages = 6
a = [[-1.2e-4, 4.0e-5, 4.0e-4], [5.0e-5, -1.1e-4, 3.0e-4], [0.0, 0.0, 0.0]]
b = [[4.0e-4, 0.0], [0.0, 5.0e-4], [0.0, 0.0]]
states = ["living degC", "bedroom degC", "one"]
inputs = ["living heat kW", "bedroom heat kW"]

[[limit]]
name = "living heat"
input = [1.0, 0.0]
bound = 6.0
least = 0.0
tolerance = 0.2

[[limit]]
name = "both"
input = [100.0, 74.0]
bound = 900.0
tolerance = 20.0

[cost]
input = [0.0001, 0.0001]
rows = [{ state = [1.0, 0.0, -20.0], weight = 1.0 }, { state = [0.0, 1.0, 0.0], target = 18.0, weight = 1.0 }]

[box]
lo = [10.0, 10.0, 1.0]
hi = [25.0, 25.0, 1.0]
"""


@unittest.skipIf(LACKING, f"missing: {', '.join(LACKING)}")
class Rounding(unittest.TestCase):
    def within(self, found, exact, part=0.001):
        for one, other in zip(found, exact, strict=True):
            self.assertLessEqual(abs(one - other), part * abs(other) * (1 + 1e-9), (found, exact))

    def test_rows_keep_each_factor(self):
        for row in ([1.0, 0.0, -20.0], [0.01, 1.0, -120.0], [6.2, 0.0, -19.7], [0.0625, -0.04, 0.3], [2e-3, 1.0, 1e3]):
            whole, factor = rounding.whole_row(numpy.array(row), numpy.ones(3), 0.001)
            self.within([v * factor for v in whole], row)
        self.assertEqual(rounding.whole_row(numpy.array([1.0, 0.0, -20.0]), numpy.ones(3), 0.001)[0], [1, 0, -20])
        self.assertEqual(rounding.whole_row(numpy.array([0.0625, -0.04]), numpy.ones(2), 0.001)[0], [25, -16])
        self.assertEqual(rounding.whole_row(numpy.array([0.0625, -0.04]), numpy.ones(2), 0.01)[0], [11, -7])

    def test_what_is_nothing_beside_its_row_is_dropped(self):
        self.assertEqual(rounding.whole_row(numpy.array([1.0, 1e-12]), numpy.array([1.0, 100.0]), 0.001), ([1, 0], 1.0))

    def test_weights_are_to_each_other_as_they_were(self):
        self.assertEqual(rounding.whole_ratio([0.5, 1.25, 3.0], 0.001), [2, 5, 12])
        weights = [0.000729, 0.000529, 0.0793493, 0.25]
        found = rounding.whole_ratio(weights, 0.001)
        scale = found[-1] / weights[-1]
        self.within([v / scale for v in found], weights, 0.002)

    def test_limits_keep_factors_and_bounds(self):
        near = lambda reach: rounding.limit_denominator([numpy.array([1.0, 0.304, 7.3])], numpy.array(reach), 0.001)
        self.assertEqual(near([numpy.inf, numpy.inf]), (102, True))
        self.assertEqual(rounding.whole_limits([numpy.array([1.0, 0.304, 7.3])], 102), [[102, 31, 744]])
        self.within([Fraction(31, 102), Fraction(744, 102)], [0.304, 7.3])
        # a factor on what comes to little may move by more of itself, as long as that is little of the tolerance
        self.assertEqual(near([1.0, 0.1])[0], 10)
        self.assertEqual(rounding.limit_denominator([numpy.array([13.5, 0.74, 30.0])], numpy.array([5.0, 100.0]), 0.001)[0] % 2, 0)
        self.assertEqual(rounding.limit_denominator([numpy.array([2.0, 1.0, 7.0])], numpy.array([1.0, 1.0]), 0.001), (1, True))

    def test_house_settles_where_its_model_does(self):
        model = models.Model(HOUSE)
        made = draft.drafted(model)
        said = made.said + draft.settle_words(model, made)
        design, middle = made.design, [17.5 / model.state_units[0], 17.5 / model.state_units[1], 1.0 / model.state_units[2]]
        place = draft.settled(design, middle)
        for found, wanted in zip(place.state[:2] * model.state_units[:2], (20, 18)):
            self.assertAlmostEqual(found, wanted, delta=0.03)
        # the heat that keeps 20 and 18 degrees: 0 = a x + b u
        for found, wanted in zip(place.inputs * model.input_units, (3.2, 1.36)):
            self.assertAlmostEqual(found, wanted, delta=0.02)
        self.assertRegex(said[-2], r"the design settles at living (20|19\.9\d|20\.0\d) degC, bedroom (18|17\.9\d|18\.0\d) degC, one 1, living heat 3\.2\d* kW")
        self.assertRegex(said[-1], r"^and the model, not rounded, at living 20 degC, bedroom 18 degC, one 1, living heat 3\.2 kW, bedroom heat 1\.36 kW$")

    def test_each_change_is_told(self):
        model = models.Model(HOUSE)
        made = draft.drafted(model)
        told = "\n".join(made.said)
        parts = [float(part) for part in re.findall(r" becomes \S+ \(([0-9.e-]+) %\)", "\n".join(words for words in made.said if not words.startswith("box")))]
        self.assertTrue(parts and max(parts) <= 0.1 + 1e-6, told)
        self.assertNotIn("warning", told)
        for row, exact in zip(made.design.stage_cost, made.exact.stage_cost):
            whole = [v / row[i] * exact[i] for i in [max(range(4), key=lambda i: abs(exact[i]))] for v in row[:-1]]
            self.within(whole, exact[:-1])
            if any(abs(one - other) > 1e-6 * abs(other) for one, other in zip(whole, exact)):
                self.assertIn("cost row", told)

    def test_coarse_denominators_are_told_with_a_warning(self):
        model = models.Model(HOUSE + "[units]\nstates = [6.2, 6.5, 1.0]\ninputs = [2.7, 2.3]\nlimits = 1\nweights = 1\n")
        told = draft.drafted(model).said
        self.assertTrue(any(re.match(r"warning: limit 3 \(both\): u1 13.5 becomes 1[34] ", words) for words in told), told)

    def test_weights_that_are_kept(self):
        made = draft.drafted(models.Model(HOUSE), keep=True)
        design = made.design
        self.within([w / design.cost_den for w in design.input_weights], made.exact.input_weights)

    def test_weights_over_a_denominator_that_is_asked_for_are_rounded_up(self):
        with open(os.path.join(EXAMPLES, "motor", "model.toml"), encoding="utf-8") as file:
            design = draft.draft(models.Model(file.read()))
        self.assertEqual((design.cost_den, design.input_weights, design.stage_cost), (4096, [2054], [[11, -7, 0, 50]]))


@unittest.skipIf(LACKING, f"missing: {', '.join(LACKING)}")
class Denominators(unittest.TestCase):
    """The plant's denominator where none is named."""

    def test_least_power_of_two_of_house(self):
        model = models.Model(HOUSE)
        a, b = model.scaled()
        reach = [max(abs(l), abs(h)) / u for l, h, u in zip(model.lo, model.hi, model.state_units)]
        den = discretise.least_den(a, b, model.stages, reach)
        self.assertEqual(den, draft.draft(model).plant_den)
        good = lambda den: not discretise.lost(a, b, den) and discretise.responses_error(a, b, den, model.stages, reach) <= 0.001
        self.assertEqual([2**k for k in range(21) if good(2**k)][0], den)
        # over 64 two couplings would be lost, and responses off by more than 3 %
        self.assertEqual(len(discretise.lost(a, b, 64)), 2)
        self.assertGreater(discretise.response_error(a, b, 64, model.stages), 0.03)

    def test_whole_plant_stays_whole(self):
        a, b = numpy.array([[1.0, 1.0], [0.0, 1.0]]), numpy.array([[3.0], [1.0]])
        self.assertEqual(discretise.least_den(a, b, 10, [5.0, 1.5]), 1)

    def test_plant_that_no_denominator_serves(self):
        self.assertEqual(discretise.least_den(numpy.array([[0.5]]), numpy.array([[1e-8]]), 3, [1.0]), 1048576)

    def test_responses_to_states_count(self):
        # no input moves what the second state, a disturbance, adds
        a, b = numpy.array([[0.5, 0.3], [0.0, 1.0]]), numpy.array([[1.0], [0.0]])
        self.assertLess(discretise.response_error(a, b, 2, 4), 1e-9)
        self.assertGreater(discretise.responses_error(a, b, 2, 4, [1.0, 1.0]), 0.1)
        self.assertGreater(discretise.least_den(a, b, 4, [1.0, 1.0]), 64)

    def test_sizes_that_are_refused_step_it_down(self):
        # each state's row sum is 10 or so, so that twelve stages are within the limit over a small denominator alone
        text = """period = 1.0
sampled = true
stages = 12
a = [[1.0, 3.003], [0.0, 1.0]]
b = [[4.5], [3.0]]
[units]
states = [1.0, 1.0]
inputs = [1.0]
[[limit]]
input = [1.0]
bound = 1.0
least = -1.0
tolerance = 0.5
[cost]
input = [1.0]
rows = [{ state = [1.0, 0.0], weight = 0.25 }]
[box]
hi = [2.0, 0.25]
grid = 2
"""
        model = models.Model(text)
        made = draft.drafted(model)
        wanted = discretise.least_den(*model.scaled(), 12, [2.0, 0.25])
        told = [words for words in made.said if "the program would refuse" in words]
        self.assertEqual(len(told), 1)
        self.assertRegex(told[0], rf"^with a plant over {wanted} and numbers that move by at most 0.1 % the program would refuse .*: the plant is over {made.design.plant_den}, and numbers")
        self.assertLess(made.design.plant_den, wanted)
        self.assertEqual(draft.too_wide(made.design, draft.corner_plans(made.design)), [])

    def test_denominator_that_is_named_is_taken(self):
        self.assertEqual(draft.draft(models.Model(HOUSE + "[units]\nden = 512\n")).plant_den, 512)


if __name__ == "__main__":
    unittest.main()
