"""Limits by which no loop leaves its box: how they are drafted, that they are found, and that the faces of the examples hold, by the definition and by chance."""
import contextlib
import functools
import io
import math
import os
import random
import signal
import time
import tomllib
import unittest
import unittest.mock
from dataclasses import replace
from fractions import Fraction

from scripts.common.libraries import PACKAGES, Refusal, missing
from scripts.common.trajectories import dot, next_state

from .changed_models import changed_text, changed_value
from .test_design import MASS
from .worked import EXAMPLES

LACKING = missing(*PACKAGES)
if not LACKING:
    import numpy

    from scripts import faces, staying
    from scripts.common import budget as budgets
    from scripts.common import turns
    from scripts.common.budget import Budget
    from scripts.common.design_text import read_design
    from scripts.common.disturbances import box_in
    from scripts.common.kept_boxes import Plant, covered, largest, short_of
    from scripts.common.models import Model, read_model
    from scripts.common.run_costs import SAME, Weighing, weighings
    from scripts.common.texts import read_text, records_of
    from scripts.draft import draft

# the folders of the examples whose loops never leave the box
STAY = ("antenna/stay", "kiln", "motor/stay", "satellite/stay")
SLOW = MASS.replace("stages = 6", "stages = 2").replace("[1.0, 0.5]", "[1.0, 0.2]") + "disturbed = [0.02, 0.004]\n"
WHOLE = "period = 2.0\nstages = 3\nsampled = true\na = [[1.0, 1.0], [0.0, 1.0]]\nb = [[5.0], [1.0]]\nstates = ['place m', 'rate m']\n"
REST = "[units]\nstates = [1.0, 1.0]\ninputs = [1.0]\nden = 1\n[[limit]]\nname = 'drive'\ninput = [1.0]\nbound = 1.0\nleast = -1.0\ntolerance = 0.25\n"
REST += "[cost]\ninput = [1.0]\nrows = [{ state = [1.0, 0.0], weight = 1.0 }]\n[box]\nhi = [8.0, 2.0]\ngrid = 4\n"


@unittest.skipIf(LACKING, f"missing: {', '.join(LACKING)}")
class Limits(unittest.TestCase):
    """How a model asks for limits on the next state."""

    def test_rows(self):
        # 1 m and 1/4 m inside the ends, and further by what is disturbed, in tolerances
        design = draft(Model(WHOLE + REST + "stay = [1.0, 0.25]\ndisturbed = [0.5, 0.0]\n"))
        rows = [[Fraction(v, design.limit_den) for v in row] for row in design.stage_rows]
        # and by half a step of the grid for rounding
        wanted = [[1, 1, 5, Fraction(207, 32)], [-1, -1, -5, Fraction(207, 32)], [0, 4, 4, Fraction(55, 8)], [0, -4, -4, Fraction(55, 8)]]
        self.assertEqual(rows[2:], wanted)
        names = [design.name("stage row", number) for number in range(3, 7)]
        self.assertEqual([name.word for name in names], ["upper end of place", "lower end of place", "upper end of rate", "lower end of rate"])
        self.assertEqual([(name.size, name.unit) for name in names], [(1.0, "m"), (1.0, "m"), (0.25, "m"), (0.25, "m")])

    def test_of_a_box_that_is_to_one_side(self):
        text = WHOLE + REST.replace("hi = [8.0, 2.0]", "hi = [8.0, 2.0]\nlo = [-4.0, -2.0]") + "stay = [1.0, 0.0]\n"
        design = draft(Model(text))
        for row, wanted in zip(design.stage_rows[2:], [[1, 1, 5, 8 - 1 - 1 / 32], [-1, -1, -5, 4 - 1 - 1 / 32]], strict=True):
            self.assertTrue(all(0 <= w - v / design.limit_den < 0.003 for v, w in zip(row, wanted)), row)

    def test_without_the_word_nothing_changes(self):
        self.assertEqual(draft(Model(WHOLE + REST)), draft(Model(WHOLE + REST + "stay = [0.0, 0.0]\ndisturbed = [0.5, 0.5]\n")))

    def test_faults(self):
        for words, fault in (
            ("stay = [1.0]", "box.stay: a list of 2 numbers of at least 0, one for each state is expected, and a list of 1 stands there"),
            ("stay = [-1.0, 0.0]", "box.stay[1]: a number from 0 to 1e+15 is expected, and -1 stands there"),
            ("disturbed = [0.0, inf]", "box.disturbed[2]: a number from 0 to 1e+15 is expected, and inf stands there"),
            ("stay = [8.0, 0.0]", "box.stay[1]: less than half of the box is expected, 8, with what is disturbed, and 8 stands there"),
            ("stay = [4.0, 0.0]\ndisturbed = [4.0, 0.0]", "box.stay[1]: less than half of the box is expected, 8, with what is disturbed, and 8 stands there"),
        ):
            with self.assertRaises(Refusal) as told:
                Model(WHOLE + REST + words + "\n")
            self.assertEqual(str(told.exception), fault)

    def test_a_state_that_no_input_moves(self):
        with self.assertRaisesRegex(Refusal, r"box.stay\[2\]: 0 is expected, since no input moves the next rate"):
            draft(Model(WHOLE.replace("[1.0]]\nstates", "[0.0]]\nstates") + REST + "stay = [0.0, 0.5]\n"))

    def test_too_many_sides(self):
        sides = "".join(f"[[limit]]\ninput = [1.0]\nbound = {k}.0\nleast = -{k}.0\ntolerance = 0.25\n" for k in range(2, 6))
        with self.assertRaisesRegex(Refusal, "limit: at most 12 sides are expected, above and below, and 10 stand there, beside 4 ends of the box"):
            Model(WHOLE + REST + "stay = [1.0, 0.25]\n" + sides)


@unittest.skipIf(LACKING, f"missing: {', '.join(LACKING)}")
class Changed(unittest.TestCase):
    def test_changed_models_are_drafted_or_refused(self):
        draw, made = random.Random(1), 0
        texts = [read_text(os.path.join(EXAMPLES, name, "model.toml")) for name in STAY]
        for number in range(40):
            text = draw.choice(texts)
            model = changed_text(draw, text) if number % 3 == 0 else changed_value(draw, tomllib.loads(text))
            with contextlib.suppress(Refusal):
                self.assertTrue(draft(Model(model)).stage_rows)
                made += 1
        self.assertGreater(made, 4)


@unittest.skipIf(LACKING, f"missing: {', '.join(LACKING)}")
class Search(unittest.TestCase):
    def found(self, text, **given):
        with contextlib.redirect_stderr(io.StringIO()) as said:
            model, holds = staying.search(Model(text), **given)
        return model, holds, said.getvalue()

    @staticmethod
    @functools.cache
    def mass():
        """What is found for a mass on a line, which bears what disturbs it, and what was said."""
        with contextlib.redirect_stderr(io.StringIO()) as said:
            model, holds = staying.search(Model(SLOW))
        return model, holds, said.getvalue()

    def test_finds_coordinates_and_limits(self):
        found, holds, said = self.mass()
        self.assertTrue(holds)
        self.assertRegex(
            said.splitlines()[-1],
            "^with position in [0-9.]+ m?s m in place of position.* and the next position 0.[0-9]+ of the box inside it, the next speed 0.[0-9]+ of the box inside it: [0-9.]+ % of the model's box, K about",
        )
        self.assertTrue(all(found["box"]["stay"]))

    def test_bears_what_is_disturbed(self):
        model = Model(self.mass()[0])
        low, high = staying.grid_disturbances(model, staying.in_floats(model))
        self.assertEqual(([-v for v in low], min(high) > 0), (high, True))
        # what moves the speed moves the place some time ahead as much longer
        self.assertGreater(model.disturbed[0], 0.02)
        design, records = staying.found_faces(model)
        self.assertIsNone(faces.first_fault(design, records, lean_excess_of(design), low, high))

    def test_what_was_found_is_kept(self):
        found, _, _ = self.mass()
        again, holds, said = self.found(staying.model_text(found, "found"))
        self.assertEqual((again["box"], holds, said), (found["box"], True, "as it is: the faces hold\n"))

    def test_a_controller_by_cost_takes_more_steps(self):
        model = Model(self.mass()[0])
        design = staying.in_floats(model)
        self.assertGreater(staying.steps_of(design, True), 4 * staying.steps_of(design, False))

    def test_worth(self):
        """What a run takes of a stage counts, and most where it is nearly all."""
        made = lambda steps, share, covers=0.5: staying.Staying(covers=covers, steps=steps, share=share).worth
        self.assertEqual(made(40, 0.02), made(3, 0.001))
        self.assertGreater(made(40, 0.02), made(40, 0.2))
        self.assertGreater(made(40, 0.02), made(400, 0.02))
        # half the box rather than a run that is longer than a stage, and rather a larger box than less of a stage that is long
        self.assertGreater(made(20, 0.1, 0.4), made(400, 2.0, 0.8))
        self.assertGreater(made(400, 0.01, 0.8), made(20, 0.0005, 0.5))
        self.assertEqual(made(math.inf, 0.0), -math.inf)

    def test_share_of_a_stage(self):
        design = read_design(os.path.join(EXAMPLES, "motor", "design.toml"))
        # 4 rows and their opposites, over 4 entries: 4 * (4 * 4.9 + 0.7), 4 factors at 3.2, 4 pairs at 9.5, and 1.2 for each of 3 * 4 + 8 numbers but 10
        share = staying.share_of(design, 9, 0.005, 100.0)
        self.assertAlmostEqual(share, 9 * (4 * (4 * 4.9 + 0.7) + 4 * 3.2 + 4 * 9.5 + 10 * 1.2) / 5e5)
        self.assertAlmostEqual(staying.share_of(design, 9, 0.005, 50.0), 2 * share)

    def test_two_inputs(self):
        # the rows at the ends are rounded, and limits of the hexagon make up for it in both voltages
        model = read_model(os.path.join(EXAMPLES, "pmsm", "model.toml"))
        text = model.text | {"box": model.text["box"] | {"stay": [0.32, 0.32]}}
        design, records = staying.found_faces(Model(text), True)
        self.assertEqual((design.inputs, len(records)), (2, 4))
        self.assertIsNone(faces.first_fault(design, records, excess_of(design)))

    def test_other_versions_and_stages(self):
        model = read_model(os.path.join(EXAMPLES, "motor", "stay", "model.toml"))
        for keys in ({"version": 2}, {"stages": 1}):
            design, records = staying.found_faces(Model(model.text | keys))
            self.assertIsNone(faces.first_fault(design, records, lean_excess_of(design)), keys)

    def test_a_run_that_takes_too_long(self):
        """On a slow processor a cost is taken, or fewer stages, by which a run ends in time; but where both are to stay."""
        model = Model(SLOW.replace("stages = 2", "stages = 4"))
        budget = Budget(1000)
        made = lambda clock, same, most=staying.MOST_STEPS: staying.Search(model, budget, False, clock, same, most)
        choice = next(limited for found in made(1.0, True).coordinates() if (limited := staying.with_faces(model, found, False)))
        # a run takes ten stages
        clock = made(1.0, True).timely(choice).share / 10
        slow, quick = (made(clock, same).timely(choice) for same in (True, False))
        self.assertEqual((slow.weighing, slow.stages), (SAME, None))
        self.assertGreater(slow.share, 1)
        self.assertLess(slow.steps, staying.MOST_STEPS)
        self.assertLess(quick.share, staying.ENOUGH)
        self.assertIn("so that it can be run in time", staying.words_of(model, quick))
        # and where it ends in time, but takes more steps than it may
        self.assertLess(made(1.0, False, slow.steps / 2).timely(choice).steps, slow.steps / 2)
        text = staying.with_limits(model, quick)
        self.assertNotEqual((text["cost"], text.get("stages")), (model.text["cost"], 4))
        self.assertRegex(staying.others_words(model, text), "^; so that it can be run in time its (cost|stages|cost and its stages) (is|are) not what was asked for$")
        self.assertEqual(staying.others_words(model, staying.with_limits(model, slow)), "")
        # what the faces rest on is the same
        self.assertEqual((text["box"], text["limit"]), (staying.with_limits(model, slow)["box"], model.text["limit"]))

    def test_nothing_is_needed(self):
        lag = WHOLE.replace("[[1.0, 1.0], [0.0, 1.0]]", "[[0.5, 0.0], [0.0, 0.5]]").replace("[[5.0], [1.0]]", "[[1.0], [0.5]]")
        found, holds, said = self.found(lag + REST)
        self.assertEqual((found.get("box", {}).get("stay"), holds, said), (None, True, "the model's own limits keep it in the box\n"))

    def test_none_is_found(self):
        # what grows by a quarter from turn to turn, and the drive moves by nearly nothing
        still = WHOLE.replace("[[1.0, 1.0], [0.0, 1.0]]", "[[1.25, 0.0], [0.0, 0.5]]").replace("[[5.0], [1.0]]", "[[0.001], [0.5]]")
        _, holds, said = self.found(still + REST + "disturbed = [1.5, 0.0]\n", seconds=10)
        self.assertFalse(holds)
        self.assertRegex(said, "at the corner of place (high|low), rate (high|low) the next state can't be kept in the box: the (upper|lower) end of place")
        self.assertRegex(said, "without what is disturbed it would be [0-9.]+: a smaller `disturbed` helps")


TRACKED = SLOW.replace("[[limit]]", "[[held]]\nname = 'target m'\ninto = [0.0, 0.0]\nhi = 0.5\n[[limit]]", 1)
TRACKED = TRACKED.replace("{ state = [1.0, 0.0], weight = 2.0 }", "{ state = [1.0, 0.0], held = [-1.0], weight = 2.0 }")


@unittest.skipIf(LACKING, f"missing: {', '.join(LACKING)}")
class Costs(unittest.TestCase):
    """Costs by which a run takes few steps."""

    def test_inputs_that_weigh_more(self):
        model = Model(SLOW)
        self.assertEqual(Weighing(4.0).cost(model, model.text, [1.1]), model.text["cost"] | {"input": [4.0]})

    def test_the_box(self):
        # the force weighs 1.21 at its limit of 1.1 N, and so does each coordinate at its end of 1 m and 0.2 m/s; three times that at the last stage alone
        model = Model(SLOW)
        rows = lambda weights: [{"state": state, "weight": weight} for state, weight in zip([[1.0, 0.0], [0.0, 1.0]], weights)]
        self.assertEqual(Weighing(1.0, "rows").cost(model, model.text, [1.1]), {"input": [1.0], "rows": rows([1.21, 30.2])})
        self.assertEqual(Weighing(3.0, "final").cost(model, model.text, [1.1]), {"input": [1.0], "final": rows([3.63, 90.8])})

    def test_what_loops_follow(self):
        """A coordinate costs what it is off where the loops rest, whatever the target is."""
        model = Model(TRACKED)
        rows = [{"state": [1.0, 0.0], "held": [-1.0], "weight": 1.21}, {"state": [0.0, 1.0], "held": [0.0], "weight": 30.2}]
        self.assertEqual(Weighing(1.0, "rows").cost(model, model.text, [1.1])["rows"], rows)
        # what is called off the target already is 0 there
        turned = model.text | {"coordinates": {"rows": [[1.0, 0.5], [0.0, 1.0]], "held": [[-1.0], [0.0]]}}
        self.assertEqual(Weighing(1.0, "rows").cost(model, turned, [1.1])["rows"][0], rows[0] | {"state": [1.0, 0.5]})
        # a target of the speed, at which no loop rests
        moving = Model(TRACKED.replace("state = [1.0, 0.0], held", "state = [0.0, 1.0], held"))
        self.assertEqual({one.key for one in weighings(moving, [1.1])}, {""})

    def test_a_target_keeps_its_rows(self):
        model = Model(SLOW.replace("weight = 2.0", "weight = 2.0, target = 0.3"))
        self.assertEqual([one.key for one in weighings(model, [1.1])], [""] * 2)
        self.assertEqual([one.key for one in weighings(Model(SLOW), [math.inf])], [""] * 2)
        self.assertIn(Weighing(1.0, "final"), weighings(Model(SLOW), [1.1]))


@unittest.skipIf(LACKING, f"missing: {', '.join(LACKING)}")
class Coordinates(unittest.TestCase):
    """Held states and last inputs in coordinates."""

    def test_a_difference_from_a_target(self):
        model = Model(TRACKED + "[coordinates]\nrows = [[1.0, 0.5], [0.0, 1.0]]\nheld = [[-1.0], [0.0]]\nnames = ['off m', 'speed m/s']\n")
        plain_one = Model(TRACKED)
        turn = numpy.array([[1.0, 0.5, -1.0], [0.0, 1.0, 0.0], [0.0, 0.0, 1.0]])
        self.assertTrue(numpy.allclose(model.a, turn @ plain_one.a @ numpy.linalg.inv(turn)))
        self.assertTrue(numpy.allclose(model.b, turn @ plain_one.b))
        # the cost counts what is left of the target, whatever the target is
        self.assertTrue(numpy.allclose(model.row({"state": [1.0, 0.0], "held": [-1.0]}) / model.state_units, [1.0, -0.5, 0.0]))

    def test_last_inputs(self):
        delayed = "delay = 1\n" + SLOW
        model = Model(delayed + "[coordinates]\nrows = [[1.0, 0.0], [0.0, 1.0]]\nlast = [[0.0], [0.2]]\nnames = ['place m', 'speed next m/s']\n")
        self.assertTrue(any(model.b[1]))
        with self.assertRaisesRegex(Refusal, r"coordinates.last\[2\]: zeros are expected"):
            Model(SLOW + "[coordinates]\nrows = [[1.0, 0.0], [0.0, 1.0]]\nlast = [[0.0], [0.2]]\n")

    # a level that is filled and emptied by a flow, whose change is limited
    FILLED = """period = 0.1
stages = 6
sampled = true
a = [[1.0]]
b = [[0.25]]
states = ["level m"]
inputs = ["flow m/s"]
plan = "changes"
[[limit]]
name = "flow"
input = [1.0]
bound = 1.0
least = -1.0
tolerance = 0.1
[[limit]]
name = "change"
change = [1.0]
bound = 0.25
least = -0.25
tolerance = 0.05
[cost]
input = [1.0]
rows = [{ state = [1.0], weight = 1.0 }]
[box]
hi = [1.0]
grid = 8
"""

    def test_last_inputs_shrink(self):
        """Where no box has all of a last input, one has a part of it, with narrower limits."""
        plant, stay = staying.plant_of(Model(self.FILLED)), numpy.array([0.2, 0.0])
        turn = numpy.array([[1.0, 1.2 * 0.25], [0.0, 1.0]])
        self.assertEqual({row: (i, float(middle)) for row, (i, middle) in plant.ends.items()}, {0: (1, 0.0), 1: (1, 0.0)})
        self.assertIsNone(largest(replace(plant, ends={}), turn, stay, 0.125))
        found = largest(plant, turn, stay, 0.125)
        self.assertTrue(0 < found.least <= found.parts[1] < 1)
        # where the model says how far the last input goes, its limits say nothing of that box
        self.assertEqual(staying.plant_of(Model(self.FILLED + "last = [1.1]\n")).ends, {})

    def test_narrower_limits(self):
        model = Model(self.FILLED)
        made = Model(staying.with_limits(model, staying.Staying({}, [0.5, 0.8], [0.0])))
        limit, change = made.text["limit"]
        # the ends of 1.1 to 0.88, a tolerance beyond the limits
        self.assertEqual((limit["bound"], limit["least"], made.text["box"].get("last")), (0.78, -0.78, None))
        self.assertEqual((change, made.lo, made.hi), (model.text["limit"][1], [-0.5, -0.88], [0.5, 0.88]))
        # limits that are to one side, and one of them on less than the input: from -0.1 .. 1.1 to 0.02 .. 0.98
        aside = Model(self.FILLED.replace("input = [1.0]\nbound = 1.0\nleast = -1.0", "input = [-0.5]\nbound = 0.0\nleast = -0.5", 1).replace("tolerance = 0.1", "tolerance = 0.05", 1))
        limit = staying.with_limits(aside, staying.Staying({}, [1.0, 0.8], [0.0]))["limit"][0]
        self.assertEqual((aside.lo[1], aside.hi[1], limit["bound"], limit["least"]), (-0.1, 1.1, -0.06, -0.44))

    def test_limits_on_changes(self):
        with contextlib.redirect_stderr(io.StringIO()) as said:
            found, holds = staying.search(Model(self.FILLED.replace("bound = 0.25\nleast = -0.25", "bound = 0.12\nleast = -0.12")), seconds=240)
        self.assertTrue(holds, said.getvalue())
        self.assertIn("of the box of last flow", said.getvalue())
        model = Model(found)
        design, records = staying.found_faces(model)
        self.assertLess(found["limit"][0]["bound"], 1.0)
        self.assertIsNone(faces.first_fault(design, records, lean_excess_of(design)))

    def test_texts_of_choices(self):
        model = Model(TRACKED)
        units = model.state_units
        choice = staying.Choice({(0, 1): 0.5 * units[1] / units[0], (0, 2): -units[2] / units[0]}, [0.5, 1.0, 0.8])
        made = Model(staying.changed(model, choice))
        self.assertEqual(made.names[0], ("position in 500 ms - target", "m"))
        self.assertTrue(numpy.allclose(made.to, [[1.0, 0.5, -1.0], [0.0, 1.0, 0.0], [0.0, 0.0, 1.0]]))
        self.assertEqual((made.hi, made.lo), ([0.5, 0.2, 0.4], [-0.5, -0.2, -0.4]))
        self.assertEqual(made.disturbed, [0.022, 0.004])


@unittest.skipIf(LACKING, f"missing: {', '.join(LACKING)}")
class Boxes(unittest.TestCase):
    """The linear program, on plants whose largest boxes follow by hand."""

    def plant(self, a, b, half, most, shift=0.0):
        rows = numpy.array([[0.0] * len(a) + [1.0], [0.0] * len(a) + [-1.0]])
        return Plant(numpy.array(a), numpy.array(b), rows, numpy.array([most, most]), numpy.zeros(len(a)), numpy.array(half), numpy.full(len(a), shift), [], [])

    def test_what_doubles(self):
        # x+ = 2 x + u with |u| <= 1 is kept in |x| <= 1, and in 1 - w where w is added
        for shift, wanted in ((0.0, 1.0), (0.25, 0.75)):
            found = largest(self.plant([[2.0]], [[1.0]], [4.0], 1.0, shift), numpy.eye(1), numpy.zeros(1), 0.0)
            self.assertAlmostEqual(found.parts[0] * 4.0, wanted)

    def test_what_stops_it(self):
        short = short_of(self.plant([[2.0]], [[1.0]], [4.0], 1.0), numpy.eye(1), numpy.ones(1), numpy.array([0.25]))
        # 8 less 1 lies 4 beyond 3, which is 1 inside the end, and both limit and end, of 1 each, give way by 2
        self.assertAlmostEqual(short.least, -2.0)
        self.assertEqual((short.blame.ends, short.blame.limits), ([(0, 1)], [1]))

    def test_turned(self):
        # x+ = x + v + u / 2, v+ = v + u: where x and v are at one end none stays, and where x + v is
        plant = self.plant([[1.0, 1.0], [0.0, 1.0]], [[0.5], [1.0]], [1.0, 0.8], 1.0)
        self.assertLess(largest(plant, numpy.eye(2), numpy.zeros(2), 0.0).least, 0.99)
        turn = numpy.array([[1.0, 1.0], [0.0, 1.0]])
        found = largest(plant, turn, numpy.zeros(2), 0.0)
        self.assertAlmostEqual(found.least, 1.0)
        self.assertEqual(covered(plant, turn, found.parts), 1.0)

    # what leaves one comes to the other, and a third of a second's flow of it moves the box by little
    EXCHANGED = ([[1.0, 0.0], [0.0, 1.0]], [[1.0], [-0.5]])

    def test_what_no_input_moves(self):
        """A sum that stays as it is is kept in its box, whatever rounding adds, but under no disturbance."""
        plant = replace(self.plant(*self.EXCHANGED, [4.0, 4.0], 1.0, 0.01), disturbed=numpy.zeros(2))
        turn = numpy.array([[1.0, 0.0], [0.5, 1.0]])
        self.assertEqual([plant.turned(turn).stands(i) for i in range(2)], [False, True])
        self.assertIsNone(largest(plant, numpy.eye(2), numpy.array([0.02, 0.02]), 0.0))
        found = largest(plant, turn, numpy.array([0.02, 0.0]), 0.0)
        self.assertAlmostEqual(found.least, 1.0)
        disturbed = replace(plant, disturbed=numpy.array([0.0, 0.001]))
        self.assertFalse(disturbed.turned(turn).stands(1))
        self.assertIsNone(largest(disturbed, turn, numpy.array([0.02, 0.0]), 0.0))

    def test_sums_that_are_kept(self):
        a, b = map(numpy.array, self.EXCHANGED)
        for row, wanted in (([0.5, 1.0], True), ([0.5, 1.00001], False), ([1.0, 0.0], False)):
            self.assertEqual(turns.is_kept(numpy.array(row), a, b), wanted)
        self.assertFalse(turns.is_kept(numpy.array([0.5, 1.0]), numpy.diag([1.0, 0.999]), b))
        # all digits of what is kept, two of what only shrinks
        units = numpy.ones(2)
        self.assertEqual([turns.short(numpy.array([0.349066, 1.0]), 1, units, units, digits) for digits in (2, 9)], [{0: 0.35}, {0: 0.349066}])

    def test_what_inputs_move_by_little(self):
        """A next state is kept inside the box by no more than a part of what inputs move it by."""
        plant = self.plant(*self.EXCHANGED, [4.0, 100.0], 1.0)
        # the limit of 1 and its tolerance: 2 of 4, and 1 of 100
        self.assertEqual(plant.within_reach(numpy.eye(2), 0.5).tolist(), [0.25, 0.005])
        self.assertEqual([plant.moves(i) for i in range(2)], [True, False])
        model = Model(Coordinates.FILLED)
        with Budget(1000) as budget:
            found = staying.Search(model, budget, False, 100.0).larger({(0, 1): 0.05 * model.state_units[1] / model.state_units[0]}, 0.2)
        # half of 0.25 s and 0.05 s of the change of 0.3 m/s
        self.assertAlmostEqual(found.stay[0], 0.045)

    def test_interrupted(self):
        """A line stands there every few seconds, also within a trial whose own words are kept back, and none after the search."""
        with unittest.mock.patch.object(budgets, "EVERY", 0.05), contextlib.redirect_stderr(io.StringIO()) as said:
            with Budget(1000) as budget, contextlib.redirect_stderr(io.StringIO()):
                self.assertTrue(budget.goes_on())
                time.sleep(0.5)
            with Budget(1000) as other:
                os.kill(os.getpid(), signal.SIGINT)
                self.assertFalse(other.goes_on())
            before = said.getvalue()
            time.sleep(0.2)
        line = "([0-9]+ % of 1000 s, 1 trials: nothing yet\n)"
        self.assertRegex(before.replace("0 trials", "1 trials"), f"^{line}{{2,}}interrupted: the best so far is kept\n{line}*$")
        self.assertEqual(said.getvalue(), before)


def lean_excess_of(design):
    """What each first row may be exceeded by with a lean controller, by the plans that are found."""
    return faces.excesses(design, *staying.quietly(staying.find_lean, design))


def excess_of(design):
    """What each first row may be exceeded by, by the policy that is found."""
    policy = staying.quietly(staying.find_policy, design)
    return faces.excesses(design, policy)


@unittest.skipIf(LACKING, f"missing: {', '.join(LACKING)}")
class Examples(unittest.TestCase):
    """The files of the examples that stay."""

    def files(self, name):
        path = lambda file: os.path.join(EXAMPLES, name, file)
        design = read_design(path("design.toml"))
        policy, records = (records_of(read_text(path(file))) for file in ("policy.csv", "faces.csv"))
        return design, faces.excesses(design, policy), records, box_in(path("disturbances.csv"), design)

    def test_designs_are_what_their_models_give(self):
        for name in STAY:
            self.assertEqual(draft(read_model(os.path.join(EXAMPLES, name, "model.toml"))), read_design(os.path.join(EXAMPLES, name, "design.toml")), name)

    def test_faces_hold(self):
        for name in STAY:
            design, excess, records, (low, high) = self.files(name)
            self.assertIsNone(faces.first_fault(design, records, excess, low, high), name)
            self.assertEqual(faces.bearable(design, records, excess), (low, high), name)
            # one more is more than they bear
            for i in range(design.states):
                more = [v + (k == i) for k, v in enumerate(high)]
                self.assertEqual(faces.first_fault(design, records, excess, low, more), ("no-stay", 2 * i + 1, design.hi[i] + 1), name)

    def test_lean_controllers_bear_what_their_models_ask_for(self):
        """By the same faces, which `lean` tests with what a lean controller may exceed."""
        for name in ("antenna/stay", "motor/stay", "satellite/stay"):
            design, _, records, (low, high) = self.files(name)
            policy, reference = (records_of(read_text(os.path.join(EXAMPLES, name, file))) for file in ("lean.csv", "reference.csv"))
            excess = faces.excesses(design, policy, reference)
            self.assertIsNone(faces.first_fault(design, records, excess, *staying.grid_disturbances(read_model(os.path.join(EXAMPLES, name, "model.toml")), design)), name)
            # what the controller of `stay` bears is too much for it
            self.assertEqual(faces.first_fault(design, records, excess, low, high)[0], "no-stay", name)

    def test_they_bear_what_their_models_ask_for(self):
        for name in STAY:
            design, _, _, (low, high) = self.files(name)
            asked = staying.grid_disturbances(read_model(os.path.join(EXAMPLES, name, "model.toml")), design)
            self.assertTrue(all(l <= a for l, a in zip(low, asked[0])) and all(a <= h for a, h in zip(asked[1], high)), name)

    def test_no_inputs_within_the_limits_lead_out(self):
        """From random states, mostly at the ends, with inputs at which a limit is just exceeded by as much as it may be: the next state lies in the box under the greatest disturbances."""
        draw = random.Random(1)
        for name in STAY:
            design, excess, _, (low, high) = self.files(name)
            rows, met = faces.first_rows(design), 0
            for _ in range(400):
                state = [draw.choice((l, h, draw.randint(l, h))) for l, h in zip(design.lo, design.hi)]
                place = [Fraction(v, 2**design.grid) for v in state]
                inputs = farthest_inputs(design, rows, excess, place)
                for chosen in inputs:
                    after = next_state(design, place, chosen)
                    met += 1
                    self.assertTrue(all(l <= v + d and v + e <= h for v, l, h, d, e in zip(after, design.lo, design.hi, low, high)), (name, state, chosen))
            self.assertGreater(met, 100, name)


def farthest_inputs(design, rows, excess, place):
    """The least and the greatest input of a design of one input that exceed no first row by more than they may; none where there is none."""
    low, high = None, None
    for row, most in zip(rows, excess):
        left = row.bound + Fraction(design.limit_den * most, faces.SCALE) - dot(row.of_state, place) / design.plant_den
        factor = Fraction(row.of_input[0], design.plant_den)
        if factor > 0:
            high = left / factor if high is None else min(high, left / factor)
        elif factor < 0:
            low = left / factor if low is None else max(low, left / factor)
    return [[low], [high]] if low <= high else []


if __name__ == "__main__":
    unittest.main()
