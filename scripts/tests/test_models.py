"""What a model may hold: each fault by key and place; where models are; and states that are added: held ones, last inputs."""
import json
import os
import subprocess
import unittest
import warnings

from scripts.common.libraries import PACKAGES, Refusal, missing

from .changed_models import changed_models
from .worked import as_command, folder_with

LACKING = missing(*PACKAGES)
if not LACKING:
    import numpy
    import scipy.io

    from scripts import draft
    from scripts.common import models

PLANT = "period = 0.5\nstages = 5\na = [[0.0, 1.0], [0.0, 0.0]]\nb = [[0.0], [1.0]]\n"
LIMIT = "[[limit]]\ninput = [1.0]\nbound = 1.0\nleast = -1.0\ntolerance = 0.25\n"
COST = "[cost]\ninput = [1.0]\nrows = [{ state = [1.0, 0.0], weight = 1.0 }]\n"
BOX = "[box]\nhi = [2.0, 0.5]\n"
MODEL = PLANT + LIMIT + COST + BOX

# what stands in the model, what is written in its place, and how the fault of it begins
FAULTS = (
    (BOX, BOX + "gird = 3\n", "box.gird: no such key; grid is one"),
    ("weight = 1.0 }", "weight = 1.0, targt = 2.0 }", "cost.rows[1].targt: no such key; target is one"),
    ("period = 0.5", "period = -900", "period: a number above 0, from 1e-15 to 1e+15 is expected, and -900 stands there"),
    ("tolerance = 0.25", "tolerance = -0.2", "limit[1].tolerance: a number above 0, from 1e-15 to 1e+15 is expected, and -0.2 stands there"),
    ("input = [1.0]\nrows", "input = [-1.0]\nrows", "cost.input[1]: a number above 0"),
    ("weight = 1.0", "weight = -1.0", "cost.rows[1].weight: a number above 0"),
    ("stages = 5", "stages = 2.5", "stages: a whole number from 1 to 20 is expected, and 2.5 stands there"),
    ("stages = 5", "stages = true", "stages: a whole number from 1 to 20 is expected, and true stands there"),
    ("stages = 5", "stages = 21", "stages: version 1 has at most 4 states and 20 stages: version = 2 has more"),
    ("state = [1.0, 0.0]", "state = [1.0]", "cost.rows[1].state: a list of 2 numbers, one for each state is expected, and a list of 1 stands there"),
    ("hi = [2.0, 0.5]", "hi = [2.0]", "box.hi: a list of 2 numbers, one for each state is expected, and a list of 1 stands there"),
    ("hi = [2.0, 0.5]", "hi = [2.0, nan]", "box.hi[2]: a number of at most 1e+15 is expected, and nan stands there"),
    ("hi = [2.0, 0.5]", "hi = [2.0, inf]", "box.hi[2]: a number of at most 1e+15 is expected, and inf stands there"),
    ("hi = [2.0, 0.5]", "hi = [2.0, 0.5]\nlo = [3.0, 0.0]", "box.lo[1]: at most hi is expected, 2, and 3 stands there"),
    ("hi = [2.0, 0.5]", "hi = [-2.0, 0.5]", "box.hi[1]: at least 0 is expected where lo is left out, and -2 stands there"),
    (BOX, BOX + "grid = 5000\n", "box.grid: a whole number from 0 to 24 is expected, and 5000 stands there"),
    (BOX, BOX + "[coordinates]\nrows = [[1.0, 2.0], [2.0, 4.0]]\n", "coordinates.rows: rows of which none is a sum of the others"),
    (BOX, BOX + "[units]\nden = 0\n", "units.den: a whole number from 1 to 1048576 is expected, and 0 stands there"),
    (BOX, BOX + "[units]\nstates = [1.0, 0.0]\n", "units.states[2]: a number above 0"),
    ("b = [[0.0], [1.0]]", "b = [[0.0]]", "b: a list of 2 lists, one for each state is expected, and a list of 1 stands there"),
    ("[[0.0, 1.0], [0.0, 0.0]]", "[[0.0, 1.0]]", "a[1]: a list of 1 number, one for each state is expected, and a list of 2 stands there"),
    ("[[0.0, 1.0], [0.0, 0.0]]", '[[0.0, "1"], [0.0, 0.0]]', "a[1][2]: a number of at most 1e+15 is expected, and '1' stands there"),
    ("[[0.0, 1.0], [0.0, 0.0]]", "[[0.0, 1e9], [1e9, 0.0]]", "period: a period in which the plant changes less than 10^6 times"),
    ("[[0.0, 1.0], [0.0, 0.0]]", "[[0.0, 1.0], [0.0, 99.0]]", "a: over a period of 0.5 s the plant grows beyond 10^9"),
    ("period = 0.5\n", "", "period: is missing; a number above 0"),
    (BOX, "", "box: is missing; a table is expected"),
    ("bound = 1.0\nleast = -1.0\n", "", "limit[1]: bound or least is expected"),
    ("least = -1.0", "least = 2.0", "limit[1].least: at most bound is expected, and 2 stands there"),
    ("bound = 1.0", "bound = nan", "limit[1].bound: a number of at most 1e+15, or inf for no limit is expected, and nan stands there"),
    ("input = [1.0]\nbound", "input = [0.0]\nbound", "limit[1]: a factor other than 0 is expected"),
    (PLANT, PLANT + 'states = ["a,b m", "c"]\n', "states[1]: a name of at most 60 characters, without a comma is expected"),
    (PLANT, PLANT + 'states = ["a\\nb m", "c"]\n', "states[1]: a name of at most 60 characters, without a comma is expected"),
    (PLANT, "version = 4\n" + PLANT, "version: version is 1, 2 or 3, not 4"),
    (PLANT, PLANT + "x = [\n", "no TOML document: "),
)


@unittest.skipIf(LACKING, f"missing: {', '.join(LACKING)}")
class Faults(unittest.TestCase):
    def fault_of(self, text):
        with self.assertRaises(Refusal) as caught:
            draft.draft(models.Model(text))
        return str(caught.exception)

    def test_the_model_itself_is_none(self):
        self.assertEqual(draft.draft(models.Model(MODEL)).stages, 5)

    def test_each_fault_by_key_and_place(self):
        for there, written, begins in FAULTS:
            self.assertIn(there, MODEL)
            fault = self.fault_of(MODEL.replace(there, written, 1))
            self.assertTrue(fault.startswith(begins), f"{written}: {fault}")

    def test_all_faults_at_once(self):
        fault = self.fault_of(MODEL.replace("period = 0.5", "period = -900").replace("[box]", "[box]\ngird = 2"))
        self.assertEqual([line.split(":")[0] for line in fault.splitlines()], ["period", "box.gird"])

    def test_more_sides_than_rows(self):
        fault = self.fault_of(PLANT + LIMIT * 7 + COST + BOX)
        self.assertEqual(fault, "limit: at most 12 sides are expected, above and below, and 14 stand there")

    def test_changed_models_are_refused_or_drafted(self):
        refused = 0
        for changed in changed_models(500, 1):
            try:
                model = models.Model(changed)
                with warnings.catch_warnings():
                    warnings.simplefilter("error")
                    made = draft.told(model, 0.1, False)
                self.assertEqual((made.design.states, made.design.inputs), (model.n, model.p))
                self.assertTrue(1 <= made.design.gap <= 2147483647 and 1 <= made.design.plant_den <= 1048576)
                self.assertIn("from the middle of the box", "\n".join(made.said[-2:]))
            except Refusal as fault:
                self.assertRegex(str(fault), r"^(no TOML document|[a-z]+[][.a-z0-9]*): ")
                refused += 1
        self.assertTrue(250 < refused < 450, refused)

    def test_faults_of_the_command(self):
        _, paths = folder_with(self, model=MODEL.replace("grid", "gird").replace("stages = 5", "stages = 0"), bytes=b"\xff\xfe", long=b"#" * 4194305)
        for name, words in (("model", ": stages: a whole number from 1 to 20 is expected, and 0 stands there\n"), ("bytes", ": no UTF-8: "), ("long", " is longer than 4194304 bytes")):
            for script in ("draft", "discretise"):
                got = subprocess.run([*as_command(script), paths[name]], capture_output=True, text=True)
                self.assertEqual((got.returncode, got.stdout, got.stderr.startswith(f"{script}.py: {paths[name]}{words}")), (1, "", True), got.stderr)


@unittest.skipIf(LACKING, f"missing: {', '.join(LACKING)}")
class Places(unittest.TestCase):
    """The same model in each of the forms that are read."""

    def test_forms(self):
        a, b = [[0.0, 1.0], [0.0, 0.0]], [[0.0], [1.0]]
        folder, paths = folder_with(self, **{"model.toml": MODEL})
        model = models.toml_of(MODEL)
        control = {key: value for key, value in model.items() if key not in ("a", "b")} | {"A": a, "B": b, "C": [[1.0, 0.0]], "D": [[0.0]], "dt": 0}
        without = MODEL.replace("a = [[0.0, 1.0], [0.0, 0.0]]\nb = [[0.0], [1.0]]\n", "")
        sampled = numpy.array([[1.0, 0.5], [0.0, 1.0]]), numpy.array([[0.125], [0.5]])
        scipy.io.savemat(os.path.join(folder, "plant.mat"), {"A": numpy.array(a), "B": numpy.array(b), "note": "x"})
        scipy.io.savemat(os.path.join(folder, "struct.mat"), {"motor": {"A": sampled[0], "B": sampled[1], "Ts": 0.5}})
        texts = {
            "model.json": json.dumps(model),
            "control.json": json.dumps(control),
            "plant.json": json.dumps({"A": sampled[0].tolist(), "B": sampled[1].tolist(), "dt": 0.5}),
            "with_mat.toml": 'plant = "plant.mat"\n' + without,
            "with_struct.toml": 'plant = "struct.mat"\n' + without.replace("period = 0.5\n", ""),
            "with_json.toml": 'plant = "plant.json"\n' + without,
        }
        for name, text in texts.items():
            with open(os.path.join(folder, name), "w", encoding="utf-8") as file:
                file.write(text)
        wanted = draft.draft(models.read_model(paths["model.toml"]))
        for name in ("model.json", "control.json", "with_mat.toml", "with_struct.toml", "with_json.toml"):
            self.assertEqual(draft.draft(models.read_model(os.path.join(folder, name))), wanted, name)

    def test_faults_of_plants(self):
        folder, paths = folder_with(
            self,
            **{
                "m1.toml": 'plant = "bad.mat"\nperiod = 1.0\n',
                "m2.toml": 'plant = "none.json"\nperiod = 1.0\n',
                "m3.toml": 'plant = "dt.json"\nperiod = 1.0\n',
                "m4.toml": 'plant = "x.csv"\n',
                "m5.toml": 'plant = "dt.json"\na = [[1.0]]\n',
                "bad.mat": b"MATLAB 5.0 MAT-file" + bytes(200),
                "none.json": "{}",
                "dt.json": '{"A": [[1.0]], "B": [[1.0]], "dt": 0.5}',
                "list.json": "[1]",
                "deep.json": "[" * 100000,
                "m.mat": b"",
            },
        )
        for name, words in (
            ("m1.toml", "no .mat file that scipy reads"),
            ("m2.toml", "plant: .*none.json has no A\n.*plant: .*none.json has no B$"),
            ("m3.toml", "period: 0.5 is expected, which the plant of .*dt.json is sampled with, and 1.0 stands there"),
            ("m4.toml", "plant: the name of a .mat or .json is expected"),
            ("m5.toml", "a: is given by plant, too"),
            ("list.json", "the model: an object of keys is expected"),
            ("deep.json", "no JSON document"),
            ("m.mat", "a .mat has a plant alone"),
        ):
            with self.assertRaisesRegex(Refusal, f"^{paths[name]}: {words}"):
                models.read_model(paths[name])


HELD = '[[held]]\nname = "target m"\nhi = 1.5\nunit = 0.5\n'
TARGET = COST.replace("state = [1.0, 0.0]", "state = [1.0, 0.0], held = [-1.0]")
CHANGE = '[[limit]]\nname = "jerk"\nchange = [1.0]\nbound = 0.5\nleast = -0.5\ntolerance = 0.1\n'


@unittest.skipIf(LACKING, f"missing: {', '.join(LACKING)}")
class Added(unittest.TestCase):
    """States that a model gets besides those of its plant."""

    def test_reference_that_is_moved(self):
        model = models.Model(PLANT + HELD + LIMIT + TARGET + BOX)
        self.assertTrue(numpy.allclose(model.a, [[1, 0.5, 0], [0, 1, 0], [0, 0, 1]]))
        self.assertTrue(numpy.allclose(model.b, [[0.125], [0.5], [0]]))
        made = draft.drafted(model)
        self.assertEqual((made.design.lo[2], made.design.hi[2], made.design.names["state", 3].word), (-48, 48, "target"))
        row = made.design.stage_cost[0]
        self.assertAlmostEqual(row[0] / row[2] / (model.state_units[0] / -0.5), 1, delta=0.001)
        # from a target of 1 the loop settles at 1
        start = [0.0, 0.0, 1.0 / 0.5]
        place = draft.settled(made.design, start)
        self.assertAlmostEqual(place.state[0] * model.state_units[0], 1, delta=0.002)

    def test_disturbance_that_is_measured(self):
        model = models.Model(PLANT + HELD.replace("hi = 1.5", "into = [0.0, 1.0]\nlo = 0.25\nhi = 0.25") + LIMIT + COST + BOX)
        self.assertTrue(numpy.allclose(model.a, [[1, 0.5, 0.125], [0, 1, 0.5], [0, 0, 1]]))
        made = draft.drafted(model)
        place = draft.settled(made.design, [0.0, 0.0, 0.5])
        self.assertAlmostEqual(place.inputs[0] * model.input_units[0], -0.25, delta=0.001)

    def test_limit_on_changes_makes_last_inputs_states(self):
        model = models.Model(PLANT + LIMIT + CHANGE + COST + BOX)
        self.assertTrue(numpy.allclose(model.a, [[1, 0.5, 0], [0, 1, 0], [0, 0, 0]]))
        self.assertTrue(numpy.allclose(model.b, [[0.125], [0.5], [1]]))
        self.assertEqual((model.lo[2], model.hi[2], model.names[2]), (-1.25, 1.25, ("last u1", "")))
        design = draft.draft(model)
        self.assertEqual([design.names["stage row", row].word for row in (3, 4)], ["jerk above", "jerk below"])
        for row, sign in ((design.stage_rows[2], 1), (design.stage_rows[3], -1)):
            self.assertEqual((row[2], row[:2]), (-row[3], [0, 0]))
            for made, exact in ((row[3], sign * model.input_units[0] / 0.1), (row[4], 5)):
                self.assertAlmostEqual(made / design.limit_den / exact, 1, delta=0.001)

    def test_changes_have_a_unit_of_their_own(self):
        text = 'plan = "changes"\n' + PLANT + HELD + LIMIT + CHANGE + TARGET + BOX
        model = models.Model(text)
        a, b = model.scaled()
        # the last input's row is its 1 and what a change adds, where one unit for both makes it 2
        self.assertEqual((a[-1, -1], round(b[-1, 0], 3)), (1.0, round(model.input_units[0] / model.state_units[-1], 3)))
        self.assertTrue(0.1 < b[-1, 0] < 0.2)
        both = models.Model(text + "[units]\ninputs = [0.5]\nchanges = [0.125]\n")
        self.assertEqual((both.state_units[-1], both.input_units[0], both.scaled()[1][-1, 0]), (0.5, 0.125, 0.25))
        self.assertEqual(models.Model(text + "[units]\ninputs = [0.5]\n").input_units[0], 0.5)
        # limits and costs are of the same values in either unit
        for units in ("inputs = [0.5]", "inputs = [0.5]\nchanges = [0.125]"):
            made = models.Model(text + f"[units]\n{units}\n")
            self.assertEqual((list(made.planned({"input": [1.0]}) / made.input_units), made.row({"input": [1.0]})[-1] / made.state_units[-1]), ([1.0], 1.0))
        with self.assertRaisesRegex(Refusal, "^units.changes: no such key here, since inputs are planned"):
            models.Model(PLANT + LIMIT + COST + BOX + "[units]\nchanges = [0.5]\n")

    def test_changes_that_are_planned(self):
        text = 'plan = "changes"\n' + PLANT + HELD + LIMIT + CHANGE + TARGET + BOX
        model = models.Model(text)
        self.assertTrue(numpy.allclose(model.a, [[1, 0.5, 0, 0.125], [0, 1, 0, 0.5], [0, 0, 1, 0], [0, 0, 0, 1]]))
        self.assertTrue(numpy.allclose(model.b, [[0.125], [0.5], [0], [1]]))
        self.assertEqual((model.names[3][0], model.planned_names[0][0]), ("last u1", "change of u1"))
        made = draft.drafted(model)
        above, _, change, _ = made.design.stage_rows
        self.assertEqual((above[:3], change[:4]), ([0, 0, 0], [0, 0, 0, 0]))
        self.assertAlmostEqual(above[3] / above[4], model.state_units[3] / model.input_units[0], delta=0.01)
        self.assertAlmostEqual(above[4] / made.design.limit_den / (model.input_units[0] / 0.25), 1, delta=0.001)
        self.assertAlmostEqual(change[4] / made.design.limit_den / (model.input_units[0] / 0.1), 1, delta=0.001)
        with self.assertRaisesRegex(Refusal, "^delay: 0 is expected where changes are planned$"):
            models.Model("delay = 1\n" + text)
        with self.assertRaisesRegex(Refusal, "^plan: 'inputs' or 'changes' is expected, and 'change' stands there$"):
            models.Model(text.replace("changes", "change", 1))

    def test_costs_of_last_inputs(self):
        cost = COST.replace("}]", "}, { last = [1.0], weight = 2.0 }]")
        design = draft.draft(models.Model('plan = "changes"\n' + PLANT + LIMIT + cost + BOX))
        self.assertEqual(design.stage_cost[1][:4], [0, 0, 1, 0])
        with self.assertRaisesRegex(Refusal, r"^cost.rows\[2\].last: no such key here, since the last inputs are no states"):
            models.Model(PLANT + LIMIT + cost + BOX)

    def test_last_inputs_without_limits_want_a_box(self):
        text = PLANT + CHANGE + COST + BOX
        with self.assertRaisesRegex(Refusal, "box.last: is missing"):
            models.Model(text)
        self.assertEqual(models.Model(text + "last = [3.0]\n").hi[2], 3)

    def test_delay_of_a_period(self):
        model = models.Model("delay = 1\n" + PLANT + LIMIT + '[[limit]]\nname = "rate"\nstate = [0.0, 1.0]\nbound = 0.4\ntolerance = 0.1\n' + COST + BOX)
        self.assertTrue(numpy.allclose(model.a, [[1, 0.5, 0.125], [0, 1, 0.5], [0, 0, 0]]))
        self.assertTrue(numpy.allclose(model.b, [[0], [0], [1]]))
        made = draft.drafted(model)
        self.assertTrue(any("rate: held from the second state on" in words for words in made.said))
        # the rate after two stages: rate + last / 2 + input / 2
        row = [v / made.design.limit_den * 0.1 for v in made.design.stage_rows[2]]
        sizes = [*model.state_units, model.input_units[0]]
        for found, exact in zip(row, (0, 1 * sizes[1], 0.5 * sizes[2], 0.5 * sizes[3], 0.4)):
            self.assertAlmostEqual(found, exact, delta=0.001)

    def test_sides_that_limit_nothing(self):
        made = draft.drafted(models.Model(MODEL.replace("bound = 1.0", "bound = inf")))
        self.assertEqual((len(made.design.stage_rows), made.design.names["stage row", 1].word), (1, "limit 1"))

    def test_sampled_plants_are_taken_as_they_are(self):
        model = models.Model("sampled = true\n" + MODEL)
        self.assertTrue(numpy.allclose(model.a, [[0, 1], [0, 0]]))

    def test_states_that_are_added_count(self):
        with self.assertRaisesRegex(Refusal, "a: version 1 has at most 4 states and 20 stages: version = 2 has more"):
            models.Model(PLANT + HELD * 2 + LIMIT + CHANGE + COST + BOX)
        self.assertEqual(models.Model("version = 2\n" + PLANT + HELD * 2 + LIMIT + CHANGE + COST + BOX).n, 5)


if __name__ == "__main__":
    unittest.main()
