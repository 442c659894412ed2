"""From a model to a judged picture: loops that leave and where they go, coordinates in which they stay, and the one command that goes the whole way."""
import contextlib
import dataclasses
import io
import os
import signal
import subprocess
import time
import tomllib
import unittest
import unittest.mock

from scripts.common.libraries import PACKAGES, missing
from scripts.common.model_text import model_text

from .worked import EXAMPLES, FIRST, FIRST_LEAN_CONTROLLER, SIX, TOP, as_command, folder_with

LACKING = missing(*PACKAGES)
if not LACKING:
    from scripts import coordinates, design, reach, states
    from scripts.common import files
    from scripts.common.design_text import design_of
    from scripts.common.models import Model
    from scripts.common.programs import Programs, reach_of
    from scripts.common.texts import controller_of, read_text, records_of
    from scripts.draft import draft

MASS = """period = 0.2
stages = 6
a = [[0.0, 1.0], [0.0, 0.0]]
b = [[0.0], [1.0]]
states = ["position m", "speed m/s"]
inputs = ["force N"]
[[limit]]
name = "force"
input = [1.0]
bound = 1.0
least = -1.0
tolerance = 0.1
[cost]
input = [1.0]
rows = [{ state = [1.0, 0.0], weight = 2.0 }, { state = [0.0, 1.0], weight = 1.0 }]
[box]
hi = [1.0, 0.5]
grid = 8
"""


class Texts(unittest.TestCase):
    def test_model_as_toml(self):
        keys = tomllib.loads(MASS) | {"sampled": True, "coordinates": {"names": ['a "b"', "c"], "rows": [[1.0, 0.5], [0, 1e-9]]}, "bound": float("inf")}
        text = model_text(keys, "made")
        self.assertEqual((tomllib.loads(text), text.split("\n")[0]), (keys, "# made"))


@unittest.skipIf(LACKING, f"missing: {', '.join(LACKING)}")
class Loops(unittest.TestCase):
    def test_states_to_begin_from(self):
        found = states.chosen(design_of(FIRST), 3, 1)
        self.assertEqual((found[:2], len(found), all(0 <= state[0] <= 1 for state in found)), ([[0], [1]], 5, True))
        some = states.chosen(design_of(SIX), 0, 1, 8)
        self.assertEqual((len(some), some[0], some[-1], len(set(map(tuple, some)))), (8, [0] * 6, [1] * 6, 8))
        self.assertEqual(states.chosen(design_of(SIX), 0, 1, 0), [])

    def test_how_far_a_loop_goes(self):
        # x+ = x + u from 0 to 1, which is held at 3 and then let go
        made = design_of(FIRST)
        way = reach.way_of(made, 4, [[1], [3], [0]])
        self.assertEqual((way.parts, way.values, way.left), ([5.0], [3.0], (2, 0)))
        self.assertEqual(reach.words(made, [way]), ["the loops reach 5 in x1 of the box", "start 4 leaves before turn 2 in x1, and goes to x1 3 (5 of the box)"])
        self.assertEqual(reach.words(made, [reach.way_of(made, 1, [[1], [0]])])[1], "no loop leaves")

    def test_goes_on_from_the_lines_of_a_loop(self):
        made = design_of(FIRST)
        self.assertEqual(reach.next_state(made, [1], [-0.5]), [1])
        self.assertEqual(reach.next_state(made, [1], [-0.75]), [0])
        found = reach.followed(made, [0], 3, Programs(made), [([1], [-2.0])])
        self.assertEqual([float(state[0]) for state in found][:2], [1, -1])
        self.assertEqual(len(found), 3)

    def test_coordinates_in_which_loops_stay(self):
        model = Model(MASS)
        made = draft(model)
        self.assertGreater(max(reach_of(made, 30)), 1)
        choice, far = coordinates.search(model, made, 30)
        self.assertEqual((list(choice.times), max(far) <= 1), ([(0, 1)], True))
        changed = Model(coordinates.changed_text(model, choice))
        self.assertLessEqual(max(reach_of(draft(changed), 30)), 1)
        self.assertRegex(changed.names[0][0], "^position in [0-9]+ ms$")
        self.assertGreater(changed.to[0][1], 0)

    def test_names_of_new_coordinates(self):
        name = lambda text, time: coordinates.name_of((model := Model(text)), 0, model.to[0] + [0.0, time])
        self.assertEqual((name(MASS, 0.5), name(MASS, 2.5)), ("position in 500 ms m", "position in 2.5 s m"))
        ahead = MASS + "[coordinates]\nrows = [[1.0, 0.25], [0.0, 1.0]]\nnames = ['soon m', 'speed m/s']\n"
        self.assertEqual((name(ahead, 0.5), name(ahead, -0.5), name(ahead, 0.0)), ("position in 750 ms m", "position - 0.25 speed m", "soon m"))
        other = MASS.replace("a = [[0.0, 1.0]", "a = [[0.0, 2.0]")
        self.assertEqual((name(other, 0.5), name("sampled = true\n" + MASS, 0.5)), ("position + 0.5 speed m", "position + 0.5 speed m"))
        self.assertEqual(name(MASS.replace('states = ["position m", "speed m/s"]\n', ""), 0.5), "x1 in 500 ms units")

    def test_a_box_that_is_kept(self):
        model = Model(MASS.replace("a = [[0.0, 1.0], [0.0, 0.0]]", "a = [[-2.0, 0.1], [0.0, -2.0]]"))
        choice, _ = coordinates.search(model, draft(model), 30)
        self.assertEqual((choice.times, choice.kept), ({}, [1.0, 1.0]))

    def test_the_best_is_kept_where_none_stays(self):
        # a mass that nothing stops in time: a limit on its force is so narrow that each box is left
        model = Model(MASS.replace("bound = 1.0\nleast = -1.0\ntolerance = 0.1", "bound = 0.02\nleast = -0.02\ntolerance = 0.002"))
        with contextlib.redirect_stderr(io.StringIO()):
            before = max(reach_of(draft(model), 30))
            choice, far = coordinates.search(model, draft(model), 30, seconds=4)
        self.assertTrue(1 < max(far) < before)
        self.assertRegex(coordinates.to_blame(Model(coordinates.changed(model, choice)), far), r"^the loops leave in [^(]*position.* \([0-9.]+ of its box\)")


@unittest.skipIf(LACKING, f"missing: {', '.join(LACKING)}")
class WholeWay(unittest.TestCase):
    """With a launcher of the folder whose program is a stand-in where none is built."""

    def test_steps_are_shown_and_end_with_the_first_refusal(self):
        folder, paths = folder_with(self, model=MASS, bad=MASS.replace("period = 0.2", "period = -1"))
        run = lambda *words: subprocess.run([*as_command("design"), *words], cwd=folder, capture_output=True, text=True)
        got = run(paths["bad"], "made", "--as-it-is")
        self.assertEqual(got.returncode, 1)
        self.assertIn("./mpc outlook ended with status 1", got.stderr)
        self.assertIn("period", got.stdout)
        self.assertEqual(run("nowhere", "made").stderr, "design.py: nowhere: No such file or directory\n")
        got = run(paths["model"], paths["model"])
        self.assertEqual((got.returncode, "Traceback" in got.stderr), (1, False))
        os.makedirs(os.path.join(folder, "mine"))
        os.link(paths["model"], os.path.join(folder, "mine", "design.toml"))
        self.assertIn("design.toml mine/design.toml is the same file as MODEL", run(paths["model"], "mine").stderr)

    @unittest.skipUnless(os.path.exists(os.path.join(TOP, "crates/mpc_cli/out/mpc_cli")), "the program isn't built")
    def test_from_a_model_to_a_judged_picture(self):
        folder, paths = folder_with(self, model=MASS)
        made = os.path.join(folder, "made")
        words = ["--turns", "20", "--states", "4", "--random", "1"]
        got = subprocess.run([os.path.join(TOP, "mpc"), "design", paths["model"], made, *words], capture_output=True, text=True)
        self.assertEqual((got.returncode, got.stderr), (0, ""), got.stdout)
        self.assertEqual(sorted(os.listdir(made)), sorted([*design.MADE, *design.SETTLES]))
        self.assertIn("every loop from 100 % of the box lies within 5 % of it after", got.stdout.splitlines()[-4])
        commands = [line for line in got.stdout.splitlines() if line.startswith("$ ")]
        for step in ("outlook", "coordinates", "draft", "policy", "lean", "states", "loop", "exact_loop", "settles", "plot", "judge", "explain"):
            self.assertTrue(any(f"mpc {step} " in command for command in commands), step)
        # each is a command that can be run by hand
        again = subprocess.run(commands[-1][2:], shell=True, capture_output=True, text=True)
        self.assertEqual((again.returncode, again.stderr), (0, ""))
        with open(os.path.join(made, "judged.txt"), encoding="utf-8") as file:
            self.assertRegex(file.read(), "at 8 states(.|\n)*of what is printed that is [0-9.]+ % of the violation")
        by_cost = os.path.join(folder, "by_cost")
        got = subprocess.run([os.path.join(TOP, "mpc"), "design", paths["model"], by_cost, "--generate", *words], capture_output=True, text=True)
        self.assertEqual((got.returncode, got.stderr), (0, ""), got.stdout)
        self.assertEqual(sorted(os.listdir(by_cost)), sorted({*design.MADE, *design.SETTLES} - {"reference.csv"}))
        self.assertIn("mpc generate", got.stdout)

    def settled(self, *steps, model=MASS, program=True):
        """What is said of loops that settle, and the commands that are run, each with its status and its words."""
        folder, paths = folder_with(self, model=model, **{"design.toml": FIRST, "settle.csv": "old\n"})
        ran, answers = [], iter(steps)

        def run(_, *words, to=None):
            ran.append(" ".join(os.path.basename(word) for word in words) + (f" > {os.path.basename(to)}" if to else ""))
            return design.Step(*next(answers))

        with unittest.mock.patch.object(design.Steps, "run", run), unittest.mock.patch.object(design, "has_settle", lambda: program):
            said = design.settle(design.Steps(folder), paths["model"])
        # one of before is not taken for one of now
        self.assertFalse(os.path.exists(os.path.join(folder, "settle.csv")))
        return said, ran, folder

    def test_where_loops_settle(self):
        script, test = "settles design.toml controller.txt settle.csv --promise settled.txt", "settle design.toml controller.txt settle.csv"
        said, ran, _ = self.settled((0, "every loop\nfrom then on\n"), (0, "turn 1\n"))
        self.assertEqual((said, ran), (["every loop", "from then on"], [script, test + " > settled.txt"]))
        # a program that hasn't the command tests no certificate, and where none is found there is nothing to test
        self.assertEqual(self.settled((0, "every loop\n"), program=False)[:2], (["every loop"], [script]))
        self.assertEqual(self.settled((12, "a multiplier may move\n"))[:2], ([], [script]))
        for steps in (((1, ""),), ((0, ""), (25, ""))):
            with self.assertRaisesRegex(design.Refusal, "ended with status"):
                self.settled(*steps)

    def test_where_disturbed_loops_settle(self):
        script, under = "settles design.toml controller.txt settle.csv --promise settled.txt", " --disturbances range.csv"
        model = MASS.replace("a = [[0.0, 1.0], [0.0, 0.0]]\nb = [[0.0], [1.0]]", "a = [[0.0]]\nb = [[1.0]]").replace('states = ["position m", "speed m/s"]', 'states = ["place m"]')
        model = model.replace("hi = [1.0, 0.5]", "hi = [1.0]\ndisturbed = [0.1]").replace("{ state = [1.0, 0.0], weight = 2.0 }, { state = [0.0, 1.0], weight = 1.0 }", "{ state = [1.0], weight = 2.0 }")
        said, ran, folder = self.settled((0, "every loop\n"), (0, ""), model=model)
        self.assertEqual((said, ran), (["every loop"], [script + under, "settle design.toml controller.txt settle.csv range.csv > settled.txt"]))
        with open(os.path.join(folder, "range.csv"), encoding="ascii") as file:
            low, high = map(int, file.read().split())
        self.assertTrue(low == -high < 0)
        # where it is too much, loops without it
        self.assertEqual(self.settled((12, ""), (0, "every loop\n"), model=model, program=False)[1], [script + under, script])

    def machines(self, steps, *options, third="mpc-controller 3\n", width=40):
        """The commands by which a controller is made, the plain one of which has so many steps, and what is said; the accelerated one is this, of such a width, or is refused."""
        texts = {"--lean": FIRST_LEAN_CONTROLLER.replace("steps 1\n", f"steps {steps}\n").replace("bits 6 0 1 16", "bits 6 0 1 30"), "--accelerated": third}
        texts["0.1"] = texts["--lean"]
        folder, paths = folder_with(self, model=MASS)
        ran, last = [], []

        def run(made, *words, to=None):
            ran.append(" ".join(os.path.basename(word) for word in words))
            if words[0] == "draft":
                last[:] = words[-1:]
                files.write(made.path("controller.txt"), texts[words[-1]])
            return design.Step(int(words[0] == "lean" and last == ["--accelerated"] and not third), "")

        given = design.Namespace(generate="--generate" in options, accelerated="--accelerated" in options, plain="--plain" in options, gap=0.1)
        read = lambda text: dataclasses.replace(controller_of(FIRST_LEAN_CONTROLLER), version=3, width=width) if text == third else controller_of(text)
        with unittest.mock.patch.object(design.Steps, "run", run), unittest.mock.patch.object(design, "controller_of", read), contextlib.redirect_stdout(io.StringIO()) as said:
            design.make(design.Steps(folder), paths["model"], given, False)
        return [line.split(" --gap 0.1")[1].strip() for line in ran if line.startswith("draft")], said.getvalue(), ran

    def test_takes_the_machine_that_takes_less(self):
        # far more steps than the accelerated machine would need, and a few
        plain, both = ["--lean"], ["--lean", "--accelerated"]
        drafts, said, ran = self.machines(20000)
        self.assertEqual((drafts, "so version 3 is taken" in said, ran[4:]), (both, True, ran[1:3]))
        self.assertEqual(self.machines(50)[:2], (plain, ""))
        self.assertEqual(self.machines(20000, "--generate")[0], ["", *both[1:]])
        self.assertIn("generate design.toml policy.csv controller.txt report.txt", self.machines(50, "--generate")[2])
        # where one is asked for, that one
        self.assertEqual(self.machines(20000, "--plain")[:2], (plain, ""))
        self.assertEqual(self.machines(50, "--accelerated")[:2], (both[1:], ""))
        # where it is too wide for `c`, or refused, the plain one
        drafts, said, _ = self.machines(20000, width=65)
        self.assertEqual((drafts, "no C is written of it (docs/C.md): so the plain machine is kept" in said), ([*both, *plain], True))
        drafts, said, _ = self.machines(20000, third="")
        self.assertEqual((drafts, "./mpc lean ended with status 1: what stands above says why: so the plain machine is kept" in said), ([*both, *plain], True))
        wide = FIRST_LEAN_CONTROLLER.replace("bits 6 0 1 16", "bits 6 0 1 65").replace("steps 1\n", "steps 20000\n")
        folder, _ = folder_with(self, **{"controller.txt": wide})
        self.assertFalse(design.takes_less(design.Steps(folder)))

    def test_starts_after_one_that_leaves(self):
        # of four starts the first leaves after a turn, and the third at once; the launcher ends at each
        folder, paths = folder_with(self, states="1\n2\n3\n4\n", loop="1 1 5 8 0\n")
        answers = iter([(12, ["1 1 6 8 0", "1 2 6 8 0", "2 1 7 8 0"]), (0, ["1 1 8 8 0"])])
        with unittest.mock.patch.object(design, "looped", lambda *given: next(answers)), contextlib.redirect_stdout(io.StringIO()) as said:
            design.add_other_starts("d", "c", paths["states"], paths["loop"], 2)
        with open(paths["loop"], encoding="ascii") as file:
            self.assertEqual(file.read(), "1 1 5 8 0\n2 1 6 8 0\n2 2 6 8 0\n3 1 7 8 0\n4 1 8 8 0\n")
        self.assertIn("the loops of starts 1, 3 leave the box", said.getvalue())

    def test_an_interrupt_ends_a_search_and_keeps_its_best(self):
        folder, paths = folder_with(self, model=MASS)
        began = subprocess.Popen(
            [*as_command("staying"), paths["model"], os.path.join(folder, "new.toml")], stdout=subprocess.PIPE, stderr=subprocess.PIPE, text=True
        )
        # its first line is told when the search has begun
        first = began.stderr.readline()
        time.sleep(1)
        began.send_signal(signal.SIGINT)
        _, said = began.communicate(timeout=120)
        # it had ended already, or ends with what it has
        self.assertIn(began.returncode, (0, 12, -2, 130), said)
        self.assertNotIn("Traceback", first + said)

    def test_asks_to_stay(self):
        _, paths = folder_with(self, plain=MASS, stays=MASS + "stay = [0.1, 0.0]\n", bad=MASS.replace("period = 0.2", "period = -1"))
        self.assertEqual([design.says(paths[name], lambda found: any(found.stay)) for name in ("plain", "stays", "bad")], [False, True, False])

    @unittest.skipUnless(os.path.exists(os.path.join(TOP, "crates/mpc_cli/out/mpc_cli")), "the program isn't built")
    def test_a_box_that_no_loop_leaves(self):
        folder, _ = folder_with(self)
        made, model = os.path.join(folder, "made"), os.path.join(EXAMPLES, "motor", "stay", "model.toml")
        got = subprocess.run([os.path.join(TOP, "mpc"), "design", model, made, "--turns", "5", "--states", "0", "--random", "0"], capture_output=True, text=True)
        self.assertEqual((got.returncode, got.stderr), (0, ""), got.stdout)
        self.assertEqual(sorted(os.listdir(made)), sorted({*design.MADE, *design.STAYS, *design.SETTLES, design.RANGE}))
        self.assertIn("mpc lean", got.stdout)
        self.assertIn("as it is: the faces hold", got.stdout)
        beside = os.path.dirname(model)
        for name, other in (("faces.csv", "faces.csv"), ("policy.csv", "lean.csv"), ("reference.csv", "reference.csv"), ("fitted.toml", "model.toml")):
            self.assertEqual(read_text(os.path.join(made, name)), read_text(os.path.join(beside, other)), name)
        # a lean controller bears what the model asks for, and less than that of `stay`
        bears, more = (records_of(read_text(os.path.join(where, "disturbances.csv"))) for where in (made, beside))
        self.assertTrue(all(0 < v < w for v, w in zip(bears[1], more[1])))
        both = subprocess.run([*as_command("design"), model, made, "--stay", "--as-it-is"], capture_output=True, text=True)
        self.assertEqual(both.returncode, 2)


if __name__ == "__main__":
    unittest.main()
