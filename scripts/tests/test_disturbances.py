"""What is added to next states: how it is made, read and drawn, and loops under it."""
import argparse
import os
import subprocess
import unittest
from unittest import mock

from scripts import disturbances, disturbed_loop
from scripts.common import matching
from scripts.common.design_text import design_of
from scripts.common.disturbances import box_in, turns_in
from scripts.common.libraries import PACKAGES, Refusal, missing

from .worked import EXAMPLES, FIRST, TOP, as_command, folder_with

LACKING = missing(*PACKAGES)
if not LACKING:
    from scripts import plot
    from scripts.common.programs import exact_loop

PROGRAM = os.path.join(TOP, "crates/mpc_cli/out/mpc_cli")
# half a unit is a step of the grid, and 1 of the first state is 2 m
UNITS = "# state 1: place, 1 is 2.0 m\n" + FIRST.replace("grid = 0", "grid = 1")


def made(design, turns, **given):
    """The records of these arguments, over those that stand where none is given."""
    wanted = {"constant": None, "step": None, "sine": None, "random": None, "at": 1, "every": 20, "seed": 1} | given
    return disturbances.records(design, turns, argparse.Namespace(**wanted))


class Records(unittest.TestCase):
    design = design_of(UNITS)

    def test_nothing(self):
        self.assertEqual(made(self.design, 2), [[0], [0]])

    def test_constant_in_units(self):
        # 1 m is half of 1 of the design, a step of the grid; 1.4 m are 1.4 steps, 1.5 m are rounded upward
        for metres, steps in ((1.0, 1), (-1.0, -1), (1.4, 1), (1.5, 2), (-1.5, -1)):
            self.assertEqual(made(self.design, 2, constant=[metres]), [[steps]] * 2)

    def test_step(self):
        self.assertEqual(made(self.design, 4, step=[3.0], at=3), [[0], [0], [3], [3]])

    def test_sine(self):
        self.assertEqual(made(self.design, 5, sine=[4.0], every=4), [[0], [4], [0], [-4], [0]])

    def test_random(self):
        found = made(self.design, 300, random=[3.7])
        self.assertEqual(sorted({record[0] for record in found}), [-3, -2, -1, 0, 1, 2, 3])
        self.assertEqual(found, made(self.design, 300, random=[3.7]))
        self.assertNotEqual(found, made(self.design, 300, random=[3.7], seed=2))

    def test_sum(self):
        self.assertEqual(made(self.design, 2, constant=[1.0], step=[2.0], at=2), [[1], [3]])

    def test_of_another_number_of_states(self):
        with self.assertRaisesRegex(Refusal, "2 numbers are given, and the design has 1 states"):
            made(self.design, 1, constant=[1.0, 1.0])

    def test_beyond_a_box(self):
        disturbances.refuse_beyond(self.design, [[-1], [2]], [-1], [2])
        with self.assertRaisesRegex(Refusal, "turn 2: 3 is added to place, beyond -1 to 2"):
            disturbances.refuse_beyond(self.design, [[2], [3]], [-1], [2])


class Texts(unittest.TestCase):
    def test_faults(self):
        design = design_of(FIRST)
        for text, call, fault in (
            ("1\n", box_in, "two records are expected, the least and the greatest disturbances, and it has 1"),
            ("1\n0\n", box_in, "the least of coordinate 1 is 1, above the greatest, 0"),
            ("1,1\n0\n", box_in, "record 1 has 2 numbers, and the design 1 states"),
            ("x\n0\n", box_in, "records of 1 whole numbers over 2\\^grid are expected"),
            ("0\n2147483648\n", box_in, "record 2 has a number beyond 2147483647"),
            ("0\n", lambda path, made: turns_in(path, made, 2), "a record for each of 2 turns is expected, and it has 1"),
        ):
            _, paths = folder_with(self, d=text)
            with self.assertRaisesRegex(Refusal, fault):
                call(paths["d"], design)

    def test_right(self):
        _, paths = folder_with(self, d="-2\n2147483647\n")
        self.assertEqual(box_in(paths["d"], design_of(FIRST)), ([-2], [2147483647]))


class Loops(unittest.TestCase):
    """x+ = x + u from 0 to 1, whose controller answers 0 at 0 and -2224 over 4096 at 1."""

    def run_loop(self, *shifts):
        answers = {0: "4096 0", 1: "4096 -2224"}
        with mock.patch.object(disturbed_loop, "solved", lambda _, states: [answers[state[0]] for state in states]):
            return disturbed_loop.lines_of(design_of(FIRST), "controller", [[0]], [[v] for v in shifts])

    def test_shifts_are_added_after_rounding(self):
        self.assertEqual(self.run_loop(1, 0), ([["1 1 0 4096 0", "1 2 1 4096 -2224"]], [None]))

    def test_one_that_leaves(self):
        self.assertEqual(self.run_loop(2, 0), ([["1 1 0 4096 0"]], [1]))

    def test_what_the_last_turn_adds_is_not_tested(self):
        self.assertEqual(self.run_loop(1, 7)[1], [None])

    def test_lines_are_of_their_disturbances(self):
        loops = {1: [([0], [0]), ([1], [0])]}
        self.assertIsNone(matching.loop_difference(loops, design_of(FIRST), [[1], [0]]))
        self.assertIn("after turn 1 of start 1", matching.loop_difference(loops, design_of(FIRST)))

    @unittest.skipIf(LACKING, f"missing: {', '.join(LACKING)}")
    def test_exact_loop(self):
        states = [int(state[0]) for state, _ in exact_loop(design_of(FIRST), [0], 3, shifts=[[1], [1], [0]])]
        self.assertEqual(states, [0, 1, 1])

    @unittest.skipIf(LACKING, f"missing: {', '.join(LACKING)}")
    def test_drawn_below_the_loops(self):
        shifts = plot.Shifts([[1], [0]], ([0], [1]))
        figure = plot.draw(design_of(UNITS), [{1: [([0], [0]), ([0.5], [0])]}], ["loop"], shifts=shifts)
        self.assertEqual([axes.get_ylabel() for axes in figure.axes], ["place\nm", "u1", "added to\nplace\nm"])
        self.assertEqual([list(line.get_ydata()) for line in figure.axes[2].lines], [[1.0, 0.0], [0.0, 0.0], [1.0, 1.0]])
        still = plot.draw(design_of(UNITS), [{1: [([0], [0])]}], ["loop"], shifts=plot.Shifts([[0]]))
        self.assertEqual(len(still.axes), 2)


@unittest.skipIf(LACKING, f"missing: {', '.join(LACKING)}")
class Commands(unittest.TestCase):
    """Made, a loop of exact plans under them, and its picture."""

    def test_from_disturbances_to_a_picture(self):
        folder, paths = folder_with(self, d=UNITS, states="0\n", box="-1\n1\n")
        made, lines, picture = (os.path.join(folder, name) for name in ("made", "lines", "loop.svg"))
        run = lambda script, *words: subprocess.run([*as_command(script), *words], capture_output=True, text=True)
        self.assertEqual(run("disturbances", paths["d"], "4", made, "--constant", "1").stderr, "")
        got = run("exact_loop", paths["d"], paths["states"], "4", made)
        self.assertEqual((got.returncode, [line.split()[2] for line in got.stdout.splitlines()][:2]), (0, ["0", "1"]))
        with open(lines, "w", encoding="utf-8") as file:
            file.write(got.stdout)
        draw = ("plot", paths["d"], lines, "--out", picture)
        self.assertIn("is of another design: after turn 1", run(*draw).stderr)
        self.assertEqual(run(*draw, "--disturbances", made, "--bears", paths["box"]).stderr, "")
        with open(picture, encoding="utf-8") as file:
            self.assertIn("added to", file.read())
        self.assertEqual((run(*draw, "--bears", paths["box"]).returncode, run(*draw, "--disturbances", lines).returncode), (2, 1))
        got = run("exact_loop", paths["d"], paths["states"], "3", made)
        self.assertEqual((got.returncode, got.stderr), (1, f"exact_loop.py: {made}: a record for each of 3 turns is expected, and it has 4\n"))


@unittest.skipUnless(os.path.exists(PROGRAM), "the program isn't built")
class WithTheProgram(unittest.TestCase):
    def setUp(self):
        self.folder, _ = folder_with(self)
        example = os.path.join(EXAMPLES, "first")
        self.design, policy = (os.path.join(example, name) for name in ("design.toml", "policy.csv"))
        self.controller, report, self.states = (os.path.join(self.folder, name) for name in ("controller", "report", "states"))
        subprocess.run([os.path.join(TOP, "mpc"), "generate", self.design, policy, self.controller, report], check=True)
        with open(self.states, "w") as file:
            file.write("0\n1\n")

    def loop(self, *shifts):
        path = os.path.join(self.folder, "shifts")
        with open(path, "w") as file:
            file.write("".join(f"{v}\n" for v in shifts))
        words = [*as_command("disturbed_loop"), self.design, self.controller, self.states, str(len(shifts)), path]
        return subprocess.run(words, capture_output=True, text=True)

    def test_without_disturbances_it_is_the_loop(self):
        wanted = subprocess.run([os.path.join(TOP, "mpc"), "loop", self.design, self.controller, self.states, "3"], capture_output=True, text=True)
        self.assertEqual((wanted.returncode, self.loop(0, 0, 0).stdout), (0, wanted.stdout))

    def test_status_of_one_that_leaves(self):
        got = self.loop(2, 0)
        self.assertEqual((got.returncode, got.stderr.splitlines()[-1]), (12, "start 1 leaves the box before turn 2, in x1"))
        self.assertEqual(len(got.stdout.splitlines()), 1)


class Arguments(unittest.TestCase):
    def test_heights(self):
        self.assertEqual(disturbances.heights("1,-2.5"), [1.0, -2.5])
        for word in ("x", "1,", "1,inf"):
            with self.assertRaises(argparse.ArgumentTypeError):
                disturbances.heights(word)

    def test_writes_records(self):
        folder, paths = folder_with(self, d=FIRST, box="0\n1\n")
        out = os.path.join(folder, "out")
        run = lambda *words: subprocess.run([*as_command("disturbances"), paths["d"], "3", *words], capture_output=True, text=True)
        self.assertEqual(run("--constant", "1", "--within", paths["box"]).stdout, "1\n1\n1\n")
        self.assertEqual(run(out, "--step", "1", "--at", "2").returncode, 0)
        with open(out, encoding="utf-8") as file:
            self.assertEqual(file.read(), "0\n1\n1\n")
        got = run("--constant", "2", "--within", paths["box"])
        self.assertEqual((got.returncode, got.stderr), (1, "disturbances.py: turn 1: 2 is added to x1, beyond 0 to 1\n"))


if __name__ == "__main__":
    unittest.main()
