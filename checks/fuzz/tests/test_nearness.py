"""Loops that begin where limits bind: a worked loop, and the machine beside the distances and the tubes of a controller of an example."""
import itertools
import os
import random
import unittest

from checks.fuzz import control, excess, model, nearness, program, settling

from .test_settling import DESIGN, POLICY, REFERENCE, controller

MOTOR = os.path.join(os.path.dirname(__file__), "..", "..", "..", "examples", "motor", "stay")


def read(name):
    with open(os.path.join(MOTOR, name), "rb") as file:
        return file.read()


class Worked(unittest.TestCase):
    def setUp(self):
        self.d, self.c = model.read_design(DESIGN), control.read_controller(controller())
        self.outer, self.still, self.shifts = settling.Box([-40], [40]), settling.Box([-31], [32]), settling.Box([0], [0])
        self.beta = [474750]

    def test_distance(self):
        choice = model.choose(self.d, model.read_policy(POLICY, self.d), model.read_policy(REFERENCE, self.d))
        solutions, magnitude = model.exact_gains(choice), control.greatest_entry(self.c)
        self.assertEqual((choice.report["excess"], choice.printed(solutions, magnitude)["gap"]), (12800, 9665773568))
        slopes = nearness.first_slopes(choice, solutions, magnitude)
        self.assertEqual((slopes, nearness.descent(self.d, slopes)), ([2048], 1048576))
        self.assertEqual(nearness.distances(choice, solutions, magnitude, 12800), self.beta)

    def tube(self, count, turns):
        far, near = nearness.FarLoop(self.d, self.c, self.outer, self.shifts, self.beta), settling.Loop(self.d, self.c, self.still, self.shifts)
        return nearness.tube(far, near, count, self.outer, turns)

    def test_tube(self):
        self.assertEqual([(*box.low, *box.high) for box in self.tube(1, 5)], [(-40, 40), (-27, 27), (-14, 14), (-7, 7), (-4, 4), (-2, 2)])

    def test_machine(self):
        boxes = self.tube(1, 12)
        for start in range(-40, 41):
            state = [start]
            for box in boxes:
                sums = control.run(self.c, state)
                self.assertTrue(box.holds(settling.Box(state, state)), (start, state))
                self.assertTrue(nearness.is_near(self.c, self.beta, state, sums), (start, state))
                state = control.next_state(self.d, self.c, state, sums)


class Motor(unittest.TestCase):
    """The motor with faces: every loop from its whole box is where no multiplier moves after two turns, and within a tenth of the box after ten."""

    def test_loops(self):
        d = model.read_design(read("design.toml"))
        plans, references = (model.read_policy(read(name), d) for name in ("lean.csv", "reference.csv"))
        choice = model.choose(d, plans, references)
        solutions, n = model.gains(choice), d.states
        c, _ = program.made_of(choice, lambda choice: solutions)
        beta = nearness.distances(choice, solutions, control.greatest_entry(c), excess.excess(d, model.form_of(d), plans, references)[0])
        part = lambda share: settling.Box([-((-v * share) // 1000) for v in d.lo], [v * share // 1000 for v in d.hi])
        outer, still, shifts = part(1000), part(905), settling.Box([0] * n, [0] * n)
        self.assertTrue(all(settling.still_sum(c, still, i) < settling.limit_of(c) for i in range(c.m)))
        boxes = nearness.tube(nearness.FarLoop(d, c, outer, shifts, beta), settling.Loop(d, c, still, shifts), 2, outer, 14)
        self.assertTrue(all((outer if t < 2 else still).holds(box) for t, box in enumerate(boxes)))
        self.assertEqual([part(100).holds(box) for box in boxes].index(True), 10)
        pick = random.Random(5)
        starts = [list(corner) for corner in itertools.product(*zip(d.lo, d.hi))] + [[pick.randint(l, h) for l, h in zip(d.lo, d.hi)] for _ in range(60)]
        for state in starts:
            for box in boxes:
                sums = control.run(c, state)
                self.assertTrue(box.holds(settling.Box(state, state)) and nearness.is_near(c, beta, state, sums), state)
                state = control.next_state(d, c, state, sums)


if __name__ == "__main__":
    unittest.main()
