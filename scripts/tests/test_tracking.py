"""The example that tracks a target under a load that no one measures: its C beside the model of `loop`, and where its loops rest."""
import contextlib
import io
import os
import shutil
import subprocess
import tempfile
import unittest

from checks.fuzz import control, held_boxes, model, program
from scripts.common.libraries import PACKAGES, missing

from .worked import EXAMPLES, as_command

LACKING = missing(*PACKAGES)
if not LACKING:
    from scripts import faces, policy
    from scripts.common.design_text import read_design
    from scripts.common.disturbances import box_in
    from scripts.common.models import grid_disturbances, read_model
    from scripts.common.texts import read_text, records_of
    from scripts.draft import draft

FOLDER = os.path.join(EXAMPLES, "tracking")
CC = os.environ.get("CC", "cc")
# 3 V, in steps of the grid
LOAD = 192


def read(name):
    with open(os.path.join(FOLDER, name), "rb") as file:
        return file.read()


@unittest.skipUnless(shutil.which(CC), f"no {CC}")
class Tracking(unittest.TestCase):
    @classmethod
    def setUpClass(cls):
        """The lean controller with the model's gains, its C, and the example's program with it."""
        cls.held = tempfile.TemporaryDirectory()
        files = {name: read(name) for name in ("design.toml", "lean.csv", "reference.csv", "faces.csv", "disturbances.csv")}
        said = program.answer(["lean", "design.toml", "lean.csv", "reference.csv", "c", "r", "faces.csv", "disturbances.csv"], files.get, lambda name: True, model.gains)
        assert said.status == 0, said.line
        cls.design, cls.controller = model.read_design(files["design.toml"]), control.read_controller(said.written["c"])
        cls.range = held_boxes.read_shift_box(files["disturbances.csv"], 3)
        path = os.path.join(cls.held.name, "controller.txt")
        with open(path, "wb") as file:
            file.write(said.written["c"])
        subprocess.run([*as_command("c_source"), path, "--name", "motor", "--out", cls.held.name], check=True, capture_output=True)
        flags = ["-std=c99", "-Wall", "-Wextra", "-pedantic", "-Wconversion", "-Werror", "-O2", "-I", cls.held.name, "-I", FOLDER]
        cls.program = os.path.join(cls.held.name, "tracking")
        subprocess.run([CC, *flags, os.path.join(FOLDER, "main.c"), os.path.join(cls.held.name, "motor.c"), "-o", cls.program], check=True)

    @classmethod
    def tearDownClass(cls):
        cls.held.cleanup()

    def run_loop(self, load, turns, *more):
        """The lines of the loop, and what was added turn by turn."""
        added = os.path.join(self.held.name, "added.csv")
        got = subprocess.run([self.program, str(load), str(turns), added, *more], capture_output=True, check=True)
        with open(added, encoding="ascii") as file:
            return got.stdout, [[int(v) for v in line.split(",")] for line in file]

    def test_is_a_loop_under_what_is_added(self):
        for load in (LOAD, -LOAD, 70, 0):
            lines, added = self.run_loop(load, 80)
            wanted = b"".join(control.loop_lines(self.design, self.controller, 1, [-410, 0, 0], added, {}))
            self.assertEqual(lines, wanted)
            for shift in added:
                self.assertTrue(all(low <= v <= high for v, low, high in list(zip(shift, *self.range))[:2]), shift)

    def test_rests_at_the_target(self):
        for load in (LOAD, -LOAD, 100, 7, -55, 0):
            last = self.run_loop(load, 300)[0].splitlines()[-1]
            off, speed, estimate = map(int, last.split()[2:5])
            # within two steps of the grid, which are 0.002 rad and 0.16 rad/s, and 1/64 V of the load
            self.assertTrue(abs(off) <= 2 and abs(speed) <= 2 and abs(estimate - load) <= 1, last)

    def test_rests_elsewhere_without_the_observer(self):
        last = self.run_loop(LOAD, 300, "blind")[0].splitlines()[-1]
        off, speed, estimate = map(int, last.split()[2:5])
        self.assertTrue(off > 256 and abs(speed) <= 2 and estimate == 0, last)

    def test_range(self):
        """3 V of the design's plant, in whole steps of the grid."""
        wanted = [-(-abs(b[0]) * LOAD // self.design.plant_den) for b in self.design.b]
        self.assertTrue(all(low == -high <= -most for low, high, most in zip(*self.range, wanted)))
        self.assertEqual([high - most for high, most in zip(self.range[1], wanted)], [0, 1, 0])


@unittest.skipIf(LACKING, f"missing: {', '.join(LACKING)}")
class Files(unittest.TestCase):
    """The example's files are what the scripts make."""

    def test_design_and_plans(self):
        path = lambda name: os.path.join(FOLDER, name)
        design = read_design(path("design.toml"))
        made = read_model(path("model.toml"))
        self.assertEqual(draft(made), design)
        with contextlib.redirect_stderr(io.StringIO()):
            plans, (lean, reference) = policy.find(design), policy.find_lean(design)
        for records, name in ((plans, "policy.csv"), (lean, "lean.csv"), (reference, "reference.csv")):
            self.assertEqual(records, records_of(read_text(path(name))), name)
        low, high = box_in(path("disturbances.csv"), design)
        self.assertEqual((low, high), grid_disturbances(made, design))
        excess = faces.excesses(design, lean, reference)
        found = faces.find(design, excess, low, high)
        self.assertEqual(found, records_of(read_text(path("faces.csv"))))
        self.assertIsNone(faces.first_fault(design, found, excess, low, high))


if __name__ == "__main__":
    unittest.main()
