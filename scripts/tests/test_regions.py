"""Start states that are no box: half-planes in a model, the boxes of other coordinates that hold what they leave, and the cells of a box that do."""
import contextlib
import io
import itertools
import os
import pathlib
import subprocess
import tomllib
import unittest
from argparse import Namespace

from checks.fuzz import model as independent
from checks.fuzz import split_boxes
from scripts.common.libraries import PACKAGES, Refusal, missing

from .worked import as_command, folder_with

LACKING = missing(*PACKAGES)
if not LACKING:
    import numpy

    from scripts import design, regions
    from scripts.common.budget import Budget
    from scripts.common.design_text import text_of
    from scripts.common.models import Model, read_model
    from scripts.draft import draft
    from scripts.regions import Region, least_slack, outward

# a cell that is charged: at rest its voltage comes to 110 mV above where it begins, which a full charge and much polarisation pass
CELL = """period = 10.0
stages = 4
a = [[0.0, 0.0], [0.0, -0.0333333]]
b = [[0.0111111], [0.5]]
states = ["charge %", "polarisation mV"]
inputs = ["current A"]
[[limit]]
name = "current"
input = [1.0]
bound = 2.5
least = -2.5
tolerance = 0.1
[[limit]]
name = "voltage"
state = [7.0, 1.0]
input = [20.0]
bound = 110.0
tolerance = 5.0
[cost]
input = [1.0]
rows = [{ state = [1.0, 0.0], weight = 1.0 }]
[box]
hi = [20.0, 37.5]
grid = 12
"""
REGION = '[[region]]\nname = "voltage at rest"\nstate = [7.0, 1.0]\nbound = 110.0\n'
# and whose polarisation is limited, too: a box of a sum has much of that
NO_BOX = CELL.replace("[cost]", '[[limit]]\nname = "polarisation"\nstate = [0.0, 1.0]\nbound = 45.0\ntolerance = 5.0\n[cost]') + REGION.replace("[7.0, 1.0]", "[2.0, 1.0]").replace("110.0", "50.0")


def within_region(model):
    return regions.within_region(Region(model), Budget(60.0))


@unittest.skipIf(LACKING, f"missing: {', '.join(LACKING)}")
class Regions(unittest.TestCase):
    def test_a_box_that_holds_them(self):
        """A corner without a plan goes: the sum takes the place of a state, and the box is the least about what is left."""
        asked = Model(CELL + REGION)
        self.assertLess(least_slack(asked), 0)
        made, words = within_region(asked)
        self.assertGreater(least_slack(made), 0)
        self.assertEqual(words, "the states of the box within voltage at rest lie in a box with charge + 0.1429 polarisation % in place of charge, and each of its corners has a plan")
        # 110 / 7, and -20 - 37.5 / 7
        self.assertEqual((made.hi, made.lo), ([15.72, 37.5], [-25.36, -37.5]))
        self.assertNotIn("region", made.text)
        for charge, polarisation in itertools.product(numpy.linspace(-20, 20, 9), numpy.linspace(-37.5, 37.5, 9)):
            if 7 * charge + polarisation <= 110:
                place = made.to @ [charge, polarisation]
                self.assertTrue(all(place <= made.hi) and all(place >= made.lo), (charge, polarisation))

    def test_the_smallest_box(self):
        """Where the model's own coordinates do, they are kept, with a smaller box."""
        made, words = within_region(Model(CELL + REGION.replace("[7.0, 1.0]", "[1.0, 0.0]").replace("110.0", "12.0")))
        self.assertEqual((made.hi, made.lo, made.to.tolist()), ([12.0, 37.5], [-20.0, -37.5], numpy.eye(2).tolist()))
        self.assertIn("lie in a box as it is", words)

    def test_where_none_does(self):
        """Half-planes that leave the corner: it is said that none of the boxes does, and how much is lacking."""
        made, words = within_region(Model(CELL + REGION.replace("110.0", "175.0")))
        self.assertLess(least_slack(made), 0)
        self.assertRegex(words, "^warning: .* but a corner of it has no plan, [0-9.]+ tolerances short, and so has one of each other box that was tried\n./mpc regions .* --cells DESIGN CUTS POLICIES goes on")

    def test_where_the_time_is_over(self):
        """One box is tried all the same."""
        self.assertEqual([len(regions.boxes_of(Region(Model(NO_BOX)), Budget(seconds))) for seconds in (1e-9, 60.0)], [1, 3])

    def test_held_states_and_last_inputs(self):
        held = CELL.replace("[[limit]]", '[[held]]\nname = "target %"\nhi = 10.0\n[[limit]]', 1)
        planes = '[[region]]\nname = "near"\nstate = [1.0, 0.0]\nheld = [-1.0]\nbound = 5.0\nleast = -5.0\n'
        region = Region(Model(held + planes))
        self.assertEqual([(row.tolist(), bound, sign) for row, bound, sign in region.planes], [([1.0, 0.0, -1.0], 5.0, 1), ([1.0, 0.0, -1.0], 5.0, -1)])
        made, _ = within_region(Model(held + planes))
        # what is off the target is the smallest box of charges near it
        self.assertEqual((made.hi, made.lo, made.to[0].tolist()), ([5.0, 37.5, 10.0], [-5.0, -37.5, -10.0], [1.0, 0.0, -1.0]))

    def test_outward(self):
        self.assertEqual([outward(*v) for v in ((15.7142857, 1), (-25.357, -1), (0.0, 1), (-3.0, 1), (12.0, -1))], [15.72, -25.36, 0.0, -3.0, 12.0])

    def test_faults(self):
        for words, fault in (
            (REGION.replace("110.0", "-1000.0"), "region: half-planes are expected that leave some state of the box"),
            (REGION.replace("[7.0, 1.0]", "[0.0, 0.0]"), r"region\[1\].state: a factor other than 0 is expected"),
            (REGION.replace("bound = 110.0\n", ""), r"region\[1\]: bound or least is expected"),
            (REGION + "last = [1.0]\n", r"region\[1\].last: zeros are expected"),
        ):
            with self.assertRaisesRegex(Refusal, fault):
                within_region(Model(CELL + words))

    def test_command(self):
        folder, paths = folder_with(self, model=CELL + REGION, plain=CELL)
        for name, words in (("model", "the states of the box within voltage at rest lie in a box with charge + 0.1429"), ("plain", "the model has no half-planes, and stays as it is")):
            new = os.path.join(folder, name + ".toml")
            got = subprocess.run([*as_command("regions"), paths[name], new], capture_output=True, text=True, check=True)
            self.assertIn(words, got.stderr)
            with open(new, encoding="utf-8") as file:
                text = file.read()
            self.assertEqual((Model(tomllib.loads(text)).hi[0], "[[region]]" in text, text == CELL), (15.72, False, False) if name == "model" else (20.0, False, True))

    def test_design_takes_it(self):
        """Only where the model has half-planes, and isn't to be taken as it is."""
        folder, paths = folder_with(self, model=CELL + REGION, plain=CELL)
        steps = design.Steps(folder)
        with contextlib.redirect_stdout(io.StringIO()):
            found = [design.covering(steps, paths[name], Namespace(as_it_is=given, seconds=60.0)) for name, given in (("model", False), ("model", True), ("plain", False))]
        self.assertEqual(found, [os.path.join(folder, "covered.toml"), paths["model"], paths["plain"]])
        self.assertGreater(least_slack(read_model(found[0])), 0)

    def test_design_says_what_goes_on(self):
        """Where no box does."""
        folder, paths = folder_with(self, model=NO_BOX)
        with contextlib.redirect_stdout(io.StringIO()) as said:
            design.covering(design.Steps(folder), paths["model"], Namespace(as_it_is=False, seconds=60.0))
        self.assertIn("./mpc regions MODEL NEW_MODEL --cells DESIGN CUTS POLICIES goes on", said.getvalue())


@unittest.skipIf(LACKING, f"missing: {', '.join(LACKING)}")
class Cells(unittest.TestCase):
    def ran(self, folder, *words):
        """The status and what is said, with what three more files are in the folder."""
        names = [os.path.join(folder, name) for name in ("design", "cuts", "policies")]
        got = subprocess.run([*as_command("regions"), *words, "--cells", *names], capture_output=True, text=True)
        return got.returncode, got.stderr, [pathlib.Path(name).read_text(encoding="utf-8") if os.path.exists(name) else None for name in names]

    def test_parts(self):
        """The corners of what a half-plane leaves of a box, and whether parts of it have a state: 7 * 15 is 105, and 7 * 16 is 112."""
        region = Region(Model(CELL + REGION))
        corners = {(round(charge, 3), round(polarisation, 3)) for charge, polarisation in region.corners(region.to, numpy.array([-20.0, -37.5]), numpy.array([20.0, 37.5]))}
        self.assertEqual(corners, {(-20.0, -37.5), (-20.0, 37.5), (20.0, -37.5), (20.0, -30.0), (10.357, 37.5)})
        self.assertEqual([region.meets(region.to, numpy.array([low, 0.0]), numpy.array([20.0, 37.5])) for low in (15.0, 16.0)], [True, False])
        # a state that is one number, and a box of one coordinate
        held = Region(Model(CELL.replace("[[limit]]", '[[held]]\nname = "offset %"\nlo = 3.0\nhi = 3.0\n[[limit]]', 1) + REGION))
        self.assertEqual(len(held.corners(held.to, numpy.array(held.model.lo), numpy.array(held.model.hi))), 5)
        self.assertTrue(all(corner[2] == 3 for corner in held.corners(held.to, numpy.array(held.model.lo), numpy.array(held.model.hi))))

    def test_worst(self):
        """At rest the voltage of 175 passes 160, which the input takes from 110, by what the next state's 2.143 tolerances of 5 are."""
        region = Region(Model(CELL + REGION.replace("110.0", "175.0")))
        slack, place = region.worst(region.to, numpy.array(region.model.lo), numpy.array(region.model.hi))
        self.assertEqual((round(slack, 3), place), (-2.143, "charge 19.64 %, polarisation 37.5 mV"))

    def test_where_no_box_does(self):
        """Each grid state within the half-plane lies in a cell with a policy, by the independent model of the program, which makes all controllers."""
        folder, paths = folder_with(self, model=NO_BOX)
        new = os.path.join(folder, "new")
        status, said, (text, cuts, policies) = self.ran(folder, paths["model"], new)
        self.assertEqual(status, 0, said)
        self.assertRegex(said, r"(?s)cell 1: .*: R [0-9]+, K about .*lie in cells of a box with 2 charge \+ polarisation mV in place of polarisation: 3 of 4 have a policy, and the others hold none of these states\n")
        made = read_model(new)
        self.assertEqual(text, text_of(draft(made)))
        given = independent.read_design(text.encode())
        boxes = split_boxes.cells_of(given, split_boxes.read_cuts(cuts.encode(), given))
        plans = split_boxes.read_policies(policies.encode(), given, len(boxes))
        self.assertEqual((policies.splitlines().count("none"), plans.count(None), len(plans)), (1, 1, 4))
        outside = 0
        for charge, polarisation in itertools.product(numpy.linspace(-20, 20, 81), numpy.linspace(-37.5, 37.5, 81)):
            state = numpy.floor(made.to @ [charge, polarisation] / made.state_units * 2**given.grid + 0.5)
            number = next(number for number, box in enumerate(boxes) if all(state >= box.lo) and all(state <= box.hi)) if 2 * charge + polarisation <= 50 else None
            self.assertTrue(number is None or plans[number], (charge, polarisation))
            outside += number is None
        self.assertGreater(outside, 0)
        names = [os.path.join(folder, name) for name in ("design", "cuts", "policies", "cells", "report")]
        got = subprocess.run([*as_command("regions")[:-1], "checks.fuzz.program", "split", *names], capture_output=True, text=True)
        self.assertEqual((got.returncode, got.stderr), (0, ""))
        with open(names[3], encoding="utf-8") as cells:
            self.assertTrue(cells.read().startswith("mpc-cells 3\n"))

    def test_where_a_box_does(self):
        """One cell, and nothing is cut."""
        folder, paths = folder_with(self, model=CELL + REGION)
        status, said, (_, cuts, policies) = self.ran(folder, paths["model"], os.path.join(folder, "new"))
        self.assertEqual((status, cuts, len(policies.splitlines())), (0, "0\n0\n", 4), said)
        self.assertIn("lie in cells of a box with charge + 0.1429 polarisation % in place of charge: 1 of 1 have a policy\n", said)

    def test_no_state_is_left_out(self):
        """A corner of what is meant that has no plan is told in the model's units, and so is one that lies too near to such states; then nothing is written."""
        beyond = CELL + REGION.replace("110.0", "175.0")
        folder, paths = folder_with(self, beyond=beyond, near=NO_BOX.replace("bound = 50.0", "bound = 59.99"))
        told = (r"regions.py: the states of the box within voltage at rest: charge 19.64 %, polarisation 37.5 mV is one, and no plan from there keeps every limit: it is 2.14[0-9] tolerances short",
                r"charge 20 %, polarisation [0-9.]+ mV is one, and lies in no cell with a policy: of the cell that was cut about it (a corner is [0-9.]+ tolerances short|K would be about \S+, and at most)")
        for name, words in zip(("beyond", "near"), told):
            new = os.path.join(folder, "new")
            status, said, made = self.ran(folder, paths[name], new, "--seconds", "1")
            self.assertEqual((status, made, os.path.exists(new)), (6, [None, None, None], False))
            self.assertRegex(said, words)

    def test_refusals(self):
        """Nothing to cut; and an output that is an input, by whatever name, or another output. The model stays as it was."""
        folder, paths = folder_with(self, model=NO_BOX, plain=CELL)
        os.link(paths["model"], link := os.path.join(folder, "link"))
        status, said, made = self.ran(folder, paths["plain"], os.path.join(folder, "new"))
        self.assertEqual((status, made), (1, [None, None, None]))
        self.assertIn("plain has no half-planes (`region`), so nothing is to be left out", said)
        path = lambda name: os.path.join(folder, name)
        for names, words in (
            ((link, path("l"), path("p")), "DESIGN .*link is the same file as MODEL"),
            ((path("d"), paths["model"], path("p")), "CUTS .*model is the same file as MODEL"),
            ((path("d"), path("l"), path("new")), "POLICIES .*new is the same file as NEW_MODEL"),
            ((path("d"), path("l"), path("l")), "POLICIES .*l is the same file as CUTS"),
        ):
            got = subprocess.run([*as_command("regions"), paths["model"], path("new"), "--cells", *names], capture_output=True, text=True)
            self.assertEqual((got.returncode, sorted(os.listdir(folder))), (2, ["link", "model", "plain"]))
            self.assertRegex(got.stderr, words)
        with open(paths["model"], encoding="utf-8") as file:
            self.assertEqual(file.read(), NO_BOX)


if __name__ == "__main__":
    unittest.main()
