"""Faces of a box: what holds of worked ones, and that those that are found hold."""
import os
import subprocess
import unittest

from scripts.common.design_text import design_of
from scripts.common.libraries import missing

from .worked import FIRST, FIRST_POLICY, as_command, folder_with

LACKING = missing("numpy", "scipy")
if not LACKING:
    from scripts import faces

# x+ = x + u from 0 to 1, whose next state is to lie in it too; what each row may be exceeded by was computed by another program
WORKED = FIRST.replace("final = [[4, 1]]", "final = [[4, 1], [-4, 1]]").replace("den = 1\nviolation = 16\ngap = 1\n", "den = 10\nviolation = 1\ngap = 10\n")
EXCESS = 96841506804
RIGHT = [[4, 0, 0, 1, 0], [4, 0, 0, 0, 1]]


@unittest.skipIf(LACKING, f"no {', '.join(LACKING)}")
class WorkedFaces(unittest.TestCase):
    def setUp(self):
        self.design = design_of(WORKED)
        self.excess = [EXCESS] * 4

    def test_rows(self):
        rows = [(row.of_state, row.of_input, row.bound, row.number) for row in faces.first_rows(self.design)]
        self.assertEqual(rows, [([0], [4], 4, 0), ([0], [-4], 4, 1), ([4], [4], 1, 2), ([-4], [-4], 1, 3)])

    def test_excess(self):
        policy = [[int(word) for word in line.split(",")] for line in FIRST_POLICY.splitlines()]
        found = faces.excesses(self.design, policy)
        # it takes K for what it is before it is rounded up, so it may be a little more
        self.assertTrue(all(EXCESS <= excess <= 1.001 * EXCESS for excess in found), found)

    def test_holds(self):
        self.assertIsNone(faces.first_fault(self.design, RIGHT, self.excess))
        self.assertIsNone(faces.first_fault(self.design, RIGHT, self.excess, [0], [1]))

    def test_refused(self):
        self.assertEqual(faces.first_fault(self.design, [RIGHT[0], [4, 0, 1, 0, 0]], self.excess), ("no-stay", 2, -1))
        self.assertEqual(faces.first_fault(self.design, [[3, 0, 0, 1, 0], RIGHT[1]], self.excess), ("unequal", 1, 1, 4, 3))
        self.assertEqual(faces.first_fault(self.design, RIGHT, self.excess, [-1], [0]), ("no-stay", 2, -1))

    def test_size(self):
        # what the worked faces come to, and a factor by which they come to more than 2^126
        self.assertEqual(max(faces.size(self.design, face, record, self.excess) for face, record in zip(faces.faces_of(self.design), RIGHT)), 29362034376616)
        wide = design_of(WORKED.replace("den = 1\na = [[1]]\nb = [[1]]", "den = 1048576\na = [[2147483647]]\nb = [[1]]").replace("hi = [1]", "hi = [2147483647]"))
        self.assertEqual(faces.first_fault(wide, [[2147483647, 0, 0, 0, 0]] * 2, self.excess)[0], "too-wide")

    def test_found(self):
        found = faces.find(self.design, self.excess, [0], [0])
        self.assertIsNone(faces.first_fault(self.design, found, self.excess))
        self.assertEqual(found, RIGHT)

    def test_bearable(self):
        # what is added to the next state, with the greatest excess, still rounds to 0 and 1
        self.assertEqual(faces.bearable(self.design, RIGHT, self.excess), ([0], [1]))

    def test_none(self):
        self.assertIsNone(faces.find(design_of(WORKED.replace("final = [[4, 1], [-4, 1]]", "final = []")), [EXCESS] * 2, [0], [0]))


@unittest.skipIf(LACKING, f"no {', '.join(LACKING)}")
class Command(unittest.TestCase):
    """What it writes, and with which status it ends."""

    def run_faces(self, *words, **texts):
        folder, paths = folder_with(self, d=WORKED, p=FIRST_POLICY, **texts)
        out = {name: os.path.join(folder, name) for name in ("faces", "bears")}
        words = [paths.get(word, out.get(word, word)) for word in words]
        got = subprocess.run([*as_command("faces"), paths["d"], paths["p"], *words], capture_output=True, text=True)
        return got, {name: open_text(path) for name, path in out.items() if os.path.exists(path)}

    def test_faces_and_what_they_bear(self):
        got, made = self.run_faces("faces", "--bears", "bears")
        self.assertEqual((got.returncode, got.stdout, made), (0, "", {"faces": "4,0,0,1,0\n4,0,0,0,1\n", "bears": "0\n1\n"}))

    def test_under_disturbances(self):
        got, _ = self.run_faces("--disturbances", "box", box="0\n1\n")
        self.assertEqual((got.returncode, got.stdout), (0, "4,0,0,1,0\n4,0,0,0,1\n"))
        got, made = self.run_faces("faces", "--disturbances", "box", box="-1\n0\n")
        self.assertEqual((got.returncode, made), (17, {}))
        self.assertIn("the lower face of x1 doesn't hold: the next state may go to -1, 1 beyond its end at 0", got.stderr)


def open_text(path):
    with open(path, encoding="utf-8") as file:
        return file.read()


@unittest.skipIf(LACKING, f"no {', '.join(LACKING)}")
class Rounding(unittest.TestCase):
    def test_equations_hold(self):
        """Where a vertex's numbers are too long, the rounded record's equations hold all the same."""
        design = design_of(WORKED.replace("b = [[1]]", "b = [[3]]").replace("stage = [[0, 4, 4], [0, -4, 4]]", "stage = [[0, 7, 4], [0, -5, 4]]"))
        face = faces.faces_of(design)[0]
        record = faces.rounded(design, face, [0.1, 0.3, 0.2, 0.1])
        left, right = faces.sums(design, face, record)
        self.assertEqual(left, right)
        self.assertTrue(0 <= min(record) and max(record) < 2**31)


if __name__ == "__main__":
    unittest.main()
