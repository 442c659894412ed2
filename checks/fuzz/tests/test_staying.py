"""The faces of a box, and loops under disturbances: worked rows, and what an accepted face must say of every state and plan."""
import random
import unittest
from fractions import Fraction

from checks.fuzz import control, held_boxes, model, program
from checks.rows.texts import sub

from .worked import CONTROLLER, DESIGN, POLICY, refusal, told

# x+ = x + u from 0 to 1, whose next state is to lie in it, too
HELD = sub(DESIGN, (b"final = [[4, 1]]", b"final = [[4, 1], [-4, 1]]"), (b"den = 1\nviolation = 16\ngap = 1", b"den = 10\nviolation = 1\ngap = 10"))
FACES = b"4,0,0,1,0\n4,0,0,0,1\n"
EXCESS = 96841506804
STILL = [0], [0]


def design_of(*changes):
    return model.read_design(sub(HELD, *changes))


class Faces(unittest.TestCase):
    def setUp(self):
        self.design = design_of()
        self.choice = model.choose(self.design, model.read_policy(POLICY, self.design))

    def test_rows(self):
        found = lambda d: [(row.of_state, row.of_input, row.bound, row.number) for row in held_boxes.first_rows(d)]
        self.assertEqual(found(self.design), [([0], [4], 4, 0), ([0], [-4], 4, 1), ([4], [4], 1, 2), ([-4], [-4], 1, 3)])
        # over more stages the final rows are none, and of the stage rows at the next state those that have no input
        longer = design_of((b"stages = 1\n", b"stages = 3\n"), (b"den = 1\na = [[1]]\nb = [[1]]", b"den = 5\na = [[2]]\nb = [[3]]"), (b"[0, -4, 4]]", b"[0, -4, 4], [7, 0, 9]]"))
        self.assertEqual(found(longer), [([0], [20], 4, 0), ([0], [-20], 4, 1), ([35], [0], 9, 2), ([14], [21], 9, 5)])

    def test_worked(self):
        self.assertEqual(self.choice.stated_violations, [EXCESS] * 4)
        faces, rows = held_boxes.read_faces(FACES, self.design), held_boxes.first_rows(self.design)
        self.assertEqual(max(held_boxes.size(self.design, rows, [EXCESS] * 4, face) for face in faces), 29362034376616)
        status, line, out, written = told("stay d p c r f", d=HELD, p=POLICY, f=FACES)
        self.assertEqual((status, line, out), (0, "", ""))
        self.assertEqual(written, told("generate d p c r", d=HELD, p=POLICY)[3])
        self.assertIn("bits 12\n", written["r"])
        self.assertIn("violation 77438459892 1099511627776\n", written["r"])

    def test_refused(self):
        for faces, line in ((b"4,0,0,1,0\n4,0,1,0,0\n", "17 no-stay 2 -1"), (b"3,0,0,1,0\n4,0,0,0,1\n", "16 unequal 1 1 4 3"), (b"", "5 text 5 count 0")):
            self.assertEqual(told("stay d p c r f", d=HELD, p=POLICY, f=faces), (int(line.split()[0]), f"error {line}\n", "", {}))

    def test_disturbances(self):
        self.assertEqual(told("stay d p c r f w", d=HELD, p=POLICY, f=FACES, w=b"0\n1\n")[:3], (0, "", ""))
        for shifts, line in ((b"-1\n0\n", "17 no-stay 2 -1"), (b"0\n", "5 text 6 count 1"), (b"0\n0\n0\n", "5 text 6 count 3"), (b"1\n0\n", "5 text 6 number 2 1"),
                             (b"0\n2147483648\n", "5 text 6 number 2 1"), (b"-2147483647\n-2147483648\n", "5 text 6 number 2 1"), (b"0\n0\n2147483648\n", "5 text 6 number 3 1"),
                             (b"0\n0\n-9\n", "5 text 6 count 3"), (b"0,0\n0\n", "5 text 6 fields 1")):
            self.assertEqual(told("stay d p c r f w", d=HELD, p=POLICY, f=FACES, w=shifts)[:2], (int(line.split()[0]), f"error {line}\n"))

    def test_order(self):
        # a text of the faces or of the disturbances comes before the margin, and the margin before a face
        coarse = b"1,0\n131072,-131071\n"
        asked = lambda p, f, w: told("stay d p c r f w", d=HELD, p=p, f=f, w=w)[1]
        self.assertEqual(asked(coarse, b"", b""), "error 5 text 5 count 0\n")
        self.assertEqual(asked(coarse, FACES, b"0\n"), "error 5 text 6 count 1\n")
        self.assertEqual(asked(coarse, b"3,0,0,1,0\n4,0,0,0,1\n", b"0\n0\n")[:17], "error 6 no-margin")
        self.assertEqual(told("stay d p c c f", d=HELD, p=POLICY, f=FACES)[1], "error 2 usage\n")

    def test_read(self):
        of = lambda data: refusal(held_boxes.read_faces, data, self.design)
        self.assertIsNone(of(b"2147483647,0,2147483647,0,0\n1,0,0,0,0\n"))
        for data, fault in ((b"0,0,0,1,0\n", ("number", 1, 1)), (b"2147483648,0,0,1,0\n", ("number", 1, 1)), (b"4,0,0,1,0\n4,0,0,0,-1\n", ("number", 2, 5)),
                            (b"4,0,0,1,0\n4,0,2147483648,0,1\n", ("number", 2, 3)), (b"4,0,0,1\n", ("fields", 1)), (3 * b"4,0,0,1,0\n", ("count", 3))):
            self.assertEqual(of(data), (5, *fault))

    def test_face_is_kept(self):
        """Of random plants and faces: no plan that passes no first row by more than its excess goes farther than the face says."""
        pick, tight = random.Random(1), 0
        for _ in range(100):
            d = design_of((b"den = 1\na = [[1]]\nb = [[1]]", b"den = %d\na = [[%d]]\nb = [[%d]]" % (pick.choice([1, 2, 4]), pick.randrange(-3, 4), pick.choice([-2, -1, 1, 2]))),
                          (b"final = [[4, 1], [-4, 1]]", b"final = [[%d, 1], [%d, 3]]" % (pick.randrange(1, 5), -pick.randrange(1, 5))), (b"grid = 0\nlo = [0]\nhi = [1]", b"grid = 2\nlo = [-3]\nhi = [4]"))
            rows, excess = held_boxes.first_rows(d), [pick.randrange(2**40) for _ in range(d.rows)]
            face = held_boxes.Face(0, pick.random() < 0.5, pick.choice([1, 4, 8]), [0] * 4)
            # the input's part by one row that has its sign, and a share of a row and its opposite
            wanted = face.sign * face.factor * d.b[0][0]
            row = pick.choice([i for i, row in enumerate(rows) if row.of_input[0] * wanted > 0])
            face.factor, face.weights[row] = face.factor * abs(rows[row].of_input[0]), abs(wanted)
            left, right = held_boxes.of_inputs(d, rows, face)
            self.assertEqual(left, right)
            ends = {face.sign: held_boxes.farthest(d, rows, excess, face, [0], [0])}
            for xi in range(-3, 5):
                allowed = [Fraction(u, 16) for u in range(-160, 161) if all(
                    Fraction(r.of_state[0] * xi, 4 * d.plant_den) + Fraction(r.of_input[0] * u, 16 * d.plant_den) - r.bound <= Fraction(d.limit_den * e, 2**40) for r, e in zip(rows, excess))]
                nearest = [(2 * v + 1).__floor__() // 2 for v in ((Fraction(d.a[0][0] * xi, 4) + d.b[0][0] * u) * 4 / d.plant_den for u in allowed)]
                for sign, bound in ends.items():
                    self.assertTrue(all(sign * (v - bound) <= 0 for v in nearest), (vars(d), face, bound, nearest))
                    tight += bound in nearest
        self.assertGreater(tight, 0)


class Loops(unittest.TestCase):
    def test_shifts(self):
        loop = lambda turns, v: told(f"loop d c s {turns} v", d=DESIGN, c=CONTROLLER, s=b"0\n", v=v)[:3]
        self.assertEqual(loop(2, b"1\n0\n"), (0, "", "1 1 0 4096 0\n1 2 1 4096 -2224\n"))
        self.assertEqual(loop(2, b"2\n0\n"), (12, "error 12 outside-box 1 2 1\n", "1 1 0 4096 0\n"))
        for turns, v, fault in ((2, b"0\n", "count 1"), (2, b"0\n0\n0\n", "count 3"), (0, b"0\n", "count 1"), (1, b"0,0\n", "fields 1"), (1, b"2147483648\n", "number 1 1")):
            self.assertEqual(loop(turns, v), (5, f"error 5 text 5 {fault}\n", ""))
        self.assertEqual(loop(0, b""), (0, "", ""))
        # after the last turn no state is tested
        self.assertEqual(loop(1, b"-2147483647\n"), (0, "", "1 1 0 4096 0\n"))

    def test_shiftless(self):
        plain, still = (told(words, d=DESIGN, c=CONTROLLER, s=b"1\n0\n", v=b"0\n" * 5) for words in ("loop d c s 5", "loop d c s 5 v"))
        self.assertEqual(plain, still)

    def test_stays(self):
        """No loop of the worked accepted design leaves the box, whatever the disturbances in theirs."""
        pick = random.Random(2)
        d = design_of()
        c, _ = program.generate(d, model.read_policy(POLICY, d), model.exact_gains)
        for start in (0, 1):
            shifts = [[pick.randrange(0, 2)] for _ in range(200)]
            self.assertEqual(len(list(control.loop_lines(d, c, 1, [start], shifts, {}))), 200)


if __name__ == "__main__":
    unittest.main()
