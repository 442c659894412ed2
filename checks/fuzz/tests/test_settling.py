"""Loops that settle: a worked loop whose numbers were computed by hand, the texts of certificates, and the machine beside what is accepted."""
import itertools
import random
import unittest

from checks.fuzz import cases, control, model, settle_cases, settling

from .worked import told

# x+ = x + u with the limits -1 and 1 on the input, from -2.5 to 2.5, and its plan -x / 2 where no multiplier moves
DESIGN = b"""version = 2
states = 1
inputs = 1
stages = 1
plant = { den = 1, a = [[1]], b = [[1]] }
cost = { den = 1, row_den = 1, input = [1], stage = [], final = [[1, 0, 1]] }
limits = { den = 1, stage = [[0, 1, 1], [0, -1, 1]], final = [] }
box = { grid = 4, lo = [-40], hi = [40] }
targets = { den = 4, violation = 1, gap = 1 }
"""
POLICY, REFERENCE = b"16,15\n16,-15\n", b"4,5\n4,-5\n"
CERTIFICATE = b"4,-31,32\n0,-31,32\n1,-2,2\n"


def controller():
    return told("lean d p q c r", d=DESIGN, p=POLICY, q=REFERENCE)[3]["c"].encode()


class Worked(unittest.TestCase):
    def setUp(self):
        self.files = {"d": DESIGN, "c": controller()}

    def answer(self, certificate, shifts=None):
        """The status and the line, or what is printed."""
        words = "settle d c s" + (" w" if shifts else "")
        status, line, out, _ = told(words, s=certificate, w=shifts, **self.files)
        return line.removeprefix("error ").rstrip("\n") if status else out

    def test_controller(self):
        c = control.read_controller(self.files["c"])
        self.assertEqual((c.f, c.steps, c.p_mat, c.t, c.g_mat, c.e_mat, c.bound), (11, 9, [[1024]], [0], [[2048], [-2048]], [[0], [0]], [2048, 2048]))

    def test_rows(self):
        c = control.read_controller(self.files["c"])
        number = lambda low, high, i: settling.still_sum(c, settling.Box([low], [high]), i)
        self.assertEqual([number(-31, 32, 0), number(-31, 32, 1), number(-32, 32, 0), number(-31, 33, 1)], [-264241152, 0, 4194304, 268435456])

    def test_tube(self):
        d, c = model.read_design(DESIGN), control.read_controller(self.files["c"])
        still = settling.Box([-31], [32])
        boxes, _ = settling.Loop(d, c, still, settling.Box([0], [0])).tube(still, 4)
        self.assertEqual([(*box.low, *box.high) for box in boxes], [(-31, 32), (-16, 16), (-8, 8), (-4, 4), (-2, 2)])

    def test_accepted(self):
        for certificate, shifts, told_of in (
            (CERTIFICATE, None, "turn 4\nstate 1 -2 2\n"),
            (b"5,-31,32\n0,-31,32\n1,-1,1\n", None, "turn 5\nstate 1 -1 1\n"),
            (b"0,-1,1\n0,-31,32\n1,-1,1\n", None, "turn 0\nstate 1 -1 1\n"),
            # 2 of the start, and 15/8 of what each turn adds, 1/2 by rounding, 1 by a disturbance and 1/128 by a floor; from 3 back to 3 + 1/128
            (b"4,-31,32\n0,-31,32\n1,-4,4\n", b"-1\n1\n", "turn 4\nstate 1 -4 4\n"),
            (b"5,-31,32\n0,-31,32\n1,-3,3\n", b"-1\n1\n", "turn 5\nstate 1 -3 3\n"),
            # from 1 it may have gone to 2 on its way back, and is there again
            (b"1,0,0\n0,-31,32\n2,-2,2\n", b"-1\n1\n", "turn 1\nstate 1 -2 2\n"),
        ):
            self.assertEqual(self.answer(certificate, shifts), told_of)

    def test_accelerated(self):
        """The same numbers as a controller of the accelerated machine: the same answers, and the same states turn by turn."""
        plain = self.files["c"]
        fast = self.files | {"d": DESIGN.replace(b"version = 2", b"version = 3"), "c": cases.accelerated(random.Random(1), plain)}
        self.assertEqual(fast["c"].split(b"\n")[0], b"mpc-controller 3")
        states = lambda files: [line.split()[2] for line in told("loop d c s 9", **files, s=b"-31\n32\n")[2].splitlines()]
        self.assertEqual(states(fast), states(self.files))
        for self.files in (fast, self.files):
            self.assertEqual(self.answer(CERTIFICATE), "turn 4\nstate 1 -2 2\n")
            self.assertEqual(self.answer(b"4,-31,32\n0,-32,32\n1,-2,2\n"), "23 moves 1 4194304 4194304")

    def test_refused(self):
        for certificate, shifts, line in (
            (b"4,-31,32\n0,-32,32\n1,-2,2\n", None, "23 moves 1 4194304 4194304"),
            (b"4,-31,32\n0,-31,33\n1,-2,2\n", None, "23 moves 2 268435456 4194304"),
            (b"4,-40,40\n0,-31,32\n1,-2,2\n", None, "24 unsettled 0 1 40"),
            (b"4,-40,32\n0,-31,32\n1,-2,2\n", None, "24 unsettled 0 1 -40"),
            (b"3,-31,32\n0,-31,32\n1,-2,2\n", None, "24 unsettled 3 1 4"),
            (b"20,-31,32\n0,-31,32\n1,-1,1\n", b"-1\n1\n", "24 unsettled 20 1 3"),
            (b"1,0,0\n0,-31,32\n1,-1,1\n", b"-1\n1\n", "25 no-return 1 1 2"),
            (b"1,0,0\n0,-31,32\n1,-1,1\n", b"-1\n0\n", "25 no-return 1 1 -2"),
            (b"1,0,0\n0,-31,32\n4096,-1,1\n", b"-2147483647\n2147483647\n", "24 unsettled 1 1 2147483647"),
        ):
            self.assertEqual(self.answer(certificate, shifts), line)

    def test_texts(self):
        for certificate, line in (
            (b"", "5 text 3 count 0"),
            (CERTIFICATE + b"0,0,0\n", "5 text 3 count 4"),
            (b"4,-31\n", "5 text 3 fields 1"),
            (b"4,-31,32\n0,-31,a\n", "5 text 3 number 2 3"),
            (b"4097,-31,32\n0,-31,32\n1,-2,2\n", "5 text 3 range 1"),
            (b"-1,-31,32\n-1,-31,32\n1,-2,2\n", "5 text 3 range 1"),
            (b"4,-31,32\n4097,-31,32\n1,-2,2\n", "5 text 3 range 2"),
            (b"4,-31,32\n0,-41,32\n0,-2,2\n", "5 text 3 range 2"),
            (b"4,-31,32\n0,-31,32\n0,-2,2\n", "5 text 3 range 3"),
            (b"4,-31,32\n0,-31,32\n4097,-2,2\n", "5 text 3 range 3"),
        ):
            self.assertEqual(self.answer(certificate), line)
        self.assertEqual(self.answer(CERTIFICATE, b"1\n0\n"), "5 text 4 number 2 1")

    def test_mismatch(self):
        self.files["d"] = DESIGN.replace(b"grid = 4", b"grid = 5")
        self.assertEqual(self.answer(b""), "14 mismatch grid 5 4")

    def test_too_wide(self):
        # a row that grows by 2^31 a turn, so that its numbers come to 2^(24 + 31 t) and more
        self.files["d"] = DESIGN.replace(b"a = [[1]]", b"a = [[2147483647]]")
        self.assertEqual(self.answer(b"4,0,0\n0,-31,32\n1,-2,2\n"), "10 too-wide settle")
        self.assertEqual(self.answer(b"1,0,0\n0,-31,32\n1,-2,2\n"), "25 no-return 1 1 4294967293")

    def test_every_state(self):
        """Where it is accepted, no multiplier moves in the still box, and the loop from each of its states settles in time."""
        d, c = model.read_design(DESIGN), control.read_controller(self.files["c"])
        last = 0
        for state in range(-31, 33):
            for turn in range(12):
                sums = control.run(c, [state])
                self.assertEqual(sums, [-c.steps * (1024 * state * 2 ** (11 - 4) // 2**11)])
                last = max(last, turn + 1) if not -2 <= state <= 2 else last
                state = control.next_state(d, c, [state], sums)[0]
        self.assertEqual(last, 4)


class Random(unittest.TestCase):
    TURNS = 60

    def test_loops(self):
        """The loops of what is accepted lie where it says, at each turn."""
        accepted = 0
        for number in range(60):
            pick = random.Random(f"settling {number}")
            made = settle_cases.settle_case(pick)
            if made is None:
                continue
            design, text, s, shifts = made
            d, c = model.read_design(design), control.read_controller(text)
            try:
                boxes = settling.check(d, c, s, shifts)
            except model.Refused:
                continue
            accepted += 1
            for start in itertools.islice(itertools.product(*zip(s.start.low, s.start.high)), 4):
                self.follow(pick, d, c, s, shifts, *boxes, list(start))
        self.assertGreater(accepted, 15)

    def follow(self, pick, d, c, s, shifts, box, costs, state):
        for turn in range(self.TURNS):
            here = settling.Box(state, state)
            self.assertTrue(s.still.holds(here) and (turn < s.turns or box.holds(here)), turn)
            self.assertTrue(turn < s.after or costs.holds(settling.cost_numbers(d, s, state)), turn)
            moved = control.next_state(d, c, state, control.run(c, state))
            state = [v + pick.choice([low, high]) for v, low, high in zip(moved, shifts.low, shifts.high)]


if __name__ == "__main__":
    unittest.main()
