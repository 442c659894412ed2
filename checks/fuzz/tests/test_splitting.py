"""Boxes in cells: worked rows, the faults of cuts and of cells' texts in their order, and that each grid state lies in one cell."""
import random
import unittest

from checks.fuzz import at_corners, cases, control, model, program, split_boxes, split_cases
from checks.rows.texts import sub

from .worked import CONTROLLER, DESIGN, POLICY, refusal, told

CUTS, PLANS = b"1,0\n", b"1,0\n1,0\n8,-7\n8,-7\n"
# the controllers of 0 and of 1, and the reports of the first design with these boxes
LOW = sub(CONTROLLER, (b"bits 10 0 1 26", b"bits 5 0 1 13"), (b"steps 4", b"steps 1"), (b"clamp 32768", b"clamp 128"), (b"hi 1", b"hi 0"), (b"P 512", b"P 16"), (b"W 256 -256 256", b"W 8 -8 8")).replace(
    b"1024", b"32").replace(b" 256\nend", b" 8\nend")
HIGH = sub(CONTROLLER, (b"lo 0\n", b"lo 1\n"))
CELLS = b"mpc-cells 2\n" + LOW + HIGH + b"end\n"
REPORT = "".join(f"""mpc-report 1
margin {margin} 65536
cost {cost}
multiplier {multiplier}
step 1
steps {steps}
bits {bits}
width {width}
words 6
violation {violation} 1099511627776
gap {gap} 1099511627776
undercut {undercut} 1099511627776
end
""" for margin, cost, multiplier, steps, bits, width, violation, gap, undercut in (
    (16384, 0, 1, 1, 5, 13, 4922032521216, 523986010112, 4922032521216), (8192, 1, 8, 4, 10, 26, 8850854903808, 438095052800, 70806839230464)))
WIDE = sub(DESIGN, (b"lo = [0]\nhi = [1]", b"lo = [-2]\nhi = [3]"))
PLANE = sub(DESIGN, (b"states = 1", b"states = 2"), (b"a = [[1]]\nb = [[1]]", b"a = [[1, 0], [0, 1]]\nb = [[1], [0]]"), (b"stage = [[1, 0, 1]]", b"stage = [[1, 0, 0, 1]]"), (
    b"den = 4\nstage = [[0, 4, 4], [0, -4, 4]]\nfinal = [[4, 1]]", b"den = 4\nstage = [[0, 0, 4, 4], [0, 0, -4, 4]]\nfinal = [[4, 0, 1]]"), (b"lo = [0]\nhi = [1]", b"lo = [-1, -50]\nhi = [60, 30]"))


def split(cuts, plans=PLANS, design=DESIGN):
    return told("split d l p c r", d=design, l=cuts, p=plans)


def cut(low, high):
    """One who cuts a box of one coordinate."""
    design = model.read_design(sub(DESIGN, (b"lo = [0]\nhi = [1]", b"lo = [%d]\nhi = [%d]" % (low, high))))
    return lambda data: split_boxes.read_cuts(data, design)


class Cuts(unittest.TestCase):
    def test_accepted(self):
        of = cut(-2, 3)
        for data, cuts in ((b"0\n", []), (b"1,-2", [-2]), (b"1,2", [2]), (b"2,-2,2\r\n", [-2, 2]), (b"\n\n 05 , -2,-1,-0,01,2\n\n", [-2, -1, 0, 1, 2]), (b'"1","0"', [0]), (b"-0", [])):
            self.assertEqual(of(data), [cuts], data)

    def test_faults(self):
        of = cut(-2, 3)
        for data, fault in ((b"1,-3\n", ("number", 1, 2)), (b"1,3\n", ("number", 1, 2)), (b"2,0,0\n", ("number", 1, 3)), (b"2,1,0\n", ("number", 1, 3)), (b"2,x,0\n", ("number", 1, 2)),
                            (b"1\n", ("fields", 1)), (b"0,1\n", ("fields", 1)), (b"1,0,1\n", ("fields", 1)), (b"1,x,1\n", ("fields", 1)), (b"-1\n", ("number", 1, 1)), (b"64\n", ("number", 1, 1)),
                            (b"63\n", ("fields", 1)), (b"x,0\n", ("number", 1, 1)), (b"", ("count", 0)), (b"0\nx\n", ("count", 2)), (b"0\n0\n64\n", ("count", 3)), (b"1,3\n0\n", ("number", 1, 2))):
            self.assertEqual(refusal(of, data), (5, *fault), data)

    def test_most(self):
        row = lambda count: b",".join(b"%d" % v for v in (count, *range(count))) + b"\n"
        self.assertEqual(len(cut(0, 63)(row(63))[0]), 63)
        self.assertEqual(refusal(cut(0, 62), row(63)), (5, "number", 1, 64))
        design = model.read_design(PLANE)
        of = lambda *counts: refusal(split_boxes.read_cuts, b"".join(map(row, counts)), design)
        for counts in ((7, 7), (15, 3), (31, 1), (0, 29), (1, 29), (60, 0)):
            self.assertIsNone(of(*counts), counts)
        for counts in ((12, 4), (4, 12), (59, 29)):
            self.assertEqual(of(*counts), (5, "range", 0), counts)
        # a third record is told before the cells
        self.assertEqual(of(12, 4, 0), (5, "count", 3))
        # and a bad one of the second coordinate before
        self.assertEqual(of(12, 31), (5, "number", 2, 32))

    def test_each_grid_state_is_in_one_cell(self):
        pick, design = random.Random(1), model.read_design(sub(PLANE, (b"lo = [-1, -50]\nhi = [60, 30]", b"lo = [-3, 2]\nhi = [5, 7]")))
        for _ in range(60):
            cuts = [sorted(pick.sample(range(low, high), pick.randrange(0, high - low + 1))) for low, high in zip(design.lo, design.hi)]
            cells = split_boxes.cells_of(design, cuts)
            self.assertEqual(len(cells), split_boxes.cell_count(cuts))
            for x in range(-3, 6):
                for y in range(2, 8):
                    held = [k for k, cell in enumerate(cells) if not control.outside(cell, [x, y])]
                    # the first coordinate runs fastest
                    self.assertEqual(held, [sum(x > c for c in cuts[0]) + (len(cuts[0]) + 1) * sum(y > c for c in cuts[1])])


class Split(unittest.TestCase):
    def test_worked(self):
        self.assertEqual(split(CUTS), (0, "", "", {"c": CELLS.decode(), "r": REPORT}))
        # always texts, whatever the name
        self.assertEqual(told("split d l p c r.json", d=DESIGN, l=CUTS, p=PLANS)[3]["r.json"], REPORT)
        self.assertEqual(split(CUTS, 4 * b"1,0\n"), (18, "error 18 cell 2 no-margin 1 3 -3 4\n", "", {}))
        self.assertEqual(split(b"1,1\n", b""), (5, "error 5 text 2 number 1 2\n", "", {}))

    def test_one_cell(self):
        status, line, _, written = split(b"0\n", POLICY)
        made = told("generate d p c r", d=DESIGN, p=POLICY)[3]
        self.assertEqual((status, line, written), (0, "", {"c": f"mpc-cells 1\n{made['c']}end\n", "r": made["r"]}))

    def test_order(self):
        for words, files, line in (
            ("split d l p c c", {}, "2 usage"), ("split d l p l r", {}, "2 usage"), ("split d l p c", {}, "2 usage"), ("split d l p c r x", {}, "2 usage"), ("split d l p d r", {}, "2 usage"),
            ("split d l p c p", {}, "2 usage"), ("split d l p c r", {"l": b"x", "p": b"x"}, "5 text 2 number 1 1"), ("split x l p c r", {"l": b"x"}, "3 read-fault 1"),
            ("split d x p c r", {"p": b"x"}, "3 read-fault 2"), ("split d l x c r", {}, "3 read-fault 3"), ("split d l p c r", {"p": b"1,0\n"}, "5 text 3 count 1"),
            ("split d l p c r", {"p": PLANS + b"1,0\n"}, "5 text 3 count 5"), ("split d l p c r", {"p": b"1,0\n1\n"}, "5 text 3 fields 2"), ("split d l p c r", {"p": b"1,0\n0,0\n"}, "5 text 3 number 2 1"),
            ("split d l p c r", {"d": DESIGN + b"x"}, "5 text 1 not-toml"), ("split d l p c r", {"l": b"\n" * 4194305}, "13 long 2"), ("split d l p c r", {"p": b"\n" * 4194305}, "13 long 3"),
            # the first cell that is refused, whatever comes after it
            ("split d l p c r", {"p": b"1,1\n1,1\n1,0\n1,0\n"}, "18 cell 1 no-margin 1 1 0 4"),
        ):
            self.assertEqual(told(words, **{"d": DESIGN, "l": CUTS, "p": PLANS, **files})[:2], (int(line.split()[0]), f"error {line}\n"), words)
        # the design and its policies may be one file where both are read; here no policy is a design
        self.assertEqual(told("split d l d c r", d=DESIGN, l=CUTS)[1], "error 5 text 3 fields 1\n")

    def test_refusals_of_cells(self):
        for change, line in (((b"[[0, 4, 4], [0, -4, 4]]", b"[[0, 2147483647, 2147483647]]"), "cell 1 curvature"),
                             # the first cell, whose multiplier is 1, takes 2^20 steps
                             ((b"den = 1\nviolation = 16\ngap = 1", b"den = 131072\nviolation = 1\ngap = 131072"), "cell 2 too-many-steps 8388608")):
            self.assertEqual(split(CUTS, design=sub(DESIGN, change)), (18, f"error 18 {line}\n", "", {}))


class Cells(unittest.TestCase):
    def test_both_ways(self):
        self.assertEqual(split_boxes.text_of(split_boxes.read_cells(CELLS)), CELLS)

    def test_lines(self):
        second = sub(CONTROLLER, (b"mpc-controller 1", b"mpc-controller 2"), (b"words 6\n", b"words 6\nexps 0 1 1\n"))
        of = lambda *cells: b"mpc-cells %d\n" % len(cells) + b"".join(cells) + b"end\n"
        bad = lambda line: (11, "line", line)
        for text, fault in (
            (CELLS, None), (of(LOW), None), (of(*[HIGH] * 64), None), (of(LOW, second, LOW), None), (of(second, HIGH), None), (b"", bad(1)), (CONTROLLER, bad(1)), (of(), bad(1)), (of(*[LOW] * 65), bad(1)),
            (b"mpc-cells 02" + CELLS[11:], bad(1)), (CELLS[:-4], bad(40)), (CELLS[:-1], bad(40)), (CELLS + b"\n", bad(41)), (CELLS + b"x", bad(41)), (CELLS + b"end\n", bad(41)),
            (sub(CELLS, (b"cells 2", b"cells 1")), bad(21)), (sub(CELLS, (b"cells 2", b"cells 3")), bad(40)), (of(LOW, sub(HIGH, (b"size 1 1 1 3", b"size 2 1 1 3"))), bad(22)),
            (of(LOW, sub(HIGH, (b"size 1 1 1 3", b"size 1 2 1 3"))), bad(22)), (of(LOW, sub(HIGH, (b"size 1 1 1 3", b"size 1 1 2 3"))), bad(22)),
            (of(LOW, sub(HIGH, (b"size 1 1 1 3", b"size 1 1 1 2"))), bad(26)), (of(LOW, sub(HIGH, (b"bits 10 0 1 26", b"bits 10 1 1 26"))), bad(23)),
            (of(LOW, sub(HIGH, (b"bits 10 0 1 26", b"bits 11 0 1 26"))), None), (of(LOW, sub(HIGH, (b"words 6", b"words 7"))), bad(26)), (of(LOW, sub(second, (b"exps 0 1 1", b"exps 0 1 2"))), bad(27)),
        ):
            self.assertEqual(refusal(split_boxes.read_cells, text), fault, text[:60])

    def test_a_later_header_has_room_for_the_first_cell(self):
        six = b"mpc-controller 2\nsize 6 1 1 1\nbits 0 0 1 16\nsteps 2\nclamp 9\nwords 9\nexps 0\nlo 0 0 0 0 0 0\nhi 1 2 3 4 5 6\nP 1 2 3 4 5 6\nT 0\nW -1\nG -1\nE 1 1 1 1 1 1\nb 1\nend\n"
        of = lambda *cells: b"mpc-cells %d\n" % len(cells) + b"".join(cells) + b"end\n"
        lines = 1 + six.count(b"\n")
        self.assertIsNone(refusal(split_boxes.read_cells, of(six, six)))
        self.assertEqual(refusal(split_boxes.read_cells, of(six, CONTROLLER)), (11, "line", lines + 1))
        self.assertEqual(refusal(split_boxes.read_cells, of(CONTROLLER, six)), (11, "line", 1 + CONTROLLER.count(b"\n") + 2))
        long = sub(six, (b"size 6 1 1 1", b"size 1 1 30 1"))
        self.assertEqual(refusal(split_boxes.read_cells, of(six, long)), (11, "line", lines + 2))

    def test_unsafe(self):
        wide = sub(HIGH, (b"W 256 -256", b"W 512 -256"))
        three = lambda last: b"mpc-cells 3\n" + LOW + HIGH + last + b"end\n"
        self.assertIsNone(refusal(split_boxes.read_cells, three(HIGH)))
        self.assertEqual(refusal(split_boxes.read_cells, three(wide)), (11, "unsafe"))
        # a line comes before the sums, wherever it stands
        self.assertEqual(refusal(split_boxes.read_cells, b"mpc-cells 2\n" + wide + HIGH + b"end"), (11, "line", 40))
        self.assertEqual(told("serve c s", c=three(wide), s=b"0")[1], "error 11 controller 1 unsafe\n")


class Serve(unittest.TestCase):
    def test_worked(self):
        serve = lambda states, cells=CELLS: told("serve c s", c=cells, s=states)[:3]
        self.assertEqual(serve(b"0\n1\n"), (0, "", "32 0\n4096 -2224\n"))
        self.assertEqual(serve(b"1\r\n0"), (0, "", "4096 -2224\n32 0\n"))
        self.assertEqual(serve(b""), (0, "", ""))
        self.assertEqual(serve(b"2\n"), (12, "error 12 outside-box 1 0 1\n", ""))
        # all states are tested before the first line
        self.assertEqual(serve(b"0\n1\n-1\n7\n"), (12, "error 12 outside-box 3 0 1\n", ""))
        self.assertEqual(serve(b"0\nx\n5\n"), (5, "error 5 text 2 number 2 1\n", ""))
        # where two boxes hold a state, the first serves it
        both = b"mpc-cells 2\n" + CONTROLLER + LOW + b"end\n"
        self.assertEqual(serve(b"0\n", both), (0, "", "4096 0\n"))
        self.assertEqual(serve(b"0\n", b"mpc-cells 2\n" + LOW + CONTROLLER + b"end\n"), (0, "", "32 0\n"))

    def test_coordinate_is_the_first_cell_s(self):
        cell = lambda low, high: b"mpc-controller 1\nsize 2 1 1 1\nbits 0 0 0 20\nsteps 1\nclamp 0\nwords 5\nlo %d %d\nhi %d %d\nP 1 1\nT 0\nW 0\nG 0\nE 0 0\nb 0\nend\n" % (*low, *high)
        cells = b"mpc-cells 2\n" + cell((0, 0), (1, 1)) + cell((2, 3), (3, 4)) + b"end\n"
        serve = lambda states: told("serve c s", c=cells, s=states)[:3]
        self.assertEqual(serve(b"1,1\n3,4\n"), (0, "", "1 -2\n1 -7\n"))
        # the second cell holds the first coordinate, or the second
        for state, coordinate in ((b"3,1", 1), (b"1,3", 2), (b"3,0", 1), (b"0,4", 2), (b"4,4", 1), (b"0,9", 2)):
            self.assertEqual(serve(state), (12, f"error 12 outside-box 1 0 {coordinate}\n", ""), state)

    def test_order(self):
        for words, line in (("serve c", "2 usage"), ("serve c s s", "2 usage"), ("serve x s", "3 read-fault 1"), ("serve c x", "3 read-fault 2"), ("serve s x", "11 controller 1 line 1"),
                            ("serve c c", "5 text 2 number 1 1")):
            self.assertEqual(told(words, c=CELLS, s=b"0\n")[:2], (int(line.split()[0]), f"error {line}\n"), words)

    def test_long(self):
        # a text of cells may be longer than others
        self.assertEqual(told("serve c s", c=CELLS + b"\n" * 4194305, s=b"0\n")[1], "error 11 controller 1 line 41\n")

    def test_of_split(self):
        """What split writes is served, each state by the controller of its cell."""
        status, line, _, written = told("split d l p c r", d=WIDE.replace(b"final = [[4, 1]]", b"final = [[4, 17]]"), l=b"2,-1,1\n", p=6 * b"1,0\n")
        self.assertEqual((status, line), (0, ""))
        cells = split_boxes.read_cells(written["c"].encode())
        self.assertEqual([(cell.lo, cell.hi) for cell in cells], [([-2], [-1]), ([0], [1]), ([2], [3])])
        out = told("serve c s", c=written["c"].encode(), s=b"".join(b"%d\n" % v for v in range(-2, 4)))[2]
        self.assertEqual(out.splitlines(), [control.plan_line(cells[k], [v])[:-1].decode() for v, k in zip(range(-2, 4), (0, 0, 1, 1, 2, 2))])


class Drawn(unittest.TestCase):
    """What run.py tries."""

    def test_cuts(self):
        pick = random.Random(4)
        for _ in range(300):
            low, count = pick.randrange(-9, 9), pick.randrange(6)
            high = low + pick.choice([0, 1, 2, 5, 100])
            cuts = split_cases.cuts_between(pick, low, high, count)
            self.assertEqual(len(cuts), min(count, high - low))
            self.assertTrue(all(low <= v < high for v in cuts) and cuts == sorted(set(cuts)))
            lo, hi = [low, 0, -5], [high, 40, 200]
            self.assertLessEqual(split_boxes.cell_count(split_cases.few_cuts(pick, lo, hi, 9)), 9)
            self.assertIn(split_boxes.cell_count(split_cases.many_cuts(pick, lo, hi)), range(2, 73))

    def test_plans_between_corners(self):
        """At a corner of the box it is the corner's own plan, and elsewhere no row has less slack than at the corners."""
        d = model.read_design(sub(DESIGN, (b"lo = [0]\nhi = [1]", b"lo = [-1]\nhi = [3]"), (b"final = [[4, 1]]", b"final = [[4, 13]]")))
        plans = [(2, [1]), (3, [-2])]
        self.assertEqual([split_cases.between(d, plans, [v]) for v in (-1, 3)], plans)
        self.assertEqual(split_cases.between(d, plans, [0]), (24, [5]))
        slack = lambda box, its: min(s / corner.over for corner in at_corners.shown(box, its) for s in corner.slacks)
        for box in split_boxes.cells_of(d, [[-1, 1]]):
            self.assertGreaterEqual(slack(box, [(q, u) for q, *u in split_cases.policies(d, plans, [box])]), slack(d, plans))

    def test_all_answers_come(self):
        pick, designs = random.Random(5), list(cases.examples())
        answers = {status_of(*split_cases.split_texts(pick, designs)) for _ in range(60)}
        self.assertTrue({0, 5, 18} <= answers, answers)
        texts = [text for _, text in cases.small_controllers(designs[1:2])]
        served = {told("serve c s", c=c, s=s)[0] for c, s in (split_cases.cells_texts(pick, texts) for _ in range(100))}
        self.assertTrue({0, 11, 12} <= served, served)


class Enough(Exception):
    """The gains are asked for."""


def status_of(d, l, p):
    """What split answers; where it comes to the gains, it is 0, and they aren't made."""

    def gains(choice):
        raise Enough

    try:
        return program.answer("split d l p c r".split(), {"d": d, "l": l, "p": p}.get, lambda name: True, gains).status
    except Enough:
        return 0


class Gains(unittest.TestCase):
    def test_in_order(self):
        d = model.read_design(DESIGN)
        choices = [model.choose(box, [(q, u)] * 2) for box, (q, u) in zip(split_boxes.cells_of(d, [[0]]), ((1, [0]), (8, [-7])))]
        gains = program.Gains(lambda: CELLS)
        self.assertEqual([gains(choice)[0] for choice in choices], [[16], [512]])
        with self.assertRaisesRegex(ValueError, "more cells"):
            gains(choices[1])
        with self.assertRaisesRegex(ValueError, "no good solution"):
            program.Gains(lambda: CELLS)(choices[1])


if __name__ == "__main__":
    unittest.main()
