"""The model of the accelerated machine against worked rows, whose numbers another program computed in exact whole numbers."""
import pathlib
import unittest
from fractions import Fraction
from types import SimpleNamespace

from checks.fuzz import control, model, program
from checks.fuzz.forms import Enclosure
from checks.fuzz.machines import Accelerated
from checks.rows.lean_rows import LEAN
from checks.rows.worked_texts import DESIGN, LEAN_CONTROLLER, POLICY, REFERENCE

from .test_lean import FINE, FINE_POLICY, FINE_REFERENCE, PUSHED, TIGHT, example
from .test_staying import FACES, HELD

GENERATE = ["generate", "d", "p", "c", "r"]
COARSE = DESIGN.replace("violation = 16", "violation = 1")
FAR = "1,5\n1,-7\n"
# the motor's policy of the examples with references, and another policy with others
MOTORS = [
    (None, "1,16,10,5,1\n1,-4,2,3,1\n1,4,-2,-3,-1\n1,-16,-10,-5,-1\n"),
    ("128,1791,1402,650,166\n128,-469,261,329,125\n128,469,-261,-329,-125\n128,-1791,-1402,-650,-166\n", "4,64,39,18,5\n1,-4,2,3,1\n1,4,-2,-3,-1\n4,-64,-39,-18,-5\n"),
]

EXAMPLES = pathlib.Path(__file__).resolve().parents[3] / "examples"


def third(design):
    return design.replace("version = 1", "version = 3")


def answer(words, **files):
    return program.answer(words, {name: text.encode() for name, text in files.items()}.get, lambda name: True, model.exact_gains)


def choice(design, policy, reference=None):
    d = model.read_design(third(design).encode())
    plans = [text and model.read_policy(text.encode(), d) for text in (policy, reference)]
    return model.choose(d, *plans)


class Made(unittest.TestCase):
    """Controllers and reports of designs of version 3."""

    def told(self, design, policy, reference, violations, **wanted):
        """Compares numbers of a report, and gives the controller's text."""
        words = LEAN if reference else GENERATE
        said = answer(words, d=third(design), p=policy, q=reference or "")
        self.assertEqual((said.status, said.line), (0, b""))
        report = [line.split() for line in said.written["r"].decode().splitlines()]
        self.assertEqual(report[0], ["mpc-report", "3"])
        found = {row[0]: int(row[1]) for row in report[:-1] if row[0] != "violation"}
        self.assertEqual({key: found[key] for key in wanted}, wanted)
        rows = [int(row[2]) for row in report if row[0] == "violation"]
        self.assertEqual(rows, violations * (1 if len(violations) == len(rows) else len(rows)))
        return said.written["c"].decode()

    def errors(self, design, policy, reference, *wanted, bits):
        """How often errors of the gradient count, what entries of it miss, what these cost, and epsilon."""
        of = choice(design, policy, reference).errors
        self.assertEqual((of.carry, of.gradient, of.first, of.epsilon(bits)), wanted)

    def puts(self, text, *lines):
        """What `solve` puts from a state that each line names."""
        states = "".join(line.split(": ")[0] + "\n" for line in lines)
        said = answer(["solve", "c", "s"], c=text, s=states)
        self.assertEqual(b"".join(said.out).decode().splitlines(), [line.split(": ")[1] for line in lines])

    def test_one_step(self):
        text = self.told(DESIGN, POLICY, REFERENCE, [10052639391744, 11152151019520, 11152151019520], excess=18432, multiplier=1, steps=1, bits=6, width=16, words=12, gap=314069483520,
                         undercut=17592186044416)
        self.assertEqual(text, LEAN_CONTROLLER.replace("mpc-controller 1", "mpc-controller 3").replace("words 6\n", "words 12\nexps 0 1 1\n"))
        self.errors(DESIGN, POLICY, REFERENCE, 1, [22], 242, 580357455872, bits=6)
        self.puts(text, "1: 128 -64", "0: 128 0")

    def test_tight(self):
        text = self.told(TIGHT, POLICY, REFERENCE, [79856797582, 103126884942, 103126884942], multiplier=2, steps=18, bits=13, width=30, gap=6444515328, undercut=219902325554)
        self.assertIn("\nclamp 65536\n", text)
        self.errors(TIGHT, POLICY, REFERENCE, 7, [34], 578, 10535272448, bits=13)
        self.puts(text, "1: 1548288 -1131934")

    def test_each_step(self):
        text = self.told(COARSE, POLICY, REFERENCE, [813494581476, 1057830498760, 1057830498760], multiplier=1, steps=3, bits=9, width=22, gap=38805700608, undercut=1099511627776)
        self.assertIn("\nclamp 2048\n", text)
        self.errors(COARSE, POLICY, REFERENCE, 2, [22], 242, 66454552576, bits=9)
        self.puts(text, "1: 4608 -2480")
        c, made = control.read_controller(text.encode()), []
        control.traced(c, [1], lambda *how: Accelerated.after(*how, lambda *step: made.append(step)))
        third_row = lambda means, plan, multipliers, reached: (means[2], *plan, multipliers[2], reached[2], means[:2] + multipliers[:2] + reached[:2])
        self.assertEqual([third_row(*step) for step in made], [(0, -256, 256, 512, [0] * 6), (128, -272, 592, 2288, [0] * 6), (258, -288, 976, 6192, [0] * 6)])

    def test_generated(self):
        text = self.told(DESIGN, POLICY, None, [5918827566422, 7873514904690, 7873514904690], multiplier=8, steps=3, bits=10, width=26, gap=438124412928, undercut=62988119237520)
        self.assertIn("\nclamp 32768\n", text)
        self.errors(DESIGN, POLICY, None, 2, [106], 5618, 810645716992, bits=10)
        self.puts(text, "1: 9216 -4960")
        tight = choice(TIGHT, POLICY)
        self.assertEqual([tight.report[key] for key in ("steps", "bits")] + [tight.errors.carry], [50, 11, 18])
        said = answer(GENERATE, d=third(TIGHT), p=POLICY)
        self.assertIn(b"\nwidth 29\n", said.written["r"])
        self.puts(said.written["c"].decode(), "1: 2713600 -2027058")

    def test_threshold(self):
        text = self.told(PUSHED, "100,391\n" * 2, "1,0\n" * 2, [10043781021696], multiplier=1, steps=1, bits=4, width=12, words=6, gap=296352743424)
        self.assertIn("\nclamp 32\n", text)
        self.errors(PUSHED, "100,391\n" * 2, "1,0\n" * 2, 1, [6], 18, 489626271744, bits=4)
        self.puts(text, "0: 32 0")

    def test_fine(self):
        text = self.told(FINE, FINE_POLICY, FINE_REFERENCE, [11113227878400], steps=1, bits=8, width=20, words=20, gap=236223201280)
        self.assertEqual([line for line in text.splitlines() if line.startswith(("clamp", "exps"))], ["clamp 1024", "exps 1 1 1 1 1"])
        self.errors(FINE, FINE_POLICY, FINE_REFERENCE, 1, [46, 32], 1570, 1040522936320, bits=8)
        self.puts(text, "1: 512 -308 -102")

    def test_motor(self):
        """With bounds that rest on what the gains leave, which other good gains than these were found for."""
        design, own = example("motor")
        wanted = [((17, 7, 19, 1353567293056), 46, 1045119123057, 290087014196), ((5, 3, 18, 139455873056), 42, 991825438215, 18119785728)]
        for (policy, reference), (numbers, width, violation, gap) in zip(MOTORS, wanted):
            policy = policy or own
            made = choice(design, policy, reference)
            bits = made.report["bits"]
            self.assertEqual((made.report["steps"], made.errors.carry, bits, made.errors.epsilon(bits)), numbers)
            c, bounds = program.made_of(made, model.exact_gains)
            self.assertEqual(c.w, width)
            self.assertAlmostEqual(bounds["violation"] / violation, 1, delta=1e-4)
            self.assertAlmostEqual(bounds["gap"] / gap, 1, delta=1e-4)


class Answers(unittest.TestCase):
    def refused(self, words, line, **files):
        said = answer(words, **files)
        self.assertEqual((said.status, said.line.decode(), said.written), (int(line.split()[0]), f"error {line}\n", {}))


class Refused(Answers):
    def test_too_many_steps(self):
        design = third(DESIGN.replace("den = 1\nviolation = 16\ngap = 1\n", "den = 1048576\nviolation = 1\ngap = 1048576\n"))
        self.refused(LEAN, "8 too-many-steps 110231", d=design, p=POLICY, q=FAR)
        made = choice(design, POLICY, REFERENCE).report
        self.assertEqual([made[key] for key in ("multiplier", "steps", "bits")], [3, 7326, 30])

    def test_too_wide_multipliers(self):
        """Of R above 2^42, whose steps would be too many, the quantity is told: at the second corner the last row's slack is 1 / 65536, and the plan costs nearly 2^27."""
        design = third(DESIGN.replace("stage = [[1, 0, 1]]", "stage = [[1, 0, 2147483647]]").replace("den = 1\nviolation = 16", "den = 1048576\nviolation = 1"))
        policy = "1,0\n65536,-49153\n"
        self.refused(GENERATE, "10 too-wide multiplier", d=design, p=policy)
        self.refused(LEAN, "10 too-wide multiplier", d=design, p=policy, q="1,0\n1,-1\n")
        second = design.replace("version = 3", "version = 2")
        for words in (GENERATE, LEAN):
            self.assertEqual(answer(words, d=second, p=policy, q="1,0\n1,-1\n").status, 8)

    def test_texts(self):
        text = answer(LEAN, d=third(DESIGN), p=POLICY, q=REFERENCE).written["c"].decode()
        refused = lambda old, new, line: self.refused(["solve", "c", "s"], f"11 controller 1 {line}", c=text.replace(old, new), s="1\n")
        refused("steps 1\n", "steps 65535\n", "line 4")
        refused("words 12\n", "words 6\n", "line 6")
        refused("exps 0 1 1\n", "exps 0 1 2\n", "line 7")
        # what was summed by weights is the greatest absolute sum
        refused("steps 1\n", "steps 10\n", "unsafe")
        self.assertEqual(answer(["solve", "c", "s"], c=text.replace("steps 1\n", "steps 9\n"), s="1\n").status, 0)

    def test_versions(self):
        """All but `list` take such texts."""
        made = answer(LEAN, d=third(DESIGN), p=POLICY, q=REFERENCE)
        text = made.written["c"].decode()
        self.assertEqual((made.status, text.split("\n")[0]), (0, "mpc-controller 3"))
        self.assertEqual(answer(["solve", "c", "s"], c=text, s="1\n").out, [b"128 -64\n"])
        self.assertEqual(answer(["loop", "d", "c", "s", "1"], d=DESIGN, c=text, s="1\n").out, [b"1 1 1 128 -64\n"])
        self.refused(["settle", "d", "c", "t"], "5 text 3 count 0", d=third(DESIGN), c=text, t="")
        self.refused(["list", "c", "l"], "11 controller 1 line 1", c=text)
        self.assertEqual(answer(["c", "c", "mpc", "t", "h"], c=text).status, 0)
        self.refused(LEAN, "5 text 1 range 1", d=DESIGN.replace("version = 1", "version = 4"), p=POLICY, q=REFERENCE)


class Commands(Answers):
    """The other commands that make controllers, or run them."""

    def test_stay(self):
        design = third(HELD.decode())
        said = answer(["stay", "d", "p", "c", "r", "f"], d=design, p=POLICY, f=FACES.decode())
        self.assertEqual((said.status, said.written), (0, answer(GENERATE, d=design, p=POLICY).written))
        made = choice(HELD.decode(), POLICY)
        r, k, s = (made.report[key] for key in ("multiplier", "steps", "step"))
        cost = made.errors.epsilon(made.report["bits"])
        of_steps = lambda exponent: -(-((2**exponent + 2**s) * 2**42 * r) // (k * (k + 3)))
        self.assertEqual(made.stated_violations, [of_steps(exponent) - -cost // r for exponent in made.exponents])

    def test_example_that_stays(self):
        """`tracking` stays by it under the same disturbances, in 12 steps for 43."""
        names = ("design.toml", "lean.csv", "reference.csv", "faces.csv", "disturbances.csv")
        texts = {name: (EXAMPLES / "tracking" / name).read_bytes() for name in names}
        texts["design.toml"] = texts["design.toml"].replace(b"\nversion = 1\n", b"\nversion = 3\n")
        said = program.answer(["lean", *names[:3], "c", "r", *names[3:]], texts.get, lambda name: True, model.gains)
        self.assertEqual((said.status, said.line), (0, b""))
        self.assertIn(b"\nsteps 12\nbits 17\n", said.written["r"])
        texts["disturbances.csv"] = b"-132,-94,0\n132,194,0\n"
        self.assertEqual(program.answer(["lean", *names[:3], "c", "r", *names[3:]], texts.get, lambda name: True, model.gains).status, 17)

    def test_lean_stay(self):
        design = third(HELD.decode())
        said = answer([*LEAN, "f"], d=design, p=POLICY, q=REFERENCE, f=FACES.decode())
        self.assertEqual((said.status, said.written), (0, answer(LEAN, d=design, p=POLICY, q=REFERENCE).written))
        made = choice(HELD.decode(), POLICY, REFERENCE)
        r, k = (made.report[key] for key in ("multiplier", "steps"))
        cost, target = made.errors.epsilon(made.report["bits"]), model.target_of(made.design, 2**40)
        rest = -(-target // 2) - -cost // (2 * r)
        self.assertEqual(made.stated_violations, [min(target, rest - -(2 ** (exponent + 42) * r) // (k * (k + 3))) for exponent in made.exponents])
        shifted = lambda most: answer([*LEAN, "f", "w"], d=design, p=POLICY, q=REFERENCE, f=FACES.decode(), w=f"0\n{most}\n")
        self.assertEqual([(it.status, it.line) for it in map(shifted, (1, 2))], [(0, b""), (17, b"error 17 no-stay 1 2\n")])

    def test_loop(self):
        made = answer(LEAN, d=third(COARSE), p=POLICY, q=REFERENCE).written["c"].decode()
        said = answer(["loop", "d", "c", "s", "2"], d=third(COARSE), c=made, s="1\n")
        c = control.read_controller(made.encode())
        self.assertEqual(said.out[0], b"1 1 1 4608 -2480\n")
        # of 1 - 2480 / 4608 the nearest is 0
        self.assertEqual(said.out[1], b"1 2 0 4608 %d\n" % control.run(c, [0])[0])
        self.assertEqual(control.turn_size(model.read_design(COARSE.encode()), c), 2 * (4608 + 9 * control.greatest_entry(c)) + 4608)

    def test_split(self):
        split = lambda policies: answer(["split", "d", "l", "p", "c", "r"], d=third(DESIGN), l="1,0\n", p=policies)
        said = split("1,0\n1,0\n8,-7\n8,-7\n")
        self.assertEqual(said.status, 0)
        text = said.written["c"].decode()
        self.assertEqual((text.count("mpc-controller 3\n"), said.written["r"].decode().count("mpc-report 3\n")), (2, 2))
        self.assertEqual(answer(["serve", "c", "s"], c=text, s="1\n").out, [b"9216 -4960\n"])
        last = split("none\n8,-7\n8,-7\n").written["c"].decode()
        self.assertEqual(last, "mpc-cells 1\n" + text[text.rindex("mpc-controller") :])
        self.refused(["serve", "c", "s"], "12 outside-box 1 0 1", c=last, s="0\n")

    def test_cells_of_both_machines(self):
        fast, plain = (answer(LEAN, d=design, p=POLICY, q=REFERENCE).written["c"].decode() for design in (third(DESIGN), DESIGN))
        low, high = fast.replace("\nhi 1\n", "\nhi 0\n"), plain.replace("\nlo 0\n", "\nlo 1\n")
        serve = lambda *cells: answer(["serve", "c", "s"], c=f"mpc-cells {len(cells)}\n{''.join(cells)}end\n", s="1\n0\n").out
        for cells in ((low, high), (high, low)):
            self.assertEqual(serve(*cells), [b"64 -32\n", b"128 0\n"])
        self.assertEqual(serve(fast, plain), [b"128 -64\n", b"128 0\n"])
        # the words of the other machine, and a line more
        for cells, line in ((low + high.replace("words 6", "words 12"), low.count("\n") + 7), (low.replace("exps 0 1 1\n", "") + high, 8)):
            self.refused(["serve", "c", "s"], f"11 controller 1 line {line}", c=f"mpc-cells 2\n{cells}end\n", s="1\n")


class Parts(unittest.TestCase):
    """What the worked rows don't tell apart."""

    def test_greatest_multipliers(self):
        c, made = SimpleNamespace(clamp=5, s=2, exps=[0, 2], m=2, nu=1, steps=2), []
        sums = Accelerated.after(c, lambda means: [sum(means)], lambda plan: [100, 100], lambda v: v, lambda *step: made.append(step))
        # 10 over 4 and over 1; means are (4 + 3 * 2) / 10 and (20 + 3 * 10) / 10
        self.assertEqual((made, sums), ([([0, 0], [0], [2, 10], [4, 20]), ([1, 5], [6], [2, 10], [10, 50])], [18]))

    def test_clamp_that_binds(self):
        text = answer(LEAN, d=third(COARSE), p=POLICY, q=REFERENCE).written["c"].decode().replace("clamp 2048\n", "clamp 200\n")
        # the third multiplier is 256, 400, 400: means of 0, 128, 184
        self.assertEqual(answer(["solve", "c", "s"], c=text, s="1\n").out, [b"4608 %d\n" % (2 * -256 + 3 * -272 + 4 * -279)])

    def test_absolute_sums(self):
        self.assertEqual(Accelerated.multiplier_sums(100, 3, [7, 0]), [200 + 4 * 7, 200, 200 * 9])
        c = control.read_controller(answer(LEAN, d=third(COARSE), p=POLICY, q=REFERENCE).written["c"])
        _, _, plan, rows, multipliers, sums = control.absolute_sums(c)
        self.assertEqual(multipliers, [4096 - 4 * (-v // 512) for v in rows] + [4096 * 9])
        self.assertEqual(sums, [9 * v for v in plan])

    def test_what_means_miss(self):
        column = [[Enclosure(4)], [Enclosure(-4)], [Enclosure(3, 1)]]
        missed = lambda s, exponents, rows: Accelerated.mean_errors(SimpleNamespace(g=rows, row_den=4), s, exponents)
        # 4 / 4 over 2^0, 2^1 and 2^2
        self.assertEqual(missed(2, [0, 1, 2], column), [2])
        self.assertEqual(missed(2, [2, 2, 2], column), [1])
        self.assertEqual(missed(0, [0, 0, 0], [*column[:2], [Enclosure(3, 2)]]), [4])

    def test_errors_of_the_gradient_count_more_often(self):
        """In each class: those of rounding and of radii, in epsilon and in the quantity."""
        rounded = FINE.replace("a = [[1048576]]\nb = [[1048576]]", "a = [[1048577]]\nb = [[1048573]]")
        for design in (DESIGN, rounded):
            d = model.read_design(design.encode())
            form = model.form_of(d)
            once, often = (model.Errors(d, form, 2**30, [0] * d.entries, carry) for carry in (1, 5))
            of_radii = d.entries * d.cost_den * once.by_radii(once.plan(0)) ** 2
            self.assertEqual(often.size - once.size, 4 * (once.twice**2 * 2**40 * once.first + of_radii))
            f, plan = 6, once.plan(6)
            rest = -(-(2**40 * once.top * d.rows * once.residual(plan)) // 2 ** (f + 1)) - -once.of_rows(plan) // d.limit_den
            of_radii = d.entries * d.cost_den * once.by_radii(plan) ** 2
            wanted = -(-(5 * once.twice * 2**40 * once.first) // 4**f) + -(-(5 * of_radii) // (2**40 * once.rho)) + rest
            self.assertEqual(often.epsilon(f), wanted)
            self.assertEqual(form.is_fine, design == rounded)
            self.assertEqual(of_radii > 2**40, form.is_fine)


class Weights(unittest.TestCase):
    def test_sums(self):
        for n in range(1, 60):
            sums = [Accelerated.total(k) for k in range(1, n + 1)]
            self.assertEqual(sums, [sum(k + 2 for k in range(most)) for most in range(1, n + 1)])
            self.assertEqual([Accelerated.mean_divisor(k) for k in range(n)], [2 * v for v in sums])
            # an error of the gradient counts by the sums, over the last
            self.assertEqual(Accelerated.carry(n), -(-Fraction(sum(sums), sums[-1]) // 1))

    def test_fewest_steps(self):
        for times in [*range(2000), 2**40, 2**40 + 1, 18 * 21, 18 * 21 + 1]:
            k = Accelerated.least_steps(times)
            self.assertGreaterEqual(k * (k + 3), times)
            self.assertTrue(k == 1 or (k - 1) * (k + 2) < times)


if __name__ == "__main__":
    unittest.main()
