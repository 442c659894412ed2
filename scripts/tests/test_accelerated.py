"""Designs, reports and controllers of version 3, of the accelerated machine: their numbers against worked rows of another program, what is said of them, and what doesn't take them. Their texts are
made by the independent model of the program."""
import contextlib
import functools
import io
import itertools
import os
import re
import subprocess
import unittest
import unittest.mock
from argparse import Namespace
from dataclasses import replace
from fractions import Fraction

from checks.fuzz import model, program
from scripts.common import c_costs, matching, sizes
from scripts.common.corners import cost_limit, steps_of
from scripts.common.design_text import design_of, read_design, text_of
from scripts.common.libraries import PACKAGES, Refusal, missing
from scripts.common.machines import Accelerated, Plain, accelerated_steps, plain_steps
from scripts.common.straight_costs import AcceleratedCosts
from scripts.common.strict_texts import strict_controller
from scripts.common.texts import controller_of, records_of, report_of, reports_of
from scripts.explain import explain

from .worked import EXAMPLES, FIRST, FIRST_LEAN_CONTROLLER, FIRST_POLICY, FIRST_REFERENCE, FIRST_TIGHT, LONG, TOP, as_command, folder_with

LACKING = missing(*PACKAGES)
if not LACKING:
    from scripts import cells, design, draft, faces, judge, staying
    from scripts.common.budget import Budget
    from scripts.common.models import Model
    from scripts.common.programs import Programs

LONG_POLICY, LONG_REFERENCE = "100,0,0\n8,-7,0\n", "1,0,0\n5,-3,-1\n"
# the first design with a violation target of 1: R 1, and K 3 in place of 5
COARSE = FIRST.replace("violation = 16", "violation = 1")
# and with a limit on both sides of the next state
HELD = FIRST.replace("final = [[4, 1]]", "final = [[4, 1], [-4, 1]]").replace("den = 1\nviolation = 16\ngap = 1", "den = 10\nviolation = 1\ngap = 10")
MASS = """period = 0.2
stages = 6
a = [[0.0, 1.0], [0.0, 0.0]]
b = [[0.0], [1.0]]
[[limit]]
name = "force"
input = [1.0]
bound = 1.0
least = -1.0
tolerance = 0.1
[cost]
input = [1.0]
rows = [{ state = [1.0, 0.5], weight = 2.0 }]
[box]
hi = [1.0, 0.5]
grid = 8
"""


def third(text: str) -> str:
    return text.replace("version = 1", "version = 3")


@functools.cache
def made(text: str, lean: bool = True) -> tuple[str, str, str]:
    """A design of version 3, its controller, a lean one or one of `generate`, and its report, by the model."""
    texts = {"d": third(text), "p": FIRST_POLICY, "q": FIRST_REFERENCE}
    words = ["lean", "d", "p", "q", "c", "r"] if lean else ["generate", "d", "p", "c", "r"]
    said = program.answer(words, lambda name: texts[name].encode(), lambda _: True, model.exact_gains)
    return texts["d"], said.written["c"].decode(), said.written["r"].decode()


def example(name: str, part: int = 1):
    """An example's design of version 3, with this part of its targets."""
    found = read_design(os.path.join(EXAMPLES, name, "design.toml"))
    return replace(found, version=3, target_den=part * found.target_den, gap=part * found.gap)


class Numbers(unittest.TestCase):
    def test_the_fewest_steps(self):
        for top in [*range(1, 400), 10**6, 10**6 + 1]:
            times = Fraction(top, 7)
            k = Accelerated.steps(times)
            self.assertTrue(k * (k + 3) >= 4 * times and (k == 1 or (k - 1) * (k + 2) < 4 * times), times)
            # without the fraction
            self.assertTrue(k <= accelerated_steps(Plain.steps(times)) and Plain.steps(times) <= plain_steps(k))
        self.assertEqual([accelerated_steps(k) for k in (1, 2, 100, 128, 340)], [1, 2, 19, 22, 36])
        self.assertEqual([plain_steps(k) for k in (1, 3, 22)], [1, 5, 138])

    def test_weights(self):
        for steps in range(1, 40):
            sums = [sum(k + 2 for k in range(count)) for count in range(1, steps + 1)]
            self.assertEqual((Accelerated.total(steps), Accelerated.carry(steps)), (sums[-1], -(-Fraction(sum(sums), sums[-1]) // 1)))
        self.assertEqual((Plain.total(9), Plain.carry(9)), (9, 1))

    def test_steps_of_the_examples(self):
        """As `lean` made them, with the examples' own plans, at their targets and at a quarter and a sixteenth of these."""
        for name, step, of_parts in (("antenna", 0, ((159, 36), (603, 142), (1993, 521))), ("kiln", 0, ((120, 31), (240, 90), (320, 208))), ("motor", 0, ((4, 5), (15, 22), (44, 77))),
                                     ("pmsm", 0, ((9, 8), (35, 34), (123, 129))), ("satellite", 0, ((3, 4), (11, 18), (33, 66))), ("wheel", 0, ((1, 2), (2, 7), (3, 19))),
                                     ("rendezvous", 4, ((2, 16), (8, 65), (29, 251))), ("tracking", 0, ((20, 12), (78, 51), (276, 193)))):
            for part, (bound, steps) in zip((1, 4, 16), of_parts):
                self.assertEqual(steps_of(example(name, part), step, bound, True), steps, (name, part))

    def test_errors(self):
        """How often errors of the gradient count, what these cost, and epsilon at the bits that are the fewest for the targets."""
        for text, bound, steps, exponents, carry, first, bits, epsilon in ((FIRST, 1, 1, [0, 1, 1], 1, 242, 6, 580357455872), (FIRST_TIGHT, 2, 18, [0, 1, 1], 7, 578, 13, 10535272448),
                                                                           (COARSE, 1, 3, [0, 1, 1], 2, 242, 9, 66454552576)):
            made = design_of(third(text))
            self.assertEqual(steps_of(made, 1, bound, True), steps)
            errors = sizes.Errors(made, sizes.form_of(made), bound, steps, 1, exponents)
            self.assertEqual((errors.carry, errors.first, errors.cost(bits)), (carry, first, epsilon))
            self.assertEqual(next(f for f in range(49) if errors.cost(f) <= cost_limit(made, bound, True)), bits)
            # where the exponents of rows aren't known, by what they are at least
            unknown = sizes.Errors(made, sizes.form_of(made), bound, steps, 1)
            self.assertTrue(unknown.cost(bits) >= epsilon and unknown.size >= errors.size)

    def test_errors_of_enclosures(self):
        made = design_of(third(LONG.replace("a = [[1048576]]\nb = [[1048576]]", "a = [[1048577]]\nb = [[1048573]]")))
        form = sizes.form_of(made)
        once, often = (sizes.Errors(made, form, 2**30, steps, 1, [1] * made.rows) for steps in (1, 12))
        self.assertEqual((form.fine, once.carry, often.carry), (True, 1, 5))
        of_radii = made.entries * made.cost_den * once.moved(0) ** 2
        self.assertEqual(often.size - once.size, 4 * (once.twice**2 * 2**40 * once.first + of_radii))
        plain = sizes.Errors(replace(made, version=2), form, 2**30)
        self.assertEqual(plain.carry, 1)
        self.assertLess(plain.first, once.first)

    def test_sizes(self):
        """R counts four times, and multipliers and their sums by weights may be the greatest."""
        made = design_of(third(FIRST))
        self.assertEqual([sizes.multiplier_size(made, 8), sizes.multiplier_size(design_of(FIRST), 8), sizes.multiplier_size(made, 1, 2**100)], [2**87, 2**85, 2**100])
        self.assertEqual((Plain.multiplier_sums(100, 3, [7, 0]), Accelerated.multiplier_sums(100, 3, [7, 0])), ([107, 100], [228, 200, 1800]))
        form = sizes.form_of(made)
        bounds = sizes.gain_bounds(made, form, 6)[1]
        few, many = (sizes.greatest_width(made, form, 1, 1, steps, 6, bounds) for steps in (1, 1000))
        self.assertEqual((many, many > few), (2 * 256 * Accelerated.total(1000), True))


class Texts(unittest.TestCase):
    def test_its_own(self):
        for text, lean in itertools.product((FIRST, COARSE, FIRST_TIGHT), (True, False)):
            found, controller, report = (reader(one) for reader, one in zip((design_of, controller_of, report_of), made(text, lean)))
            self.assertEqual((found.version, controller.version, report["version"], len(report["violations"]), report["lean"]), (3, 3, 3, 3, lean))
            self.assertIsNone(matching.report_difference(report, found))
            self.assertIsNone(matching.policy_difference(report, found, records_of(FIRST_POLICY), records_of(FIRST_REFERENCE) if lean else None))
            self.assertIsNone(matching.controller_difference(controller, found))
            self.assertIsNone(matching.made_difference(controller, report))

    def test_others(self):
        found, controller, report = (reader(one) for reader, one in zip((design_of, controller_of, report_of), made(COARSE)))
        self.assertEqual(matching.report_difference(report, replace(found, version=2)), "its version is 3, and that of the design 2")
        self.assertEqual(matching.report_difference(report | {"words": 6}, found), "its number of words is 6, and that of the design 12")
        self.assertEqual(matching.report_difference(report | {"steps": 5}, found), "its K, at R 1 and step 2^-1, is 5, and that of the design 3")
        self.assertEqual(matching.controller_difference(controller, replace(found, version=2)), "its version is 3, and that of the design 2")

    def test_no_c(self):
        with self.assertRaisesRegex(Refusal, "^this takes controllers of versions 1 and 2, and not of version 3, the accelerated machine's$"):
            strict_controller(made(FIRST)[1])


class Explained(unittest.TestCase):
    def told(self, **files):
        return list(explain(files))

    def test_report(self):
        found, controller, report = made(COARSE)
        told = self.told(report=report, design=found, policy=FIRST_POLICY, reference=FIRST_REFERENCE, controller=controller)
        for words in (
            "every run takes K = 3 steps, a step is 2^-1 or more, plans and gains have f = 9 fraction bits",
            "the machine is accelerated (version 3): the plans count by the weights 2 to 4, together 9, over which the sums of `solve` are averaged",
            "no product and no partial sum leaves a signed word of 22 bits; 12 words hold all that changes",
            "K = 3, the least with K (K + 3) at least 2^(s+3) R over 15/16 of the target = 16 * 1 / 0.9375 = 17.07; in version 2 K = 5",
        ):
            self.assertIn(words, told)
        self.assertIn("the plans count by the weight 2, over which", "\n".join(self.told(report=made(FIRST)[2])))
        words = self.told(report=made(FIRST, False)[2], design=found.replace("violation = 1\n", "violation = 16\n"), policy=FIRST_POLICY)
        self.assertIn("K = 3, the least with K (K + 3) at least 2^(s+4) R / target = 32 * 8 / 16 = 16; in version 2 K = 4", words)

    def test_controller(self):
        controller = made(COARSE)[1]
        told = self.told(controller=controller)
        # multipliers to 2 * 2048 and their sums to 9 times that, means to 2048
        self.assertIn("multipliers 14, their sums by weights 17, means 13, plan", next(line for line in told if line.startswith("signed words")))
        found = controller_of(controller)
        costs = AcceleratedCosts(found)
        self.assertEqual((costs.step["accelerated mean by a reciprocal"], costs.step["accelerated reciprocal"]), (3, 1))
        self.assertEqual(c_costs.accelerated_cycles(found, 3), costs.cycles)
        self.assertRegex("\n".join(told), rf"as C \(./mpc c\): no tables; .*\n.*on a Cortex-M4 about {c_costs.rounded(costs.cycles)} cycles a run, .*; about [0-9,]+ bytes of flash, {costs.ram} of RAM")
        # how means are made rests on how great multipliers can be, and on K
        kinds = lambda **changed: [AcceleratedCosts(replace(found, **changed)).mean(i) for i in range(3)]
        once, twice, divided = "mean by a reciprocal", "mean by a reciprocal, in two rounds", "mean by a division"
        self.assertEqual(kinds(clamp=2**29), [once, twice, twice])
        self.assertEqual(kinds(clamp=2**55), [twice, divided, divided])
        self.assertEqual(kinds(steps=46338) + kinds(steps=46339), 3 * [once] + 3 * [divided])
        # a gain of 1 is a sum
        one = AcceleratedCosts(controller_of(controller.replace("W 128 -128 128", "W 1 -128 128").replace("exps 0 1 1", "exps 1 1 1")))
        self.assertEqual((one.step["entry's sum"], one.cycles > 0, one.flash > 0, one.ram > 0), (1, True, True, True))
        # of one that `c` doesn't write
        wide = "\n".join(self.told(controller=controller.replace("bits 9 0 1 22", "bits 9 0 1 65")))
        self.assertRegex(wide, rf"an estimate, since no C is written of it: each row takes {c_costs.ACCELERATED_ROW} cycles more")
        self.assertFalse("as C" in wide or "flash" in wide)

    def test_what_the_plain_machine_would_take(self):
        found, controller, report = made(COARSE)
        told = lambda **files: [line for line in self.told(**files) if line.startswith("version ")]
        self.assertEqual(told(report=report, design=found), ["version 2 would take K = 5"])
        self.assertEqual(told(report=report), ["version 2 would take at most 5 steps"])
        (line,) = told(report=report, design=found, controller=controller)
        plain = c_costs.plain_cycles(controller_of(controller), 5)
        self.assertTrue(line.startswith(f"version 2 would take K = 5, about {c_costs.rounded(plain)} cycles; version 3 takes less from K = "), line)
        # from there on it does, by as many cycles a step
        pays, ratio = int(re.findall(r"K = (\d+)", line)[1]), c_costs.accelerated_cycles(controller_of(controller), 3) / 3 / (plain / 5)
        self.assertTrue(pays > ratio * accelerated_steps(pays) and pays - 1 <= ratio * accelerated_steps(pays - 1))

    def test_what_the_accelerated_machine_would_take(self):
        """Of a controller of many steps; of one of few nothing is said."""
        report = lambda text, steps: text.replace("steps 1\n", f"steps {steps}\n").replace("steps 4\n", f"steps {steps}\n")
        lean = "mpc-report 1\nmargin 8192 65536\nexcess 18432 65536\nmultiplier 1\nstep 1\nsteps 1\nbits 6\nwidth 16\nwords 6\nviolation 1 1099511627776\ngap 1 1099511627776\nundercut 1 1099511627776\nend\n"
        told = lambda text: [line for line in self.told(report=text) if line.startswith("version ")]
        for own in (lean, lean.replace("excess 18432 65536", "cost 1")):
            self.assertEqual((told(report(own, 340)), told(report(own, 100))), (["version 3 would take at most 36 steps (docs/SPEED.md)"], []))
        # R 377 of the tight design, whose K is 16086, and of version 3 exactly
        tight = report(lean, 16086).replace("multiplier 1\n", "multiplier 377\n")
        words = self.told(report=tight, design=FIRST_TIGHT)
        self.assertIn(f"version 3 would take K = {steps_of(design_of(third(FIRST_TIGHT)), 1, 377, True)} (docs/SPEED.md)", words)
        # of a controller beside it, cycles
        controller = FIRST_LEAN_CONTROLLER.replace("steps 1\n", "steps 20000\n").replace("bits 6 0 1 16", "bits 6 0 1 30")
        (line,) = [line for line in self.told(controller=controller) if line.startswith("version ")]
        self.assertRegex(line, r"^version 3 would take at most 282 steps, about [0-9,]+ cycles by an estimate; version 3 takes less from K = \d+ of version 2 on")
        # of few steps where it takes fewer cycles
        few = controller.replace("steps 20000\n", "steps 50\n")
        saved = lambda told: any(line.startswith("version 3") for line in told)
        self.assertFalse(saved(self.told(controller=few)))
        with unittest.mock.patch("scripts.explain.saves", lambda _: True):
            self.assertTrue(saved(self.told(controller=few)))
        self.assertTrue(c_costs.saves(controller_of(controller)))
        self.assertFalse(c_costs.saves(controller_of(few)))


@unittest.skipIf(LACKING, f"missing: {', '.join(LACKING)}")
class Made(unittest.TestCase):
    def test_drafts(self):
        """By the option, whatever version the model is of, and by the model's own."""
        _, paths = folder_with(self, plain=MASS, own="version = 3\n" + MASS, bad="version = 4\n" + MASS)
        run = lambda *words: subprocess.run([*as_command("draft"), *words], capture_output=True, text=True)
        told = [run(paths["plain"], "--accelerated"), run(paths["own"]), run(paths["plain"], "--lean")]
        self.assertEqual([got.returncode for got in told], [0, 0, 0])
        first, second, third_ = (design_of(got.stdout) for got in told)
        self.assertEqual((first.version, first == second, third_.version), (3, True, 1))
        # of the step that `--lean` chooses
        step = draft.lean_step(draft.draft(Model("version = 3\n" + MASS)))
        self.assertTrue(0.97 < draft.curvature(first) / 2**step <= 1)
        self.assertIn("version: version is 1, 2 or 3, not 4", run(paths["bad"]).stderr)
        with self.assertRaisesRegex(ValueError, "version 3 has at most 6 states and 30 stages"):
            Model("version = 3\n" + MASS.replace("stages = 6", "stages = 31"))

    def test_policies(self):
        _, paths = folder_with(self, d=third(COARSE))
        got = subprocess.run([*as_command("policy"), paths["d"], "--lean", paths["d"] + "-reference", "--turns", "0"], capture_output=True, text=True)
        self.assertEqual(got.returncode, 0, got.stderr)
        self.assertIn("R 1, curvature", got.stderr)
        self.assertIn("so step 1 and K about 3\n", got.stderr)

    def test_faces(self):
        """They are found by no less than what the program tests them with, and it takes them."""
        text = third(HELD)
        found, texts, read = design_of(text), {"d": text, "p": FIRST_POLICY, "q": FIRST_REFERENCE}, model.read_design(text.encode())
        for words in (["lean", "d", "p", "q", "c", "r", "f"], ["stay", "d", "p", "c", "r", "f"]):
            plans = [name for name in words if name in "pq"]
            excess = faces.excesses(found, *(records_of(texts[name]) for name in plans))
            stated = model.choose(read, *(model.read_policy(texts[name].encode(), read) for name in plans)).stated_violations
            for least, most in zip(stated, excess):
                self.assertTrue(0.9 * most < least <= most, (words, least, most))
            texts["f"] = faces.records_text(faces.find(found, excess, [0], [0]))
            said = program.answer(words, lambda name: texts[name].encode(), lambda _: True, model.exact_gains)
            self.assertEqual((said.status, said.written["c"][:17]), (0, b"mpc-controller 3\n"))

    def test_about_how_many_steps(self):
        for generate in (False, True):
            plain, fast = (staying.steps_of(replace(example("antenna"), version=version), generate) for version in (2, 3))
            self.assertTrue(0 <= Accelerated.steps(Fraction(plain)) - fast < 1)
        share = lambda version: staying.share_of(replace(example("motor"), version=version), 10, 0.005, 100)
        # eight rows
        self.assertAlmostEqual(share(3) - share(2), 10 * c_costs.about_means(8) / (0.005 * 100e6))

    def test_cells(self):
        """The K of each cell's policy is the one that `split` prints, and about the root of the plain machine's is guessed."""
        found, cuts = example("motor"), [[0], []]
        with contextlib.redirect_stderr(io.StringIO()):
            tried = cells.each_made(found, cuts, Budget(60.0))
        texts = {"d": text_of(found), "l": cells.cuts_text(cuts), "p": cells.policies_text(tried)}
        said = program.answer(["split", "d", "l", "p", "c", "r"], lambda name: texts[name].encode(), lambda _: True, model.exact_gains)
        self.assertEqual((said.status, said.written["c"].count(b"mpc-controller 3\n")), (0, 2))
        self.assertEqual([report_of(report)["steps"] for report in reports_of(said.written["r"].decode())], [cell.steps for cell in tried])
        self.assertEqual(Plain.about(340.0), 340.0)
        for times in (0.0, 1.0, 340.0, 1e9):
            self.assertTrue(0 <= Accelerated.steps(Fraction(times)) - Accelerated.about(times) < 1)
        plain, fast = (cells.Guesses(replace(found, version=version)).worth(found, cuts)[1] for version in (2, 3))
        self.assertEqual(fast, Accelerated.about(plain))
        told = list(explain({"cells": said.written["c"].decode(), "report": said.written["r"].decode(), "design": texts["d"]}))
        self.assertEqual(len([line for line in told if line.startswith("the machine is accelerated (version 3)")]), 2)

    def test_judged(self):
        """By the denominators of `solve`'s lines: 4608 is 9 times 2^9."""
        found, controller, _ = made(COARSE)
        texts = {"c": controller, "s": "1\n0\n"}
        said = program.answer(["solve", "c", "s"], lambda name: texts[name].encode(), lambda _: True, model.exact_gains)
        lines = b"".join(said.out).decode().splitlines()
        self.assertEqual(lines[0], "4608 -2480")
        (excess, row, *_), (least, *_) = judge.judge(design_of(found), [[1], [0]], lines)
        # 1 - 2480 / 4608 less 1/4, over the whole bound of the last row
        self.assertEqual((excess, row, least), (1 - Fraction(2480, 4608) - Fraction(1, 4), 3, Fraction(-1, 4)))
        self.assertIsNotNone(Programs(design_of(found)).best([1.0]))


@unittest.skipIf(LACKING, f"missing: {', '.join(LACKING)}")
class Refused(unittest.TestCase):
    """What takes versions 1 and 2 alone says so."""

    def test_commands(self):
        _, paths = folder_with(self, c=made(FIRST)[1], n=MASS)
        out = os.path.dirname(paths["c"])
        for words in (["c_source", paths["c"], "--name", "mpc", "--out", out], ["nearest", paths["c"], "mpc", out]):
            got = subprocess.run([*as_command(words[0]), *words[1:]], capture_output=True, text=True)
            with self.subTest(words=words[0]):
                self.assertEqual((got.returncode, got.stdout), (1, ""), got.stderr)
                self.assertIn("this takes controllers of versions 1 and 2, and not of version 3, the accelerated machine's\n", got.stderr)
        got = subprocess.run([*as_command("design"), paths["n"], out + "-out", "--accelerated", "--plain"], capture_output=True, text=True)
        self.assertIn("not allowed with argument", got.stderr)
        self.assertEqual(sorted(os.listdir(out)), ["c", "n"])


@unittest.skipIf(LACKING, f"missing: {', '.join(LACKING)}")
class WholeWay(unittest.TestCase):
    def test_what_is_run(self):
        folder, _ = folder_with(self, **{"design.toml": third(COARSE)})
        steps, ran = design.Steps(folder), []
        given = Namespace(generate=False, accelerated=True, plain=False, gap=0.1)
        with unittest.mock.patch.object(design.Steps, "run", lambda _, *words, to=None: ran.append([os.path.basename(word) for word in words]) or design.Step(0, "")):
            design.make(steps, "model.toml", given, False)
        self.assertEqual(ran, [["draft", "model.toml", "design.toml", "--gap", "0.1", "--accelerated"], ["policy", "design.toml", "policy.csv", "--lean", "reference.csv", "--turns", "0"],
                               ["lean", "design.toml", "policy.csv", "reference.csv", "controller.txt", "report.txt"]])
        with unittest.mock.patch.object(design.Steps, "run", lambda _, *words, to=None: ran.append([os.path.basename(word) for word in words]) or design.Step(0, "")):
            design.make(steps, "model.toml", given, True)
        self.assertEqual(ran[5:], [["faces", "design.toml", "policy.csv", "faces.csv", "--lean", "reference.csv", "--bears", "disturbances.csv"],
                                   ["lean", "design.toml", "policy.csv", "reference.csv", "controller.txt", "report.txt", "faces.csv", "disturbances.csv"]])
        given.generate, ran = True, []
        with unittest.mock.patch.object(design.Steps, "run", lambda _, *words, to=None: ran.append([os.path.basename(word) for word in words]) or design.Step(0, "")):
            design.make(steps, "model.toml", given, True)
        self.assertEqual(ran, [["draft", "model.toml", "design.toml", "--gap", "0.1", "--accelerated"], ["policy", "design.toml", "policy.csv", "--turns", "0"],
                               ["faces", "design.toml", "policy.csv", "faces.csv", "--bears", "disturbances.csv"],
                               ["stay", "design.toml", "policy.csv", "controller.txt", "report.txt", "faces.csv", "disturbances.csv"]])

    @unittest.skipUnless(os.path.exists(os.path.join(TOP, "crates/mpc_cli/out/mpc_cli")), "the program isn't built")
    def test_from_a_model_to_a_page(self):
        folder, paths = folder_with(self, model=MASS)
        made = os.path.join(folder, "made")
        words = ["--accelerated", "--as-it-is", "--turns", "20", "--states", "4", "--random", "1"]
        got = subprocess.run([os.path.join(TOP, "mpc"), "design", paths["model"], made, *words], capture_output=True, text=True)
        self.assertEqual((got.returncode, got.stderr), (0, ""), got.stdout)
        self.assertEqual(sorted(os.listdir(made)), sorted({*design.MADE, *design.SETTLES} - {"fitted.toml"}))
        with open(os.path.join(made, "controller.txt"), encoding="ascii") as file:
            self.assertEqual(file.readline(), "mpc-controller 3\n")
        with open(os.path.join(made, "report.html"), encoding="utf-8") as file:
            page = file.read().split("<pre", 1)[0]
        self.assertRegex(page, "<li>the machine is accelerated(.|\n)*<li>version 2 would take K = [0-9]+, about")
        self.assertIn("from then on, for ever: ", got.stdout)
        with open(os.path.join(made, "judged.txt"), encoding="utf-8") as file:
            self.assertRegex(file.read(), "at 8 states(.|\n)*of what is printed that is [0-9.]+ % of the violation")


if __name__ == "__main__":
    unittest.main()
