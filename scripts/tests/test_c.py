"""The C of controllers: each tier of words in both versions beside the machine, what these trials see of a changed number, and the command's refusals."""
import collections
import contextlib
import io
import os
import re
import shutil
import subprocess
import tempfile
import unittest
import unittest.mock

from checks.fuzz import control, model
from scripts import c_source
from scripts.common import c_costs, straight_costs
from scripts.common.c_text import TWO_WORDS, CText
from scripts.common.c_words import LONG, NARROW, PARTS, WIDE, Form, Sums, parts_fit
from scripts.common.libraries import Refusal, answered
from scripts.common.strict_texts import absolute_sums, safe_controller, strict_controller, strict_report
from scripts.common.texts import records_text

from . import c_trials
from .controllers import random_controller, run, text_of
from .worked import EXAMPLES, FIRST, FIRST_CONTROLLER, FIRST_REPORT, SECOND, SECOND_CONTROLLER, SECOND_JSON, SECOND_REPORT, SIX, TOP, folder_with

PROGRAM = os.path.join(TOP, "crates", "mpc_cli", "out", "mpc_cli")
NO_COMPILER = f"no {c_trials.COMPILER} here: apt-get install gcc"
HAS_COMPILER = shutil.which(c_trials.COMPILER) is not None
# controllers of each tier, by the numbers that they are made from
SEEDS = [12, 1191, 3204, 151, 18, 96, 1300, 23, 2426, 3, 34, 707, 61, 31, 0, 53, 110, 203, 2, 158, 115, 26, 5]
# the same with so few fraction bits that a sum's last unit counts
FINE_SEEDS = [177, 386, 1782]


def tier_of(sums):
    return (sums.tier, sums.coefficient_parts, sums.variable_parts)


@unittest.skipUnless(HAS_COMPILER, NO_COMPILER)
class Trials(unittest.TestCase):
    """Steps and runs beside the machine, under sanitizers, and again with every number of the C changed by 1."""

    @classmethod
    def setUpClass(cls):
        cls.told = {}
        for seed in SEEDS + FINE_SEEDS:
            with tempfile.TemporaryDirectory() as folder:
                cls.told[seed] = c_trials.trial(random_controller(seed), folder, count=3000 if seed in FINE_SEEDS else 150)

    def test_every_changed_number_is_seen_or_harmless(self):
        self.assertEqual({seed: told.missed for seed, told in self.told.items() if told.missed}, {})

    def test_the_last_unit_of_a_sum_is_seen(self):
        for seed in FINE_SEEDS:
            self.assertEqual([why for why in self.told[seed].harmless if why.startswith("1 more")], [], seed)

    def test_most_are_seen(self):
        counts, harmless = sum(told.count for told in self.told.values()), collections.Counter()
        for told in self.told.values():
            harmless.update(told.harmless)
        self.assertLess(sum(harmless.values()), counts / 10)
        print(f"\nC of {len(self.told)} controllers: {counts} numbers changed by 1, {counts - sum(harmless.values())} seen; harmless: " + "; ".join(f"{why} {n}" for why, n in sorted(harmless.items())))

    def test_every_tier_is_tried_in_both_versions(self):
        forms = [Form(random_controller(seed)) for seed in SEEDS + FINE_SEEDS]
        for version in (1, 2):
            some = [form for form in forms if form.controller.version == version]
            entries, rows = {tier_of(form.entry_sums) for form in some}, {tier_of(form.row_sums) for form in some}
            self.assertLessEqual({(NARROW, 1, 1), (PARTS, 1, 2), (PARTS, 2, 2), (WIDE, 1, 1)}, entries)
            self.assertLessEqual({(NARROW, 1, 1), (LONG, 1, 1), (PARTS, 1, 2), (PARTS, 2, 2), (WIDE, 1, 1)}, rows)
            self.assertEqual({form.is_wide for form in some}, {True, False})
        self.assertIn((PARTS, 2, 1), {tier_of(form.entry_sums) for form in forms} & {tier_of(form.row_sums) for form in forms})
        self.assertTrue(any(not form.rows for form in forms) and any(form.left_out for form in forms))

    def test_two_words(self):
        begin = TWO_WORDS.replace("NAME", "mpc")
        source, places = c_trials.changeable(begin, "static mpc_wide mpc_of(")
        with tempfile.TemporaryDirectory() as folder:
            c_trials.write(folder, "two_words.c", source)
            program = os.path.join(folder, "two_words")
            flags = ["-std=gnu99", "-w", "-O1", "-fsanitize=undefined", "-fsanitize-undefined-trap-on-error", f"-DNUMBERS={len(places)}", f"-I{folder}"]
            subprocess.run([c_trials.COMPILER, *flags, os.path.join(c_trials.HERE, "c_two_words.c"), "-o", program], check=True)
            right, *missed = subprocess.run([program], capture_output=True, text=True, check=True).stdout.split()
        self.assertEqual((right, [places[int(place)] for place in missed], len(places) > 30), ("right", [], True))


@unittest.skipUnless(HAS_COMPILER, NO_COMPILER)
@unittest.skipUnless(os.path.exists(PROGRAM), "the program isn't built")
class Examples(unittest.TestCase):
    """The examples' controllers as the program makes them, and what it prints."""

    def controller(self, name):
        folder, _ = folder_with(self)
        paths = [os.path.join(EXAMPLES, name, part) for part in ("design.toml", "policy.csv")] + [os.path.join(folder, part) for part in ("controller", "report")]
        subprocess.run([PROGRAM, "generate", *paths], check=True)
        with open(paths[2], encoding="ascii") as file:
            return folder, safe_controller(file.read())

    def test_as_solve(self):
        for name in ("first", "motor", "pmsm", "satellite", "wheel", "antenna"):
            folder, c = self.controller(name)
            states = [c.lo, c.hi, [(3 * low + 5 * high) // 8 for low, high in zip(c.lo, c.hi)]]
            with open(os.path.join(folder, "states"), "w", encoding="ascii") as file:
                file.write(records_text(states))
            told = subprocess.run([PROGRAM, "solve", os.path.join(folder, "controller"), os.path.join(folder, "states")], check=True, capture_output=True, text=True).stdout
            self.assertEqual([[int(v) for v in line.split()[1:]] for line in told.splitlines()], [run(c, state) for state in states], name)

    def test_changed_numbers_of_tables(self):
        for name in ("first", "motor", "pmsm", "satellite", "wheel"):
            folder, c = self.controller(name)
            missed = c_trials.trial(c, folder, count=100, runs=2).missed
            self.assertEqual([place for place in missed if not place.startswith("number")], [], name)

    def test_of_more_than_64_bits(self):
        for name in ("antenna", "rendezvous"):
            folder, c = self.controller(name)
            c_trials.trial(c, folder, count=20, runs=0, changes=False)


class Words(unittest.TestCase):
    def test_a_small_negative_number_has_a_great_low_part(self):
        # 2^32 times 2^31 - 1, the low part of -1 cut at bit 31, twice: the sum of the low parts needs 64 bits and a sign
        rows, reach = [[2**31 - 1] * 3], [1, 1, 2**40]
        self.assertFalse(parts_fit(rows, reach, [0], 40, Sums(PARTS, 1, 2, 31)))
        self.assertTrue(parts_fit(rows, reach, [0], 40, Sums(PARTS, 1, 2, 30)))

    def test_no_sum_is_above_what_is_printed(self):
        for seed in range(300):
            c = random_controller(seed)
            if c is not None:
                self.assertLessEqual(Form(c).greatest, max(max(sums) for sums in absolute_sums(c)), seed)

    def test_a_coefficient_of_64_bits_is_refused(self):
        c = next(c for c in map(random_controller, range(100)) if c is not None)
        c.P[0][0], c.lo[0], c.hi[0], c.width = 2**63, 0, 1, 128
        with self.assertRaisesRegex(Refusal, "a coefficient of 64 bits and a sign"):
            CText("mpc", Form(c)).source()


class Costs(unittest.TestCase):
    def test_first(self):
        # three rows of which two share products: 16 + 8 + 8 bytes of multipliers and plan, 8 + 16 + 8 of bases, 8 of sums
        costs = c_costs.Costs(safe_controller(FIRST_CONTROLLER))
        self.assertEqual((costs.ram, costs.text.row_length()), (56, 1))
        told = "\n".join(c_costs.c_words(safe_controller(FIRST_CONTROLLER), 0.001, 100))
        self.assertIn("as C (./mpc c): no tables; 4 products a step, shared by 1 pair of rows\non a Cortex-M4 about ", told)
        self.assertIn("% of a stage of 0.001 s; about ", told)
        wide = safe_controller(FIRST_CONTROLLER)
        wide.width = 65
        told = next(c_costs.c_words(wide, 0.001, 100))
        self.assertEqual(told, "as C with tables (./mpc c .. --out): sums of entries and of rows 32 x 32 bits into 64; 4 products a step, shared by 1 pair of rows")

    def test_each_step_costs_as_much(self):
        c = safe_controller(FIRST_CONTROLLER)
        costs = c_costs.Costs(c)
        few, step = costs.cycles, costs.step_cycles()
        c.steps = 4000
        self.assertAlmostEqual(c_costs.Costs(c).cycles - few, 3996 * step, delta=1)

    def test_what_is_no_c(self):
        c = safe_controller(FIRST_CONTROLLER)
        c.P[0][0], c.width = 2**63, 80
        self.assertEqual(list(c_costs.c_words(c, None, 100)), ["no C can be written of it: a coefficient of 64 bits and a sign: the C has coefficients of up to 63"])


class StraightCosts(unittest.TestCase):
    def costs(self, **changed):
        c = safe_controller(FIRST_CONTROLLER)
        for name, value in changed.items():
            setattr(c, name, value)
        return straight_costs.StraightCosts(c)

    def test_each_step_costs_as_much(self):
        cycles = [self.costs(steps=steps).cycles for steps in (4, 400, 796)]
        self.assertAlmostEqual(cycles[2] - cycles[1], cycles[1] - cycles[0], delta=1)
        self.assertGreater(cycles[1], cycles[0] + 396 * 20)

    def test_rows_that_no_state_binds_are_gone(self):
        """The plan is -(1024 x + 256 (l - l' + l'')) / 2^11 over 2^10, with x from 0 to 2^10 and multipliers up to 2^15: rows 1 and 2 bind beyond what it is without them."""
        costs = self.costs()
        self.assertEqual((costs.rows.left, costs.rows.firsts), ([0, 1, 2], [0]))
        # at bounds of 40 no row binds, whatever the multipliers
        far = self.costs(b=[40 << 10] * 3)
        self.assertEqual((far.rows.left, far.rows.firsts), ([], []))
        self.assertLess(far.cycles, costs.cycles)
        self.assertEqual(sum(far.step.values()), far.step["entry"])
        # the third alone binds, and then its multiplier lets the plan reach the second
        third = self.costs(b=[40 << 10, 1 << 10, 256])
        self.assertEqual((third.rows.left, third.rows.firsts), ([1, 2], []))

    def test_one_step_meets_no_multiplier(self):
        self.assertEqual(self.costs(steps=1).rows.left, [])
        self.assertEqual(list(c_costs.c_words(self.costs(steps=1).c, None, 100))[0], "as C (./mpc c): no tables; 0 products a step")

    def test_kinds_of_products(self):
        told = [straight_costs.product(factor, False) for factor in (1, -256, -257, 65535, 65536, 2**31 - 1)]
        self.assertEqual(told, [["sum"], ["product"], ["product, long factor"], ["product"], ["product, long factor"], ["product, long factor"]])
        # 1001010101b has five digits, and one more is none of shifts
        told = [straight_costs.product(factor, True) for factor in (-1, 2, 7, 0b1001010101, 0b101001010101)]
        self.assertEqual(told, [["sum of 64 bits"], ["digit of 64 bits"], ["digit of 64 bits"] * 2, ["digit of 64 bits"] * 5, ["product of 64 bits"]])
        self.assertEqual(straight_costs.product(2**31, False), ["digit of 64 bits"])


class Texts(unittest.TestCase):
    def line_of(self, text):
        """The line at which the strict reader refuses a text, 0 where it doesn't, 'unsafe' where its sums don't fit."""
        try:
            safe_controller(text)
            return 0
        except Refusal as why:
            found = re.match(r"line (\d+):", str(why))
            return int(found[1]) if found else "unsafe"

    def test_refused_at_the_line_of_the_independent_model(self):
        texts = [(FIRST_CONTROLLER, 1), (SECOND_CONTROLLER, 1), (text_of(random_controller(12)), 3), (text_of(random_controller(5)), 5)]
        tried = collections.Counter()
        for text, apart in texts:
            for at in range(0, len(text) + 1, apart):
                for change in (text[:at], text[:at] + text[at + 1 :], text[:at] + "0" + text[at:], text[:at] + "-" + text[at + 1 :], text[:at] + " " + text[at:], text[:at] + "\n" + text[at:],
                               text[:at] + "9" + text[at + 1 :], text[:at] + "\r" + text[at:]):
                    line = self.line_of(change)
                    try:
                        control.read_controller(change.encode())
                        expected = 0
                    except model.Refused as refused:
                        expected = "unsafe" if refused.args[1] == "unsafe" else refused.args[2]
                    tried[expected] += 1
                    self.assertEqual(line, expected, change)
        self.assertTrue(len(tried) > 20 and tried[0] > 20 and tried["unsafe"] > 20)

    def test_numbers_of_128_bits(self):
        for number, holds in ((2**127 - 1, True), (-(2**127), True), (2**127, False), (-(2**127) - 1, False)):
            text = FIRST_CONTROLLER.replace("E 1024", f"E {number}").replace("lo 0\nhi 1", "lo 0\nhi 0")
            if holds:
                self.assertEqual(strict_controller(text).E[2], [number])
            else:
                self.assertEqual(self.line_of(text), 17)

    def test_reports(self):
        for text, rows in ((FIRST_REPORT, 3), (SECOND_REPORT, 3), (SECOND_JSON, 3)):
            strict_report(text, rows)
            for at in range(len(text)):
                for change in (text[:at], text[:at] + text[at + 1 :], text[:at] + "-" + text[at:], text[:at] + " " + text[at:]):
                    if change.splitlines() and text.splitlines() and self.changes_a_number(text, change):
                        continue
                    with self.assertRaises(Refusal, msg=change):
                        strict_report(change, rows)

    def test_reports_of_lean_controllers(self):
        lean = FIRST_REPORT.replace("cost 1\n", "excess 65536 65536\n")
        strict_report(lean, 3)
        strict_report(SECOND_JSON.replace('"cost":"1","gap":"438095052800",', '"excess":"65536","gap":"438095052800",'), 3)
        for change in (lean.replace("65536 65536", "65536"), lean.replace("excess", "cost"), lean.replace("multiplier", "excess 1 65536\nmultiplier")):
            with self.assertRaises(Refusal, msg=change):
                strict_report(change, 3)

    def changes_a_number(self, text, change):
        """Whether only the digits of a number that a report may have are others."""
        shape = lambda t: re.sub(r"\b(0|[1-9][0-9]*)\b", "#", t)
        scales = lambda t: re.findall(r" (65536|1099511627776)\n", t)
        heads = lambda t: re.findall(r"mpc-report \d+|violation \d+ \d+ |\"version\":\"\d+\"", t)
        return shape(text) == shape(change) and scales(text) == scales(change) and [h.split()[:2] for h in heads(text)] == [h.split()[:2] for h in heads(change)]


class Command(unittest.TestCase):
    """The command: what it writes, and that it writes nothing where it refuses."""

    def told(self, *words, status=1):
        """What it says on standard error, with this exit status: `answered` is how every script ends."""
        with unittest.mock.patch("sys.argv", ["c_source.py", *words]), contextlib.redirect_stderr(io.StringIO()) as told:
            got = answered(c_source.main)
        self.assertEqual(got, status, told.getvalue())
        return told.getvalue()

    def files(self, **files):
        folder, paths = folder_with(self, controller=FIRST_CONTROLLER, report=FIRST_REPORT, design=FIRST, **files)
        os.mkdir(os.path.join(folder, "out"))
        return os.path.join(folder, "out"), paths

    def refused(self, why, *words, out, left=(), status=1):
        self.assertIn(why, self.told(*words, "--out", out, status=status))
        self.assertEqual(sorted(os.listdir(out)), sorted(left))

    def test_launcher(self):
        """By the launcher, as a user does."""
        out, paths = self.files()
        command = [os.path.join(TOP, "mpc"), "c", paths["controller"], "--name", "first", "--out"]
        subprocess.run([*command, out], check=True)
        got = subprocess.run([*command, os.path.join(out, "none")], capture_output=True, text=True)
        self.assertEqual((got.returncode, got.stderr), (1, f"c_source.py: {out}/none: there is no such folder\n"))
        self.assertEqual(subprocess.run(command[:3], capture_output=True).returncode, 2)

    def test_writes_both(self):
        out, paths = self.files()
        self.assertEqual(self.told(paths["report"], paths["design"], paths["controller"], "--name", "first", "--out", out, status=0), "")
        self.assertEqual(sorted(os.listdir(out)), ["first.c", "first.h"])
        with open(os.path.join(out, "first.h"), encoding="utf-8") as file:
            header = file.read()
        self.assertIn(" *   stage row 1 is exceeded by at most 8.05, at any state of the box\n", header)
        self.assertIn(" *   state[0] from 0 to 1: x1, 1 is 1\n", header)
        # and anew over its own
        self.told(paths["controller"], "--name", "first", "--out", out, status=0)

    def test_a_changed_text_is_refused_by_its_line(self):
        out, paths = self.files(changed=FIRST_CONTROLLER.replace("T 0", "T 00"), unsafe=FIRST_CONTROLLER.replace("10 0 1 26", "10 0 1 25"))
        self.refused("changed: line 10: T and 1 numbers should stand here", paths["changed"], "--name", "a", out=out)
        self.refused("doesn't fit the width that it says, 25", paths["unsafe"], "--name", "a", out=out)

    def test_other_files(self):
        out, paths = self.files(
            other=FIRST_REPORT.replace("steps 4", "steps 8"), short=FIRST_REPORT.replace("gap", "gaps"), second=SECOND, six=SIX, binary=b"version = \xff", listed="1 2\n", json='{"a":1}\n',
            deeper='{"a":' * 5000, several=SECOND_JSON.replace('["', '"').replace('"]', '"'), lacking="version = 1\n", words=FIRST.replace("states = 1", 'states = "1"'), deep="version = " + "[" * 5000,
        )
        first = paths["controller"]
        for name, why in (("other", "of another report: its number of steps is 4, and that of the report 8"), ("short", "line 11: gap, a number and 1099511627776 should stand here"),
                          ("json", "it has not the keys"), ("deeper", "it is no JSON"), ("several", "it is no JSON"),
                          ("second", "of another design: its version is 1, and that of the design 2"), ("six", "of another design: its version is 1"), ("binary", "it is not a design"),
                          ("listed", "holds no controller, no report and no design"), ("lacking", "it is not a design"), ("words", "of another design: its number of states is 1"),
                          ("deep", "it is not a design"), ("controller", "both hold a controller")):
            self.refused(why, first, paths[name], "--name", "a", out=out)
        self.refused("no controller was named", paths["report"], "--name", "a", out=out)
        self.refused("nowhere: No such file or directory", os.path.join(out, "nowhere"), "--name", "a", out=out)
        self.refused("Is a directory", out, "--name", "a", out=out)

    def test_a_long_file(self):
        out, paths = self.files(long="mpc-controller 1\n" + "0" * 4194304)
        self.refused("long is longer than 4194304 bytes", paths["long"], "--name", "a", out=out)

    def test_names(self):
        out, paths = self.files()
        for name in ("A", "1a", "a-b", "../a", "", "a" * 17, "stdint", "math"):
            self.refused("the name should be", paths["controller"], "--name", name, out=out)
        self.assertIn("there is no such folder", self.told(paths["controller"], "--name", "a", "--out", os.path.join(out, "none")))

    def test_no_file_is_lost(self):
        out, paths = self.files()
        mine, link, hard = (os.path.join(out, name) for name in ("mine.c", "link.h", "hard.c"))
        with open(mine, "w", encoding="ascii") as file:
            file.write("int mine;\n")
        os.symlink(paths["controller"], link)
        os.link(paths["controller"], hard)
        os.symlink(mine, os.path.join(out, "other.h"))
        os.mkdir(os.path.join(out, "folder.c"))
        left = os.listdir(out)
        self.refused("mine.c is there, and was not written by `./mpc c`", paths["controller"], "--name", "mine", out=out, left=left)
        self.refused("link.h is the same file as FILE", paths["controller"], "--name", "link", out=out, left=left, status=2)
        self.refused("hard.c is the same file as FILE", paths["controller"], paths["report"], "--name", "hard", out=out, left=left, status=2)
        self.refused("other.h is no file that may be written anew", paths["controller"], "--name", "other", out=out, left=left)
        self.refused("folder.c is no file that may be written anew", paths["controller"], "--name", "folder", out=out, left=left)
        with open(paths["controller"], encoding="ascii") as file:
            self.assertEqual(file.read(), FIRST_CONTROLLER)

    def test_where_nothing_can_be_written(self):
        out, paths = self.files()
        self.told(paths["controller"], "--name", "a", "--out", out, status=0)
        # a second name that isn't in the folder of the first
        with self.assertRaises(OSError):
            c_source.write_all({os.path.join(out, "b.h"): "x", os.path.join(out, "none", "b.c"): "y"})
        self.assertEqual(sorted(os.listdir(out)), ["a.c", "a.h"])

    @unittest.skipUnless(HAS_COMPILER, NO_COMPILER)
    def test_a_name_of_a_design_may_hold_anything(self):
        names = "# state 1: */ int x; /* ??/ \\\n# input 1: angle \u00b0, 1 is 2 \u00b0\\\n# stage row 1: */, 1 is 2 */\n"
        out, paths = self.files(named=names + FIRST)
        self.told(paths["controller"], paths["named"], paths["report"], "--name", "a", "--out", out, status=0)
        subprocess.run([c_trials.COMPILER, *c_trials.STRICT, "-c", os.path.join(out, "a.c"), "-o", os.path.join(out, "a.o")], check=True)

    def test_versions_and_reports(self):
        out, paths = self.files(second_controller=SECOND_CONTROLLER, second_report=SECOND_REPORT, second_json=SECOND_JSON, second=SECOND)
        headers = []
        for report in ("second_report", "second_json"):
            self.told(paths["second_controller"], paths[report], paths["second"], "--name", "a", "--out", out, status=0)
            with open(os.path.join(out, "a.h"), encoding="utf-8") as file:
                headers.append(file.read())
        self.assertEqual(headers[0], headers[1])
        self.assertIn("stage row 1 is exceeded by at most 6.05", headers[0])


if __name__ == "__main__":
    unittest.main()
