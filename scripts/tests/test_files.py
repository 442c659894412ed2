"""Files and arguments of every command: no output over an input, nothing read without an end, and what isn't of one design refused by what differs."""
import os
import pty
import subprocess
import sys
import unittest

from scripts.common import arguments, files, matching
from scripts.common.design_text import design_of
from scripts.common.libraries import PACKAGES, Refusal, missing
from scripts.common.texts import controller_of, loop_lines_of, records_of, report_of

from .worked import (
    AXIS,
    FIRST,
    FIRST_CONTROLLER,
    FIRST_LEAN_CONTROLLER,
    FIRST_LEAN_REPORT,
    FIRST_POLICY,
    FIRST_REFERENCE,
    FIRST_REPORT,
    SECOND,
    SECOND_CONTROLLER,
    SECOND_REPORT,
    TOP,
    as_command,
    folder_with,
)

LACKING = missing(*PACKAGES)
FIRST_LOOP = "1 1 1 4096 -2224\n1 2 0 4096 0\n"


def command(name: str, *words: str, **how) -> subprocess.CompletedProcess:
    """A run of a command of scripts/."""
    return subprocess.run([*as_command(name), *words], capture_output="stdout" not in how, text=True, **how)


class Files(unittest.TestCase):
    def setUp(self):
        self.folder, self.paths = folder_with(self, one="1\n", two="2\n")
        before = os.getcwd()
        os.chdir(self.folder)
        self.addCleanup(os.chdir, before)

    def test_one_file_by_many_names(self):
        os.symlink("one", "sym")
        os.link("one", "hard")
        os.symlink(".", "here")
        os.symlink("not-there", "hanging")
        for name in ("one", "./one", "sym", "hard", "here/one", self.paths["one"], f"../{os.path.basename(self.folder)}/one"):
            self.assertTrue(files.same(name, "one"), name)
        self.assertTrue(files.same("hanging", "./not-there"))
        self.assertFalse(files.same("two", "one") or files.same("not-there", "one"))
        self.assertFalse(files.same("/dev/null", "/dev/null"))

    def test_outputs_keep_apart(self):
        files.keep_apart({"DESIGN": "one"}, {"POLICY": "two", "REPORT": "not-there"})
        with self.assertRaisesRegex(Refusal, "POLICY ./one is the same file as DESIGN one: an output needs a file of its own"):
            files.keep_apart({"DESIGN": "one"}, {"POLICY": "./one"})
        with self.assertRaisesRegex(Refusal, "REPORT ./new is the same file as POLICY new"):
            files.keep_apart({"DESIGN": "one"}, {"POLICY": "new", "REPORT": "./new"})

    def test_no_more_is_read_than_the_program_reads(self):
        with open("long", "wb") as file:
            file.truncate(files.LONGEST + 1)
        for name in ("long", "/dev/zero", "/dev/full"):
            with self.assertRaisesRegex(Refusal, f"{name} is longer than 4194304 bytes"):
                files.read_bytes(name)
        os.truncate("long", files.LONGEST)
        self.assertEqual(len(files.read_bytes("long")), files.LONGEST)
        with self.assertRaisesRegex(Refusal, "a line of more than 65536 bytes"):
            next(files.lines_of("/dev/zero"))

    def test_written_whole_or_as_before(self):
        os.symlink("one", "sym")
        os.chmod("one", 0o640)
        files.write("sym", "new\n")
        self.assertTrue(os.path.islink("sym"))
        with open("one", encoding="ascii") as file:
            self.assertEqual((file.read(), os.stat("one").st_mode & 0o777), ("new\n", 0o640))
        with self.assertRaises(UnicodeEncodeError):
            files.write("two", "\udcff")
        with self.assertRaises(OSError) as raised:
            files.write("/dev/full", "x")
        self.assertEqual(raised.exception.filename, "/dev/full")
        with self.assertRaises(IsADirectoryError):
            files.write(".", "x")
        with open("two", encoding="ascii") as file:
            self.assertEqual((file.read(), sorted(os.listdir("."))), ("2\n", ["one", "sym", "two"]))

    def test_disk_that_is_full(self):
        """A limit on a file's size fails the write after the open."""
        code = (
            "import resource, signal; from scripts.common import files; signal.signal(signal.SIGXFSZ, signal.SIG_IGN);"
            "resource.setrlimit(resource.RLIMIT_FSIZE, (10, 10)); files.write('two', 'x' * 100)"
        )
        got = subprocess.run([sys.executable, "-c", code], env=os.environ | {"PYTHONPATH": TOP}, capture_output=True, text=True)
        self.assertIn("File too large: 'two'", got.stderr)
        with open("two", encoding="ascii") as file:
            self.assertEqual((file.read(), sorted(os.listdir("."))), ("2\n", ["one", "two"]))


class Numbers(unittest.TestCase):
    def test_ranges(self):
        self.assertEqual((arguments.count("0"), arguments.several("1"), arguments.turns("1000000"), arguments.positive("0.5"), arguments.numbers("1,3")), (0, 1, 1000000, 0.5, [1, 3]))
        for read, word in (
            (arguments.count, "-1"),
            (arguments.count, "1.5"),
            (arguments.several, "0"),
            (arguments.turns, "1000001"),
            (arguments.positive, "0"),
            (arguments.positive, "nan"),
            (arguments.positive, "x"),
            (arguments.numbers, "1,0"),
        ):
            with self.assertRaises(arguments.argparse.ArgumentTypeError):
                read(word)


class Others(unittest.TestCase):
    """What is of another design, by what differs."""

    def test_its_own(self):
        for design, report, controller in ((FIRST, FIRST_REPORT, FIRST_CONTROLLER), (SECOND, SECOND_REPORT, SECOND_CONTROLLER), (FIRST, FIRST_LEAN_REPORT, FIRST_LEAN_CONTROLLER)):
            design, report, controller = design_of(design), report_of(report), controller_of(controller)
            self.assertIsNone(matching.report_difference(report, design))
            self.assertIsNone(matching.policy_difference(report, design, records_of(FIRST_POLICY)))
            self.assertIsNone(matching.controller_difference(controller, design))
            self.assertIsNone(matching.made_difference(controller, report))

    def test_report(self):
        report = report_of(FIRST_REPORT)
        for changed, told in (
            (AXIS, "number of words is 6, and that of the design 46"),
            (SECOND, "version is 1, and that of the design 2"),
            (FIRST.replace("violation = 16", "violation = 32"), "K, at R 8 and step 2\\^-1, is 4, and that of the design 2"),
            (FIRST.replace("gap = 1", "gap = 1").replace("[targets]\nden = 1\nviolation = 16", "[targets]\nden = 4\nviolation = 64"), "its gap is 0.3984, and the design's target 0.25"),
        ):
            self.assertRegex(matching.report_difference(report, design_of(changed)) or "", told)

    def test_report_and_policy(self):
        told = matching.policy_difference(report_of(FIRST_REPORT), design_of(FIRST), [[1, 0], [16, -13]])
        self.assertEqual(told, "its margin is 0.125, and that of the policy 0.0625")

    def test_controller(self):
        controller = controller_of(FIRST_CONTROLLER)
        for changed, told in (
            (AXIS, "number of states is 1, and that of the design 2"),
            (FIRST.replace("hi = [1]", "hi = [2]"), "hi is \\[1\\], and that of the design \\[2\\]"),
            (FIRST.replace("[0, 4, 4]", "[0, 4, 3]"), "stage row 1 at stage 0 is not the row of the controller"),
            (FIRST.replace("b = [[1]]", "b = [[2]]"), "final row 1 at stage 1 is not the row of the controller"),
            (FIRST.replace("input = [1]", "input = [2]"), "its gains are those of other weights"),
        ):
            self.assertRegex(matching.controller_difference(controller, design_of(changed)) or "", told)

    def test_controller_and_report(self):
        controller = controller_of(FIRST_CONTROLLER.replace("clamp 32768", "clamp 32769"))
        self.assertEqual(matching.made_difference(controller, report_of(FIRST_REPORT)), "its clamp is 32769, and that of the report 32768")

    def test_loop(self):
        design, loops = design_of(FIRST), loop_lines_of(FIRST_LOOP, 1, 1, 0)
        self.assertIsNone(matching.loop_difference(loops, design))
        told = matching.loop_difference(loops, design_of(FIRST.replace("a = [[1]]", "a = [[3]]")))
        self.assertEqual(told, "after turn 1 of start 1 its plant goes to x1 2.457, and the next line says 0")
        self.assertEqual(matching.loop_difference(loop_lines_of("7 1 2 1 0\n", 1, 1, 0), design), "start 7 lies outside the box in x1 (2)")

    def test_states_and_policies(self):
        self.assertIsNone(matching.state_fault([[0], [1]], design_of(FIRST)))
        self.assertEqual(matching.state_fault([[0], [1, 2]], design_of(FIRST)), "record 2 has 2 numbers, and the design 1 states")
        self.assertEqual(matching.state_fault([[2]], design_of(FIRST)), "record 1 is outside the design's box in x1 (2, and the box is 0 to 1)")
        self.assertEqual(matching.policy_fault([[1, 0]], design_of(FIRST)), "it has 1 plans, and the design 2 corners")
        self.assertEqual(matching.policy_fault([[1, 0], [0, 1]], design_of(FIRST)), "the denominator of plan 2 is 0")

    def test_explain_refuses_them(self):
        _, paths = folder_with(self, r=FIRST_REPORT, a=AXIS, c=SECOND_CONTROLLER, p=FIRST_POLICY, d=FIRST)
        for words, told in (
            ("ra", "the report is of another design: its number of words is 6"),
            ("ca", "the controller is of another design: its version is 2"),
            ("rc", "the controller is of another report: its version is 2"),
            ("pa", "the policy is of another design: it has 2 plans"),
            ("rr", "both hold a report"),
        ):
            got = command("explain", *(paths[word] for word in words))
            self.assertEqual((got.returncode, told in got.stderr, got.stdout), (1, True, ""), got.stderr)


class Commands(unittest.TestCase):
    """The commands themselves, with files that are none, and outputs that can't be written."""

    def refused(self, status, told, name, *words, **how):
        got = command(name, *words, **how)
        self.assertEqual(got.returncode, status, got.stderr)
        self.assertIn(told, got.stderr)
        self.assertNotIn("Traceback", got.stderr)

    def test_what_stands_at_the_top_is_a_command(self):
        for name in os.listdir(os.path.join(TOP, "scripts")):
            path = os.path.join(TOP, "scripts", name)
            if os.path.isfile(path):
                with open(path, encoding="utf-8") as file:
                    text = file.read()
                self.assertTrue(name.startswith("__") or "\n    run(" in text, name)
                self.assertFalse(os.access(path, os.X_OK) or text.startswith("#!"), f"{name} is run by ./mpc, as a part of its package")

    def test_help_into_a_full_disk(self):
        names = ["explain", "refusals", "pages"] + ([] if LACKING else ["coordinates", "design", "draft", "discretise", "policy", "faces", "exact_loop", "plot", "judge", "reach", "states"])
        with open("/dev/full", "w") as full:
            for name in names:
                self.refused(1, "No space left on device", name, "--help", stdout=full, stderr=subprocess.PIPE)

    def test_explain_appends_to_no_input(self):
        _, paths = folder_with(self, r=FIRST_REPORT, p=FIRST_POLICY)
        for name in "rp":
            with open(paths[name], "a") as out:
                self.refused(2, "standard output is the same file as FILE", "explain", paths["r"], paths["p"], stdout=out, stderr=subprocess.PIPE)

    def test_explain_takes_references_after_their_policy(self):
        _, p = folder_with(self, d=FIRST, r=FIRST_LEAN_REPORT, p=FIRST_POLICY, q=FIRST_REFERENCE)
        self.assertIn("R = 1: excess 0.2812 (from corner 2 (x1 high))", command("explain", p["p"], p["r"], p["q"], p["d"]).stdout)
        self.refused(1, "its margin is 0.125, and that of the policy -0.25", "explain", p["q"], p["r"], p["p"], p["d"])
        self.refused(1, "both hold a policy or reference plans", "explain", p["p"], p["q"], p["q"])

    def test_explain_reads_no_more(self):
        self.refused(1, "a line of more than 65536 bytes", "explain", "/dev/zero")
        self.refused(1, "explain.py: /nowhere: No such file or directory", "explain", "/nowhere")
        self.refused(2, "argument --clock: -1 is not above 0", "explain", "x", "--clock", "-1")

    @unittest.skipIf(LACKING, f"missing: {', '.join(LACKING)}")
    def test_what_has_libraries(self):
        _, p = folder_with(self, d=FIRST, lines=FIRST_LOOP, none="", s="1\n", far="2\n", c=SECOND_CONTROLLER, own=FIRST_CONTROLLER, lean=FIRST_LEAN_REPORT, other=SECOND_REPORT)
        d = p["d"]
        for status, told, name, *words in (
            (2, "POLICY .* is the same file as DESIGN", "policy", d, d),
            (2, "REFERENCE .* is the same file as DESIGN", "policy", d, "--lean", d),
            (2, "REFERENCE .* is the same file as POLICY", "policy", d, p["none"], "--lean", p["none"]),
            (2, "FACES .* is the same file as DESIGN", "faces", d, p["s"], d),
            (2, "argument --denominator: 0 is not at least 1", "policy", d, "--denominator", "0"),
            (2, "DESIGN .* is the same file as MODEL", "draft", d, d),
            (2, "argument --den: -8 is not at least 1", "discretise", d, "--den", "-8"),
            (1, "/dev/full is longer than 4194304 bytes", "policy", "/dev/full"),
            (1, "/dev/zero.* 4194304 bytes", "draft", "/dev/zero"),
            (2, "argument TURNS: -3 is not from 0 to 1000000", "exact_loop", d, p["s"], "-3"),
            (1, "record 1 is outside the design's box in x1", "exact_loop", d, p["far"], "3"),
            (2, "argument --states: -1 is not at least 0", "judge", d, p["c"], "--states", "-1"),
            (1, "is of another design: its version is 2", "judge", d, p["c"]),
            (1, "is no controller text", "judge", d, d),
            (1, "the controller is of another report than .*: its number of bits is 10, and that of the report 6", "judge", d, p["own"], p["lean"]),
            (1, "is no report", "judge", d, p["own"], d),
            (1, "the report is of another design: its version is 2", "plot", d, p["lines"], "--report", p["other"], "--out", p["none"] + ".svg"),
            (1, "has no line: there is nothing to draw", "plot", d, p["none"], "--out", p["none"] + ".svg"),
            (1, "has no line of the chosen starts: there is nothing to draw", "plot", d, p["lines"], "--starts", "2", "--out", p["none"] + ".svg"),
            (2, "ends in none of .svg, .pdf, .png", "plot", d, p["lines"], "--out", p["none"] + ".jpeg"),
            (2, "--out .* is the same file as LINES 1", "plot", d, p["lines"], "--out", p["lines"]),
            (2, "--labels has 2 names, and there are 1 files", "plot", d, p["lines"], "--labels", "a,b", "--out", p["none"] + ".svg"),
            (1, "which is no line of `./mpc loop`", "plot", d, d, "--out", p["none"] + ".svg"),
        ):
            got = command(name, *words)
            self.assertEqual(got.returncode, status, got.stderr)
            self.assertRegex(got.stderr, told)
            self.assertNotIn("Traceback", got.stderr)
        self.assertFalse(os.path.exists(p["none"] + ".svg"))

    @unittest.skipIf(LACKING, f"missing: {', '.join(LACKING)}")
    def test_format_by_the_name(self):
        folder, p = folder_with(self, d=FIRST, lines=FIRST_LOOP)
        for end, start in (("svg", b"<?xml"), ("pdf", b"%PDF"), ("png", b"\x89PNG")):
            got = command("plot", p["d"], p["lines"], "--out", os.path.join(folder, "picture." + end))
            self.assertEqual((got.returncode, got.stderr), (0, ""))
            with open(os.path.join(folder, "picture." + end), "rb") as file:
                self.assertEqual(file.read(len(start)), start)

    def test_progress_on_a_terminal_alone(self):
        code = "import time; from scripts.common import progress; progress.FIRST = 0\nwith progress.Progress('states', 9) as told:\n    time.sleep(0.6); told.reach(4)"
        words = ["env", f"PYTHONPATH={TOP}", sys.executable, "-c", code]
        self.assertEqual(subprocess.run(words, capture_output=True).stderr, b"")
        here, there = pty.openpty()
        subprocess.run(words, stderr=there)
        os.close(there)
        self.assertIn(b"4 of 9 states", os.read(here, 1000))
        os.close(here)

    def test_where_standard_error_is_closed(self):
        """What is said goes nowhere, and not among what is printed."""
        code = "from scripts.common import budget; from scripts.common.libraries import say\nwith budget.Budget(1):\n    say('words')\nprint('text')"
        got = subprocess.run(["sh", "-c", 'exec "$@" 2>&-', "sh", "env", f"PYTHONPATH={TOP}", sys.executable, "-c", code], capture_output=True)
        self.assertEqual((got.returncode, got.stdout), (0, b"text\n"))

    def test_wide_products_are_priced_as_such(self):
        """Three gains of 47 bits by multipliers of 17, and three factors of rows by plan entries that such gains reach, are two products of 32-bit words each, at four steps."""
        wide = FIRST_CONTROLLER.replace("W 256 -256 256", f"W {2**45} -256 256").replace("bits 10 0 1 26", "bits 10 0 1 80")
        _, paths = folder_with(self, c=wide)
        told = command("explain", paths["c"]).stdout
        self.assertIn("a run has 24 products (24; 40), which are 48 of 32-bit words\n", told)
        self.assertIn("signed words: gains W 47 bits, P 11, rows G 12, E 12, multipliers 17, plan 51\nas C with tables (./mpc c .. --out): sums of entries and of rows 64 x 64 bits into 64;", told)


if __name__ == "__main__":
    unittest.main()
