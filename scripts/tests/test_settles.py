"""Certificates that loops settle: those of the examples, whose figures another program computed, and each number beside the model of `settle`."""
import os
import random
import subprocess
import unittest

from checks.fuzz import control, model, program, settle_cases, settling
from scripts import settles
from scripts.common import promises
from scripts.common.design_text import design_of
from scripts.common.libraries import missing
from scripts.common.texts import controller_of
from scripts.common.tubes import Box, Certificate, Loop, Stillness, Tubes, cost_box, first_fault, settled_box

from .worked import EXAMPLES, as_command, folder_with

WORDS = {10: "too-wide", 23: "moves", 24: "unsettled", 25: "no-return"}
STILL = [0] * 6


def lean_texts(name):
    """The design of an example, and its lean controller with the model's gains."""
    read = {}
    for word, place in (("d", "design.toml"), ("p", "lean.csv"), ("q", "reference.csv")):
        with open(os.path.join(EXAMPLES, name, place), "rb") as file:
            read[word] = file.read()
    said = program.answer("lean d p q c r".split(), read.get, lambda name: True, model.gains)
    return read["d"].decode(), said.written["c"].decode()


def as_ours(s):
    box = lambda b: Box(tuple(b.low), tuple(b.high))
    return Certificate(s.turns, s.back, box(s.start), box(s.still), box(s.rest), s.after)


class Examples(unittest.TestCase):
    """What part of the box loops start in, after how many turns they lie in how small a part of it, and after how many they are there again."""

    def settles(self, name, start, part, turns, back=1, shift=()):
        design, controller = lean_texts(name)
        design, controller = design_of(design), controller_of(controller)
        high = list(shift) or STILL[: design.states]
        found = settles.Proposal(design, controller, [-v for v in high], high, 1000).best((settles.part_of_box(part),))
        self.assertEqual((int(100 * found.start), found.certificate.turns, found.certificate.back), (start, turns, back))
        # no larger box, no fewer turns
        loop, rows, s = Loop(design, controller, [-v for v in high], high), Stillness(controller), found.certificate
        self.assertIsNone(first_fault(loop, rows, s))
        self.assertEqual(first_fault(loop, rows, Certificate(s.turns - 1, s.back, s.start, s.still, s.rest))[0], "unsettled")
        wider = Box(tuple(v - 2 for v in s.still.low), tuple(v + 2 for v in s.still.high))
        if found.still:
            self.assertEqual(first_fault(loop, rows, Certificate(s.turns, s.back, s.start, wider, s.rest))[0], "moves")
        return found

    def test_motor(self):
        self.settles("motor", 87, "0.05", 9)
        self.settles("motor", 87, "0.1", 7)

    def test_pmsm(self):
        self.settles("pmsm", 78, "0.05", 9)
        self.settles("pmsm", 78, "0.1", 7)

    def test_satellite(self):
        self.settles("satellite", 89, "0.05", 23)
        self.settles("satellite", 89, "0.1", 16)

    def test_wheel(self):
        self.settles("wheel", 99, "0.05", 22)
        self.settles("wheel", 99, "0.1", 17)

    def test_held(self):
        self.settles("satellite/stay", 98, "0.05", 22)
        self.settles("motor/stay", 90, "0.05", 12)

    def test_rendezvous(self):
        # from 79 % where the still box is a part of the controller's
        self.assertIsNone(self.settles("rendezvous", 80, "0.05", 17, back=3).still)

    def test_antenna(self):
        # from 39 % after 12 turns where it is
        found = self.settles("antenna", 49, "0.05", 13, back=6)
        self.assertIsNone(found.still)
        self.assertTrue(found.certificate.still.holds(found.certificate.start))

    def test_disturbed(self):
        self.settles("satellite/stay", 98, "0.25", 12, shift=(4, 1))
        self.settles("motor/stay", 90, "0.25", 6, shift=(9, 9))

    def test_held_states(self):
        """A target or a disturbance that is a state: the rows of the cost tell how near to it loops come."""
        for name, kept, turns, back, after, costs in (("kiln", 0.4, 15, 14, 27, [3]), ("tracking", 1, 11, 1, 24, [7])):
            design, controller = map(lambda read, text: read(text), (design_of, controller_of), lean_texts(name))
            still = STILL[: design.states]
            found = settles.proposed(design, controller, still, still, 1000, settles.RESTS)
            s, loop = found.certificate, Loop(design, controller, still, still)
            self.assertEqual((float(found.kept), s.turns, s.back, s.after, list(found.costs.high)), (kept, turns, back, after, costs))
            self.assertEqual(cost_box(loop, s.still, s.after)[0], found.costs)
            self.assertIsNone(first_fault(loop, Stillness(controller), s))
            promise = promises.Promise(s.turns, found.settled, s.after, found.costs)
            self.assertEqual(promises.promise_of(promises.promise_text(promise), design.states), promise)
            self.assertEqual(promises.certificate_of(promises.certificate_text(s), design.states), s)


class BesideTheModel(unittest.TestCase):
    CASES = 150

    def test_random(self):
        seen = set()
        for number in range(self.CASES):
            made = settle_cases.settle_case(random.Random(f"settles {number}"))
            if made is None:
                continue
            design, text, s, shifts = made
            try:
                (box, costs), told = settling.check(model.read_design(design), control.read_controller(text), s, shifts), None
            except model.Refused as refused:
                told = (WORDS[refused.args[0]], *(refused.args[1:] if refused.args[0] != 10 else ()))
            ours, c = as_ours(s), controller_of(text.decode())
            loop = Loop(design_of(design.decode()), c, shifts.low, shifts.high)
            self.assertEqual(first_fault(loop, Stillness(c), ours), told, number)
            seen.add(told and told[0])
            if told is None:
                found = settled_box(Tubes(loop, ours.still), ours)
                self.assertEqual((list(found.low), list(found.high)), (box.low, box.high))
                rows = cost_box(loop, ours.still, ours.after)[0]
                self.assertEqual((list(rows.low), list(rows.high)), (costs.low, costs.high))
        self.assertEqual(seen, {None, *WORDS.values()})


class Command(unittest.TestCase):
    """What it writes and says, and with which status it ends."""

    def settle(self, name, *words, **texts):
        design, controller = lean_texts(name)
        folder, paths = folder_with(self, d=design, c=controller, **texts)
        paths["s"] = os.path.join(folder, "s")
        self.paths = paths
        got = subprocess.run([*as_command("settles"), *(paths.get(word, word) for word in ("d", "c", *words))], capture_output=True, text=True)
        written = ""
        if os.path.exists(paths["s"]):
            with open(paths["s"], encoding="utf-8") as file:
                written = file.read()
        return got, written

    def test_written(self):
        got, written = self.settle("motor", "s")
        self.assertEqual((got.returncode, got.stdout), (0, ""))
        self.assertEqual(written, "9,-448,-1009,448,1009\n0,-448,-1009,448,1009\n1,-25,-57,25,57\n")
        self.assertIn("every loop from 87.67 % of the box lies within 5 % of it after 9 turns (0.045 s), for ever", got.stderr)
        self.assertIn("for ever: angle in 8 ms within 0.02441 rad, speed within 4.453 rad/s", got.stderr)
        self.assertEqual(settling.read_certificate(written.encode(), settling.Box([-512, -1152], [512, 1152])).turns, 9)

    def test_printed(self):
        got, written = self.settle("motor", "--within", "0.1")
        self.assertEqual((got.returncode, got.stdout, written), (0, "7,-448,-1009,448,1009\n0,-448,-1009,448,1009\n1,-51,-115,51,115\n", ""))

    def test_disturbed(self):
        got, written = self.settle("motor/stay", "s", "--disturbances", "w", w="-9,-9\n9,9\n")
        self.assertEqual(got.returncode, 0)
        self.assertIn("within 10 % of it after 13 turns (0.065 s) under every disturbance of the range, for ever", got.stderr)
        self.assertTrue(written.startswith("13,"))

    def test_promise(self):
        """What `settle` prints of it, in words and in a picture."""
        got, _ = self.settle("motor", "s", "--promise", "p", p="")
        self.assertEqual(got.returncode, 0)
        design, promise = self.paths["d"], self.paths["p"]
        with open(promise, encoding="ascii") as file:
            self.assertEqual(file.read(), "turn 9\nstate 1 -25 25\nstate 2 -57 57\n")
        explain = lambda *paths: subprocess.run([*as_command("explain"), *paths], capture_output=True, text=True)
        words = "every loop from its certificate's start box lies after 9 turns (0.045 s), for ever, with angle in 8 ms within 0.02441 rad, speed within 4.453 rad/s\n"
        self.assertEqual(explain(promise, design).stdout, words)
        self.assertIn("is explained with its design", explain(promise).stderr)

    @unittest.skipIf(missing("matplotlib"), "no matplotlib")
    def test_picture(self):
        from scripts import plot

        design = design_of(lean_texts("motor")[0])
        certificate = promises.certificate_of("9,-448,-1009,448,1009\n0,-448,-1009,448,1009\n1,-25,-57,25,57\n", 2)
        settled = plot.Settles(promises.promise_of("turn 9\nstate 1 -25 25\nstate 2 -57 57\n", 2), certificate)
        turns = [([0, 0], [0])] * 12
        for drawn, areas in ((settled, 2), (plot.Settles(settled.promise), 1), (None, 0)):
            axes = plot.draw(design, [{1: turns}], ["loop"], settles=drawn).axes
            self.assertEqual([len(axis.collections) for axis in axes], [areas, areas, 0])
        ends = plot.draw(design, [{1: turns}], ["loop"], settles=plot.Settles(settled.promise)).axes[0].collections[0].get_paths()[0].get_extents()
        # 25 of 512 steps of 0.5 rad, from 0.045 s to the last turn
        for found, wanted in zip((ends.x0, ends.x1, ends.y1), (0.045, 0.055, 25 / 512 * 0.5)):
            self.assertAlmostEqual(found, wanted)
        with self.assertRaisesRegex(settles.Refusal, "--certificate is drawn with --settled"):
            plot.read_settles(None, "c", design)

    def test_refused(self):
        for name, words, line in (
            ("kiln", ("s", "--within", "0.05"), "loops from within 5 % of the box aren't shown to be back there"),
            ("motor/stay", ("s", "--disturbances", "w"), "after 1000 turns angle in 12 ms may be 0.291 rad"),
            ("motor", ("s", "--within", "0.9"), "a multiplier may move within 90 % of the box: none moves in 87.67 % of it"),
        ):
            got, written = self.settle(name, *words, w="-78,-90\n78,90\n")
            self.assertEqual((got.returncode, written), (12, ""))
            self.assertIn(line, got.stderr)

    def test_arguments(self):
        for words, status in ((("c",), 2), (("--within", "0"), 2), (("--within", "x"), 2), (("--turns", "5000"), 2)):
            self.assertEqual(self.settle("motor", *words)[0].returncode, status)


if __name__ == "__main__":
    unittest.main()
