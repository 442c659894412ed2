"""What can be said of a model at once: poles, the growth of a stage, corners without a plan; and what is refused by name."""
import unittest

from scripts.common.libraries import PACKAGES, Refusal, missing

from .test_design import MASS

LACKING = missing(*PACKAGES)
if not LACKING:
    from scripts import outlook
    from scripts.common.models import Model
    from scripts.draft import draft


def said(text):
    return list(outlook.words_of(Model(text)))


@unittest.skipIf(LACKING, f"missing: {', '.join(LACKING)}")
class Outlook(unittest.TestCase):
    def test_a_plant_that_is_well(self):
        words = said(MASS)
        self.assertRegex(words[0], "^1 of the design is [0-9.]+ m of position, [0-9.]+ m/s of speed$")
        self.assertEqual(words[2], "a stage multiplies by 1 (pole 0 /s), 1 (pole 0 /s)")
        self.assertRegex(words[3], "^each of 4 corners has a plan that keeps every limit")
        self.assertRegex(words[4], "^a run of a lean controller: K about [0-9]+, [0-9.]+ % of a stage of a Cortex-M4 of 100 MHz$")
        self.assertRegex(words[5], "^a plant over [0-9]+ with numbers that move by at most 0.1 % fits$")

    def test_poles_with_their_units(self):
        # 18.85 / s turns by 0.6 of a turn in 0.2 s
        turning = MASS.replace("[[0.0, 1.0], [0.0, 0.0]]", "[[-1.0, 18.849556], [-18.849556, -1.0]]")
        words = said(turning)
        self.assertIn("(pole -1 ± 18.85j /s)", words[2])
        self.assertTrue(any("turns by more than half a turn" in line for line in words))

    def test_a_period_in_other_units(self):
        lag = MASS.replace("[[0.0, 1.0], [0.0, 0.0]]", "[[-30.0, 0.0], [0.0, -20.0]]").replace("[[0.0], [1.0]]", "[[1.0], [1.0]]")
        self.assertFalse(any("in seconds" in line for line in said(lag.replace("period = 0.2", "period = 0.01"))))
        self.assertTrue(any("is the period in seconds?" in line for line in said(lag.replace("period = 0.2", "period = 10.0"))))

    def test_growth_is_refused_with_its_pole(self):
        steep = MASS.replace("[[0.0, 1.0], [0.0, 0.0]]", "[[0.0, 1.0], [400.0, 0.0]]")
        for call in (said, lambda text: draft(Model(text))):
            with self.assertRaisesRegex(Refusal, r"^period: a stage multiplies a state by 54\.6 \(pole 20 /s\), 6 stages by 2\.649e\+10: a shorter period"):
                call(steep)
        sampled = MASS.replace("a = [[0.0, 1.0], [0.0, 0.0]]", "sampled = true\na = [[-9.0, 0.0], [0.0, 0.5]]")
        with self.assertRaisesRegex(Refusal, r"^a: a stage multiplies a state by -9, 6 stages by 531441: a plant that grows by at most 4 a stage"):
            said(sampled)

    def test_a_run_that_takes_too_long(self):
        """The same mass so much faster, with what it is off weighing more: what helps is said, where something does."""
        for period, weight, wanted in (
            (2e-4, 5.0, r"K about 772, 1100 % of a stage of a Cortex-M4 of 100 MHz; with inputs weighing 4 times as much as the model says K about 2, 3 % of a stage"),
            (2e-5, 50.0, r"K about 16991, 240000 % .*; with a cost of the box's coordinates at the last stage, 3 times .* in place of the model's K about 2, 30 % of a stage"),
            (2e-6, 5.0, r"K about 772, 110000 % .*; fewer stages, larger tolerances or a smaller box make it less \(docs/TARGETS.md\)"),
        ):
            fast = MASS.replace("weight = 2.0", f"weight = {weight}").replace("period = 0.2", f"period = {period}")
            fast = fast.replace("[[0.0, 1.0], [0.0, 0.0]]", f"[[0.0, {0.2 / period}], [0.0, 0.0]]").replace("[[0.0], [1.0]]", f"[[0.0], [{0.2 / period}]]")
            (line,) = (line for line in said(fast) if "lean" in line)
            self.assertRegex(line, f"^warning: a run of a lean controller doesn't end in time: {wanted}$")

    def test_corners_without_a_plan(self):
        held = MASS.replace("[cost]", "[[limit]]\nname = 'place'\nstate = [1.0, 0.0]\nbound = 1.0\nleast = -1.0\ntolerance = 0.01\n[cost]")
        words = said(held)
        self.assertTrue(any("warning: 2 of 4 corners have a plan that keeps every limit; at the worst it is" in line and "(place " in line for line in words), words)


if __name__ == "__main__":
    unittest.main()
