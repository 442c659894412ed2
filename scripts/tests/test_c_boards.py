"""The C of controllers on emulated Cortex-M boards, beside the machine: where the boards are installed."""
import os
import random
import re
import shutil
import subprocess
import sys
import tempfile
import unittest

from bench.target import board, costs
from scripts.common import straight_costs

from .c_trials import states_of
from .controllers import random_controller, run
from .worked import TOP

PROGRAM = os.path.join(TOP, "crates", "mpc_cli", "out", "mpc_cli")
# 32 bits, parts of 1 x 2, 2 x 1 and 2 x 2, long words, two words for sums, two words for all
SEEDS = [12, 386, 23, 2426, 707, 1191, 2, 26]


@unittest.skipIf(board.lacking(), "apt-get install " + " ".join(board.lacking()))
class Boards(unittest.TestCase):
    def answers(self, seed, which):
        c = random_controller(seed)
        states = states_of(c, random.Random(3), 5)
        outside = [*c.hi[:-1], c.hi[-1] + 1]
        with tempfile.TemporaryDirectory() as folder:
            self.assertEqual(board.solve(folder, c, [*states, outside], which), [*[(0, run(c, state)) for state in states], (c.states, [])], (seed, which))

    def test_each_tier(self):
        for seed in SEEDS:
            self.answers(seed, "m4")

    def test_a_processor_without_long_products(self):
        for seed in (386, 23, 26):
            self.answers(seed, "m0")

    def test_other_processors(self):
        for which in ("m3", "m7", "m33"):
            self.answers(23, which)

    @unittest.skipUnless(shutil.which("cc"), "apt-get install gcc")
    def test_costs_are_said_as_they_are_measured(self):
        """One controller of each kind of words: RAM to the byte, cycles and flash as near as docs and `explain` claim."""
        r = random.Random(5)
        for name, sizes in costs.KINDS.items():
            controller = None
            while controller is None or controller.entries * controller.rows > 300:
                controller = costs.shaped(r, *sizes)
            cycles, flash = costs.ratios(controller)
            self.assertAlmostEqual(cycles, 1, delta=0.35 if name == "two words" else 0.2, msg=name)
            self.assertAlmostEqual(flash, 1, delta=0.25, msg=name)
            if straight_costs.is_written(controller):
                for ratio in costs.straight_ratios(controller):
                    self.assertAlmostEqual(ratio, 1, delta=0.15, msg=f"{name}, straight")

    @unittest.skipUnless(os.path.exists(PROGRAM) and shutil.which("cc"), "the program isn't built, or there is no cc")
    def test_the_motors_loop_as_its_page_says(self):
        """The loop on the board prints what `loop` prints, and the page has its figures; cycles are those of one compiler, so they may differ by a tenth."""
        page = os.path.join(TOP, "examples", "motor", "board")
        printed = subprocess.run([sys.executable, "-m", "examples.motor.board.run", PROGRAM], cwd=TOP, capture_output=True, text=True, check=True).stdout
        with open(os.path.join(page, "README.md"), encoding="utf-8") as file:
            said = re.findall(r"^    (\d.*)$", file.read(), re.M)
        numbers = lambda text: [float(v.replace(",", "")) for v in re.findall(r"[\d,.]*\d", text)]
        told, wanted = numbers(printed), numbers("\n".join(said))
        self.assertEqual(len(told), len(wanted))
        for number, other in zip(told, wanted):
            self.assertAlmostEqual(number, other, delta=0.1 * other)
        self.assertTrue(printed.startswith("200 turns on a Cortex-M4, each line as loop prints it;"))


if __name__ == "__main__":
    unittest.main()
