"""The fallback outside the box, compiled beside C that hands on the state that it is given."""
import contextlib
import io
import os
import random
import shutil
import subprocess
import unittest
import unittest.mock
from dataclasses import replace

from scripts import nearest
from scripts.common.libraries import Refusal, answered

from .controllers import random_controller
from .worked import FIRST_CONTROLLER, folder_with

# NAME.h and NAME.c of two states and one input: the sums are the state, and the first input is 65536 times the first number and the second
STUB = """#include <stdint.h>
#define small_STATES 2
int small_solve(const int32_t state[2], int64_t sums[3]);
void small_first_inputs(const int64_t sums[3], int64_t inputs[1]);
"""
STUB_SOURCE = """#include "small.h"
int small_solve(const int32_t state[2], int64_t sums[3]) { sums[0] = state[0]; sums[1] = state[1]; sums[2] = 0; return 0; }
void small_first_inputs(const int64_t sums[3], int64_t inputs[1]) { inputs[0] = 4294967296 * sums[0] + sums[1]; }
"""
MAIN = """#include <stdio.h>
#include "small_nearest.h"
int main(void) {
    long first, second;
    while (scanf("%ld %ld", &first, &second) == 2) {
        int32_t state[2] = { (int32_t)first, (int32_t)second };
        int64_t inputs[1] = { 0 };
        int outside = small_nearest_inputs(state, inputs);
        printf("%d %lld\\n", outside, (long long)inputs[0]);
    }
    return 0;
}
"""


def controller():
    """A random one, of two states, one input and three stages."""
    made = next(made for seed in range(10000) if (made := random_controller(seed)) and (made.states, made.inputs, made.stages) == (2, 1, 3) and made.width <= 64)
    return replace(made, lo=[-5, -(2**31) + 1], hi=[7, 2**31 - 1])


class Fallback(unittest.TestCase):
    @unittest.skipUnless(shutil.which("cc"), "no C compiler")
    def test_nearest_states(self):
        """Any state, also the least and the greatest that there are, is handed on with each coordinate clipped, and it is counted how many were."""
        made = controller()
        header, source = nearest.texts_of("small", "controller.txt", made)
        files = {"small.h": STUB, "small.c": STUB_SOURCE, "small_nearest.h": header, "small_nearest.c": source, "main.c": MAIN}
        folder, _ = folder_with(self, **{"files": ""})
        for name, text in files.items():
            with open(os.path.join(folder, name), "w", encoding="utf-8") as file:
                file.write(text)
        command = ["cc", "-std=c99", "-Wall", "-Wextra", "-Werror", "-pedantic", "-fsanitize=undefined", "-fno-sanitize-recover", "-o", "main", "main.c", "small.c", "small_nearest.c"]
        subprocess.run(command, cwd=folder, check=True)
        draw, ends = random.Random(1), [-(2**31), -(2**31) + 1, -6, -5, 0, 7, 8, 2**31 - 1]
        states = [[x, y] for x in ends for y in ends] + [[draw.randint(-20, 20), draw.randint(-(2**31), 2**31 - 1)] for _ in range(200)]
        got = subprocess.run([os.path.join(folder, "main")], input="".join(f"{x} {y}\n" for x, y in states), capture_output=True, text=True, check=True).stdout.split("\n")
        for state, line in zip(states, got, strict=False):
            near = [min(max(v, low), high) for v, low, high in zip(state, made.lo, made.hi)]
            self.assertEqual(line, f"{sum(a != b for a, b in zip(near, state))} {near[0] * 2**32 + near[1]}", state)

    def test_says_that_the_promise_does_not_hold(self):
        header, _ = nearest.texts_of("small", "controller.txt", controller())
        self.assertIn("Else THE PROMISE DOESN'T HOLD", header)
        self.assertIn("int small_nearest_inputs(const int32_t state[2], int64_t inputs[1]);", header)

    def test_wide_controllers(self):
        with self.assertRaisesRegex(Refusal, r"a controller that `./mpc c` writes is expected \(docs/C.md\), and this one has 128 bits"):
            nearest.texts_of("small", "controller.txt", replace(controller(), width=128))

    def told(self, *words, status):
        with unittest.mock.patch("sys.argv", ["nearest.py", *words]), contextlib.redirect_stderr(io.StringIO()) as told:
            self.assertEqual(answered(nearest.main), status, told.getvalue())
        return told.getvalue()

    def test_command(self):
        folder, paths = folder_with(self, controller=FIRST_CONTROLLER)
        self.told(paths["controller"], "first", folder, status=0)
        self.assertLess({"first_nearest.c", "first_nearest.h"}, set(os.listdir(folder)))
        self.assertIn("Name: the name should be", self.told(paths["controller"], "Name", folder, status=1))
        self.assertIn("there is no such folder", self.told(paths["controller"], "first", os.path.join(folder, "none"), status=1))
        with open(os.path.join(folder, "first_nearest.c"), "w", encoding="utf-8") as file:
            file.write("/* by hand */\n")
        self.assertIn("was not written by `./mpc c`", self.told(paths["controller"], "first", folder, status=1))


if __name__ == "__main__":
    unittest.main()
