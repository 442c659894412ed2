"""The model of `c`: its texts, what it refuses, and the programs themselves, compiled and run beside the machine."""
import collections
import os
import random
import shutil
import subprocess
import tempfile
import unittest

from checks.fuzz import cases, compiled, control
from checks.rows.texts import sub
from checks.rows.worked_texts import SHARED

from .worked import CONTROLLER, told

STRICT = ["-O2", "-Wall", "-Wextra", "-Wconversion", "-Wsign-conversion", "-Wpedantic", "-Werror", "-std=c99"]
COMPILERS = [name for name in ("gcc", "clang") if shutil.which(name)]
MAIN = """#include <stdio.h>
#include "NAME.h"
int main(void)
{
    int32_t state[NAME_STATES];
    int64_t sums[NAME_INPUTS * NAME_STAGES], inputs[NAME_INPUTS];
    while (1) {
        for (int i = 0; i < NAME_STATES; i++) {
            long number;
            if (scanf("%ld", &number) != 1) { return 0; }
            state[i] = (int32_t)number;
        }
        int refused = NAME_solve(state, sums);
        printf("%d", refused);
        if (refused == 0) {
            for (int j = 0; j < NAME_INPUTS * NAME_STAGES; j++) { printf(" %lld", (long long)sums[j]); }
            NAME_first_inputs(sums, inputs);
            for (int j = 0; j < NAME_INPUTS; j++) { printf(" %lld", (long long)inputs[j]); }
        }
        printf("\\n");
    }
}
"""
# the box from 0 to 1 of the worked controller, over 2^0, and its program
BODY = """    for (int32_t step = 0; step < 4; step++) {
        int32_t d0 = (int32_t)((int64_t)l0 - (int64_t)l1);
        int32_t u0 = (int32_t)(INT64_C(0) - (((int64_t)a0 + (INT64_C(256) * (int64_t)d0) + (INT64_C(256) * (int64_t)l2)) >> 11));
"""
# the worked controller of the accelerated machine: a row with an exponent of its own, and a pair; and the head of a step of its program
FAST = SHARED["FAST_CONTROLLER"].encode()
FAST_BODY = """    for (int32_t step = 0; step < 3; step++) {
        int32_t b0 = (int32_t)((((int64_t)k0 - INT64_C(1)) * ((int64_t)k0 + INT64_C(2))));
        int32_t c0 = (int32_t)(INT64_C(1) + ((((int64_t)b0 * INT64_C(1073741824)) - (int64_t)p0) >> 63));
        e0 = (int32_t)((int64_t)e0 + (int64_t)c0);
        p0 = (int64_t)((int64_t)p0 + ((int64_t)c0 * (int64_t)p0));
        int32_t q0 = (int32_t)((((int64_t)p0 - INT64_C(1)) / (int64_t)b0));
        int64_t n0 = (int64_t)((int64_t)v0 + ((int64_t)k0 * (int64_t)m0));
        int32_t h0 = (int32_t)((((int64_t)n0) >> (int64_t)e0));
        l0 = (int32_t)(((((int64_t)h0 * (int64_t)q0)) >> 32));
        int32_t z0 = (int32_t)((int64_t)n0 - ((int64_t)l0 * (int64_t)b0) - (int64_t)b0);
        l0 = (int32_t)((int64_t)l0 + INT64_C(1) + (((int64_t)z0) >> 31));
"""


def line_of(c, state):
    """What the main program prints of a state."""
    outside = control.outside(c, state)
    if outside:
        return [outside]
    sums = control.run(c, state)
    return [0, *sums, *[(2 * v + c.total) // (2 * c.total) for v in sums[: c.p]]]


def states_of(c, pick, count):
    yield from (c.lo, c.hi)
    yield from ([pick.randint(low, high) for low, high in zip(c.lo, c.hi)] for _ in range(count))
    for i in range(c.n):
        for value in (c.lo[i] - 1, c.hi[i] + 1):
            if -(2**31) <= value < 2**31:
                yield [*c.lo[:i], value, *c.hi[i + 1 :]]


class Texts(unittest.TestCase):
    def test_worked(self):
        status, line, out, written = told("c c first t h", c=CONTROLLER)
        self.assertEqual((status, line, out, sorted(written)), (0, "", "", ["h", "t"]))
        self.assertTrue(written["t"].startswith('#include "first.h"\n'))
        self.assertIn(BODY, written["t"])
        self.assertIn("\n    inputs[0] = (((int64_t)sums[0] + INT64_C(2)) >> 2);\n}\n", written["t"])
        self.assertIn("\n#define first_STEPS 4\n#define first_BITS 10\n", written["h"])

    def test_accelerated(self):
        status, line, _, written = told("c c fast t h", c=FAST)
        self.assertEqual((status, line), (0, ""))
        self.assertIn(FAST_BODY, written["t"])
        self.assertIn("\n    inputs[0] = ((int64_t)sums[0] / INT64_C(9)) + ", written["t"])

    def test_refusals(self):
        for words in ("c c 1a t h", "c c A t h", "c c a c h", "c c a t c", "c c a t t", "c c a t", "c c " + "a" * 32 + " t h"):
            self.assertEqual(told(words, c=CONTROLLER)[:2], (2, "error 2 usage\n"), words)
        self.assertEqual(told("c c c t h", c=CONTROLLER)[0], 0)
        self.assertEqual(told("c c a t h")[:2], (3, "error 3 read-fault 1\n"))
        self.assertEqual(told("c c a t h", c=CONTROLLER[:-1])[:2], (11, "error 11 controller 1 line 19\n"))
        # the text says its own width, of which as much as its sums need is enough
        wide = lambda width: sub(CONTROLLER, (b"bits 10 0 1 26", b"bits 10 0 1 %d" % width))
        self.assertEqual(told("c c a t h", c=wide(64))[0], 0)
        self.assertEqual(told("c c a t h", c=wide(65)), (22, "error 22 too-wide-c 65\n", "", {}))


@unittest.skipUnless(COMPILERS, "missing: gcc or clang")
class Programs(unittest.TestCase):
    def runs_as_the_machine(self, c, pick, count, flags=()):
        source, header = compiled.texts_of("made", c)
        states = list(states_of(c, pick, count))
        with tempfile.TemporaryDirectory() as folder:
            for name, text in (("made.c", source), ("made.h", header), ("main.c", MAIN.replace("NAME", "made").encode())):
                with open(os.path.join(folder, name), "wb") as file:
                    file.write(text)
            for compiler in COMPILERS:
                subprocess.run([compiler, *STRICT, *flags, "made.c", "main.c", "-o", "made"], cwd=folder, check=True)
                ran = subprocess.run(["./made"], cwd=folder, input="".join(" ".join(map(str, state)) + "\n" for state in states), capture_output=True, text=True, check=True)
                self.assertEqual([list(map(int, line.split())) for line in ran.stdout.splitlines()], [line_of(c, state) for state in states], compiler)

    def test_worked(self):
        self.runs_as_the_machine(control.read_controller(CONTROLLER), random.Random(1), 0)

    def test_examples(self):
        """Of each example's controller of at most 64 bits, in whole numbers that nothing leaves."""
        pick, tried = random.Random(7), []
        for design, policy in cases.examples():
            status, _, _, written = told("generate d p c r", d=design, p=policy)
            c = control.read_controller(written["c"].encode()) if status == 0 else None
            if c and c.w <= compiled.MOST_WIDTH and c.steps * c.nu * (c.m + c.n) < 20_000_000:
                self.runs_as_the_machine(c, pick, 2, ["-fsanitize=undefined", "-fno-sanitize-recover"])
                tried.append(c.w)
        self.assertGreater(len(tried), 3)

    def test_accelerated(self):
        c = control.read_controller(FAST, (3,))
        self.assertEqual(control.run(c, [1]), [-2480])
        self.runs_as_the_machine(c, random.Random(1), 0)
        # means by a reciprocal in one round and in two, and by a division
        for clamp, steps, *counts in ((2**29 - 1, 40, 3, 3), (2**29, 40, 1, 3), (2**55, 6, 0, 1), (2**56, 6, 0, 0)):
            c.w_mat, c.clamp, c.steps = [[1, -1, 1]], clamp, steps
            c.w = control.least_width(c)
            made = compiled.program_of(c)
            self.assertEqual(([len(made.quick), len(made.twice_quick)], c.w <= compiled.MOST_WIDTH), (counts, True))
            self.runs_as_the_machine(c, random.Random(2), 0, ["-fsanitize=undefined", "-fno-sanitize-recover"])
        pick, tried = random.Random(5), 0
        while tried < 12:
            _, c = cases.random_controller(pick, versions=(3,))
            c.steps = pick.choice([1, 2, 3, 7, 20, 60])
            c.w = control.least_width(c) or 128
            if c.w <= compiled.MOST_WIDTH:
                self.runs_as_the_machine(c, pick, 2, ["-fsanitize=undefined", "-fno-sanitize-recover"])
                tried += 1

    def test_parts(self):
        """Sums above 64 bits in two parts, of both machines."""
        pick, tried = random.Random(9), collections.Counter()
        while min(tried[version] for version in (1, 2, 3)) < 4:
            _, c = cases.random_controller(pick, versions=(1, 2, 3))
            c.steps = pick.choice([1, 2, 3, 7, 20])
            c.w = control.least_width(c) or 128
            if c.w > compiled.MOST_WIDTH and compiled.is_written(c):
                self.runs_as_the_machine(c, pick, 2, ["-fsanitize=undefined", "-fno-sanitize-recover"])
                tried[c.version] += 1

    def test_what_is_left_out(self):
        """Rows that move no plan entry, and coordinates that move nothing, leave no variable that isn't used."""
        bare = sub(CONTROLLER, (b"P 512", b"P 0"), (b"W 256 -256 256", b"W 0 -256 0"), (b"b 1024 1024 256", b"b 0 -1024 256"))
        still = sub(CONTROLLER, (b"hi 1", b"hi 0"), (b"P 512", b"P %d" % -(2**127)), (b"E 1024", b"E %d" % (2**127 - 1)))
        for text, has_first_row in ((bare, False), (still, True)):
            c = control.read_controller(text)
            self.runs_as_the_machine(c, random.Random(1), 0)
            source = compiled.texts_of("made", c)[0].decode()
            self.assertNotIn(" x0 = ", source)
            self.assertEqual(" r0 = " in source, has_first_row)

    def test_averages(self):
        """Of step counts that are no power of two, too."""
        pick = random.Random(3)
        for steps in (1, 2, 3, 5, 1023, 4096):
            c = control.read_controller(sub(CONTROLLER, (b"steps 4", b"steps %d" % steps), (b"bits 10 0 1 26", b"bits 10 0 1 40")))
            self.runs_as_the_machine(c, pick, 0)


if __name__ == "__main__":
    unittest.main()
