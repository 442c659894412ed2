"""straight.py PROGRAM [--count 300] [--seed 1] [--jobs 4] [CONTROLLER ..]: the C that PROGRAM's `c` writes of these controllers, or of random ones, by compilers and by a second reader.

gcc and clang, those that are installed, compile it as C99 at -O0 to -O3, and as C++17, with every warning an error, and under their sanitizers; from states in the box, at its ends, one beside them and at the ends
of int32_t it must answer what the machine makes, and so must the text as pycparser reads it, where that is installed. Of the random controllers half have a number at the end of its type: a clamp, a plan entry, a
moved multiplier, the sum of a run, a row of 64 bits. A batch of them is compiled as one text, so that 300 take minutes. Says what controllers they were, and ends with 1 at the first that differs, whose text it prints.
"""
import argparse
import collections
import itertools
import multiprocessing
import os
import random
import shutil
import subprocess
import sys
import tempfile

from scripts.common.machines import machine_of
from scripts.common.straight_costs import is_written
from scripts.common.strict_texts import absolute_sums, ceil_div, safe_controller
from scripts.tests import c_trials
from scripts.tests.controllers import accelerated, first_inputs, random_controller, run, text_of, with_width

try:
    from . import reading
except ImportError:
    reading = None

WARN = "-Wall -Wextra -Wtype-limits -Wtautological-compare -Wconversion -Wsign-conversion -Wpedantic -Werror".split()
SANITIZED = ["-std=c99", "-O1", "-fno-sanitize-recover=all"]
WAYS = [["-std=c99", level] for level in ("-O0", "-O1", "-O2", "-O3")] + [[*SANITIZED, "-fsanitize=undefined,address"], ["-x", "c++", "-std=c++17", "-O2"]]
# clang's group tells each implicit conversion that changes a value, too; shifts of negative numbers are not in it. Of all warnings that it has two are of other languages than C99: declarations behind statements, and
# arrays, which the newest call unsafe
EVERY = "-std=c99 -O2 -Weverything -Wno-declaration-after-statement -Wno-unsafe-buffer-usage -Wno-unknown-warning-option".split()
OWN_WAYS = {"gcc": [["-std=c99", "-O2", "-Wlogical-op", "-Wduplicated-cond"]], "clang": [[*SANITIZED, "-fsanitize=integer"], EVERY]}
# runs of the second reader are slow
READ_STEPS = 64
BATCH = 20


# ---- controllers


def at_end(c, r):
    """A controller with one number brought to the end of its type, or by 1 beside it, and which; None where that takes more than 64 bits."""
    end, what = 2**31 - 1 + r.choice([-1, 0, 0, 1, 1, 2]), r.choice(["clamp", "entry", "moved", "sum", "row", "state", *["twice the clamp", "reached", "quick", "divisor"] * (c.version == 3)])
    i, j = r.randrange(c.rows), r.randrange(c.entries)
    _, _, plan, rows, moved, _ = absolute_sums(c)
    to = lambda number, most: r.choice([-1, 1]) * (abs(number) + most)
    if what == "clamp":
        lowered = c.step - c.exps[i]
        c.clamp = (end << lowered) + r.randrange(1 << lowered)
    elif what == "entry":
        c.T[j] = to(c.T[j], end - plan[j])
    elif what == "twice the clamp":
        c.clamp = end + r.randrange(2) >> 1 << c.step - c.exps[i]
    elif what == "quick":
        # the greatest multiplier whose mean is made by a reciprocal, in one round or in two
        lowered = c.step - c.exps[i]
        c.clamp = ((2 ** r.choice([30, 30, 56]) - r.randrange(3)) << lowered) + r.randrange(1 << lowered) >> 1
    elif what == "divisor":
        # the most steps of which means are, and one step more
        c.steps = 46338 + r.randrange(2)
    elif what == "reached":
        c.clamp = r.choice([end, 2**63 - 1]) // (2 * machine_of(3).total(c.steps)) + r.choice([0, 1])
    elif what == "sum":
        c.steps = r.choice([1, 2, 3, 8, c.steps])
        c.T[j] = to(c.T[j], end // machine_of(c.version).total(c.steps) + r.choice([0, 1]) - plan[j])
    elif what == "moved":
        c.b[i] = to(c.b[i], (end - moved[i]) // (c.steps + 1 if c.version == 3 else 1))
    elif what == "row":
        c.b[i] = to(c.b[i], ((2**63 - 1 - rows[i]) >> c.bits) - r.choice([0, 0, 1]))
    else:
        c.lo[0], c.hi[0] = r.choice([(-(2**31) + 1, 2**31 - 1), (2**31 - 1, 2**31 - 1), (-(2**31) + 1, -(2**31) + 1), (0, 2**31 - 1)])
    return with_width(c), what


def drawn(r):
    """Random controllers that `c` writes, each with what was brought to an end."""
    while True:
        c, what = random_controller(r.randrange(10**9)), "nothing"
        if c is not None and r.random() < 0.4:
            c = accelerated(c)
        if c is not None and r.random() < 0.5:
            c, what = at_end(c, r)
        if c is not None and is_written(c):
            yield c, what


def read_controllers(paths):
    for path in paths:
        with open(path, encoding="ascii") as file:
            yield safe_controller(file.read(), 3), "nothing"


# ---- what must be answered


def states_of(c, r):
    """Each with what must be answered: 0 or the first coordinate outside."""
    inside = c_trials.states_of(c, r, 8)
    outside = []
    for i in range(c.states):
        for value in (c.lo[i] - 1, c.hi[i] + 1, -(2**31), 2**31 - 1):
            if not c.lo[i] <= value <= c.hi[i] and -(2**31) <= value < 2**31:
                outside.append(([*inside[0][:i], value, *inside[-1][i + 1 :]], i + 1))
    return [(state, 0) for state in inside] + outside


def expected(c, r):
    for state, first in states_of(c, r):
        sums = [] if first else run(c, state)
        yield state, first, sums, first_inputs(c, sums)


def harness(names, controllers, cases):
    """A text of all programs, with a main that prints for each state of each controller what is answered, the sums and the averages."""
    number = lambda v: f"{v}" if v > -(2**31) else "INT32_MIN"
    yield "#include <stdio.h>"
    for name, c, its in zip(names, controllers, cases):
        yield f'#include "{name}.c"'
        rows = "".join("{" + ", ".join(map(number, state)) + "}," for state, *_ in its)
        yield f"static const int32_t states_{name}[{len(its)}][{c.states}] = {{{rows}}};"
        yield f"static void try_{name}(void)\n{{\n    int64_t sums[{c.entries}] = {{0}}, inputs[{c.inputs}] = {{0}};\n    int k, j;\n    for (k = 0; k < {len(its)}; k++) {{"
        yield f'        const int found = {name}_solve(states_{name}[k], sums);\n        printf("%d", found);\n        if (found == 0) {{\n            {name}_first_inputs(sums, inputs);'
        for array, count in (("sums", c.entries), ("inputs", c.inputs)):
            yield f'            for (j = 0; j < {count}; j++) {{ printf(" %lld", (long long){array}[j]); }}'
        yield '        }\n        printf("\\n");\n    }\n}'
    yield "int main(void)\n{\n" + "".join(f"    try_{name}();\n" for name in names) + "    return 0;\n}"


# ---- trials


def compiled(folder, compiler, way):
    """What the programs answer, compiled so."""
    out = os.path.join(folder, "run")
    command = [compiler, *WARN, *way, f"-I{folder}", os.path.join(folder, "main.c"), "-o", out, *(["-lstdc++"] if "c++" in way else [])]
    for words in (command, [out]):
        told = subprocess.run(words, capture_output=True, text=True)
        if told.returncode:
            raise AssertionError(f"{compiler} {' '.join(way)}: {told.stdout[-200:]}{told.stderr[:2000]}")
    return [[int(v) for v in line.split()] for line in told.stdout.splitlines()]


def read(folder, name, c, cases):
    """Raises where the second reader of a program's text answers otherwise than the machine."""
    with open(os.path.join(folder, name + ".c"), encoding="ascii") as file:
        functions = reading.parsed(file.read())
    for state, first, sums, averages in cases:
        if reading.solved(functions, name, state, c.entries, c.inputs) != (first, sums, averages):
            raise AssertionError(f"the second reader answers otherwise from {state}")


def tried(program, controllers, seed):
    """Raises where the C of one of these controllers isn't the machine's."""
    with tempfile.TemporaryDirectory() as folder:
        r, path = random.Random(seed), lambda name: os.path.join(folder, name)
        names = [f"mpc_{k}" for k in range(len(controllers))]
        cases = [list(expected(c, r)) for c in controllers]
        for name, c in zip(names, controllers):
            c_trials.write(folder, "controller", text_of(c))
            subprocess.run([program, "c", path("controller"), name, path(name + ".c"), path(name + ".h")], check=True)
        c_trials.write(folder, "main.c", "\n".join(harness(names, controllers, cases)) + "\n")
        wanted = [[first, *sums, *averages] for its in cases for _, first, sums, averages in its]
        for compiler in filter(shutil.which, OWN_WAYS):
            for way in WAYS + OWN_WAYS[compiler]:
                if compiled(folder, compiler, way) != wanted:
                    raise AssertionError(f"{compiler} {' '.join(way)} answers otherwise")
        for name, c, its in zip(names, controllers, cases):
            if reading and c.steps <= READ_STEPS:
                read(folder, name, c, its)


class Trial:
    """One batch, for a pool: nothing, or the first controller that fails with why."""

    def __init__(self, program):
        self.program = program

    def __call__(self, batch):
        seed, controllers = batch
        try:
            tried(self.program, controllers, seed)
            return None
        except (AssertionError, subprocess.CalledProcessError, reading.Fault if reading else AssertionError) as why:
            if len(controllers) == 1:
                return controllers[0], why
        return next(filter(None, (self((seed, [c])) for c in controllers)), (controllers[0], "this batch fails, and none of it alone"))


def main():
    parser = argparse.ArgumentParser(prog="python3 -m checks.c.straight", description=__doc__, formatter_class=argparse.RawDescriptionHelpFormatter)
    parser.add_argument("program")
    parser.add_argument("controllers", nargs="*")
    for name, value in (("--count", 300), ("--seed", 1), ("--jobs", os.cpu_count())):
        parser.add_argument(name, type=int, default=value)
    given = parser.parse_args()
    some = list(read_controllers(given.controllers) if given.controllers else itertools.islice(drawn(random.Random(given.seed)), given.count))
    batches = [(f"{given.seed} {at}", [c for c, _ in some[at : at + BATCH]]) for at in range(0, len(some), BATCH)]
    with multiprocessing.Pool(given.jobs) as pool:
        for failed in pool.imap_unordered(Trial(os.path.abspath(given.program)), batches):
            if failed:
                print(text_of(failed[0]))
                sys.exit(f"straight.py: {failed[1]}")
    count = lambda words: ", ".join(f"{word} {number}" for word, number in sorted(collections.Counter(words).items()))
    print(f"versions {count(c.version for c, _ in some)}; widths {count(f'to {8 * ceil_div(c.width, 8)}' for c, _ in some)}; at its type's end {count(what for _, what in some)}")
    print(f"{len(some)} controllers: equal{'' if reading else ', without a second reader: apt-get install python3-pycparser'}")


if __name__ == "__main__":
    main()
