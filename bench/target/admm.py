"""admm.py PROGRAM [--examples motor,pmsm]: what ADMM in single precision costs on an emulated Cortex-M4, for what `lean` promises.

The peer of a controller: ADMM (Boyd and others, 2011; over-relaxed by 1.6, as OSQP has it) on the same condensed problem, opposite rows as one row with two ends, its
penalty the best of a list, straight C without loops or tables but for the iterations, run on the processor's floating-point unit. Its iterations are the fewest after
which no plan from the example's states and the corners of its box exceeds a limit by more than is asked of its row, or costs more than is asked above the best: once what the report of `lean` promises for all states,
and once what its controller does at these states. Of ADMM both are measured at these states alone, and nothing is proved of its sums.

Needs gcc-arm-none-eabi, qemu-system-arm and what ./mpc judge needs; says so where they aren't installed.
"""
import argparse
import itertools
import os
import subprocess
import sys
import tempfile

import numpy

from scripts.common.design_text import read_design
from scripts.common.programs import Programs

from . import board

EXAMPLES = ["motor", "pmsm", "satellite", "wheel", "antenna", "rendezvous", "kiln"]
PENALTIES = [10 ** (e / 4) for e in range(-24, 25)]
RELAXATION = 1.6
MOST = 4000


class Problem:
    """Rows with two ends, their greatest coefficient 1, of a design."""

    def __init__(self, design):
        programs = Programs(design)
        self.programs, self.hess = programs, programs.hess
        ends = {}
        for i, row in enumerate(programs.rows):
            size = abs(row).max()
            sign = 1 if row[numpy.flatnonzero(row)[0]] > 0 else -1
            state = tuple(numpy.round(sign * programs.state_rows[i] / size, 12))
            ends.setdefault((tuple(numpy.round(sign * row / size, 12)), state), {}).setdefault(sign, []).append((programs.bounds[i] / size, i))
        self.rows = numpy.array([key[0] for key in ends])
        self.state_rows = numpy.array([key[1] for key in ends])
        least = lambda found, sign: min(bound for bound, _ in found[sign]) if sign in found else numpy.inf
        self.high = numpy.array([least(found, 1) for found in ends.values()])
        self.low = numpy.array([-least(found, -1) for found in ends.values()])

    def matrices(self, penalty):
        """The plan is pulled(q) + gain w, where w is twice the rows' values less the sum."""
        inverse = numpy.linalg.inv(self.hess + penalty * self.rows.T @ self.rows)
        return inverse, penalty * inverse @ self.rows.T

    def cost(self, state, plan):
        return plan @ self.hess @ plan / 2 + self.programs.pull(state) @ plan

    def excesses(self, states, plans):
        """The greatest violation of each row, and the greatest cost above the best one."""
        over = numpy.array([self.programs.rows @ plan - self.programs.room(x) for x, plan in zip(states, plans)]).max(axis=0)
        above = [self.cost(x, plan) - self.cost(x, self.programs.best(x)) for x, plan in zip(states, plans)]
        return numpy.maximum(over, 0.0), max(*above, 0.0)

    def iterations(self, penalty, states, asked, best, most):
        """The fewest iterations after which the plans from all states are as asked, or none within so many."""
        inverse, gain = self.matrices(penalty)
        programs = self.programs
        pulls = numpy.array([programs.pull(x) for x in states])
        rooms = numpy.array([programs.room(x) for x in states])
        shift = numpy.array(states, float) @ self.state_rows.T
        start, high, low = -pulls @ inverse.T, self.high - shift, self.low - shift
        values, sums = numpy.clip(numpy.zeros_like(shift), low, high), numpy.zeros_like(shift)
        for count in range(1, most + 1):
            plans = start + (values - sums) @ gain.T
            over = (plans @ programs.rows.T - rooms - asked[0]).max(axis=1)
            costs = (plans @ self.hess * plans).sum(axis=1) / 2 + (pulls * plans).sum(axis=1)
            if (over <= 0).all() and (costs - best <= asked[1]).all():
                return count
            told = RELAXATION * plans @ self.rows.T + (1 - RELAXATION) * values
            values = numpy.clip(told + sums, low, high)
            sums = sums + told - values
        return None

    def fewest(self, states, asked):
        """The fewest iterations over the penalties, and the penalty."""
        best = numpy.array([self.cost(x, self.programs.best(x)) for x in states])
        found = (MOST, None)
        for penalty in PENALTIES:
            scaled = penalty * numpy.trace(self.hess) / numpy.trace(self.rows.T @ self.rows)
            count = self.iterations(scaled, states, asked, best, found[0] - 1)
            found = (count, scaled) if count else found
        return found


def number(value):
    return f"{float(numpy.float32(value))!r}f"


def total(first, row, names):
    terms = [first] if first else []
    terms += [f"{number(v)} * {name}" for v, name in zip(row, names) if abs(v) > 1e-12]
    return " + ".join(terms or ["0.0f"])


def source(problem, penalty, count, grid):
    """The C of so many iterations, from a state over 2^grid."""
    inverse, gain = problem.matrices(penalty)
    start, constant = -inverse @ problem.programs.lin, -inverse @ problem.programs.off
    rows, entries, states = len(problem.rows), len(problem.hess), problem.state_rows.shape[1]
    x, u = [f"x[{i}]" for i in range(states)], [f"u{j}" for j in range(entries)]
    out = ['#include "admm.h"', "", f"void admm_solve(const int32_t state[{states}], float plan[{entries}])", "{", f"    float x[{states}];"]
    out += [f"    x[{i}] = (float)state[{i}] * {number(2.0**-grid)};" for i in range(states)]
    out += [f"    const float p{j} = {total(number(constant[j]), start[j], x)};" for j in range(entries)]
    for i in range(rows):
        moved = total("", problem.state_rows[i], x)
        for end, value in (("h", problem.high[i]), ("l", problem.low[i])):
            out += [f"    const float {end}{i} = {number(value)} - ({moved});"] if numpy.isfinite(value) else []
        out += [f"    float v{i} = 0.0f, y{i} = 0.0f;"]
        out += [f"    v{i} = (v{i} < l{i}) ? l{i} : v{i};"] if numpy.isfinite(problem.low[i]) else []
        out += [f"    v{i} = (v{i} > h{i}) ? h{i} : v{i};"] if numpy.isfinite(problem.high[i]) else []
    out += [f"    float {name} = 0.0f;" for name in u]
    out += [f"    for (int32_t step = 0; step < {count}; step++) {{"]
    out += [f"        const float w{i} = v{i} - y{i};" for i in range(rows)]
    out += [f"        u{j} = {total(f'p{j}', gain[j], [f'w{i}' for i in range(rows)])};" for j in range(entries)]
    for i in range(rows):
        out += [f"        const float t{i} = {number(RELAXATION)} * ({total('', problem.rows[i], u)}) + {number(1 - RELAXATION)} * v{i} + y{i};", f"        v{i} = t{i};"]
        out += [f"        v{i} = (v{i} < l{i}) ? l{i} : v{i};"] if numpy.isfinite(problem.low[i]) else []
        out += [f"        v{i} = (v{i} > h{i}) ? h{i} : v{i};"] if numpy.isfinite(problem.high[i]) else []
        out += [f"        y{i} = t{i} - v{i};"]
    out += ["    }"] + [f"    plan[{j}] = u{j};" for j in range(entries)] + ["}", ""]
    return "\n".join(out)


MAIN = """#include "target.h"
#include "admm.h"
#include "states.h"

static float plan[ENTRIES];

int main(void)
{
    for (unsigned i = 0; i < sizeof states / sizeof states[0]; i++) {
        admm_solve(states[i], plan);
        for (int j = 0; j < ENTRIES; j++) {
            put_number((int64_t)(plan[j] * 1048576.0f));
            put(" ");
        }
        put("\\n");
    }
    return 0;
}
"""


def counted(problem, states, grid, asked, count, penalty):
    """Cycles of a run and bytes of flash; an error where a plan on the board isn't as asked."""
    entries, some = len(problem.hess), states[:3]
    with tempfile.TemporaryDirectory() as folder:
        board.write(folder, "admm.h", f"#include <stdint.h>\nvoid admm_solve(const int32_t state[{len(some[0])}], float plan[{entries}]);\n")
        board.write(folder, "admm.c", source(problem, penalty, count, grid))
        board.write(folder, "main.c", MAIN)
        board.write_states(folder, some)
        board.build(folder, "m4", [os.path.join(folder, "main.c")], "-O2", [f"-DENTRIES={entries}", "-mfloat-abi=hard", "-mfpu=fpv4-sp-d16", "-ffast-math"], "admm")
        plans = [numpy.array([int(word) / 2**20 for word in line.split()]) for line in board.emulate(folder, "m4")]
        over, _ = problem.excesses([[v / 2**grid for v in x] for x in some], plans)
        if (over > 1.05 * asked[0] + 1e-5 * abs(problem.programs.bounds).max()).any():
            raise SystemExit(f"admm.py: a plan on the board exceeds limits by {over}, and {asked[0]} is asked")
        (_, cycles), (flash, _) = max(board.counts(folder, "m4", "admm")), board.sizes(folder, "admm")
    return cycles, flash


def made(program, example, states):
    """What `lean` promises of an example, and its plans from the states."""
    path = lambda name: os.path.join(example, name)
    with tempfile.TemporaryDirectory() as folder:
        controller, report, rows = (os.path.join(folder, name) for name in ("controller", "report", "states"))
        subprocess.run([program, "lean", path("design.toml"), path("lean.csv"), path("reference.csv"), controller, report], check=True)
        with open(rows, "w", encoding="ascii") as file:
            file.writelines(",".join(map(str, x)) + "\n" for x in states)
        with open(report, encoding="ascii") as file:
            lines = [line.split() for line in file]
        plans = subprocess.run([program, "solve", controller, rows], capture_output=True, text=True, check=True).stdout.splitlines()
    values = lambda name: numpy.array([int(words[-2]) / int(words[-1]) for words in lines if words[0] == name])
    numbers = [[int(word) for word in line.split()] for line in plans]
    return (values("violation"), values("gap")[0]), [numpy.array(sums[1:]) / sums[0] for sums in numbers]


def main():
    parser = argparse.ArgumentParser(prog="python3 -m bench.target.admm", description=__doc__, formatter_class=argparse.RawDescriptionHelpFormatter)
    parser.add_argument("program")
    parser.add_argument("--examples", default=",".join(EXAMPLES))
    given = parser.parse_args()
    if board.lacking():
        sys.exit(f"admm.py: nothing was measured: apt-get install {' '.join(board.lacking())}")
    print("| Example | asked | Violation | Gap | Iterations | Cycles | Flash |\n|---|---|---|---|---|---|---|")
    for name in given.examples.split(","):
        example = os.path.join(board.TOP, "examples", name)
        design = read_design(os.path.join(example, "design.toml"))
        with open(os.path.join(example, "states.csv"), encoding="ascii") as file:
            states = [[int(v) for v in line.split(",")] for line in file.read().split()]
        states += [list(x) for x in itertools.product(*zip(design.lo, design.hi))]
        problem, whole = Problem(design), [[v / 2**design.grid for v in x] for x in states]
        promise, plans = made(os.path.abspath(given.program), example, states)
        for asked, (violation, gap) in (("promised", promise), ("measured", problem.excesses(whole, plans))):
            count, penalty = problem.fewest(whole, (violation, gap))
            first = f"| {name} | {asked} | {violation.max():.4g} | {gap:.4g} |"
            if penalty is None:
                print(f"{first} more than {MOST} | | |", flush=True)
                continue
            cycles, flash = counted(problem, states, design.grid, (violation, gap), count, penalty)
            print(f"{first} {count} | {cycles:,} | {flash} |", flush=True)


if __name__ == "__main__":
    main()
