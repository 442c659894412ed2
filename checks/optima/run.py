"""Holds printed bounds against exact optima: of random designs and at states of their boxes, no bound that is printed may be broken.

    python3 -m checks.optima.run [PROGRAM] [--command COMMAND] [--version VERSION] [--count COUNT] [--states STATES] [--seed SEED] [--jobs JOBS]

For each of COUNT (300) designs the COMMAND (lean, or generate) makes a controller, and runs it from STATES (10) states of the box, corners first. Each averaged plan, as exact
fractions, must exceed each row by at most its printed violation, cost at most the printed gap more than the best feasible plan, and at most the printed undercut less; and both
targets must be kept. The best plan is computed in fractions and proved optimal. Without PROGRAM the model of ../fuzz makes and runs the controllers; it alone has the accelerated machine,
that of --version 3. Without VERSION designs are of 1 and 2.

The designs have limits that bind at corners, policies with much or little slack, and targets of which some are as loose as what the plan without limits breaks; the reference
plans are good ones, but for some.
"""
import argparse
import collections
import multiprocessing
import os
import random
import subprocess
import sys
import tempfile
from dataclasses import dataclass
from fractions import Fraction

from ..fuzz import at_corners, cases, control, forms, model, program
from ..fuzz.machines import VERSIONS
from .quadratic import Program, dot

# the most products of a run, and the most of two fractions' bits that the optimum takes in time
MOST_PRODUCTS, MOST_ENTRIES = 400_000, 6
OVER = 2**40


# ---- designs


def random_numbers(pick, version):
    """The numbers of a design whose bounds are yet to be set, of this version where there is one."""
    drawn_version, n, p = pick.choice([1, 2]), pick.choice([1, 1, 2, 2, 3]), pick.choice([1, 1, 2])
    stages = pick.choice([k for k in (1, 2, 3, 4, 5) if k * p <= MOST_ENTRIES])
    den, limit_den, grid = pick.choice([1, 2, 4, 8, 10, 64, 1048576]), pick.choice([1, 4, 10, 100]), pick.choice([0, 2, 4])
    some = lambda count, reach: [pick.randrange(-reach, reach + 1) for _ in range(count)]
    side = pick.choice([1, 2, 3]) << grid
    cost = lambda: [*some(n, 2), pick.choice([0, 0, 1]), pick.choice([1, 2, 5, 20])]
    stage_row = lambda: [*(some(n, limit_den) if pick.random() < 0.4 else [0] * n), *some(p, limit_den), 0]
    return {"version": version or drawn_version, "n": n, "p": p, "stages": stages, "den": den, "a": [some(n, max(1, den // n)) for _ in range(n)], "b": [some(p, den) for _ in range(n)],
            "cost_den": pick.choice([1, 1, 4, 16]), "row_den": pick.choice([1, 2]), "input": [pick.randrange(1, 9) for _ in range(p)],
            "cost": [cost() for _ in range(pick.choice([1, 2]))], "final_cost": [cost() for _ in range(pick.choice([0, 1]))], "limit_den": limit_den,
            "rows": [stage_row() for _ in range(pick.choice([1, 2, 3]))], "final_rows": [[*some(n, limit_den), 0] for _ in range(pick.choice([0, 0, 1, 2]))], "grid": grid,
            "lo": [pick.choice([-side, 0]) for _ in range(n)], "hi": [side] * n, "target_den": 1, "violation": 1, "gap": 1}


def text_of(plans):
    return "".join(",".join(map(str, [q, *u])) + "\n" for q, u in plans).encode()


class Exact:
    """A design's quadratic programs."""

    def __init__(self, d):
        self.d, self.form = d, forms.exact_form(d)
        over = lambda rows, den: [[Fraction(v.mid, den) for v in row] for row in rows]
        self.lin, self.state_rows = over(self.form.f, self.form.hess_den), over(self.form.e, self.form.row_den)
        self.programs = Program([[2 * v for v in row] for row in over(self.form.q, self.form.hess_den)], over(self.form.g, self.form.row_den))

    def pull(self, x):
        return [dot(row, x) + Fraction(h.mid, self.form.hess_den) for row, h in zip(self.lin, self.form.h0)]

    def room(self, x, slack=0):
        return [Fraction(b, self.form.row_den) - dot(row, x) - slack for row, b in zip(self.state_rows, self.form.b)]

    def best(self, x, slack=0):
        return self.programs.best(self.pull(x), self.room(x, slack))


def states_of(d):
    return [[Fraction(v, 2**d.grid) for v in state] for state in at_corners.states(d)]


def rounded(pick, plan, dens):
    q = pick.choice(dens)
    return q, [round(q * v) for v in plan]


def drawn(pick, version):
    """A design, a policy and references as texts, or None where nothing came of these numbers."""
    v = random_numbers(pick, version)
    d = model.read_design(cases.design_text(v))
    if not d.rows or not any(any(row[:-1]) for row in d.stage_rows + d.final_rows):
        return None
    free = Exact(d)
    best = [free.programs.unlimited(free.pull(x)) for x in states_of(d)]
    # bounds that a part of the best plans keeps at each corner, and the best plans don't
    part, share = pick.choice([Fraction(1, 4), Fraction(1, 2), Fraction(3, 4), Fraction(9, 10)]), pick.choice([Fraction(1, 20), Fraction(1, 4), Fraction(1, 2)])
    whole, kept = ([d.residuals(x, [times * u for u in plan]) for x, plan in zip(states_of(d), best)] for times in (1, part))
    count = len(v["rows"])
    for i, row in enumerate(v["rows"] + v["final_rows"]):
        own = range(i, count * d.stages, count) if i < count else [count * (d.stages - 1) + i]
        low, high = (max(of[k] for k in own for of in some) for some in (kept, whole))
        row[-1] = -((-(low + max(share * (high - low), Fraction(1, 8))) * d.limit_den) // 1)
    d = model.read_design(cases.design_text(v))
    over = max(max(d.residuals(x, plan)) for x, plan in zip(states_of(d), best))
    if over <= 0:
        return None
    # the violation's target beside what the plan without limits breaks
    v["target_den"] = pick.choice([10, 64, 1000])
    v["violation"] = max(1, round(v["target_den"] * over * pick.choice([Fraction(1, 50), Fraction(1, 10), Fraction(1, 3), Fraction(9, 10), Fraction(11, 10), 2, 4, 8])))
    v["gap"] = max(1, round(v["target_den"] * pick.choice([Fraction(1, 100), Fraction(1, 10), 1, 10])))
    text = cases.design_text(v)
    d = model.read_design(text)
    exact = Exact(d)
    most = min(min(-r for r in d.residuals(x, [part * u for u in plan])) for x, plan in zip(states_of(d), best))
    slack = most * pick.choice([Fraction(1, 50), Fraction(1, 5), Fraction(1, 2), Fraction(9, 10)])
    found = [exact.best(x, slack) for x in states_of(d)]
    if None in found:
        return None
    policy = [rounded(pick, plan, [64, 1000, 65536]) for plan, _ in found]
    references = [rounded(pick, plan, pick.choice([[1, 2, 3], [16, 1000], [65536]])) for plan in best] if pick.random() < 0.85 else policy
    return d, text, text_of(policy), text_of(references)


# ---- controllers and their runs


@dataclass
class Made:
    """The violations of the rows, the gap and the undercut that are printed, over 2^40; and the sums of all plans over `scale` from a state."""

    violations: list
    gap: int
    undercut: int
    sums: object


def products(c):
    return c.steps * (c.nu * (c.n + c.m) + c.m * (c.nu + c.n))


def numbers_of(report, rows):
    """The printed bounds of a report's text."""
    lines = [line.split() for line in report.decode().splitlines()]
    violations = [int(line[-2]) for line in lines if line[0] == "violation"]
    found = {line[0]: int(line[1]) for line in lines if len(line) > 1}
    return violations if len(violations) == rows > 1 else violations * rows, found["gap"], found["undercut"]


def made(options, words, files, folder):
    """What the command makes of these files: a controller with its bounds; or None where it refuses, or where a run of it is too long."""
    if options.program is None:
        said = program.answer(words, files.get, lambda name: True, model.exact_gains)
        status, left = said.status, said.written
    else:
        for name, data in files.items():
            with open(os.path.join(folder, name), "wb") as file:
                file.write(data)
        status = subprocess.run([options.program, *words], cwd=folder, stderr=subprocess.DEVNULL).returncode
        left = {name: open(os.path.join(folder, name), "rb").read() for name in ("c", "r")} if status == 0 else {}
    if status == 2:
        sys.exit(f"there is no command {words[0]}")
    c = control.read_controller(left["c"]) if status == 0 else None
    return status, c, left.get("r"), c is not None and products(c) <= MOST_PRODUCTS


def averaged(options, c, states, folder):
    """The averaged plan from each state."""
    if options.program is None:
        return [[Fraction(v, c.total << c.f) for v in control.run(c, state)] for state in states]
    with open(os.path.join(folder, "s"), "w") as file:
        file.write("".join(",".join(map(str, state)) + "\n" for state in states))
    lines = subprocess.run([options.program, "solve", "c", "s"], cwd=folder, stdout=subprocess.PIPE, check=True).stdout.split(b"\n")[:-1]
    return [[Fraction(v, scale) for v in sums] for scale, *sums in (map(int, line.split()) for line in lines)]


def chosen(pick, d, count):
    """States of the box: corners, and others."""
    corners = at_corners.states(d)
    pick.shuffle(corners)
    return (corners[: count // 2] + [[pick.randrange(low, high + 1) for low, high in zip(d.lo, d.hi)] for _ in range(count)])[:count]


# ---- the comparison


def judged(d, exact, bounds, states, plans):
    """What is broken, and how much of each bound was met; by states at which a limit binds."""
    violations, gap, undercut = bounds
    shares, broken, binding = [0.0, 0.0, 0.0], [], 0
    if max(violations) * d.target_den > OVER * d.violation or gap * d.target_den > OVER * d.gap:
        broken.append("a printed bound is above its target")
    for state, plan in zip(states, plans, strict=True):
        x = [Fraction(v, 2**d.grid) for v in state]
        best = exact.best(x)
        if best is None:
            broken.append(f"no plan is feasible at {state}")
            continue
        binding += best[1]
        apart = d.cost(x, plan) - d.cost(x, best[0])
        over = [(residual * OVER, bound) for residual, bound in zip(d.residuals(x, plan), violations, strict=True)]
        for what, found in (("a violation", over), ("the gap", [(apart * OVER, gap)]), ("the undercut", [(-apart * OVER, undercut)])):
            broken += [f"{what} at {state}: {float(value / OVER)}, and {float(Fraction(bound, OVER))} is printed" for value, bound in found if value > bound]
        shares = [max(share, float(value / bound)) for share, value, bound in zip(shares, (max(v / b for v, b in over), apart * OVER, -apart * OVER), (1, gap, undercut))]
    return broken, binding, shares


def tried(options, number):
    """One design, drawn until one has a controller: what became of it."""
    with tempfile.TemporaryDirectory() as folder:
        for attempt in range(1000):
            pick = random.Random(f"{options.seed} {number} {attempt}")
            found = drawn(pick, options.version)
            if found is None:
                continue
            d, text, policy, references = found
            files = {"d": text, "p": policy, "q": references}
            words = ["lean", "d", "p", "q", "c", "r"] if options.command == "lean" else ["generate", "d", "p", "c", "r"]
            status, c, report, is_short = made(options, words, files, folder)
            if status or not is_short:
                continue
            states = chosen(pick, d, options.states)
            broken, binding, shares = judged(d, Exact(d), numbers_of(report, d.rows), states, averaged(options, c, states, folder))
            return number, attempt, len(states), binding, shares, broken, c.steps
    return number, None, 0, 0, [0.0] * 3, ["no design was accepted"], 0


def main():
    parser = argparse.ArgumentParser(description=__doc__, formatter_class=argparse.RawDescriptionHelpFormatter)
    parser.add_argument("program", nargs="?")
    parser.add_argument("--command", choices=["lean", "generate"], default="lean")
    parser.add_argument("--version", type=int, choices=VERSIONS)
    for name, value in (("--count", 300), ("--states", 10), ("--seed", 1), ("--jobs", os.cpu_count())):
        parser.add_argument(name, type=int, default=value)
    options = parser.parse_args()
    options.program = options.program and os.path.abspath(options.program)
    totals, most, wrong = collections.Counter(), [0.0] * 3, 0
    with multiprocessing.Pool(options.jobs) as pool:
        for number, attempt, states, binding, shares, broken, steps in pool.imap_unordered(Trial(options), range(options.count)):
            totals.update(designs=1, states=states, binding=binding)
            most = list(map(max, most, shares))
            for what in broken:
                wrong += 1
                print(f"design {number} of seed {options.seed}, draw {attempt}, K {steps}: {what}", flush=True)
    print(f"{totals['designs']} designs at {totals['states']} states, at {totals['binding']} of which a limit binds: {wrong} bounds broken")
    print("of the printed bounds at most: violation {:.3f}, gap {:.3f}, undercut {:.3f}".format(*most))
    return wrong > 0


class Trial:
    """`tried` for a pool."""

    def __init__(self, options):
        self.options = options

    def __call__(self, number):
        return tried(self.options, number)


if __name__ == "__main__":
    sys.exit(main())
