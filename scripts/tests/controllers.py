"""Random controllers of all versions, of every tier of words that the C has, and the machines that they run on, by their formulas."""
import random

from scripts.common.machines import machine_of
from scripts.common.strict_texts import absolute_sums
from scripts.common.texts import Controller


def spread(random_, bits):
    """A whole number of at most so many bits, often a short one, sometimes 0."""
    if bits <= 0 or random_.random() < 0.1:
        return 0
    size = random_.choice([bits, bits, bits - 1, random_.randint(1, bits)])
    return random_.randint(-(2**size) + 1, 2**size - 1)


def random_controller(seed):
    """A controller, or None where its sums pass the limit."""
    r = random.Random(seed)
    version, n, p, stages = r.choice([1, 2]), r.randint(1, 3), r.randint(1, 2), r.randint(1, 4)
    entries, m = p * stages, r.randint(1, 10)
    f = r.choice([4, 10, 14, 17, 22, 26, 28, 31, 33, 36, 40, 44, 48])
    s, g = r.randint(0, 6), r.randint(0, min(f, 8))
    # magnitudes of gains and rows over 2^f, of the multipliers, of the states
    gain, row, reach = r.choice([-3, -1, 0, 3]), r.choice([-1, 0, 1, 2]), r.randint(-1, 4)
    clamp = r.randint(2, 2 ** r.choice([2, 4, 8, 14, 24])) << (f + s)
    table = lambda height, breadth, bits: [[spread(r, bits) for _ in range(breadth)] for _ in range(height)]
    most = max(1, 2 ** max(0, g + reach))
    lo = [-r.randint(0, most) for _ in range(n)]
    hi = [low + r.randint(0, 2 * most) for low in lo]
    if r.random() < 0.15:
        lo[0] = hi[0] = 0
    exps = [s - (r.randint(0, min(4, s)) if version == 2 else 0) for _ in range(m)]
    c = Controller(version, n, p, stages, m, f, g, s, 128, r.randint(1, 60), clamp, n + m + 2 * entries, lo, hi, table(entries, n, f + gain), table(1, entries, f)[0],
                   table(entries, m, f + gain), table(m, entries, f + row), table(m, n, f + row), table(1, m, f + 2)[0], exps)
    if r.random() < 0.6:
        oppose(c, r)
    return with_width(c)


def accelerated(c):
    """The same numbers as a controller of version 3."""
    c.version, c.words = 3, c.states + 3 * c.rows + 2 * c.entries
    return with_width(c)


def oppose(c, r):
    """Makes every other row the opposite of the one before it, and now and then one that reaches no entry."""
    for i in range(0, c.rows - 1, 2):
        c.G[i + 1], c.exps[i + 1] = [-v for v in c.G[i]], c.exps[i]
        for row in c.W:
            row[i + 1] = -row[i]
    if r.random() < 0.3:
        for row in c.W:
            row[r.randrange(c.rows)] = 0


def with_width(c):
    """With the least width, or None where there is none."""
    greatest = max(max(sums) for sums in absolute_sums(c))
    c.width = max(2, greatest.bit_length() + 1)
    return c if greatest <= 2**126 else None


def text_of(c):
    """The text of a controller."""
    lines = [["mpc-controller", c.version], ["size", c.states, c.inputs, c.stages, c.rows], ["bits", c.bits, c.grid, c.step, c.width], ["steps", c.steps], ["clamp", c.clamp]]
    lines += [["words", c.words]] + ([["exps", *c.exps]] if c.version > 1 else []) + [["lo", *c.lo], ["hi", *c.hi]]
    for word, rows in (("P", c.P), ("T", [c.T]), ("W", c.W), ("G", c.G), ("E", c.E), ("b", [c.b])):
        lines += [[word, *row] for row in rows]
    return "".join(" ".join(map(str, line)) + "\n" for line in [*lines, ["end"]])


def planned(c, state, multipliers):
    """The plan at multipliers, and each row's residual of it (docs/METHOD.md)."""
    loaded = [v << (c.bits - c.grid) for v in state]
    dot = lambda row, values: sum(a * v for a, v in zip(row, values))
    raised = [v << (c.step - e) for v, e in zip(multipliers, c.exps)]
    sums = [((dot(c.P[j], loaded) + (c.T[j] << c.bits)) << c.step) + dot(c.W[j], raised) for j in range(c.entries)]
    plan = [-(v >> (c.bits + c.step)) for v in sums]
    return plan, [(dot(c.G[i], plan) + dot(c.E[i], loaded) - (c.b[i] << c.bits)) >> c.bits for i in range(c.rows)]


def moved(c, clamp, multipliers, residuals):
    """Multipliers after a step, each within the clamp by its row's exponent."""
    return [min(clamp >> (c.step - e), max(0, old + v)) for old, v, e in zip(multipliers, residuals, c.exps)]


def step(c, state, multipliers):
    """The plan of a step and the multipliers after it."""
    plan, residuals = planned(c, state, multipliers)
    return plan, moved(c, c.clamp, multipliers, residuals)


def run(c, state):
    """The sums of a run."""
    if c.version == 3:
        return accelerated_run(c, state)
    multipliers, sums = [0] * c.rows, [0] * c.entries
    for _ in range(c.steps):
        plan, multipliers = step(c, state, multipliers)
        sums = [a + b for a, b in zip(sums, plan)]
    return sums


def accelerated_run(c, state):
    """Of the accelerated machine: each plan is made at the means of the multipliers by their weights, and counts by its own."""
    multipliers, reached, sums = [0] * c.rows, [0] * c.rows, [0] * c.entries
    for weight in range(2, c.steps + 2):
        add = lambda some, others: [a + weight * b for a, b in zip(some, others)]
        means = [v // ((weight - 1) * (weight + 2)) for v in add(reached, multipliers)]
        plan, residuals = planned(c, state, means)
        multipliers = moved(c, 2 * c.clamp, multipliers, [weight * v for v in residuals])
        reached, sums = add(reached, multipliers), add(sums, plan)
    return sums


def first_inputs(c, sums):
    """The averaged first inputs over 2^f, to the nearest, ties upward."""
    total = machine_of(c.version).total(c.steps)
    return [(2 * v + total) // (2 * total) for v in sums[: c.inputs]]
