"""An independent model of a controller at work: its text, its absolute sums, the machine with every value that it meets, plan lines and closed loops.

All in exact whole numbers, by docs/FORMATS.md and docs/DEFINITIONS.md, and with no code of the program's.
"""
import re
from dataclasses import dataclass
from operator import mul

from .machines import MACHINES, VERSIONS
from .model import LIMIT, Refused, ceil_div

EVERY_FILE = 4194304


@dataclass
class Controller:
    n: int
    p: int
    stages: int
    m: int
    f: int
    g: int
    s: int
    w: int
    steps: int
    clamp: int
    lo: list
    hi: list
    p_mat: list
    t: list
    w_mat: list
    g_mat: list
    e_mat: list
    bound: list
    version: int = 1
    # the step exponent of each row; without a list each is s, and version 1 has no other
    exps: list = None

    def __post_init__(self):
        if self.exps is None:
            self.exps = [self.s] * self.m

    @property
    def nu(self):
        return self.p * self.stages

    @property
    def machine(self):
        return MACHINES[self.version]

    @property
    def total(self):
        """What the sums of the plans are over, beside 2^f."""
        return self.machine.total(self.steps)

    @property
    def words(self):
        return self.n + self.machine.lists * self.m + 2 * self.nu


# ---- the text


def lines_of(c):
    """The text's lines: a name and numbers each."""
    yield "mpc-controller", [c.version]
    yield "size", [c.n, c.p, c.stages, c.m]
    yield "bits", [c.f, c.g, c.s, c.w]
    yield "steps", [c.steps]
    yield "clamp", [c.clamp]
    yield "words", [c.words]
    if c.version > 1:
        yield "exps", c.exps
    yield "lo", c.lo
    yield "hi", c.hi
    yield from (("P", row) for row in c.p_mat)
    yield "T", c.t
    yield from (("W", row) for row in c.w_mat)
    yield from (("G", row) for row in c.g_mat)
    yield from (("E", row) for row in c.e_mat)
    yield "b", c.bound
    yield "end", []


def text_of(c):
    return "".join(" ".join([name, *map(str, numbers)]) + "\n" for name, numbers in lines_of(c)).encode()


class Reader:
    """Takes one line after the other; the first that isn't as it must be ends the reading with its number."""

    def __init__(self, data):
        *self.lines, self.rest = data.split(b"\n")
        self.at = 0

    def refuse(self):
        raise Refused(11, "line", self.at)

    def next(self):
        """The next line's name and its numbers, which lie in 128 bits."""
        self.at += 1
        if self.at > len(self.lines):
            self.refuse()
        name, *words = self.lines[self.at - 1].split(b" ")
        numbers = [int(word) if re.fullmatch(rb"0|-?[1-9][0-9]*", word) else None for word in words]
        if not all(v is not None and -(2**127) <= v < 2**127 for v in numbers):
            self.refuse()
        return name, numbers

    def take(self, name, count, holds=lambda numbers: True):
        found, numbers = self.next()
        if found != name or len(numbers) != count or not holds(numbers):
            self.refuse()
        return numbers

    def rows(self, name, count, width):
        return [self.take(name, width) for _ in range(count)]

    def finish(self):
        """Behind the last line there is nothing more."""
        self.at += 1
        if self.at <= len(self.lines) or self.rest:
            self.refuse()

    def end(self):
        self.take(b"end", 0)
        self.finish()


def controller_in(text, like=None, versions=VERSIONS):
    """The controller of one of these versions whose lines are the next of a text, the first at which no text goes on is refused. Where there is one that it must be like, the sizes but
    for the rows, and the grid, are those."""
    within = lambda *ranges: lambda numbers: all(low <= v <= high for v, (low, high) in zip(numbers, ranges))
    limits = {1: (4, 20, 252), 2: (6, 30, 372), 3: (6, 30, 372)}
    one_of = [it for it, most in limits.items() if it in versions and (like is None or like.n <= most[0] and like.stages <= most[1])]
    (version,) = text.take(b"mpc-controller", 1, lambda v: v[0] in one_of)
    most_states, most_stages, most_rows = limits[version]
    is_like = lambda v: like is None or v[:3] == [like.n, like.p, like.stages]
    n, p, stages, m = text.take(b"size", 4, lambda v: within((1, most_states), (1, 3), (1, most_stages), (1, most_rows))(v) and is_like(v))
    f, g, s, w = text.take(b"bits", 4, lambda v: within((v[1], 48), (0, 24), (0, 40), (2, 128))(v) and (like is None or v[1] == like.g))
    (steps,) = text.take(b"steps", 1, within((1, MACHINES[version].most_steps)))
    (clamp,) = text.take(b"clamp", 1, within((0, LIMIT)))
    nu = p * stages
    words = n + MACHINES[version].lists * m + 2 * nu
    text.take(b"words", 1, within((words, words)))
    exps = text.take(b"exps", m, within(*[(0, s)] * m)) if version > 1 else None
    side = (-(2**31) + 1, 2**31 - 1)
    lo = text.take(b"lo", n, within(*[side] * n))
    hi = text.take(b"hi", n, within(*[(low, 2**31 - 1) for low in lo]))
    c = Controller(n, p, stages, m, f, g, s, w, steps, clamp, lo, hi, text.rows(b"P", nu, n), text.take(b"T", nu), text.rows(b"W", nu, m),
                   text.rows(b"G", m, nu), text.rows(b"E", m, n), text.take(b"b", m), version, exps)
    text.take(b"end", 0)
    return c


def refuse_unsafe(c):
    greatest = greatest_sum(c)
    if greatest > LIMIT or greatest > 2 ** (c.w - 1) - 1:
        raise Refused(11, "unsafe")


def read_controller(data, versions=VERSIONS):
    """The controller, or the status 11 with the first line that no controller text has there, or unsafe."""
    text = Reader(data)
    c = controller_in(text, versions=versions)
    text.finish()
    refuse_unsafe(c)
    return c


# ---- the absolute sums


def absolute_sums(c):
    """The lists of the state, of what each plan entry is made of, of the plan, of the rows, of the multipliers, and of the sums of a run."""
    dot = lambda xs, ys: sum(abs(x) * y for x, y in zip(xs, ys))
    x = [max(abs(low), abs(high)) * 2 ** (c.f - c.g) for low, high in zip(c.lo, c.hi)]
    a = [2**c.s * (dot(c.p_mat[j], x) + abs(c.t[j]) * 2**c.f) + dot(c.w_mat[j], [c.clamp] * c.m) for j in range(c.nu)]
    u = [ceil_div(v, 2 ** (c.f + c.s)) for v in a]
    rows = [dot(c.g_mat[i], u) + dot(c.e_mat[i], x) + 2**c.f * abs(c.bound[i]) for i in range(c.m)]
    multipliers = c.machine.multiplier_sums(c.clamp, c.steps, [ceil_div(v, 2**c.f) for v in rows])
    return x, a, u, rows, multipliers, [c.total * v for v in u]


def greatest_sum(c):
    x, a, _, rows, multipliers, sums = absolute_sums(c)
    return max(x + a + rows + multipliers + sums)


def greatest_entry(c):
    """How far an entry of a plan lies from 0 at most, over 2^f."""
    return max(absolute_sums(c)[2])


def least_width(c):
    """The least width from 2 that the sums fit, or None where they pass the limit."""
    greatest = greatest_sum(c)
    return None if greatest > LIMIT else max(2, greatest.bit_length() + 1)


# ---- the machine


def run(c, state):
    """The sums of all plans."""
    x = [v << (c.f - c.g) for v in state]
    # what the state alone decides stands still over the steps
    pull = [(sum(map(mul, row, x)) + t * 2**c.f) << c.s for row, t in zip(c.p_mat, c.t)]
    rest = [sum(map(mul, row, x)) - (b << c.f) for row, b in zip(c.e_mat, c.bound)]
    shift, f = c.f + c.s, c.f
    powers = [2 ** (c.s - exponent) for exponent in c.exps]

    def plan_at(multipliers):
        raised = list(map(mul, powers, multipliers))
        return [-((fixed + sum(map(mul, row, raised))) >> shift) for fixed, row in zip(pull, c.w_mat)]

    return c.machine.run(c, plan_at, lambda plan: [(fixed + sum(map(mul, row, plan))) >> f for fixed, row in zip(rest, c.g_mat)])


class Trace:
    """The least and the greatest value that is met, and sums whose every product and partial sum is."""

    def __init__(self):
        self.least = self.greatest = 0

    def meet(self, v):
        if v < self.least:
            self.least = v
        elif v > self.greatest:
            self.greatest = v
        return v

    def total(self, start, factors, values):
        """start + the products, one after the other, from the left."""
        for factor, value in zip(factors, values):
            start = self.meet(start + self.meet(factor * value))
        return start


def traced(c, state, run=None):
    """The sums of all plans, and the least and the greatest value that the run meets: every product, every partial sum in the written order, every raised
    multiplier, every value before and after a floor, and the sums."""
    trace = Trace()
    meet, total = trace.meet, trace.total
    x = [meet(v * 2 ** (c.f - c.g)) for v in state]

    def plan_at(multipliers):
        raised = [meet(2 ** (c.s - exponent) * v) for exponent, v in zip(c.exps, multipliers)]
        plan = []
        for j in range(c.nu):
            pull = meet(total(0, c.p_mat[j], x) + meet(c.t[j] * 2**c.f))
            whole = total(meet(2**c.s * pull), c.w_mat[j], raised)
            # the part of the multipliers by itself, too
            total(0, c.w_mat[j], raised)
            plan.append(meet(-meet(whole // 2 ** (c.f + c.s))))
        return plan

    def residual(plan, i):
        of_row = total(total(0, c.g_mat[i], plan), c.e_mat[i], x)
        total(0, c.e_mat[i], x)
        return meet(meet(of_row - meet(2**c.f * c.bound[i])) // 2**c.f)

    sums = (run or c.machine.traced)(c, plan_at, lambda plan: [residual(plan, i) for i in range(c.m)], meet)
    return sums, trace.least, trace.greatest


def outside(c, state):
    """The first coordinate, from 1, that lies outside the box, or None."""
    return next((i for i, (low, v, high) in enumerate(zip(c.lo, state, c.hi), 1) if not low <= v <= high), None)


def line(numbers):
    return " ".join(map(str, numbers)).encode() + b"\n"


def plan_line(c, state, run=run):
    return line([c.total << c.f, *run(c, state)])


# ---- the closed loop


def turn_size(design, c):
    """The quantity `turn`: what the next state's numerator and denominator can come to."""
    over = c.total * 2 ** (c.f - c.g)
    greatest_inputs = c.machine.turn_entries(absolute_sums(c)[2])
    dot = lambda xs, ys: sum(abs(x) * y for x, y in zip(xs, ys))
    box = [max(abs(low), abs(high)) * over for low, high in zip(c.lo, c.hi)]
    rows = [dot(design.a[i], box) + dot(design.b[i], [c.total * v for v in greatest_inputs]) for i in range(c.n)]
    return 2 * max(rows) + design.plant_den * over


def next_state(design, c, state, sums):
    over = c.total * 2 ** (c.f - c.g)
    den = design.plant_den * over
    exact = [sum(map(mul, design.a[i], state)) * over + sum(map(mul, design.b[i], sums)) for i in range(c.n)]
    return [(2 * v + den) // (2 * den) for v in exact]


def loop_lines(design, c, entry, start, shifts, seen, run=run):
    """The lines of a start state's turns, or after some of them Refused with the turn whose state is outside. After each turn its shift is added to the state. A run
    from a state that `seen` holds isn't made again."""
    state = start
    for turn, shift in enumerate(shifts, 1):
        coordinate = outside(c, state)
        if coordinate:
            raise Refused(12, entry, turn, coordinate)
        if tuple(state) not in seen:
            seen[tuple(state)] = run(c, state)
        sums = seen[tuple(state)]
        yield line([entry, turn, *state, c.total << c.f, *sums[: c.p]])
        state = [v + by for v, by in zip(next_state(design, c, state, sums), shift)]
