"""An independent model of a design: what a design and a policy text are answered with, in exact whole numbers and fractions.

It simulates the plant, condenses, chooses and bounds by the definitions of docs/DEFINITIONS.md, and shares no code with the program. The gains are left out,
since any good solutions will do: `Choice` says which systems they must solve and which bound they keep, and control.py takes them from there.
"""
import csv
import io
import re
import sys
import tomllib
from dataclasses import dataclass
from fractions import Fraction
from math import ceil, isqrt

from . import at_corners, excess, forms
from .forms import LIMIT, ceil_div, eliminated
from .machines import MACHINES, VERSIONS

sys.set_int_max_str_digits(0)
csv.field_size_limit(2**31 - 1)

NUMERATOR = 2**31 - 1
# the greatest states and stages of each version
STATES, STAGES = {1: 4, 2: 6, 3: 6}, {1: 20, 2: 30, 3: 30}
# by how much the exponent of a row is lowered at most
LOWERED = 4
TABLES = ["plant", "cost", "limits", "box", "targets"]
KEYS = {
    "": ["version", "states", "inputs", "stages"],
    "plant": ["den", "a", "b"],
    "cost": ["den", "row_den", "input", "stage", "final"],
    "limits": ["den", "stage", "final"],
    "box": ["grid", "lo", "hi"],
    "targets": ["den", "violation", "gap"],
}


class Refused(Exception):
    """The status, and the words that its line carries."""


# ---- texts


def is_integer(v):
    return isinstance(v, int) and not isinstance(v, bool)


def is_list(v, count):
    return isinstance(v, list) and len(v) == count and all(map(is_integer, v))


def is_table(v, low, high, width):
    return isinstance(v, list) and low <= len(v) <= high and all(is_list(r, width) for r in v)


def read_design(data):
    """The design, or the status 5 with the first fault."""
    try:
        text = data.decode("utf-8").removeprefix("\ufeff")
        top = tomllib.loads(text)
    except (UnicodeDecodeError, ValueError, RecursionError):
        raise Refused(5, "not-toml") from None

    def too_large(v):
        if isinstance(v, dict):
            return any(map(too_large, v.values()))
        if isinstance(v, list):
            return any(map(too_large, v))
        return is_integer(v) and not -(2**63) <= v < 2**63 or isinstance(v, float) and v in (float("inf"), float("-inf"))

    if too_large(top):
        raise Refused(5, "not-toml")
    place, values, further = 0, [], set(top) - set(KEYS[""]) - set(TABLES)
    for table, keys in KEYS.items():
        inside = top.get(table) if table else top
        for key in keys:
            place += 1
            if not isinstance(inside, dict) or key not in inside:
                raise Refused(5, "key", place)
            values.append(inside[key])
        if table:
            further |= set(inside) - set(keys)
    if further:
        raise Refused(5, "key", 0)

    def need(holds, fault, place):
        if not holds:
            raise Refused(5, fault, place)

    def number(place, low, high):
        v = values[place - 1]
        need(is_integer(v), "shape", place)
        need(low <= v <= high, "range", place)
        return v

    def numerators(place, rows):
        need(all(abs(v) <= NUMERATOR for r in rows for v in r), "range", place)

    version = number(1, 1, max(VERSIONS))
    n, p = number(2, 1, STATES[version]), number(3, 1, 3)
    number(4, 1, STAGES[version])
    number(5, 1, 2**20)
    a, b = values[5], values[6]
    need(is_table(a, n, n, n), "shape", 6)
    numerators(6, a)
    need(is_table(b, n, n, p), "shape", 7)
    numerators(7, b)
    number(8, 1, 2**20)
    number(9, 1, 2**20)
    need(is_list(values[9], p), "shape", 10)
    need(all(1 <= v <= NUMERATOR for v in values[9]), "range", 10)
    for place in (11, 12):
        need(is_table(values[place - 1], 0, 12, n + 2), "shape", place)
        numerators(place, values[place - 1])
        need(all(r[-1] >= 0 for r in values[place - 1]), "range", place)
    number(13, 1, 2**20)
    need(is_table(values[13], 0, 12, n + p + 1), "shape", 14)
    numerators(14, values[13])
    need(is_table(values[14], 0, 12, n + 1), "shape", 15)
    numerators(15, values[14])
    need(values[13] or values[14], "range", 15)
    number(16, 0, 24)
    for place in (17, 18):
        need(is_list(values[place - 1], n), "shape", place)
        numerators(place, [values[place - 1]])
        need(place == 17 or all(h >= l for l, h in zip(values[16], values[17])), "range", 18)
    number(19, 1, 2**20)
    number(20, 1, NUMERATOR)
    number(21, 1, NUMERATOR)
    return Design(values)


def records(data):
    """The records of a text of comma-separated fields; an empty line is none."""
    text = data.removeprefix(b"\xef\xbb\xbf").decode("latin-1")
    return [r for r in csv.reader(io.StringIO(text, newline="")) if r]


def number_field(word):
    found = re.fullmatch(r" *(-?[0-9]{1,19}) *", word)
    value = int(found[1]) if found else None
    return value if found and abs(value) <= 2**63 - 1 else None


def numbers_of(entry, record, width, is_in_range):
    """Those of one record, or the status 5 with its fault."""
    if len(record) != width:
        raise Refused(5, "fields", entry)
    row = [number_field(word) for word in record]
    for field, value in enumerate(row, 1):
        if value is None or not is_in_range(field, value):
            raise Refused(5, "number", entry, field)
    return row


def read_records(data, width, is_in_range=lambda before, field, value: True):
    """Lists of numbers, or the status 5 with the first fault. What is in range may rest on the records before."""
    rows = []
    for entry, record in enumerate(records(data), 1):
        rows.append(numbers_of(entry, record, width, lambda field, value: is_in_range(rows, field, value)))
    return rows


def is_of_plan(field, value):
    return field > 1 or 1 <= value <= 2**40


def read_policy(data, design):
    """The plans of a box's corners, each with its denominator, or the status 5 with the first fault."""
    rows = read_records(data, design.entries + 1, lambda _, field, value: is_of_plan(field, value))
    if len(rows) != 2**design.states:
        raise Refused(5, "count", len(rows))
    return [(row[0], row[1:]) for row in rows]


class Design:
    def __init__(self, v):
        self.version, self.states, self.inputs, self.stages, self.plant_den, self.a, self.b = v[:7]
        self.cost_den, self.row_den, self.input_weights, self.stage_cost, self.final_cost = v[7:12]
        self.limit_den, self.stage_rows, self.final_rows, self.grid, self.lo, self.hi = v[12:18]
        self.target_den, self.violation, self.gap = v[18:]
        self.machine = MACHINES[self.version]
        self.entries = self.inputs * self.stages
        self.rows = self.stages * len(self.stage_rows) + len(self.final_rows)
        # each cost row that counts, with its stage
        self.counted = [(r, k) for k in range(1, self.stages + 1) for r in self.stage_cost] + [(r, self.stages) for r in self.final_cost]
        # what the quantities are made of
        total = lambda rows: max((sum(map(abs, r)) for r in rows), default=0)
        self.growth = max(self.plant_den, total([a + b for a, b in zip(self.a, self.b)]))
        self.cost_width = max(self.row_den, total([r[:-1] for r, _ in self.counted]))
        self.limit_width = max(self.limit_den, total(self.stage_rows + self.final_rows))
        self.weights = self.cost_den + sum(r[-1] for r, _ in self.counted) + self.stages * sum(self.input_weights)

    def trajectory(self, x, u):
        states = [x]
        for k in range(self.stages):
            now, inputs = states[-1], u[k * self.inputs : (k + 1) * self.inputs]
            states.append([
                (sum(c * s for c, s in zip(self.a[i], now)) + sum(c * s for c, s in zip(self.b[i], inputs))) / Fraction(self.plant_den)
                for i in range(self.states)
            ])
        return states

    def cost(self, x, u):
        states, n = self.trajectory(x, u), self.states
        value = sum(Fraction(r[n + 1], self.cost_den) * ((sum(c * s for c, s in zip(r, states[k])) - r[n]) / Fraction(self.row_den)) ** 2 for r, k in self.counted)
        return value + sum(Fraction(self.input_weights[j % self.inputs], self.cost_den) * u[j] ** 2 for j in range(self.entries))

    def residuals(self, x, u):
        states, n, p = self.trajectory(x, u), self.states, self.inputs
        out = []
        for k in range(self.stages):
            for r in self.stage_rows:
                out.append((sum(r[i] * states[k][i] for i in range(n)) + sum(r[n + l] * u[k * p + l] for l in range(p)) - r[-1]) / Fraction(self.limit_den))
        for r in self.final_rows:
            out.append((sum(r[i] * states[-1][i] for i in range(n)) - r[-1]) / Fraction(self.limit_den))
        return out


# ---- the step exponent


def is_dominant(m):
    return all(m[i][i] >= sum(abs(v) for j, v in enumerate(m[i]) if j != i) for i in range(len(m)))


def has_certificate(m):
    size = range(len(m))
    greatest = max(m[i][i] for i in size)
    if min(m[i][i] for i in size) <= 0 or greatest >= 2**116 or any(abs(v) > greatest for r in m for v in r):
        return False
    h = 0
    while 4 ** (h + 1) * greatest < 2**62:
        h += 1
    b = [[4**h * v for v in r] for r in m]
    mu = min(b[i][i] for i in size) // 4096
    rest = [b[i][i] - mu for i in size]
    root = [[0] * len(m) for _ in size]
    for j in size:
        if rest[j] <= 0:
            return False
        root[j][j] = isqrt(rest[j])
        for i in range(j + 1, len(m)):
            root[i][j] = (b[i][j] - sum(root[i][k] * root[j][k] for k in range(j))) // root[j][j]
            rest[i] -= root[i][j] ** 2
            if abs(root[i][j]) >= 2**62 or rest[i] <= 0:
                return False
    return is_dominant([[b[i][j] - sum(root[i][k] * root[j][k] for k in size) for j in size] for i in size])


class StepMatrices:
    """What exponents leave of the curvature over the squares of the rows."""

    def __init__(self, d, form):
        self.of_cost, self.of_rows, self.half, self.products = d.limit_den**2, d.cost_den * d.row_den**2, form.q, forms.RowProducts(form)

    def at(self, s):
        """The matrix of s, with each row as often as it counts; each diagonal entry is lowered by the radii of its row."""
        products = self.products.matrix()
        left = [[2**s * self.of_cost * q.mid - self.of_rows * v.mid for q, v in zip(*rows)] for rows in zip(self.half, products)]
        for i, rows in enumerate(zip(self.half, products)):
            left[i][i] -= sum(2**s * self.of_cost * q.rad + self.of_rows * v.rad for q, v in zip(*rows))
        return left


def step_exponent(d, form, matrices):
    """The step exponent, or the status 7."""
    by_squares = forms.squares_exponent(d, form)
    plain = next((s for s in range(min(by_squares, 40) + 1) if is_dominant(matrices.at(s))), by_squares)
    plain = min(plain, by_squares)
    if plain > 40:
        raise Refused(7)
    return next((s for s in range(plain) if has_certificate(matrices.at(s))), plain)


def is_accepted(m):
    return is_dominant(m) or has_certificate(m)


def row_exponents(d, form, matrices, s):
    """The exponent of each row. In version 2 each in its turn is lowered from s, 1 at a time, as long as the matrix is accepted in which a row counts 2^(s - its own)
    times; where the sizes have no room for that, none is."""
    exponents = [s] * d.rows
    if d.version == 1 or not forms.has_lowering_room(d, form):
        return exponents
    for row in range(d.rows):
        while exponents[row] > max(0, s - LOWERED):
            times = 2 ** (s - exponents[row])
            matrices.products.count(row, times)
            if not is_accepted(matrices.at(s)):
                matrices.products.count(row, -times)
                break
            exponents[row] -= 1
    return exponents


# ---- the whole


def limited(value, name):
    if value > LIMIT:
        raise Refused(10, name)
    return value


def margins(d, plans):
    """The least slack that the corners show in units of 2^-16, rounded down, and the greatest cost, rounded up; or Refused."""
    for name, size in at_corners.sizes(d, plans).items():
        limited(size, name)
    least, dearest = None, 0
    for c, corner in enumerate(at_corners.shown(d, plans), 1):
        for row, slack in enumerate(corner.slacks, 1):
            if 2**16 * slack < corner.over:
                raise Refused(6, c, row, slack, corner.over)
        units = 2**16 * min(corner.slacks) // corner.over
        least, dearest = units if least is None else min(least, units), max(dearest, ceil(corner.cost))
    return least, dearest


def form_of(d):
    """What a controller is made of: exact numbers, or enclosures where a quantity of these passes the limit."""
    exact = forms.exact_form(d)
    return exact if forms.is_within_limit(d, exact) else forms.fine_form(d)


def gain_floor(d, form):
    """What the matrix that gains are solved with bends each list up by at least."""
    return min(d.limit_den * (2 * min(d.input_weights) * form.hess_den // d.cost_den - form.hess_rad), LIMIT)


class Errors:
    """What rounding and the radii cost, where multipliers go up to 2 r, the rounding of means moves entries of the gradient by these, and its errors count so often: at each number f of bits
    the bound on an entry of the plan, by what the radii move the gradient, and epsilon; and the quantity `error`."""

    def __init__(self, d, form, r, means=None, carry=1):
        self.carry = carry
        means = means or [0] * d.entries
        sums = lambda rows, den: ceil_div(sum(v.far for row in rows for v in row), den)
        radii = lambda rows: [sum(v.rad for v in row) for row in rows]
        self.d, self.rho, self.top, self.box = d, min(d.input_weights), 2 * r, ceil_div(max(map(abs, d.lo + d.hi)), 2**d.grid)
        # the square of a sum of two errors is at most twice the sum of their squares
        self.twice = 2 if form.is_fine else 1
        spread = d.states * self.box + 1 + d.rows * self.top
        self.pull = d.cost_den * (self.box * sums(form.f, form.hess_den) + sums([form.h0], form.hess_den) + self.top * sums(form.g, form.row_den))
        self.tail = d.cost_den * spread * ceil_div(sum(2 * form.q[j][j].far for j in range(d.entries)), form.hess_den)
        self.spread, self.unit = spread, d.limit_den * form.hess_den
        self.row_sums = [ceil_div(sum(2 * v.far for v in row), form.hess_den) + mean for row, mean in zip(form.q, means, strict=True)]
        self.gradient = [ceil_div(row[j].far, form.hess_den) * spread + total for j, (row, total) in enumerate(zip(form.q, self.row_sums))]
        self.squares = d.cost_den * sum(v * v for v in self.gradient)
        self.first = ceil_div(self.squares, 2 * self.rho)
        self.hess_rad, self.state_pull = form.hess_rad, self.box * max(radii(form.f)) + max(v.rad for v in form.h0)
        self.column_pull = self.top * max(radii(zip(*form.g)))
        self.plan_rad, self.state_rad = sum(radii(form.g)), self.box * sum(radii(form.e))

    def plan(self, f):
        return self.twice * (ceil_div(self.pull, 2 * self.rho) + ceil_div(self.tail, 2 ** (f + 2) * self.rho)) + 1

    def residual(self, plan):
        return self.d.entries * plan + self.d.states * self.box + 3

    def by_radii(self, plan):
        return ceil_div(plan * self.hess_rad + self.state_pull, self.d.cost_den * self.d.row_den**2) + ceil_div(self.column_pull, self.d.limit_den)

    def of_rows(self, plan):
        return self.top * (plan * self.plan_rad + self.state_rad)

    def priced(self, first, plan, f):
        """What the errors of a step cost, where those of the gradient cost `first` over 4^f and no entry of the plan is above `plan`."""
        return (ceil_div(self.twice * self.carry * 2**40 * first, 4**f) + ceil_div(2**40 * self.top * self.d.rows * self.residual(plan), 2 ** (f + 1))
                + ceil_div(self.carry * self.d.entries * self.d.cost_den * self.by_radii(plan) ** 2, 2**40 * self.rho) + ceil_div(self.of_rows(plan), self.d.limit_den))

    def epsilon(self, f):
        return self.priced(self.first, self.plan(f), f)

    def real_gradient(self, choice, solutions, f):
        """The bound on each entry of a step's gradient, over 2^f, by what the solutions really miss."""
        matrix, n = choice.matrix, self.d.states
        weights = [self.box] * n + [1] + [self.top] * self.d.rows
        missed = [sum(w * abs(sum(h * v for h, v in zip(row, x)) - 2**f * column[j]) for w, x, column in zip(weights, solutions, choice.columns))
                  for j, row in enumerate(matrix)]
        if max(row[j] for j, row in enumerate(matrix)) * self.spread > LIMIT:
            return self.gradient
        return [ceil_div(v, self.unit) + total for v, total in zip(missed, self.row_sums)]

    def real_plan(self, magnitude, f):
        """The bound on a plan entry, also by the greatest magnitude of one, over 2^f."""
        return min(self.plan(f), ceil_div(magnitude, 2**f))

    def real(self, choice, solutions, magnitude, f):
        """Epsilon by what the solutions really miss, and by the greatest magnitude of a plan entry, over 2^f."""
        first = ceil_div(self.d.cost_den * sum(v * v for v in self.real_gradient(choice, solutions, f)), 2 * self.rho)
        return self.priced(first, self.real_plan(magnitude, f), f)

    @property
    def size(self):
        plan = self.plan(0)
        rounding = self.pull + self.tail + self.squares + 2**40 * (self.carry * self.first + self.top * self.d.rows * self.residual(plan))
        radii = self.carry * self.d.cost_den * self.d.entries * self.by_radii(plan) ** 2 + plan * self.hess_rad + self.state_pull + self.column_pull + self.of_rows(plan)
        return self.twice**2 * rounding + radii


@dataclass
class Choice:
    """What a design and a policy make of a controller, but for the gains, and the three bounds that follow from these: each column of them solves
    2 |matrix X - 2^bits column|_j <= matrix_jj, with no entry beyond the column's bound. The columns are those of P, then that of T, then those of W."""

    design: Design
    report: dict
    exponents: list
    clamp: int
    rows: list
    states: list
    bounds: list
    matrix: list
    columns: list
    entry_bounds: list
    greatest: int
    errors: Errors

    def violation(self, exponent, cost):
        """By how much a row of this exponent is exceeded at most, where the errors of a step cost so much."""
        r, s = (self.report[key] for key in ("multiplier", "step"))
        pace, more = self.design.machine.pace(self.report["steps"])
        if self.is_lean:
            target = target_of(self.design, 2**40)
            return min(target, ceil_div(target, 2) + ceil_div(2 ** (exponent + more + 40) * r, pace) + ceil_div(cost, 2 * r))
        return ceil_div((2**exponent + 2**s) * 2 ** (more + 40) * r, pace) + ceil_div(cost, r)

    @property
    def is_lean(self):
        return "excess" in self.report

    @property
    def stated_violations(self):
        """Of each row, by the design and the policy alone."""
        cost = self.errors.epsilon(self.report["bits"])
        return [self.violation(exponent, cost) for exponent in self.exponents]

    def printed(self, solutions, magnitude):
        """The bounds that are printed, by the residuals that these gains leave: the violations are of each row. A plan entry of theirs is at most `magnitude` over
        2^bits."""
        cost = self.errors.real(self, solutions, magnitude, self.report["bits"])
        greatest = self.violation(self.report["step"], cost)
        undercut = self.report["multiplier"] * (target_of(self.design, 2**40) if self.is_lean else greatest)
        return {"violation": greatest, "violations": [self.violation(exponent, cost) for exponent in self.exponents], "gap": cost, "undercut": undercut}


def target_of(d, units):
    """The violation target in these units, rounded down."""
    return units * d.violation // d.target_den


def choose(d, plans, references=None):
    """The choice, or Refused; a lean one where there are reference plans."""
    n, nu, m, g, machine = d.states, d.entries, d.rows, d.grid, d.machine
    _, more = machine.pace(1)
    margin, cost = margins(d, plans)
    if references is None:
        r = max(1, ceil_div(2**16 * cost, margin))
        limited(max(2**16 * cost, 2 ** (82 + more) * r), "multiplier")
    form = form_of(d)
    for name, size in forms.sizes(d, form).items():
        limited(size, name)
    matrices = StepMatrices(d, form)
    s = step_exponent(d, form, matrices)
    # how much of the violation's target the steps may take, and how much rounding
    for_steps = for_rounding = target_of(d, 2**39)
    if references is not None:
        above, size = excess.excess(d, form, plans, references)
        limited(size, "excess")
        r = max(1, ceil_div(above, margin + target_of(d, 2**16)))
        limited(max(above, 2 ** (82 + more) * r), "multiplier")
        for_steps, for_rounding = target_of(d, 15 * 2**36), target_of(d, 2**36)
    gap_target = 2**40 * d.gap // d.target_den
    k = machine.least_steps(ceil_div(2 ** (s + 41 + more) * r, for_steps))
    if k > machine.most_steps:
        raise Refused(8, k)
    exponents = row_exponents(d, form, matrices, s)
    errors = Errors(d, form, r, machine.mean_errors(form, s, exponents), machine.carry(k))
    limited(errors.size, "error")
    f = next((f for f in range(g, 49) if errors.epsilon(f) <= min(gap_target, r * for_rounding)), None)
    if f is None:
        raise Refused(9, errors.epsilon(48))
    matrix = [[2 * d.limit_den * v.mid for v in row] for row in form.q]
    columns = [[d.limit_den * v.mid for v in column] for column in [*zip(*form.f), form.h0]] + [[form.row_factor * v.mid for v in row] for row in form.g]
    sizes = [sum(map(abs, c)) for c in columns]
    bounds = [ceil_div(2 ** (f + 1) * c, gain_floor(d, form)) for c in sizes]
    limited(2 * max(sum(map(abs, row)) for row in matrix) * (max(bounds) + 1) + 2 ** (f + 1) * max(sizes), "descent")
    nearest = lambda v: (2 * 2**f * v + form.row_den) // (2 * form.row_den)
    scaled = lambda rows: [[nearest(v.mid) for v in row] for row in rows]
    clamp = errors.top * 2 ** (f + s)
    rows, states, limits = scaled(form.g), scaled(form.e), [nearest(v) for v in form.b]
    reaches = [max(abs(l), abs(h)) * 2 ** (f - g) for l, h in zip(d.lo, d.hi)]
    entry = 2**s * (forms.dot(bounds, reaches) + bounds[n] * 2**f) + sum(bounds[n + 1 :]) * clamp
    plan = ceil_div(entry, 2 ** (f + s))
    row_sums = [sum(map(abs, row)) * plan + forms.dot(map(abs, state), reaches) + 2**f * abs(limit) for row, state, limit in zip(rows, states, limits)]
    multipliers = machine.multiplier_sums(clamp, k, [ceil_div(v, 2**f) for v in row_sums])
    greatest = limited(max(reaches + [entry, machine.total(k) * plan] + row_sums + multipliers), "width")
    dearest = {"cost": cost} if references is None else {"excess": above}
    report = {"margin": margin, **dearest, "multiplier": r, "step": s, "steps": k, "bits": f, "words": n + machine.lists * m + 2 * nu}
    return Choice(d, report, exponents, clamp, rows, states, limits, matrix, columns, bounds, greatest, errors)


def why_no_gains(choice, solutions):
    """What is wrong with these solutions of the choice's columns, or None."""
    f, matrix = choice.report["bits"], choice.matrix
    for number, (x, column, bound) in enumerate(zip(solutions, choice.columns, choice.entry_bounds), 1):
        for j, row in enumerate(matrix):
            if 2 * abs(sum(h * v for h, v in zip(row, x)) - 2**f * column[j]) > row[j]:
                return f"entry {j + 1} of gain column {number} is no good solution"
            if abs(x[j]) > bound:
                return f"entry {j + 1} of gain column {number} is beyond its bound"
    return None


def gains(choice):
    """The model's own good solutions: in time with any number of entries."""
    return exact_gains(choice) if len(choice.matrix) <= 12 else refined_gains(choice)


def refined_gains(choice):
    """Good solutions in floating point, each refined by what it really misses, in whole numbers, until it is good; elimination over fractions of many entries takes hours."""
    f, matrix, size = choice.report["bits"], choice.matrix, len(choice.matrix)
    greatest = max(map(max, matrix))
    rows = [[v / greatest for v in row] + [float(i == j) for i in range(size)] for j, row in enumerate(matrix)]
    for j in range(size):
        rows[j] = [v / rows[j][j] for v in rows[j]]
        for i in range(size):
            if i != j and rows[i][j]:
                rows[i] = [a - rows[i][j] * b for a, b in zip(rows[i], rows[j])]
    inverse, solutions = [row[size:] for row in rows], []
    for column in choice.columns:
        x, moved = [0] * size, [1]
        while any(moved):
            missed = [(2**f * c - sum(h * v for h, v in zip(row, x))) / greatest for row, c in zip(matrix, column)]
            moved = [round(forms.dot(row, missed)) for row in inverse]
            x = [v + m for v, m in zip(x, moved)]
        solutions.append(settled(x, matrix, column, f))
    return solutions


def settled(x, matrix, column, f):
    """A solution that is near, with single entries moved until it is good."""
    while True:
        rest = [sum(h * v for h, v in zip(row, x)) - 2**f * c for row, c in zip(matrix, column)]
        j = max(range(len(x)), key=lambda j: Fraction(abs(rest[j]), matrix[j][j]))
        if 2 * abs(rest[j]) <= matrix[j][j]:
            return x
        x[j] -= (2 * rest[j] + matrix[j][j]) // (2 * matrix[j][j])


def exact_gains(choice):
    """Good solutions by elimination over fractions, each rounded to the nearest; where the rounding isn't good enough, entries are moved until it is."""
    f, matrix, size = choice.report["bits"], choice.matrix, len(choice.matrix)
    rows = eliminated([[Fraction(v) for v in row] + [Fraction(2**f * column[j]) for column in choice.columns] for j, row in enumerate(matrix)])
    solutions = []
    for number, column in enumerate(choice.columns):
        x = [(2 * rows[j][size + number] + 1).__floor__() // 2 for j in range(size)]
        solutions.append(settled(x, matrix, column, f))
    return solutions
