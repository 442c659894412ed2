"""The sizes that may not pass 2^126, in the order in which `generate` tests them, computed without a limit.

The corners of a design with a policy are fine where a size of the exact corners passes the limit: then they are simulated in enclosures over 2^40, and the sizes of
these are tested instead. A design is fine where a size of its exact condensed numbers passes the limit: then these are held as enclosures, in the same way. One may be
without the other.
"""
from fractions import Fraction
from math import ceil, log2

from .condensed import condense
from .enclosures import ONE, condense_fine
from .machines import machine_of

LIMIT = 2**126


def bits(value):
    """A size as a power of two."""
    return log2(value) if value > 0 else 0.0


def over(value, den):
    """A fraction, rounded up to a whole number."""
    return ceil(Fraction(value, den))


def total(rows):
    """The greatest absolute sum of a row."""
    return max((sum(map(abs, row)) for row in rows), default=0)


def growth(design):
    """The greatest row sum of |A| + |B| over plant_den, or plant_den."""
    return max(design.plant_den, *(sum(map(abs, a)) + sum(map(abs, b)) for a, b in zip(design.a, design.b)))


def scales(design):
    """The widths of cost and limit rows, and the sum of weights."""
    cost_width = max(design.row_den, total([row[:-1] for row in design.stage_cost + design.final_cost]))
    width = max(design.limit_den, total(design.stage_rows + design.final_rows))
    weights = design.stages * (sum(row[-1] for row in design.stage_cost) + sum(design.input_weights)) + sum(row[-1] for row in design.final_cost)
    return cost_width, width, design.cost_den + weights


def reached(design, first):
    """What a run in enclosures reaches at the last stage at most, where its first state and its plan reach this."""
    for _ in range(design.stages):
        first = over(growth(design) * first, design.plant_den) + 3
    return first


# ---- the corners, by class


def exact_corner_sizes(design, policy):
    """`prediction`, `corner_slack` and `corner_cost` of corners that are simulated exactly."""
    big, (cost_width, width, weights) = growth(design) ** design.stages, scales(design)
    reach = max(map(abs, design.lo + design.hi))
    plan = max(max(q * 2**design.grid, q * reach, *(2**design.grid * abs(u) for u in record)) for q, *record in policy)
    return {"prediction": big, "corner_slack": 2**17 * width * big * plan, "corner_cost": weights * (cost_width * big * plan) ** 2}


def fine_corner_sizes(design, policy):
    """And of corners in enclosures."""
    cost_width, width, weights = scales(design)
    box, plan = over(ONE * max(map(abs, design.lo + design.hi)), 2**design.grid), max(over(ONE * abs(u), q) + 2 for q, *record in policy for u in record)
    last = reached(design, max(ONE, box, plan))
    slack = max(2**17 * width, growth(design)) * last
    return {"prediction": growth(design) * reached(design, ONE), "corner_slack": slack, "corner_cost": weights * (cost_width * last) ** 2}


def has_fine_corners(design, policy):
    """Whether the corners are simulated in enclosures: where a size of the exact ones passes the limit."""
    return max(exact_corner_sizes(design, policy).values()) > LIMIT


def corner_sizes(design, policy):
    """`prediction`, `corner_slack` and `corner_cost`, which come before the corners are simulated."""
    return fine_corner_sizes(design, policy) if has_fine_corners(design, policy) else exact_corner_sizes(design, policy)


# ---- the condensed form, by class


def number_sizes(design, reach, times):
    """`hessian` and `rows`, where no state's response is above this and each row counts so many times."""
    cost_width, width, weights = scales(design)
    nu, n = design.entries, design.states
    return 2 * nu * (nu + n + 1) * weights * (cost_width * reach) ** 2, times * (nu + n + 1) * design.rows * (width * reach) ** 2


def curvature_size(design, form, hessian, rows):
    """`curvature`, of what half the hessian and the rows' products come to in a row."""
    squares = sum((abs(v) + r) ** 2 for line, radii in zip(form.rows, form.row_radii) for v, r in zip(line, radii))
    least = next((s for s in range(40) if design.cost_den * squares <= 2**s * min(design.input_weights) * form.row_den**2), 40)
    return 2**least * design.limit_den**2 * hessian + design.cost_den * design.row_den**2 * rows


def exact_sizes(design, form, times=1):
    """The sizes of the exact numbers."""
    big = growth(design) ** design.stages
    hessian, rows = number_sizes(design, big, times)
    return {"prediction": big, "hessian": hessian, "rows": rows, "curvature": curvature_size(design, form, hessian, rows)}


def fine_sizes(design, form, times=1):
    """The sizes of the enclosures."""
    omega = reached(design, ONE)
    hessian, rows = number_sizes(design, omega, times)
    hessian = max(hessian, 2**86 * total(form.hess_radii))
    in_a_row = lambda size: over(size, ONE) + 4 * design.entries
    return {"prediction": growth(design) * omega, "hessian": hessian, "rows": rows, "curvature": curvature_size(design, form, in_a_row(hessian), in_a_row(rows))}


def form_of(design):
    """The condensed form that the controller is made of: exact, or fine."""
    form = condense(design)
    return form if max(exact_sizes(design, form).values()) <= LIMIT else condense_fine(design)


def form_sizes(design, form, times=1):
    """`prediction`, `hessian`, `rows` and `curvature` of the condensed form, where each row counts so many times."""
    return fine_sizes(design, form, times) if form.fine else exact_sizes(design, form, times)


def lowered_sizes(design, form):
    """Those with rows that count 16 times, as a row does whose step exponent is 4 below the greatest: where one is too wide, no exponent of version 2 is lowered."""
    return form_sizes(design, form, 16)


def multiplier_size(design, multiplier, above=0):
    """`multiplier`, of R and of what it is made of over 2^16: the greatest cost, or the excess."""
    return max(above, 2 ** (82 + machine_of(design.version).more) * multiplier)


# ---- what is made of it


# by how much the exponent of a row is lower at most
LOWERED = 4


class Errors:
    """What the errors of a step come to, by rounding and by the radii of the form, with multipliers up to 2 R; with the accelerated machine by its steps, and at most, where the exponents of its rows
    aren't known but for the greatest."""

    def __init__(self, design, form, multiplier, steps=1, step=0, exponents=None):
        self.design, self.form, self.top = design, form, 2 * multiplier
        machine = machine_of(design.version)
        self.carry = machine.carry(steps)
        self.rho, self.twice = min(design.input_weights), 2 if form.fine else 1
        self.box = over(max(map(abs, design.lo + design.hi)), 2**design.grid)
        spread = design.states * self.box + 1 + design.rows * self.top
        far = lambda values, radii: sum(map(abs, values)) + sum(radii)
        sums = lambda table, radii, den: over(sum(map(far, table, radii)), den)
        linear, constant = sums(form.lin, form.lin_radii, form.hess_den), sums([form.off], [form.off_radii], form.hess_den)
        self.pull = design.cost_den * (self.box * linear + constant + self.top * sums(form.rows, form.row_radii, form.row_den))
        diagonal = [form.hess[j][j] + form.hess_radii[j][j] for j in range(design.entries)]
        self.tail = design.cost_den * spread * over(sum(diagonal), form.hess_den)
        means = machine.means(form, exponents or [max(0, step - LOWERED)] * design.rows)
        gradient = [over(v, 2 * form.hess_den) * spread + over(far(*row), form.hess_den) + mean for v, mean, *row in zip(diagonal, means, form.hess, form.hess_radii)]
        self.squares = design.cost_den * sum(v * v for v in gradient)
        self.first = over(self.squares, 2 * self.rho)
        self.column = self.top * total(zip(*form.row_radii))

    def entry(self, f):
        """What a plan entry is at most, in absolute value."""
        return self.twice * (over(self.pull, 2 * self.rho) + over(self.tail, 2 ** (f + 2) * self.rho)) + 1

    def residual(self, f):
        """A residual's error, over 2^(f+1)."""
        return self.design.entries * self.entry(f) + self.design.states * self.box + 3

    def cost_radii(self, f):
        """What those of the cost come to in an entry of the gradient."""
        return self.entry(f) * total(self.form.hess_radii) + self.box * total(self.form.lin_radii) + max(self.form.off_radii)

    def row_radii(self, f):
        """What those of all rows come to, with the multipliers."""
        return self.top * (self.entry(f) * sum(map(sum, self.form.row_radii)) + self.box * sum(map(sum, self.form.state_radii)))

    def moved(self, f):
        """What the radii move an entry of the gradient by, over 2^40."""
        return over(self.cost_radii(f), self.design.cost_den * self.design.row_den**2) + over(self.column, self.design.limit_den)

    def cost(self, f):
        """E(f): what the errors of a step cost at most, over 2^40."""
        d = self.design
        rounding = over(self.twice * self.carry * ONE * self.first, 4**f) + over(ONE * self.top * d.rows * self.residual(f), 2 ** (f + 1))
        return rounding + over(self.carry * d.entries * d.cost_den * self.moved(f) ** 2, ONE * self.rho) + over(self.row_radii(f), d.limit_den)

    @property
    def size(self):
        """`error`."""
        d = self.design
        rounding = self.pull + self.tail + self.squares + ONE * (self.carry * self.first + self.top * d.rows * self.residual(0))
        radii = self.carry * d.cost_den * d.entries * self.moved(0) ** 2 + self.cost_radii(0) + self.column + self.row_radii(0)
        return self.twice**2 * rounding + radii


def gain_bounds(design, form, bits_of_plan):
    """The matrix and the columns that the gains solve: the size `descent`, and a bound on the entries of each column's gain. For a form within the limit."""
    factor = design.limit_den * form.hess_den // form.row_den
    columns = [[design.limit_den * row[i] for row in form.lin] for i in range(design.states)] + [[design.limit_den * v for v in form.off]]
    columns += [[factor * v for v in row] for row in form.rows]
    floor = design.limit_den * (2 * form.hess_den // design.cost_den * min(design.input_weights) - total(form.hess_radii))
    each = [sum(map(abs, column)) for column in columns]
    bounds = [over(2 ** (bits_of_plan + 1) * size, min(floor, LIMIT)) for size in each]
    matrix = total([[design.limit_den * v for v in row] for row in form.hess])
    return 2 * matrix * (max(bounds) + 1) + 2 ** (bits_of_plan + 1) * max(each), bounds


def greatest_width(design, form, multiplier, step, steps, f, bounds):
    """The size `width`: the greatest absolute sum that any gains within their bounds can have."""
    n, clamp = design.states, 2 * multiplier * 2 ** (f + step)
    reaches = [max(abs(l), abs(h)) * 2 ** (f - design.grid) for l, h in zip(design.lo, design.hi)]
    entry = 2**step * (sum(c * x for c, x in zip(bounds, reaches)) + bounds[n] * 2**f) + sum(bounds[n + 1 :]) * clamp
    plan = over(entry, 2 ** (f + step))
    near = lambda v: abs((2 * 2**f * v + form.row_den) // (2 * form.row_den))
    sums = [
        sum(near(v) * plan for v in form.rows[i]) + sum(near(v) * x for v, x in zip(form.state_rows[i], reaches)) + 2**f * near(form.bounds[i])
        for i in range(design.rows)
    ]
    machine = machine_of(design.version)
    return max(reaches + [entry, machine.total(steps) * plan] + sums + machine.multiplier_sums(clamp, steps, [over(v, 2**f) for v in sums]))
