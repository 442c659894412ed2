"""A design's condensed form: half the hessian, the linear part and the constant of its cost, and its limit rows, each number with how far the exact one may be.

One recipe makes both classes of form. Exact numbers are over the plant's denominator to the power of the stages, where every division comes out even and no
radius is left. Enclosures are over 2^40 and rounded, for designs whose exact numbers would pass the limit. All in whole numbers, with no code of the program's.
"""
from dataclasses import dataclass
from fractions import Fraction
from itertools import combinations_with_replacement
from operator import mul
from typing import NamedTuple

LIMIT = 2**126
# what enclosures are over
FINE = 2**40


def ceil_div(a, b):
    return -((-a) // b)


def dot(xs, ys):
    return sum(map(mul, xs, ys))


class Enclosure(NamedTuple):
    """A midpoint, and how far from it the exact number is at most."""

    mid: int
    rad: int = 0

    @property
    def far(self):
        return abs(self.mid) + self.rad


def divided(mid, rad, den):
    """The midpoint to the nearest, ties upward; the radius up, and 1 more where the midpoint was rounded."""
    return Enclosure((2 * mid + den) // (2 * den), ceil_div(rad, den) + (mid % den != 0))


def multiple(factor, x):
    return Enclosure(factor * x.mid, abs(factor) * x.rad)


def combined(factors, xs, den=1):
    """The sum of the multiples, over den; what one list has beyond the other counts nothing."""
    return divided(sum(c * x.mid for c, x in zip(factors, xs)), sum(abs(c) * x.rad for c, x in zip(factors, xs)), den)


def products(weights, xs, ys):
    """The sum of the weighted products, and of what their radii make of it; nothing is rounded."""
    mid = sum(w * x.mid * y.mid for w, x, y in zip(weights, xs, ys))
    rad = sum(w * (abs(x.mid) * y.rad + x.rad * abs(y.mid) + x.rad * y.rad) for w, x, y in zip(weights, xs, ys) if x.rad or y.rad)
    return mid, rad


def product(weights, xs, ys, den):
    """The same, over den."""
    return divided(*products(weights, xs, ys), den)


def gram(weights, columns, count, den):
    """The products of the first columns with all."""
    found = {}
    for i in range(count):
        for j in range(i, len(columns)):
            found[i, j] = found[j, i] = product(weights, columns[i], columns[j], den)
    return [[found[i, j] for j in range(len(columns))] for i in range(count)]


@dataclass
class Form:
    """q (half the hessian), f and h0 are over hess_den; g, e and b over row_den. A row of g times row_factor is over what limit_den times the hessian is over."""

    is_fine: bool
    q: list
    f: list
    h0: list
    g: list
    e: list
    b: list
    hess_den: int
    row_den: int
    row_factor: int

    @property
    def hess_rad(self):
        """The greatest sum of the hessian's radii in a row."""
        return 2 * max(sum(v.rad for v in row) for row in self.q)


class Run:
    """The plant's states from x under the inputs u, stage by stage, each rounded once."""

    def __init__(self, d, x, u):
        self.d, self.inputs, self.states = d, [u[k * d.inputs : (k + 1) * d.inputs] for k in range(d.stages)], [x]
        for v in self.inputs:
            self.states.append([combined(a + b, self.states[-1] + v, d.plant_den) for a, b in zip(d.a, d.b)])

    def costs(self):
        """What the cost rows have of it."""
        return [combined(row, self.states[k]) for row, k in self.d.counted]

    def rows(self):
        """And the limit rows."""
        at_stages = [combined(row, x + v) for x, v in zip(self.states, self.inputs) for row in self.d.stage_rows]
        return at_stages + [combined(row, self.states[-1]) for row in self.d.final_rows]


def condense(d, unit, den):
    """The form whose responses are over `unit` and whose products are over unit^2 / den."""
    n, nu = d.states, d.entries
    units = lambda count, at: [Enclosure(unit if i == at else 0) for i in range(count)]
    runs = [Run(d, units(n, None), units(nu, j)) for j in range(nu)] + [Run(d, units(n, i), units(nu, None)) for i in range(n)]
    columns = [run.costs() for run in runs] + [[Enclosure(unit * row[n]) for row, _ in d.counted]]
    products = gram([row[-1] for row, _ in d.counted], columns, nu, den)
    scale = d.row_den**2 * unit**2 // den
    for j, weight in enumerate(d.input_weights * d.stages):
        products[j][j] = Enclosure(products[j][j].mid + weight * scale, products[j][j].rad)
    rows = [run.rows() for run in runs]
    side_by_side = lambda columns: [list(row) for row in zip(*columns)]
    return Form(
        den != 1,
        [row[:nu] for row in products],
        [[multiple(2, v) for v in row[nu:-1]] for row in products],
        [multiple(-2, row[-1]) for row in products],
        side_by_side(rows[:nu]),
        side_by_side(rows[nu:]),
        [unit * row[-1] for row in d.stage_rows * d.stages + d.final_rows],
        d.cost_den * scale,
        d.limit_den * unit,
        d.cost_den * d.row_den**2 * unit // den,
    )


def exact_form(d):
    return condense(d, d.plant_den**d.stages, 1)


def fine_form(d):
    return condense(d, FINE, FINE)


class RowProducts:
    """The products of the columns of a form's rows, over row_den^2 / den, where each row counts a number of times, at first once."""

    def __init__(self, form):
        self.rows, self.size, self.den = form.g, len(form.q), FINE if form.is_fine else 1
        columns, once = list(zip(*form.g)), [1] * len(form.g)
        self.found = {(i, j): products(once, columns[i], columns[j]) for i, j in combinations_with_replacement(range(self.size), 2)}

    def count(self, number, times):
        """Counts a row so many times more, or less."""
        row = self.rows[number]
        for i, j in combinations_with_replacement([j for j, v in enumerate(row) if v.far], 2):
            mid, rad = products([times], [row[i]], [row[j]])
            self.found[i, j] = self.found[i, j][0] + mid, self.found[i, j][1] + rad

    def matrix(self):
        """Each sum rounded once."""
        rounded = {(i, j): divided(*parts, self.den) for (i, j), parts in self.found.items()}
        return [[rounded[min(i, j), max(i, j)] for j in range(self.size)] for i in range(self.size)]


# ---- the quantities


def squares_exponent(d, form):
    """The least exponent at which the curvature of the input weights covers the squares of all numbers of the rows."""
    squares, s = d.cost_den * sum(v.far**2 for row in form.g for v in row), 0
    while squares > 2**s * min(d.input_weights) * form.row_den**2:
        s += 1
    return s


def reached(d, first):
    """What a run in enclosures reaches at most at the last stage, where its first state and its inputs reach this."""
    for _ in range(d.stages):
        first = ceil_div(d.growth * first, d.plant_den) + 3
    return first


def sizes(d, form, times=1):
    """The quantities of condensing, in the order in which they are tested, where each row counts so many times."""
    nu, width = d.entries, d.entries + d.states + 1
    reach = prediction = d.growth**d.stages
    if form.is_fine:
        reach = reached(d, FINE)
        prediction = d.growth * reach
    hessian = 2 * nu * width * d.weights * (d.cost_width * reach) ** 2
    rows = times * width * d.rows * (d.limit_width * reach) ** 2
    numbers = hessian, rows
    if form.is_fine:
        hessian = max(hessian, 2**86 * form.hess_rad)
        numbers = (ceil_div(v, FINE) + 4 * nu for v in (hessian, rows))
    curvature = dot((2 ** min(squares_exponent(d, form), 40) * d.limit_den**2, d.cost_den * d.row_den**2), numbers)
    return {"prediction": prediction, "hessian": hessian, "rows": rows, "curvature": curvature}


def is_within_limit(d, form, times=1):
    return max(sizes(d, form, times).values()) <= LIMIT


def has_lowering_room(d, form):
    """Whether the sizes of an accepted design leave room for rows that count up to 16 times, as those do whose exponents are 4 below the greatest."""
    return is_within_limit(d, form, 16)


# ---- beside a simulated plant


def numbers(form):
    """Each number of the form by its name and place, and what it is over."""
    bounds = [[Enclosure(v) for v in form.b]]
    for name, rows, den in (("Q", form.q, form.hess_den), ("F", form.f, form.hess_den), ("h0", [form.h0], form.hess_den), ("G", form.g, form.row_den),
                            ("E", form.e, form.row_den), ("b", bounds, form.row_den)):
        for i, row in enumerate(rows, 1):
            for j, v in enumerate(row, 1):
                yield f"{name} {i} {j}", v, den


def agrees(d, exact, x, u):
    """Whether an exact form has what the plant's simulation has of this state and plan."""
    at = lambda row, xs: dot([v.mid for v in row], xs)
    cost = sum(v * (at(of_plan, u) + at(of_state, x) + constant.mid) for v, of_plan, of_state, constant in zip(u, exact.q, exact.f, exact.h0))
    rows = [Fraction(at(of_plan, u) + at(of_state, x) - bound, exact.row_den) for of_plan, of_state, bound in zip(exact.g, exact.e, exact.b)]
    return Fraction(cost, exact.hess_den) == d.cost(x, u) - d.cost(x, [0] * d.entries) and rows == d.residuals(x, u)


def fault(d):
    """What is wrong with a design's two forms, or None: the exact one has no radius and agrees with the simulated plant, and the fine one encloses it."""
    exact = exact_form(d)
    rounded = next((f"{name} of the exact form is rounded" for name, v, _ in numbers(exact) if v.rad), None)
    if not agrees(d, exact, [7 - 5 * i for i in range(d.states)], [j * j % 11 - 4 for j in range(d.entries)]):
        return "the exact form says otherwise than the simulated plant"
    for (name, v, den), (_, w, over) in zip(numbers(fine_form(d)), numbers(exact), strict=True):
        if abs(v.mid * over - w.mid * den) > v.rad * over:
            return f"{name} is further from the exact fraction than its radius"
    return rounded


def eliminated(rows):
    """The rows of a regular system with what stands behind its matrix, reduced until the matrix is the identity."""
    for j in range(len(rows)):
        rows[j] = [v / rows[j][j] for v in rows[j]]
        for i in range(len(rows)):
            if i != j and rows[i][j]:
                factor = rows[i][j]
                rows[i] = [a - factor * b for a, b in zip(rows[i], rows[j])]
    return rows
