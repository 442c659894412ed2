"""An independent model of loops that settle and begin where limits bind: how far a plan is at most from the affine law that no multiplier moves from, by what a policy costs more
than the best plan without limits, and where a loop lies that has such plans in its first turns.

Inputs and gradients are over 2^20, and costs over 2^40. All in exact whole numbers, by the definitions, and with no code of the program's.
"""
from math import isqrt

from . import settling
from .forms import ceil_div

UNIT = 2**20


def first_slopes(choice, solutions, magnitude):
    """The gradient's entries at the law's plan, at most."""
    f, errors = choice.report["bits"], choice.errors
    radius = errors.by_radii(errors.real_plan(magnitude, f))
    return [ceil_div(2**40 * v + 2**f * radius, 2**f * UNIT) for v in errors.real_gradient(choice, solutions, f)]


def descent(d, slopes):
    """What the law's plan costs more than any at most."""
    return ceil_div(d.cost_den * sum(v * v for v in slopes), 4 * min(d.input_weights))


def is_far(d, slopes, more, l, beta):
    """Whether input l of a plan that costs `more` more than the law's is within beta of it."""
    return d.cost_den * (slopes[l] * beta + more + descent(d, slopes)) <= d.input_weights[l] * beta**2


def distance(d, slopes, more, l):
    """The least beta for which it is so."""
    weight, slope, rest = d.input_weights[l], d.cost_den * slopes[l], d.cost_den * (more + descent(d, slopes))
    beta = max(1, (slope + isqrt(slope * slope + 4 * weight * rest)) // (2 * weight) - 1)
    while not is_far(d, slopes, more, l, beta):
        beta += 1
    return beta


def distances(choice, solutions, magnitude, excess):
    """Those of the inputs, where a policy's excess over 2^16 is this."""
    d, slopes = choice.design, first_slopes(choice, solutions, magnitude)
    return [distance(d, slopes, choice.printed(solutions, magnitude)["gap"] + 2**24 * excess, l) for l in range(d.inputs)]


def law(c, state):
    """The first inputs at the multipliers 0, over 2^f."""
    return [-((settling.pairs(row, state) * 2 ** (c.f - c.g) + t * 2**c.f) >> c.f) for row, t in zip(c.p_mat[: c.p], c.t)]


def is_near(c, beta, state, sums):
    """Whether these sums of a run are of plans within beta of the law's."""
    return all(UNIT * abs(total - c.steps * u) <= b * c.steps * 2**c.f for b, total, u in zip(beta, sums, law(c, state)))


class FarLoop(settling.Loop):
    """The closed loop in an outer box, where plans are within beta of the law's."""

    def __init__(self, d, c, outer, shifts, beta):
        super().__init__(d, c, outer, shifts)
        self.beta = beta

    def adds(self, row, after):
        left = [v - self.over * w for v, w in zip(self.through(row), after)]
        of_inputs = [settling.pairs(row, settling.column(self.d.b, l)) for l in range(self.d.inputs)]
        floors = sum(max(v, 0) - v * t for v, t in zip(of_inputs, self.c.t))
        rest = self.still.greatest(left) + 2**self.d.grid * floors
        far = 2 * 2**self.d.grid * 2**self.c.f * sum(abs(v) * b for v, b in zip(of_inputs, self.beta))
        return (UNIT * (2 * rest + self.over * self.rounded(row)) + far) // (UNIT * 2 * self.over) + self.shifts.greatest(row)


def tube(far, near, count, start, turns):
    """The boxes that loops from a box lie in after 0, 1 .. turns turns, of which the first `count` are far."""
    n = near.d.states
    boxes = [start]
    ends = {}
    for sign in (-1, 1):
        for i in range(n):
            rows = [[sign * settling.ROW * (j == i) for j in range(n)]]
            for _ in range(turns):
                rows.append(near.next_row(rows[-1]))
            adds = {loop: [loop.adds(row, after) for row, after in zip(rows, rows[1:])] for loop in (far, near)}
            ends[sign, i] = [(start.greatest(rows[t]) + sum(adds[far if t - 1 - k < count else near][k] for k in range(t))) // settling.ROW for t in range(1, turns + 1)]
    for t in range(turns):
        boxes.append(settling.Box([-ends[-1, i][t] for i in range(n)], [ends[1, i][t] for i in range(n)]))
    return boxes
