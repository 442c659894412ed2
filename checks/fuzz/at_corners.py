"""What a policy's plans show at the corners of a design's box: the slack of each limit row, and the cost.

In exact fractions, by the simulated plant; or, where a number of these would pass the limit, in enclosures over 2^40, of which the least slack and the greatest cost
are shown. With no code of the program's.
"""
from dataclasses import dataclass
from fractions import Fraction

from .forms import FINE, LIMIT, Enclosure, Run, ceil_div, divided, reached


@dataclass
class Corner:
    """Slacks are over `over`, and not divided out."""

    slacks: list
    over: int
    cost: Fraction


def states(d):
    """The corners' states over 2^grid, in their order."""
    return [[d.hi[i] if c >> i & 1 else d.lo[i] for i in range(d.states)] for c in range(2**d.states)]


# ---- the quantities


def box_reach(d):
    return max(map(abs, d.lo + d.hi))


def exact_sizes(d, plans):
    """Those of exact corners, in the order in which they are tested."""
    big = d.growth**d.stages
    z = max(max(q * 2**d.grid, q * box_reach(d), 2**d.grid * max(map(abs, u))) for q, u in plans)
    return {"prediction": big, "corner_slack": 2**17 * d.limit_width * big * z, "corner_cost": d.weights * (d.cost_width * big * z) ** 2}


def fine_sizes(d, plans):
    """And of corners in enclosures."""
    first = max(FINE, ceil_div(FINE * box_reach(d), 2**d.grid), max(ceil_div(FINE * abs(v), q) + 2 for q, u in plans for v in u))
    last = reached(d, first)
    slack = max(2**17 * d.limit_width, d.growth) * last
    return {"prediction": d.growth * reached(d, FINE), "corner_slack": slack, "corner_cost": d.weights * (d.cost_width * last) ** 2}


def are_fine(d, plans):
    return max(exact_sizes(d, plans).values()) > LIMIT


def sizes(d, plans):
    """The quantities of the corners, by their class."""
    return (fine_sizes if are_fine(d, plans) else exact_sizes)(d, plans)


# ---- what is shown


def exact_corner(d, state, q, numerators):
    x, u = [Fraction(v, 2**d.grid) for v in state], [Fraction(v, q) for v in numerators]
    over = d.limit_den * q * 2**d.grid * d.plant_den**d.stages
    return Corner([int(-residual * over) for residual in d.residuals(x, u)], over, d.cost(x, u))


def fine_run(d, state, q, numerators):
    """The run of a corner's plan: a state on the grid has no radius, an input has where its denominator doesn't divide it."""
    return Run(d, [Enclosure(FINE * v // 2**d.grid) for v in state], [divided(FINE * v, 0, q) for v in numerators])


def fine_corner(d, state, q, numerators):
    run = fine_run(d, state, q, numerators)
    bounds = [row[-1] for row in d.stage_rows * d.stages + d.final_rows]
    slacks = [FINE * bound - x.mid - x.rad for bound, x in zip(bounds, run.rows(), strict=True)]
    missed = [Enclosure(x.mid - FINE * row[d.states], x.rad) for (row, _), x in zip(d.counted, run.costs(), strict=True)]
    cost = sum(row[-1] * x.far**2 for (row, _), x in zip(d.counted, missed))
    cost += sum(weight * d.row_den**2 * x.far**2 for inputs in run.inputs for weight, x in zip(d.input_weights, inputs, strict=True))
    return Corner(slacks, d.limit_den * FINE, Fraction(cost, d.cost_den * d.row_den**2 * FINE**2))


def shown(d, plans):
    """What the corners show, by their class."""
    one = fine_corner if are_fine(d, plans) else exact_corner
    return (one(d, state, q, u) for state, (q, u) in zip(states(d), plans, strict=True))


# ---- beside the simulated plant


def fault(d, plans):
    """What is wrong with the corners in enclosures, or None: no true slack is less than the shown one, or more by over twice the radius, and no true cost is more."""
    for c, (state, (q, u)) in enumerate(zip(states(d), plans, strict=True), 1):
        exact, fine = exact_corner(d, state, q, u), fine_corner(d, state, q, u)
        for i, (true, least, x) in enumerate(zip(exact.slacks, fine.slacks, fine_run(d, state, q, u).rows(), strict=True), 1):
            if not 0 <= true * fine.over - least * exact.over <= 2 * x.rad * exact.over:
                return f"the slack of row {i} at corner {c} is not what its enclosure shows"
        if exact.cost > fine.cost:
            return f"corner {c} costs more than is shown"
    return None
