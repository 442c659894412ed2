"""A design's condensed form in enclosures: whole numbers over 2^40, each a midpoint and a radius that the exact number is no further from."""
from .condensed import Condensed

ONE = 2**40


def exactly(value):
    return ONE * value, 0


def enclosed(numerator, den):
    """A fraction: to the nearest, ties upward."""
    return combined([numerator], [exactly(1)], den)


def combined(coefficients, enclosures, den):
    """The sum of these multiples over den: the midpoint to the nearest, ties upward; the radius up, and 1 more of it where the midpoint is rounded."""
    mid = sum(c * m for c, (m, _) in zip(coefficients, enclosures))
    radius = sum(abs(c) * r for c, (_, r) in zip(coefficients, enclosures))
    return (2 * mid + den) // (2 * den), -(-radius // den) + (mid % den != 0)


def product(left, right):
    """Over 2^80, since nothing is rounded."""
    (l, l_radius), (r, r_radius) = left, right
    return l * r, abs(l) * r_radius + l_radius * abs(r) + l_radius * r_radius


def multiple(factor, enclosure):
    return factor * enclosure[0], abs(factor) * enclosure[1]


def farthest(mid, radius):
    """The greatest absolute value that is enclosed."""
    return abs(mid) + radius


def fine_trajectory(design, state, plan):
    """The states of the stages 0 to N, rounded at each stage."""
    states, p = [state], design.inputs
    for k in range(design.stages):
        now = states[-1] + plan[k * p : (k + 1) * p]
        states.append([combined(a + b, now, design.plant_den) for a, b in zip(design.a, design.b)])
    return states


def fine_costs(design, states):
    """What the cost rows have of these states."""
    return [combined(row[: design.states], states[k], 1) for row, k in design.counted]


def fine_limits(design, states, plan):
    """What the limit rows have of the states and the plan."""
    p = design.inputs
    return [combined(row[:-1], states[k] + plan[k * p : (k + 1) * p], 1) for row, k in design.limits]


def condense_fine(design):
    """The midpoints and radii of a unit of each plan entry, of each state, and of the targets."""
    n, p, nu = design.states, design.inputs, design.entries
    units = lambda size: [[exactly(int(i == j)) for j in range(size)] for i in range(size)]
    zeros = lambda size: [exactly(0)] * size
    starts = [(zeros(n), plan) for plan in units(nu)] + [(state, zeros(nu)) for state in units(n)]
    runs = [(fine_trajectory(design, state, plan), plan) for state, plan in starts]

    by_run = [fine_costs(design, states) for states, _ in runs] + [[exactly(row[n]) for row, _ in design.counted]]
    costs = [list(row) for row in zip(*by_run)]
    gram = lambda j, l: combined([row[n + 1] for row, _ in design.counted], [product(cost[j], cost[l]) for cost in costs], ONE)
    hess = [[multiple(2, gram(j, l)) for l in range(nu)] for j in range(nu)]
    lin = [[multiple(2, gram(j, nu + i)) for i in range(n)] for j in range(nu)]
    off = [multiple(-2, gram(j, nu + n)) for j in range(nu)]
    for j in range(nu):
        hess[j][j] = hess[j][j][0] + 2 * design.input_weights[j % p] * design.row_den**2 * ONE, hess[j][j][1]
    rows = [list(row) for row in zip(*(fine_limits(design, *run) for run in runs))]

    part = lambda table, which: [[entry[which] for entry in line] for line in table]
    mids, radii = part(rows, 0), part(rows, 1)
    return Condensed(
        hess=part(hess, 0),
        lin=part(lin, 0),
        off=[mid for mid, _ in off],
        rows=[line[:nu] for line in mids],
        state_rows=[line[nu:] for line in mids],
        bounds=[ONE * row[-1] for row, _ in design.limits],
        hess_den=design.cost_den * design.row_den**2 * ONE,
        row_den=design.limit_den * ONE,
        hess_radii=part(hess, 1),
        lin_radii=part(lin, 1),
        off_radii=[radius for _, radius in off],
        row_radii=[line[:nu] for line in radii],
        state_radii=[line[nu:] for line in radii],
        fine=True,
    )
