"""A design's condensed form in exact whole numbers: V(x, u) = V(x, 0) + 1/2 u'Hu + (Fx + h)'u and the rows Gu + Ex <= b."""
from dataclasses import dataclass

from .trajectories import dot


@dataclass
class Condensed:
    """Whole numbers: hess, lin and off over hess_den, rows, state_rows and bounds over row_den; where they are rounded (fine), with radii over the same."""

    hess: list
    lin: list
    off: list
    rows: list
    state_rows: list
    bounds: list
    hess_den: int
    row_den: int
    hess_radii: list
    lin_radii: list
    off_radii: list
    row_radii: list
    state_radii: list
    fine: bool


def responses(design):
    """For each stage k the state's response to a unit state and to a unit plan, over plant_den^k."""
    n, p, a = design.states, design.inputs, design.plant_den
    free, forced = [[[int(i == j) for j in range(n)] for i in range(n)]], [[[0] * design.entries for _ in range(n)]]
    for k in range(design.stages):
        columns, inputs = list(zip(*free[-1])), list(zip(*forced[-1]))
        free.append([[dot(design.a[i], c) for c in columns] for i in range(n)])
        forced.append([[dot(design.a[i], c) + (a**k * design.b[i][j % p] if j // p == k else 0) for j, c in enumerate(inputs)] for i in range(n)])
    return free, forced


def condense(design):
    n, p, nu, power = design.states, design.inputs, design.entries, design.plant_den**design.stages
    free, forced = responses(design)
    lift = lambda k: design.plant_den ** (design.stages - k)
    of = lambda row, matrix, k: [lift(k) * dot(row[:n], column) for column in zip(*matrix[k])]
    parts = [(row[n + 1], of(row, forced, k), of(row, free, k), power * row[n]) for row, k in design.counted]
    hess = [[2 * sum(w * u[i] * u[j] for w, u, _, _ in parts) for j in range(nu)] for i in range(nu)]
    for j in range(nu):
        hess[j][j] += 2 * design.input_weights[j % p] * (design.row_den * power) ** 2
    lin = [[2 * sum(w * u[j] * x[i] for w, u, x, _ in parts) for i in range(n)] for j in range(nu)]
    off = [-2 * sum(w * u[j] * t for w, u, _, t in parts) for j in range(nu)]
    rows = [of(row, forced, k) for row, k in design.limits]
    for (row, k), out in zip(design.limits, rows):
        for l in range(p if k < design.stages else 0):
            out[k * p + l] += power * row[n + l]
    zeros = lambda height, width: [[0] * width for _ in range(height)]
    return Condensed(
        hess=hess,
        lin=lin,
        off=off,
        rows=rows,
        state_rows=[of(row, free, k) for row, k in design.limits],
        bounds=[power * row[-1] for row, _ in design.limits],
        hess_den=design.cost_den * (design.row_den * power) ** 2,
        row_den=design.limit_den * power,
        hess_radii=zeros(nu, nu),
        lin_radii=zeros(nu, n),
        off_radii=[0] * nu,
        row_radii=zeros(design.rows, nu),
        state_radii=zeros(design.rows, n),
        fine=False,
    )


def factor(matrix):
    """The lower factor of a positive definite matrix of floats."""
    size = len(matrix)
    lower = [[0.0] * size for _ in range(size)]
    for j in range(size):
        lower[j][j] = (matrix[j][j] - dot(lower[j][:j], lower[j][:j])) ** 0.5
        for i in range(j + 1, size):
            lower[i][j] = (matrix[i][j] - dot(lower[i][:j], lower[j][:j])) / lower[j][j]
    return lower


def solve(lower, right):
    """The solution of L L' x = right."""
    size, x = len(right), list(right)
    for i in range(size):
        x[i] = (x[i] - dot(lower[i][:i], x[:i])) / lower[i][i]
    for i in reversed(range(size)):
        x[i] = (x[i] - sum(lower[k][i] * x[k] for k in range(i + 1, size))) / lower[i][i]
    return x


def curvature(design, form=None):
    """The greatest sum of squares of the rows' changes over the cost of the change: what 2^s must reach. A power iteration in floating point."""
    form = form or condense(design)
    lower = factor([[v / (2 * form.hess_den) for v in row] for row in form.hess])
    rows = [[v / form.row_den for v in row] for row in form.rows]
    columns, x, value = list(zip(*rows)), [1.0 + 0.1 * j for j in range(design.entries)], 0.0
    for _ in range(400):
        changes = [dot(row, x) for row in rows]
        x = solve(lower, [dot(column, changes) for column in columns])
        size = dot(x, x) ** 0.5
        if size == 0:
            return 0.0
        x, value = [v / size for v in x], size
    return value


def step_of(design):
    """The least s with 2^s at least the curvature, and this."""
    steep, step = curvature(design), 0
    while 2**step < steep:
        step += 1
    return step, steep
