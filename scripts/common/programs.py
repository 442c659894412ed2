"""The convex problems of a design in floating point: the best plan from a state, with a slack in every limit. Nothing of the tool rests on them."""
import functools
import math

from .libraries import need

need("numpy", "scipy", "cvxopt")
import cvxopt
import numpy
import scipy.optimize

from .condensed import condense
from .design_text import Design
from .trajectories import cost_of

cvxopt.solvers.options.update(show_progress=False, abstol=1e-10, reltol=1e-9, feastol=1e-9, maxiters=200)


class Programs:
    """A design's condensed form as arrays of floats."""

    def __init__(self, design: Design):
        form = condense(design)
        floats = lambda rows, den: numpy.array([[v / den for v in row] for row in rows])
        self.design = design
        self.hess, self.lin = floats(form.hess, form.hess_den), floats(form.lin, form.hess_den)
        self.off = numpy.array([v / form.hess_den for v in form.off])
        self.rows, self.state_rows = floats(form.rows, form.row_den), floats(form.state_rows, form.row_den)
        self.bounds = numpy.array([v / form.row_den for v in form.bounds])

    def pull(self, state: list | numpy.ndarray) -> numpy.ndarray:
        return self.lin @ numpy.array(state, float) + self.off

    def room(self, state: list | numpy.ndarray) -> numpy.ndarray:
        """What each row leaves for the plan."""
        return self.bounds - self.state_rows @ numpy.array(state, float)

    def best(self, state: list | numpy.ndarray, slack: float = 0.0) -> numpy.ndarray | None:
        """The plan of least cost that keeps each limit with this slack, or None where there is none."""
        matrix = cvxopt.matrix
        try:
            found = cvxopt.solvers.qp(matrix(self.hess), matrix(self.pull(state)), matrix(self.rows), matrix(self.room(state) - slack))
        except (ValueError, ArithmeticError):
            return None
        plan = numpy.array(found["x"]).ravel()
        kept = (self.room(state) - self.rows @ plan).min() > slack - 1e-6 * (1 + abs(self.bounds).max())
        return plan if kept else None

    def unlimited(self, state: list | numpy.ndarray) -> numpy.ndarray:
        """The plan of least cost where there are no limits."""
        return -numpy.linalg.solve(self.hess, self.pull(state))

    @functools.cached_property
    def endless(self) -> bool:
        """Whether plans can keep every limit with any slack: some change of the plan gives room in all rows at once."""
        found = scipy.optimize.linprog(numpy.zeros(self.rows.shape[1]), A_ub=self.rows, b_ub=-numpy.ones(len(self.rows)), bounds=(None, None))
        return found.status == 0

    def most_slack(self, state: list) -> tuple[float, list[int]]:
        """The greatest slack that one plan keeps in every limit, and the rows that stop it there, from 1, the one that weighs most first; an infinity where none does."""
        if self.endless:
            return math.inf, []
        count = self.rows.shape[1]
        rows = numpy.hstack([self.rows, numpy.ones((len(self.bounds), 1))])
        found = scipy.optimize.linprog(numpy.r_[numpy.zeros(count), -1.0], A_ub=rows, b_ub=self.room(state), bounds=(None, None))
        if found.fun is None:
            return math.inf, []
        weights = -found.ineqlin.marginals
        blamed = [int(i) + 1 for i in numpy.argsort(-weights, kind="stable") if weights[i] > 0.01 * weights.max()]
        return float(-found.fun), blamed

    def cost(self, state: list, plan: list) -> float:
        return float(cost_of(self.design, [float(v) for v in state], [float(v) for v in plan]))


def exact_loop(design: Design, state: list, turns: int, programs: Programs | None = None, shifts: list | None = None) -> list[tuple[numpy.ndarray, numpy.ndarray]]:
    """The closed loop with the best plan of each turn from a grid state, each next state rounded to the grid as `loop` does, and then shifted: (state, input) a turn, as floats."""
    programs = programs or Programs(design)
    a, b = numpy.array(design.a) / design.plant_den, numpy.array(design.b) / design.plant_den
    scale, out = 2**design.grid, []
    for turn in range(turns):
        now = numpy.array(state) / scale
        plan = programs.best(now)
        if plan is None:
            plan = programs.unlimited(now)
        inputs = plan[: design.inputs]
        out.append((now, inputs))
        state = numpy.floor((a @ now + b @ inputs) * scale + 0.5) + (shifts[turn] if shifts else 0)
    return out


def reach_of(design: Design, turns: int = 50) -> numpy.ndarray:
    """How far the closed loops with the best plans go from each corner, in each coordinate, as a part of the box from its middle: above 1 a loop leaves it."""
    lo, hi = numpy.array(design.lo) / 2**design.grid, numpy.array(design.hi) / 2**design.grid
    middle, half = (lo + hi) / 2, numpy.maximum((hi - lo) / 2, 1e-12)
    far, programs = numpy.zeros(design.states), Programs(design)
    for number in range(1, 2**design.states + 1):
        start = [int(v * 2**design.grid) for v in design.corner(number)]
        for state, _ in exact_loop(design, start, turns, programs):
            far = numpy.maximum(far, abs(state - middle) / half)
    return far
