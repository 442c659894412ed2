"""Where the loop of a design settles with the best plan of each turn, without limits or with them. Nothing of the tool rests on it."""
from .libraries import need

need("numpy", "cvxopt")
import numpy

from .design_text import Design
from .programs import Programs

TURNS = 300
DOUBLINGS = 16


class Settled:
    """A state and its inputs at which a loop stays, and the stage rows that bind there, from 1."""

    def __init__(self, state: numpy.ndarray, inputs: numpy.ndarray, rows: list[int]):
        self.state, self.inputs, self.rows = state, inputs, rows


def settled(design: Design, start: list[float]) -> Settled | None:
    """Where the loop settles from a state, or None where it doesn't. Held states stay as they are there."""
    programs = Programs(design)
    a, b = numpy.array(design.a, float) / design.plant_den, numpy.array(design.b, float) / design.plant_den
    size = numpy.maximum(numpy.array([max(abs(l), abs(h)) for l, h in zip(design.lo, design.hi)]) / 2**design.grid, 1e-12)
    state = free(programs, a, b, numpy.array(start, float), size)
    if state is not None:
        inputs = programs.unlimited(state)[: design.inputs]
        if least_slack(design, state, inputs)[0] >= -1e-6:
            return Settled(state, inputs, [])
    return limited(programs, a, b, numpy.array(start, float), size)


def free(programs: Programs, a: numpy.ndarray, b: numpy.ndarray, start: numpy.ndarray, size: numpy.ndarray) -> numpy.ndarray | None:
    """Without limits: the loop is one map of the state, taken to the power of 2^16."""
    n, p = b.shape
    gain, fixed = numpy.linalg.solve(programs.hess, programs.lin)[:p], numpy.linalg.solve(programs.hess, programs.off)[:p]
    turn = numpy.block([[a - b @ gain, (-b @ fixed)[:, None]], [numpy.zeros((1, n)), numpy.ones((1, 1))]])
    far = turn
    for _ in range(DOUBLINGS):
        far = far @ far
        if not numpy.all(abs(far) < 1e12):
            return None
    state = far @ numpy.r_[start, 1.0]
    return state[:n] if max(abs(turn @ state - state)[:n] / size) < 1e-7 else None


def limited(programs: Programs, a: numpy.ndarray, b: numpy.ndarray, state: numpy.ndarray, size: numpy.ndarray) -> Settled | None:
    """With limits: turn by turn."""
    design = programs.design
    for _ in range(TURNS):
        plan = programs.best(state)
        if plan is None:
            return None
        inputs = plan[: design.inputs]
        after = a @ state + b @ inputs
        if max(abs(after - state) / size) < 1e-6:
            return Settled(state, inputs, least_slack(design, state, inputs)[1])
        state = after
    return None


def least_slack(design: Design, state: numpy.ndarray, inputs: numpy.ndarray) -> tuple[float, list[int]]:
    """The least slack of the stage rows, and the rows that have none, from 1."""
    slacks = [(row[-1] - numpy.dot(row[:-1], numpy.r_[state, inputs])) / design.limit_den for row in design.stage_rows]
    return min(slacks, default=float("inf")), [number for number, slack in enumerate(slacks, 1) if slack < 1e-4]
