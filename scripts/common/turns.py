"""Coordinates in which closed loops shrink each by itself: the left eigenvectors of loops of linear gains, made short, with the states that they are called after."""
import itertools
from collections.abc import Iterator

from .libraries import need

need("numpy", "scipy")
import numpy
import scipy.optimize

from .design_text import Design

# the weights of inputs beside the design's own, and how often a gain is improved
WEIGHTS = [10 ** (k / 2) for k in range(-6, 9)]
IMPROVED = 120
# what is less than this part of a coordinate's box is left out
NOTHING = 0.03
# a sum of states that moves by less than this part of itself stays as it is
KEPT = 1e-6


def gains(design: Design, own: int) -> Iterator[numpy.ndarray]:
    """Gains of the design's cost without an end, with its inputs weighted more or less; and of costs on some of the states alone, by their boxes. A state that nothing moves is fed
    forward."""
    a, b = numpy.array(design.a, float) / design.plant_den, numpy.array(design.b, float) / design.plant_den
    half = numpy.array([h - l for l, h in zip(design.lo, design.hi)]) / 2 / 2**design.grid
    cost = numpy.zeros((design.states, design.states))
    for *row, _, weight in design.stage_cost + design.final_cost:
        cost += weight * numpy.outer(row, row)
    inputs = numpy.array(design.input_weights, float)
    yield from loops(a, b, cost, inputs, WEIGHTS)
    scale = numpy.where(half > 0, half, 1.0) ** -2.0
    effect = (abs(b) * scale[:, None] ** 0.5).max(axis=0) ** 2
    for size in range(1, own):
        for some in itertools.combinations(range(own), size):
            yield from loops(a, b, numpy.diag([scale[i] if i in some else 0.0 for i in range(design.states)]), effect, WEIGHTS[::3])


def loops(a: numpy.ndarray, b: numpy.ndarray, cost: numpy.ndarray, inputs: numpy.ndarray, factors: list[float]) -> Iterator[numpy.ndarray]:
    """The gain of a cost with each of these factors on the inputs' weights, where there is one."""
    size = numpy.trace(cost) or 1.0
    for factor in factors:
        weights, value = factor * numpy.diag(inputs), cost + 1e-9 * size * numpy.eye(len(a))
        for _ in range(IMPROVED):
            gain = numpy.linalg.solve(weights + b.T @ value @ b, b.T @ value @ a)
            value = cost + a.T @ value @ (a - b @ gain)
            if not numpy.all(numpy.isfinite(value)) or abs(value).max() > 1e15 * size:
                break
        else:
            yield gain


def vectors(a: numpy.ndarray, b: numpy.ndarray, gain: numpy.ndarray, still: list[int]) -> list[numpy.ndarray]:
    """The left eigenvectors of the loop but those of states that stand still; of a pair that turns both parts."""
    values, left = numpy.linalg.eig((a - b @ gain).T)
    out = []
    for value, vector in zip(values, left.T):
        if abs(value - 1) < 1e-7 and still or value.imag < -1e-12:
            continue
        out += [vector.real] + ([vector.imag] if value.imag > 1e-12 else [])
    return out


def assigned(found: list[numpy.ndarray], own: int, half: numpy.ndarray) -> dict[int, numpy.ndarray]:
    """Each of the first `own` states with the vector that has most of it, as a part of its box, and 1 of it."""
    if not found:
        return {}
    shares = numpy.array([abs(v) * half / max((abs(v) * half).max(), 1e-300) for v in found])
    rows, columns = scipy.optimize.linear_sum_assignment(-shares[:, :own])
    return {int(i): found[k] / found[k][i] for k, i in zip(rows, columns) if shares[k, i] > 1e-3}


def candidates(design: Design, own: int, held: list[int], units: numpy.ndarray) -> Iterator[dict[tuple[int, int], float]]:
    """What is added to states, by (state, what is added of): nothing at first, then by the loops' eigenvectors all of it, of some states alone, or of held states alone."""
    a, b = numpy.array(design.a, float) / design.plant_den, numpy.array(design.b, float) / design.plant_den
    half = numpy.array([h - l for l, h in zip(design.lo, design.hi)]) / 2 / 2**design.grid
    seen: set[tuple] = set()

    def new(times: dict) -> Iterator[dict]:
        key = tuple(sorted(times.items()))
        if key not in seen:
            seen.add(key)
            yield times

    yield from new({})
    for gain in gains(design, own):
        rows = {i: short(row, i, half, units, 9 if is_kept(row, a, b) else 2) for i, row in assigned(vectors(a, b, gain, held), own, half).items()}
        subsets = [s for size in range(1, len(rows) + 1) for s in itertools.combinations(rows, size) if size in (1, len(rows) - 1, len(rows))]
        for subset in subsets:
            yield from new({(i, j): t for i in subset for j, t in rows[i].items()})
        yield from new({(i, j): t for i in rows for j, t in rows[i].items() if j in held})


def is_kept(row: numpy.ndarray, a: numpy.ndarray, b: numpy.ndarray) -> bool:
    """Whether a sum of states stays as it is, whatever the inputs are, as a momentum of all."""
    return bool(numpy.allclose(row @ a, row, atol=KEPT * abs(row).max()) and abs(row @ b).max() <= KEPT * (abs(row) @ abs(b)).max())


def short(row: numpy.ndarray, i: int, half: numpy.ndarray, units: numpy.ndarray, digits: int) -> dict[int, float]:
    """What counts of the others in a row, of so many digits in physical units."""
    ratio = units[i] / units
    return {j: float(f"{v * ratio[j]:.{digits}g}") / ratio[j] for j, v in enumerate(row) if j != i and abs(v) * half[j] > NOTHING * half[i] and half[j] > 0}
