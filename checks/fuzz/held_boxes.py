"""An independent model of the staying check: whether the faces of a design's box show that no closed loop leaves it.

A face is a sum of first rows, which bounds how far a coordinate of the next state goes. All in exact whole numbers, by the definitions, and with no code of the program's.
"""
from dataclasses import dataclass

from .forms import dot
from .model import NUMERATOR, Refused, limited, read_records

SCALE = 2**40


@dataclass
class FirstRow:
    """A limit row that the first state and the first inputs decide: their coefficients are over the plant's denominator, the bound is not. The number is the row's among
    all, from 0."""

    of_state: list
    of_input: list
    bound: int
    number: int


@dataclass
class Face:
    """How far a coordinate goes up, or down, of which a record of faces has the factor and the weights."""

    coordinate: int
    is_upper: bool
    factor: int
    weights: list

    @property
    def sign(self):
        return 1 if self.is_upper else -1


def first_rows(d):
    """The rows at the first stage, and then those on the state after it alone."""
    n, a = d.states, d.plant_den
    rows = [FirstRow([a * v for v in row[:n]], [a * v for v in row[n:-1]], row[-1], i) for i, row in enumerate(d.stage_rows)]
    last = d.stages == 1
    for i, row in enumerate(d.final_rows if last else d.stage_rows):
        if last or not any(row[n:-1]):
            through = lambda matrix: [dot(row[:n], column) for column in zip(*matrix)]
            rows.append(FirstRow(through(d.a), through(d.b), row[-1], len(d.stage_rows) + i))
    return rows


# ---- texts


def read_faces(data, d):
    """The faces, or the status 5 with the first fault."""
    rows = read_records(data, 1 + len(first_rows(d)), lambda _, field, value: (1 if field == 1 else 0) <= value <= NUMERATOR)
    if len(rows) != 2 * d.states:
        raise Refused(5, "count", len(rows))
    return [Face(i // 2, i % 2 == 0, row[0], row[1:]) for i, row in enumerate(rows)]


def read_shifts(data, n, count):
    """A disturbance for each turn."""
    rows = read_records(data, n, lambda _, field, value: abs(value) <= NUMERATOR)
    if len(rows) != count:
        raise Refused(5, "count", len(rows))
    return rows


def read_shift_box(data, n):
    """The least and the greatest disturbance."""
    rows = read_records(data, n, lambda before, field, value: abs(value) <= NUMERATOR and (len(before) != 1 or before[0][field - 1] <= value))
    if len(rows) != 2:
        raise Refused(5, "count", len(rows))
    return rows


# ---- the check


def of_inputs(d, rows, face):
    """What the weighted rows have of each input, and what the coordinate has."""
    left = [sum(w * row.of_input[l] for w, row in zip(face.weights, rows)) for l in range(d.inputs)]
    return left, [face.sign * face.factor * b for b in d.b[face.coordinate]]


def reach(d, rows, excess, face):
    """How far the coordinate goes in the face's direction over the box: numerator and denominator, in grid units."""
    rest = [face.sign * face.factor * a - sum(w * row.of_state[j] for w, row in zip(face.weights, rows)) for j, a in enumerate(d.a[face.coordinate])]
    over_box = sum(max(v * low, v * high) for v, low, high in zip(rest, d.lo, d.hi))
    over_rows = sum(w * (SCALE * row.bound + d.limit_den * excess[row.number]) for w, row in zip(face.weights, rows))
    return SCALE * over_box + 2**d.grid * d.plant_den * over_rows, face.factor * d.plant_den * SCALE


def size(d, rows, excess, face):
    """What the face's numbers come to at most."""
    sums = lambda of, mine: face.factor * abs(mine) + sum(w * abs(of(row)) for w, row in zip(face.weights, rows))
    box = max(map(abs, d.lo + d.hi))
    states = sum(sums(lambda row: row.of_state[j], a) for j, a in enumerate(d.a[face.coordinate]))
    inputs = sum(sums(lambda row: row.of_input[l], b) for l, b in enumerate(d.b[face.coordinate]))
    bounds = sum(w * (SCALE * abs(row.bound) + d.limit_den * excess[row.number]) for w, row in zip(face.weights, rows))
    return 2 * (SCALE * box * states + 2**d.grid * d.plant_den * bounds) + inputs + 2 * face.factor * d.plant_den * SCALE


def farthest(d, rows, excess, face, low, high):
    """The farthest that the coordinate's nearest grid state goes with its disturbance."""
    numerator, den = reach(d, rows, excess, face)
    shift = (high if face.is_upper else low)[face.coordinate]
    return (2 * face.sign * numerator + den) // (2 * den) + shift


def check(d, faces, excess, low, high):
    """Refused, or nothing. `excess` is by how much a limit row of a plan may be passed, over 2^40; the disturbances are within low and high."""
    rows = first_rows(d)
    limited(max(size(d, rows, excess, face) for face in faces), "stay")
    for entry, face in enumerate(faces, 1):
        for l, (left, right) in enumerate(zip(*of_inputs(d, rows, face)), 1):
            if left != right:
                raise Refused(16, entry, l, left, right)
        bound = farthest(d, rows, excess, face, low, high)
        if bound > d.hi[face.coordinate] if face.is_upper else bound < d.lo[face.coordinate]:
            raise Refused(17, entry, bound)
