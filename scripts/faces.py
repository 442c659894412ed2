"""Finds the faces of a design's box: the sums of limits that show that no closed loop ever leaves it.

    ./mpc faces DESIGN POLICY [FACES] [--lean REFERENCE] [--disturbances FILE] [--bears FILE]

For each coordinate the upper face, then the lower: a factor and a weight for each first row, so that the rows have together of each input as much as the coordinate has, and
the coordinate of the next state can go least far. It is a linear program, whose best vertex is taken in exact fractions, and so the equations hold exactly. First rows are the
stage rows at stage 0, then those rows on the next state: with one stage the final rows, else the stage rows that no input is a part of. Each may be exceeded by what rests on
these texts alone: with a controller of `stay` by half the violation target, and what the errors of a step cost over R; with one of `lean` by nearly all of the target.

The faces go to FACES, or are printed; how far each coordinate can go, and the greatest disturbance that the box bears in each, go to standard error.

    --lean REFERENCE      of the controller that `lean` makes with these reference plans, not of that of `stay`
    --disturbances FILE   two records, a number for each coordinate over `2^grid`: the least and the greatest that is added to a next state
    --bears FILE          writes two such records: the greatest disturbances that the faces bear

Where a face doesn't hold, it says which, by how much, and what a tolerance or a box would have to be, and ends with status 17, as `./mpc stay` and `./mpc lean` do. Nothing rests on the solver: what is
found is tested in whole numbers, and they test it again.
"""
from dataclasses import dataclass
from fractions import Fraction
from math import ceil, lcm

from .common.libraries import need, run, say

need("numpy", "scipy")
import numpy
from scipy.optimize import linprog

from .common import files, matching, sizes
from .common.arguments import Parser
from .common.condensed import step_of
from .common.corners import corners_of, cost_limit, lean_multiplier_of, margin_of, multiplier_of, step_share, steps_of
from .common.design_text import plain, read_design
from .common.disturbances import box_in
from .common.excess import excesses_of
from .common.machines import is_accelerated
from .common.texts import read_text, records_of, records_text
from .common.trajectories import dot

SCALE = 2**40
MOST = 2**31 - 1


# ---- the rows that the first state and the first inputs decide


@dataclass
class FirstRow:
    """(of_state'x + of_input'u) / plant.den is at most bound, all over limits.den; number is that of the plan's limit row, from 0."""

    of_state: list
    of_input: list
    bound: int
    number: int


def first_rows(design):
    n, a = design.states, design.plant_den
    rows = [FirstRow([a * v for v in row[:n]], [a * v for v in row[n:-1]], row[-1], i) for i, row in enumerate(design.stage_rows)]
    limits = [row[:n] + [0] * design.inputs + row[-1:] for row in design.final_rows] if design.stages == 1 else design.stage_rows
    columns = lambda matrix: list(zip(*matrix))
    for i, row in enumerate(limits):
        if not any(row[n:-1]):
            through = lambda matrix: [dot(row[:n], column) for column in columns(matrix)]
            rows.append(FirstRow(through(design.a), through(design.b), row[-1], len(design.stage_rows) + i))
    return rows


def excesses(design, policy, reference=None):
    """By how much each first row may be exceeded at most, over 2^40, whatever the step's exponents are, by a controller of `stay`, or with reference plans by one of `lean`; None where
    the policy has no margin, or 48 fraction bits do not do."""
    lean, form, (margin, cost) = reference is not None, sizes.form_of(design), margin_of(corners_of(design, policy))
    bound = lean_multiplier_of(design, margin, max(0, *excesses_of(design, form, policy, reference)[0])) if lean else multiplier_of(margin, cost)
    if bound is None:
        return None
    steps, rounding = step_share(design, lean), rounding_of(design, form, bound, lean)
    if rounding is None:
        return None
    most = steps + ceil(Fraction(rounding, bound))
    if lean:
        target = SCALE * design.violation // design.target_den
        most = min(target, ceil(Fraction(target, 2)) + ceil(Fraction(steps, 2)) + ceil(Fraction(rounding, 2 * bound)))
    return [most] * len(first_rows(design))


def rounding_of(design, form, bound, lean):
    """What the errors of a run cost at most with the fewest bits that do, over 2^40, or None."""
    limit = cost_limit(design, bound, lean)
    if not is_accelerated(design.version):
        return least_cost(design, sizes.Errors(design, form, bound), limit)[1]
    # they rest on the exponents of the rows, which aren't known here: where those that make the errors least and greatest need as many bits, they cost no more than with these, else than they may
    step, _ = step_of(design)
    steps = steps_of(design, step, bound, lean)
    (bits, known), (most_bits, most) = (least_cost(design, sizes.Errors(design, form, bound, steps, step, exponents), limit) for exponents in ([step] * design.rows, None))
    return None if known is None else most if bits == most_bits else limit


def least_cost(design, errors, limit):
    """The fewest bits with which errors cost at most so much, and what they cost; None, None where none do."""
    return next(((bits, cost) for bits in range(design.grid, 49) if (cost := errors.cost(bits)) <= limit), (None, None))


# ---- one face


@dataclass
class Face:
    """The upper or the lower end of a coordinate, counted from 0."""

    coordinate: int
    upper: bool

    @property
    def sign(self):
        return 1 if self.upper else -1

    def end(self, design):
        return (design.hi if self.upper else design.lo)[self.coordinate]

    def words(self, design):
        return f"the {'upper' if self.upper else 'lower'} face of {design.name('state', self.coordinate + 1).word}"


def faces_of(design):
    return [Face(i, upper) for i in range(design.states) for upper in (True, False)]


def sums(design, face, record):
    """Of each input what the rows have together, and what the coordinate has."""
    factor, *weights = record
    rows = first_rows(design)
    left = [sum(w * row.of_input[l] for w, row in zip(weights, rows)) for l in range(design.inputs)]
    return left, [face.sign * factor * v for v in design.b[face.coordinate]]


def reach(design, face, record, excess):
    """How far towards the face the coordinate of the next state can go: a numerator, and what it is over."""
    factor, *weights = record
    rows = first_rows(design)
    rest = [face.sign * factor * design.a[face.coordinate][j] - sum(w * row.of_state[j] for w, row in zip(weights, rows)) for j in range(design.states)]
    far = sum(max(r * lo, r * hi) for r, lo, hi in zip(rest, design.lo, design.hi))
    left = sum(w * (SCALE * row.bound + design.limit_den * e) for w, row, e in zip(weights, rows, excess))
    return SCALE * far + 2**design.grid * design.plant_den * left, factor * design.plant_den * SCALE


def farthest(design, face, record, excess, shift=0):
    """The coordinate of the next grid state at the farthest, ties upward, with a shift added."""
    far, over = reach(design, face, record, excess)
    return (2 * face.sign * far + over) // (2 * over) + shift


def is_kept(design, face, place):
    return place <= face.end(design) if face.upper else place >= face.end(design)


def size(design, face, record, excess):
    """What the numbers of a face come to at most: the quantity `stay` is the greatest of all faces."""
    factor, *weights = record
    rows, i = first_rows(design), face.coordinate
    box = max(map(abs, design.lo + design.hi))
    states = sum(factor * abs(design.a[i][j]) + sum(w * abs(row.of_state[j]) for w, row in zip(weights, rows)) for j in range(design.states))
    inputs = sum(factor * abs(design.b[i][l]) + sum(w * abs(row.of_input[l]) for w, row in zip(weights, rows)) for l in range(design.inputs))
    bounds = sum(w * (SCALE * abs(row.bound) + design.limit_den * e) for w, row, e in zip(weights, rows, excess))
    return 2 * (SCALE * box * states + 2**design.grid * design.plant_den * bounds) + inputs + 2 * factor * design.plant_den * SCALE


def first_fault(design, faces, excess, low=None, high=None):
    """What `stay` answers to faces: None where each holds, ("too-wide", size), ("unequal", record, input, left, right) or ("no-stay", record, place)."""
    widest = max(size(design, face, record, excess) for face, record in zip(faces_of(design), faces))
    if widest > sizes.LIMIT:
        return "too-wide", widest
    for number, (face, record) in enumerate(zip(faces_of(design), faces), 1):
        for l, (left, right) in enumerate(zip(*sums(design, face, record)), 1):
            if left != right:
                return "unequal", number, l, left, right
        shifts = high if face.upper else low
        place = farthest(design, face, record, excess, shifts[face.coordinate] if shifts else 0)
        if not is_kept(design, face, place):
            return "no-stay", number, place
    return None


# ---- the linear program


def program(design, face, excess):
    """The weights, for a factor of 1, of the least reach, as floats; None where no weights have the inputs of the coordinate. The variables are the weights, then for each state
    what is left of it at most, over the box."""
    rows, n = first_rows(design), design.states
    count = len(rows)
    unit = float(2**design.grid * design.plant_den)
    price = [unit * (row.bound + design.limit_den * e / SCALE) for row, e in zip(rows, excess)] + [1.0] * n
    upper, right = [], []
    for j in range(n):
        for end in (design.lo[j], design.hi[j]):
            # (sign * a_ij - sum w_r of_state_rj) * end - t_j <= 0
            upper.append([-float(row.of_state[j] * end) for row in rows] + [-1.0 if k == j else 0.0 for k in range(n)])
            right.append(-float(face.sign * design.a[face.coordinate][j] * end))
    equal = [[float(row.of_input[l]) for row in rows] + [0.0] * n for l in range(design.inputs)]
    inputs = [float(face.sign * v) for v in design.b[face.coordinate]]
    size = max(1.0, max(map(abs, price[:count]), default=1.0))
    found = linprog(
        [p / size for p in price], A_ub=numpy.array(upper), b_ub=right, A_eq=numpy.array(equal), b_eq=inputs, bounds=[(0, None)] * count + [(None, None)] * n, method="highs-ds"
    )
    return [float(w) for w in found.x[:count]] if found.status == 0 else None


def solved(matrix, right):
    """The one solution of a system in fractions, and None where there is none or more than one."""
    width = len(matrix[0]) if matrix else 0
    lines = [[Fraction(v) for v in row] + [Fraction(r)] for row, r in zip(matrix, right)]
    at = 0
    for column in range(width):
        pivot = next((k for k in range(at, len(lines)) if lines[k][column]), None)
        if pivot is None:
            return None
        lines[at], lines[pivot] = lines[pivot], lines[at]
        lines[at] = [v / lines[at][column] for v in lines[at]]
        for k, line in enumerate(lines):
            if k != at and line[column]:
                lines[k] = [v - line[column] * w for v, w in zip(line, lines[at])]
        at += 1
    return None if any(line[-1] for line in lines[at:]) else [line[-1] for line in lines[:at]]


def vertex(design, face, weights):
    """The vertex beside these weights in exact fractions: of the rows that count, the equations of the inputs and of the states that the rows take off whole."""
    rows = first_rows(design)
    scale = max(weights, default=0.0)
    used = [r for r, w in enumerate(weights) if w > 1e-9 * scale]
    if not used:
        return [Fraction(0)] * len(rows) if not any(design.b[face.coordinate]) else None
    matrix = [[rows[r].of_input[l] for r in used] for l in range(design.inputs)]
    right = [face.sign * v for v in design.b[face.coordinate]]
    for j in range(design.states):
        mine = face.sign * design.a[face.coordinate][j]
        rest = mine - sum(weights[r] * rows[r].of_state[j] for r in used)
        if abs(rest) <= 1e-7 * (abs(mine) + sum(weights[r] * abs(rows[r].of_state[j]) for r in used)):
            matrix.append([rows[r].of_state[j] for r in used])
            right.append(mine)
    exact = solved(matrix, right)
    if exact is None or min(exact) < 0:
        return None
    out = [Fraction(0)] * len(rows)
    for r, w in zip(used, exact):
        out[r] = w
    return out


def in_whole_numbers(exact):
    """The record of a vertex, and None where its numbers are too long."""
    factor = lcm(*(w.denominator for w in exact)) if exact else 1
    record = [factor] + [int(w * factor) for w in exact]
    return record if max(record) <= MOST else None


def rounded(design, face, weights, excess=None):
    """A record near these weights whose equations hold: a row for each input makes up for what rounding the others leaves. None where the numbers are too long."""
    rows = first_rows(design)
    order = sorted(range(len(rows)), key=lambda r: -weights[r])
    basis = []
    for r in order:
        if weights[r] > 0 and solved([[rows[q].of_input[l] for q in basis + [r]] for l in range(design.inputs)], [0] * design.inputs) is not None:
            basis.append(r)
    lines = [[rows[r].of_input[l] for r in basis] for l in range(design.inputs)]
    ends = [solved(lines, [int(l == k) for k in range(design.inputs)]) for l in range(design.inputs)]
    unit = lcm(*(v.denominator for end in ends if end for v in end)) if basis else 1
    times = MOST // (unit * ceil(max([1.0, *weights])))
    while times >= 1:
        record = [0] * len(rows)
        for r, w in enumerate(weights):
            record[r] = 0 if r in basis else unit * round(w * times)
        want = [face.sign * unit * times * v - sum(w * row.of_input[l] for w, row in zip(record, rows)) for l, v in enumerate(design.b[face.coordinate])]
        made = solved(lines, want) if basis else None
        if made is not None and min(made) >= 0 and all(w.denominator == 1 for w in made):
            for r, w in zip(basis, made):
                record[r] = int(w)
            if max(record) <= MOST and (excess is None or size(design, face, [unit * times] + record, excess) <= sizes.LIMIT):
                return [unit * times] + record
        times //= 2
    return None


def find_face(design, face, excess):
    """The record of the face's least reach, and None where there is none."""
    weights = program(design, face, excess)
    if weights is None:
        return None
    exact = vertex(design, face, weights)
    record = in_whole_numbers(exact) if exact else None
    return record if record and size(design, face, record, excess) <= sizes.LIMIT else rounded(design, face, weights, excess)


# ---- what is said


def tolerance_words(design, face, excess, shift):
    """What the tolerances would have to be for a face to hold, as a part of what they are, or that they don't matter."""
    holds = lambda part: (record := find_face(design, face, [ceil(e * part) for e in excess])) is not None and is_kept(
        design, face, farthest(design, face, record, [ceil(e * part) for e in excess], shift)
    )
    if not holds(Fraction(0)):
        return "even if no limit were exceeded: the limits let the plant go there, so tighten a limit on the next state or on the inputs, or give the box other coordinates"
    low, high = Fraction(0), Fraction(1)
    for _ in range(12):
        middle = (low + high) / 2
        low, high = (middle, high) if holds(middle) else (low, middle)
    return f"limits whose tolerances are {plain(low)} times what they are would do"


def box_words(design, face, excess, shift):
    """Where the box would have to end for a face to hold, the other ends as they are."""
    ends = design.hi if face.upper else design.lo
    kept, i = ends[face.coordinate], face.coordinate
    try:
        for part in range(1, 65):
            ends[i] = kept + face.sign * max(1, abs(kept) * part // 16)
            record = find_face(design, face, excess)
            if record is not None and is_kept(design, face, farthest(design, face, record, excess, shift)):
                name = design.name("state", i + 1)
                return f"a box that ends at {ends[i]} ({name.shown(Fraction(ends[i], 2**design.grid))}) would do, the other ends as they are"
    finally:
        ends[i] = kept
    return "no box with a farther end there does, the other ends as they are"


def far_words(design, face, place):
    name = design.name("state", face.coordinate + 1)
    room = face.sign * (face.end(design) - place)
    return f"{face.words(design)}: the next state goes to {place} at most, {name.shown(Fraction(place, 2**design.grid))}, {room} before its end at {face.end(design)}"


def holding(design, excess, low, high):
    """The faces where each holds under these disturbances, and else None; nothing is said."""
    faces = []
    for face in faces_of(design):
        record = find_face(design, face, excess)
        shift = (high if face.upper else low)[face.coordinate]
        if record is None or not is_kept(design, face, farthest(design, face, record, excess, shift)):
            return None
        faces.append(record)
    return faces


def beyond(design, excess, low, high):
    """Of each face that doesn't hold under these disturbances by how much, in words."""
    for face in faces_of(design):
        record = find_face(design, face, excess)
        if record is None:
            yield f"no sum of first rows makes {face.words(design)}"
            continue
        over = face.sign * (farthest(design, face, record, excess, (high if face.upper else low)[face.coordinate]) - face.end(design))
        if over > 0:
            name = design.name("state", face.coordinate + 1)
            yield f"{face.words(design)} is passed by {over} of 2^-{design.grid}, {name.shown(Fraction(over, 2**design.grid))}"


def find(design, excess, low, high):
    """The faces, or None where one doesn't hold, each said."""
    faces, bad = [], False
    for face in faces_of(design):
        shift = (high if face.upper else low)[face.coordinate]
        record = find_face(design, face, excess)
        faces.append(record)
        if record is None:
            bad = True
            say(f"{face.words(design)}: no sum of first rows has the coordinate's inputs; a limit on the next state is missing, or on the inputs")
            continue
        place = farthest(design, face, record, excess, shift)
        if is_kept(design, face, place):
            say(far_words(design, face, place))
            continue
        bad = True
        beyond = face.sign * (place - face.end(design))
        say(f"{face.words(design)} doesn't hold: the next state may go to {place}, {beyond} beyond its end at {face.end(design)}")
        say(f"  {tolerance_words(design, face, excess, shift)}")
        say(f"  {box_words(design, face, excess, shift)}")
    return None if bad else faces


def bearable(design, faces, excess):
    """The least and the greatest shift of each coordinate that these faces bear, over 2^grid."""
    rooms = [face.end(design) - farthest(design, face, record, excess) for face, record in zip(faces_of(design), faces)]
    return rooms[1::2], rooms[0::2]


def main():
    parser = Parser(__doc__)
    parser.add_argument("design", metavar="DESIGN")
    parser.add_argument("policy", metavar="POLICY")
    parser.add_argument("faces", metavar="FACES", nargs="?")
    parser.add_argument("--lean", metavar="REFERENCE")
    parser.add_argument("--disturbances", metavar="FILE")
    parser.add_argument("--bears", metavar="FILE")
    given = parser.parse_args()
    optional = {"--lean": given.lean, "--disturbances": given.disturbances}
    inputs = {"DESIGN": given.design, "POLICY": given.policy} | {word: path for word, path in optional.items() if path}
    files.keep_apart(inputs, {"FACES": given.faces or files.STANDARD_OUTPUT} | ({"--bears": given.bears} if given.bears else {}))
    design = read_design(given.design)
    low, high = box_in(given.disturbances, design) if given.disturbances else ([0] * design.states, [0] * design.states)
    plans = {"POLICY": given.policy} | ({"REFERENCE": given.lean} if given.lean else {})
    records = [records_of(read_text(path)) for path in plans.values()]
    for (word, path), found in zip(plans.items(), records):
        matching.refuse(f"{word} {path}", "design", matching.policy_fault(found, design))
    excess = excesses(design, *records)
    if excess is None:
        say("the policy has no margin, or its gap target asks for more than 48 fraction bits: no controller can be made, so there is nothing that could stay")
        return 6
    rows = first_rows(design)
    say(f"{len(rows)} first rows, each exceeded by at most {plain(Fraction(excess[0], SCALE)) if excess else 0} in its unit")
    faces = find(design, excess, low, high)
    if faces is None:
        return 17
    assert first_fault(design, faces, excess, low, high) is None
    least, most = bearable(design, faces, excess)
    for i, (l, h) in enumerate(zip(least, most)):
        name = design.name("state", i + 1)
        say(f"{name.word}: bears disturbances from {l} to {h} a turn, {name.shown(Fraction(l, 2**design.grid))} to {name.shown(Fraction(h, 2**design.grid))}")
    if given.bears:
        files.write(given.bears, records_text([least, most]))
    files.put(given.faces, records_text(faces))
    return 0


if __name__ == "__main__":
    run(main)
