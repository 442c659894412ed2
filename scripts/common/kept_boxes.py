"""The largest box of given coordinates from each corner of which some inputs lead back inside, by a linear program; and what stops it from being larger.

Inputs that do so at the corners do so, mixed as the corners are, at each state of the box; and so again from the next state. So a plan of any number of stages is there, too.
"""
import functools
import itertools
from dataclasses import dataclass, field

from .libraries import need

need("numpy", "scipy")
import numpy
import scipy.optimize

# the smallest of the coordinates' parts counts so much more than all of them together
LEAST_COUNTS = 20.0
SAMPLES = 2048
# what inputs move a coordinate by less than, as a part of half its box, is nothing that a limit can be put on
LITTLE = 0.01
# and what they move it by less than, nothing at all
STANDS = 1e-5
MOST_TURNED = 1e6


@dataclass
class Plant:
    """A plant with its limits `rows (x, u) <= bounds`, over their tolerances, and the box that is wanted of it: all before any turn of coordinates. `held` and `last` say which states are
    such; `shift` is by how much each next state is moved from outside. `ends` has the limits on one input alone whose last value is a state: with its number, and what the limit comes to in
    the middle of that state's box; where the box of last inputs is smaller, so is what such a limit leaves, by as much. `disturbed` is what of `shift` isn't rounding."""

    a: numpy.ndarray
    b: numpy.ndarray
    rows: numpy.ndarray
    bounds: numpy.ndarray
    middle: numpy.ndarray
    half: numpy.ndarray
    shift: numpy.ndarray
    held: list[int]
    last: list[int]
    ends: dict[int, tuple[int, float]] = field(default_factory=dict)
    disturbed: numpy.ndarray | None = None

    @property
    def n(self) -> int:
        return len(self.a)

    def turned(self, turn: numpy.ndarray) -> "Plant":
        """The plant in other coordinates; the box has the size that each had before."""
        back = numpy.linalg.inv(turn)
        rows = numpy.hstack([self.rows[:, : self.n] @ back, self.rows[:, self.n :]])
        disturbed = None if self.disturbed is None else abs(turn) @ self.disturbed
        return Plant(turn @ self.a @ back, turn @ self.b, rows, self.bounds, turn @ self.middle, self.half, abs(turn) @ self.shift, self.held, self.last, self.ends, disturbed)

    @functools.cached_property
    def even(self) -> bool:
        """Whether all looks the same from both sides."""
        rows = numpy.column_stack([self.rows, self.bounds]).round(9) + 0.0
        other = numpy.column_stack([-self.rows, self.bounds]).round(9) + 0.0
        return not self.middle.any() and sorted(map(tuple, rows)) == sorted(map(tuple, other))

    @functools.cached_property
    def reach(self) -> numpy.ndarray:
        """What each input comes to at most, by the limits on it alone and their tolerances."""
        out = numpy.full(self.b.shape[1], numpy.inf)
        for row, bound in zip(self.rows, self.bounds):
            places = numpy.flatnonzero(row)
            if len(places) == 1 and places[0] >= self.n:
                out[places[0] - self.n] = min(out[places[0] - self.n], (bound + 1) / abs(row[places[0]]))
        return out

    def stands(self, i: int) -> bool:
        """Whether a coordinate stays as it is, whatever inputs do, and isn't disturbed: as a held state, or what is kept of a sum."""
        if i in self.held or i in self.last:
            return True
        same = numpy.allclose(self.a[i], numpy.eye(self.n)[i], atol=STANDS) and self.moved(i) <= STANDS * self.half[i]
        return bool(same and self.disturbed is not None and not self.disturbed[i])

    def moved(self, i: int) -> float:
        """By how much inputs move a coordinate's next value at most."""
        used = numpy.flatnonzero(abs(self.b[i]) > 1e-12 * max(1e-300, abs(self.a[i]).max()))
        return float(abs(self.b[i])[used] @ self.reach[used])

    def within_reach(self, turn: numpy.ndarray, part: float) -> numpy.ndarray:
        """Which parts of half the box are this part of what inputs move each coordinate by, in other coordinates."""
        reach = numpy.where(numpy.isfinite(self.reach), self.reach, 1e9)
        return part * (abs(turn @ self.b) @ reach) / numpy.where(self.half > 0, self.half, 1.0)

    def moves(self, i: int) -> bool:
        """Whether inputs can be asked to keep a coordinate inside: they move it by more than a little of its box."""
        return self.moved(i) > LITTLE * self.half[i]


@dataclass
class Blame:
    """What stops a box: the corner's signs, and with each a weight: limits, ends (coordinate, sign) of the box."""

    corner: tuple[float, ...]
    limits: list[int]
    ends: list[tuple[int, int]]


@dataclass
class Kept:
    """The parts of the wanted half widths that a box keeps, from 0, the least of them, and what stops it."""

    parts: numpy.ndarray
    least: float
    blame: Blame | None


class Program:
    """The linear program of a plant in its coordinates. Each next state is kept inside by `stay` of half the box in each coordinate, with a slack in tolerances beside."""

    def __init__(self, plant: Plant, stay: numpy.ndarray, slack: float, caps: numpy.ndarray) -> None:
        self.plant, self.stay, self.slack, self.caps = plant, stay, slack, caps
        self.corners = list(self.signs())
        # the variables: a part for each coordinate, the least of them, and inputs for each corner
        self.width = plant.n + 1 + len(self.corners) * plant.b.shape[1]
        self.left: list[numpy.ndarray] = []
        self.right: list[float] = []
        self.what: list[tuple[int, str, int, int]] = []

    def signs(self):
        plant = self.plant
        sides = [(-1.0, 1.0) if half else (0.0,) for half in plant.half]
        first = next((i for i, half in enumerate(plant.half) if half), None)
        if plant.even and first is not None:
            sides[first] = (1.0,)
        return itertools.product(*sides)

    def add(self, of_parts: numpy.ndarray, corner: int, of_inputs: numpy.ndarray, bound: float, what: tuple[str, int, int]) -> None:
        """`of_parts parts + of_inputs inputs <= bound`."""
        p = len(of_inputs)
        line = numpy.zeros(self.width)
        line[: self.plant.n] = of_parts
        line[self.plant.n + 1 + corner * p : self.plant.n + 1 + (corner + 1) * p] = of_inputs
        self.left.append(line)
        self.right.append(bound)
        self.what.append((corner, *what))

    def solve(self, fixed: bool = False) -> Kept | None:
        """The largest box; where it is fixed the wanted one, and the least part is by how much all slacks have to be less, below 0."""
        plant, n = self.plant, self.plant.n
        for number, signs in enumerate(self.corners):
            spread = numpy.array(signs) * plant.half
            for i in range(n):
                if plant.stands(i):
                    continue
                inside, of_inputs, least = self.stay[i] * (1 + self.slack), plant.b[i], plant.shift[i]
                if not plant.moves(i):
                    inside, of_inputs, least = 0.0, numpy.zeros(len(of_inputs)), plant.shift[i] + plant.moved(i)
                for sign in (1, -1):
                    own = numpy.zeros(n)
                    own[i] = plant.half[i] * (1 - inside)
                    room = -least - sign * (plant.a[i] @ plant.middle - plant.middle[i])
                    self.add(sign * plant.a[i] * spread - own, number, sign * of_inputs, room, ("end", i, sign))
            for r, (row, bound) in enumerate(zip(plant.rows, plant.bounds)):
                of_parts, least = row[:n] * spread, 0.0
                if r in plant.ends:
                    # the end of the last input's box is a tolerance beyond the limit
                    i, middle = plant.ends[r]
                    of_parts[i] -= bound + 1 - middle
                    least = bound + 1 - middle
                self.add(of_parts, number, row[n:], bound - least - self.slack - row[:n] @ plant.middle, ("limit", r, 0))
        return self.found(fixed)

    def found(self, fixed: bool) -> Kept | None:
        plant, n = self.plant, self.plant.n
        shrinks = {i for i, _ in plant.ends.values()}
        free = [i for i in range(n) if plant.half[i] and (i not in plant.last or i in shrinks)]
        left, right, price = numpy.array(self.left), numpy.array(self.right), numpy.zeros(self.width)
        low, high = numpy.full(self.width, -numpy.inf), numpy.full(self.width, numpy.inf)
        low[:n], high[:n] = 0.0, self.caps
        for i in set(range(n)) - set(free):
            low[i] = high[i] = 1.0
        low[n], high[n], price[n] = 0.0, 1.0, -LEAST_COUNTS
        if fixed:
            low[:n] = high[:n] = 1.0
            low[n], high[n] = -numpy.inf, 1.0
            # each end and each limit gives way by as much as all others, in tolerances
            for line, (_, kind, i, _) in zip(left, self.what):
                line[n] = max(self.stay[i], 0.05) * plant.half[i] if kind == "end" else 1.0
        else:
            price[free] = -1 / numpy.maximum(self.caps[free], 1e-9)
            rows = numpy.zeros((len(free), self.width))
            for line, i in zip(rows, free):
                line[i], line[n] = -1.0, 1.0
            left, right = numpy.vstack([left, rows]), numpy.r_[right, numpy.zeros(len(free))]
        got = scipy.optimize.linprog(price, A_ub=left, b_ub=right, bounds=numpy.column_stack([low, high]), method="highs")
        if got.x is None:
            return None
        weights = -got.ineqlin.marginals[: len(self.what)]
        return Kept(got.x[:n], float(got.x[n]), self.blamed(weights))

    def blamed(self, weights: numpy.ndarray) -> Blame | None:
        """The corner that weighs most, with what stops it there, what weighs most first."""
        if weights.max(initial=0.0) <= 0:
            return None
        by_corner = [sum(w for w, (corner, *_) in zip(weights, self.what) if corner == number) for number in range(len(self.corners))]
        worst = max(range(len(by_corner)), key=by_corner.__getitem__)
        order = [k for k in numpy.argsort(-weights) if self.what[k][0] == worst and weights[k] > 0.01 * weights.max()]
        kinds = [self.what[k][1:] for k in order]
        return Blame(self.corners[worst], [i for kind, i, _ in kinds if kind == "limit"], [(i, sign) for kind, i, sign in kinds if kind == "end"])


def largest(plant: Plant, turn: numpy.ndarray, stay: numpy.ndarray, slack: float) -> Kept | None:
    """The largest box in these coordinates, none of them wider than all of the plant's own box needs; None where the coordinates give no state back."""
    if numpy.linalg.cond(turn) > MOST_TURNED:
        return None
    caps = (abs(turn) @ plant.half) / numpy.where(plant.half > 0, plant.half, 1.0)
    return Program(plant.turned(turn), stay, slack, numpy.maximum(caps, 1e-9)).solve()


def short_of(plant: Plant, turn: numpy.ndarray, parts: numpy.ndarray, stay: numpy.ndarray) -> Kept | None:
    """How far the next states of this box stay inside it at most, and what stops them."""
    own = plant.turned(turn)
    own.half = own.half * parts
    return Program(own, stay, 0.0, numpy.ones(plant.n)).solve(fixed=True)


@functools.cache
def points(n: int) -> numpy.ndarray:
    """Points of a box from -1 to 1, by chance, as many of them at its ends as inside."""
    draw = numpy.random.default_rng(1)
    out = draw.uniform(-1, 1, (SAMPLES, n))
    out[: SAMPLES // 4] = numpy.sign(out[: SAMPLES // 4])
    return out


def covered(plant: Plant, turn: numpy.ndarray, parts: numpy.ndarray) -> float:
    """How much of the plant's own box these parts of the turned one hold."""
    inside = abs(points(plant.n) * plant.half @ turn.T) <= plant.half * parts * (1 + 1e-9) + 1e-12
    return float(inside.all(axis=1).mean())
