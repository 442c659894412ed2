"""Where closed loops lie turn by turn while no multiplier of their controller moves, in whole numbers, as `settle` tests it. Nothing of the tool rests on it.

There the closed loop is a matrix, but for floors and rounding. A row for each end of each coordinate, over 2^24, is led back turn by turn to the box that loops begin in; the rows are those
of the plant and the controller alone, and what a turn adds to them depends on the box in which no multiplier moves, and on the disturbances.
"""
from __future__ import annotations

from collections.abc import Iterator, Sequence
from dataclasses import dataclass
from fractions import Fraction
from math import ceil, floor

from .design_text import Design
from .sizes import LIMIT
from .texts import Controller

ROW = 2**24


@dataclass(frozen=True)
class Box:
    """The least and the greatest of each coordinate, over `2^grid`."""

    low: tuple[int, ...]
    high: tuple[int, ...]

    def holds(self, other: Box) -> bool:
        return self.beyond(other) is None

    def beyond(self, other: Box) -> tuple[int, int] | None:
        """The first coordinate, from 0, in which another box goes further, and its end: the upper one, or else the lower."""
        for i, (low, high) in enumerate(zip(other.low, other.high)):
            if high > self.high[i]:
                return i, high
            if low < self.low[i]:
                return i, low
        return None

    def most(self, row: Sequence[int]) -> int:
        """The greatest of row'x over the box."""
        return sum(v * (high if v > 0 else low) for v, low, high in zip(row, self.low, self.high))

    def far(self) -> list[int]:
        """How far each coordinate lies from 0, and at least 1."""
        return [max(abs(low), abs(high), 1) for low, high in zip(self.low, self.high)]

    def about(self, centre: Sequence[int], part: Fraction) -> Box:
        """So much of the box about a state in it, its ends rounded inward."""
        low = tuple(ceil(c + part * (v - c)) for v, c in zip(self.low, centre))
        return Box(low, tuple(floor(c + part * (v - c)) for v, c in zip(self.high, centre)))


def hull(boxes: Sequence[Box]) -> Box:
    """The least box that holds these."""
    return Box(tuple(map(min, zip(*(box.low for box in boxes)))), tuple(map(max, zip(*(box.high for box in boxes)))))


# ---- where no multiplier moves


class Stillness:
    """The rows of a controller at the plan that the multipliers 0 give: a multiplier stays where the row's number is below `limit`."""

    def __init__(self, c: Controller) -> None:
        unit = 2**c.bits
        self.limit, self.state_unit = unit * unit, 2 ** (c.bits - c.grid)
        columns = list(zip(*c.P))
        self.of_state = [[unit * e - sum(g * p for g, p in zip(row, column)) for e, column in zip(of, columns)] for row, of in zip(c.G, c.E)]
        self.rest = [unit * (sum(max(g, 0) - g * t for g, t in zip(row, c.T)) - unit * bound) for row, bound in zip(c.G, c.b)]
        self.state_sizes = [[unit * abs(e) + sum(abs(g * p) for g, p in zip(row, column)) for e, column in zip(of, columns)] for row, of in zip(c.G, c.E)]
        self.rest_sizes = [unit * (sum(abs(g) * (abs(t) + 1) for g, t in zip(row, c.T)) + unit * abs(bound)) for row, bound in zip(c.G, c.b)]

    def number(self, box: Box, i: int) -> int:
        """The most that row i, from 0, can come to over the box."""
        return self.state_unit * box.most(self.of_state[i]) + self.rest[i]

    def moves(self, box: Box) -> int | None:
        """The first row whose multiplier may move, from 0."""
        return next((i for i in range(len(self.rest)) if self.number(box, i) >= self.limit), None)

    def size(self, box: Box) -> int:
        far = box.far()
        return max(self.state_unit * sum(s * v for s, v in zip(of, far)) + rest for of, rest in zip(self.state_sizes, self.rest_sizes))


# ---- turns


@dataclass
class Turn:
    """What a turn does to a row: the row before it, what that leaves, twice what floors and rounding add whatever the box is, and what disturbances add; and their sizes."""

    row: list[int]
    left: list[int]
    fixed: int
    shift: int
    left_sizes: list[int]
    fixed_size: int


class Loop:
    """The closed loop of a design and a controller where no multiplier moves, each next state shifted by numbers between two lists."""

    def __init__(self, design: Design, controller: Controller, low: Sequence[int], high: Sequence[int]) -> None:
        unit, self.design, self.offsets = 2**controller.bits, design, controller.T[: design.inputs]
        self.over, self.shifts = design.plant_den * unit, Box(tuple(low), tuple(high))
        gains, states = controller.P[: design.inputs], range(design.states)
        self.matrix = [[unit * a[k] - sum(b * gain[k] for b, gain in zip(of, gains)) for k in states] for a, of in zip(design.a, design.b)]
        self.sizes = [[unit * abs(a[k]) + sum(abs(b * gain[k]) for b, gain in zip(of, gains)) for k in states] for a, of in zip(design.a, design.b)]
        self.ends = [Row(self, i, sign) for i in states for sign in (-1, 1)]

    def held(self) -> list[int]:
        """The states that no turn changes, from 0."""
        states = range(self.design.states)
        return [i for i in states if self.matrix[i] == [self.over * (i == k) for k in states] and not any(self.design.b[i])]

    def rest(self, held: dict[int, int]) -> list[int] | None:
        """The grid state beside which the loop stays where it is, with these numbers of held states; None where there is none, or more than one."""
        states = range(self.design.states)
        system = [[Fraction(self.over * (i == k) - (0 if i in held else self.matrix[i][k])) for k in states] for i in states]
        right = [Fraction(-(2**self.design.grid) * sum(b * t for b, t in zip(of, self.offsets))) for of in self.design.b]
        for i, value in held.items():
            right[i] = Fraction(self.over * value)
        found = solved(system, right)
        return None if found is None else [floor(v + Fraction(1, 2)) for v in found]


def solved(system: list[list[Fraction]], right: list[Fraction]) -> list[Fraction] | None:
    """The solution of a square system, None where there isn't exactly one."""
    lines = [row + [value] for row, value in zip(system, right)]
    for k in range(len(lines)):
        pivot = next((i for i in range(k, len(lines)) if lines[i][k]), None)
        if pivot is None:
            return None
        lines[k], lines[pivot] = lines[pivot], lines[k]
        lines[k] = [v / lines[k][k] for v in lines[k]]
        lines = [line if i == k else [v - line[k] * w for v, w in zip(line, lines[k])] for i, line in enumerate(lines)]
    return [line[-1] for line in lines]


class Row:
    """The row of an end of a coordinate, led back turn by turn; sign is 1 for the upper end and -1 for the lower."""

    def __init__(self, loop: Loop, coordinate: int, sign: int) -> None:
        self.loop, self.sign, self.turns = loop, sign, list[Turn]()
        self.now = [sign * ROW if j == coordinate else 0 for j in range(loop.design.states)]

    def turn(self, k: int) -> Turn:
        """Turn k from 0."""
        while len(self.turns) <= k:
            self.turns.append(self.led_back())
        return self.turns[k]

    def led_back(self) -> Turn:
        loop, design, row = self.loop, self.loop.design, self.now
        through = [sum(v * m for v, m in zip(row, column)) for column in zip(*loop.matrix)]
        before = [(2 * v + loop.over) // (2 * loop.over) for v in through]
        of_inputs = [sum(v * b for v, b in zip(row, column)) for column in zip(*design.b)]
        floors = sum(max(v, 0) - v * t for v, t in zip(of_inputs, loop.offsets))
        # a number that is whole after each turn isn't rounded, as a held one
        rounded = loop.over * sum(abs(v) for v, a, b in zip(row, design.a, design.b) if any(b) or any(w % design.plant_den for w in a))
        full = [abs(v) or 1 for v in row]
        through_sizes = [sum(v * m for v, m in zip(full, column)) for column in zip(*loop.sizes)]
        input_size = sum(sum(v * abs(b) for v, b in zip(full, column)) * (abs(t) + 1) for column, t in zip(zip(*design.b), loop.offsets))
        self.now = before
        return Turn(
            before,
            [v - loop.over * w for v, w in zip(through, before)],
            2 ** (design.grid + 1) * floors + rounded,
            loop.shifts.most(row),
            [size + loop.over * (abs(w) or 1) for size, w in zip(through_sizes, before)],
            2 ** (design.grid + 1) * input_size + rounded + sum(abs(v) * far for v, far in zip(row, loop.shifts.far())),
        )


class Tubes:
    """Where loops lie turn by turn that stay in a box in which no multiplier moves."""

    def __init__(self, loop: Loop, still: Box) -> None:
        self.loop, self.still, self.far = loop, still, still.far()
        # of each row what the turns have added together, and how large that is
        self.sums = [[(0, 0)] for _ in loop.ends]

    def added(self, k: int, turns: int) -> tuple[int, int]:
        """What so many turns have added to the row of end k, and its size."""
        sums, over = self.sums[k], 2 * self.loop.over
        while len(sums) <= turns:
            turn = self.loop.ends[k].turn(len(sums) - 1)
            more = (2 * self.still.most(turn.left) + turn.fixed) // over + turn.shift
            size = 2 * sum(s * far for s, far in zip(turn.left_sizes, self.far)) + turn.fixed_size
            sums.append((sums[-1][0] + more, sums[-1][1] + size))
        return sums[turns]

    def box(self, start: Box, turns: int) -> Box:
        """Where loops from a box lie after so many turns."""
        if not turns:
            return start
        ends = [(start.most(row.turn(turns - 1).row) + self.added(k, turns)[0]) // ROW for k, row in enumerate(self.loop.ends)]
        return Box(tuple(-v for v in ends[::2]), tuple(ends[1::2]))

    def boxes(self, start: Box) -> Iterator[Box]:
        """Turn by turn, without end."""
        turns = 0
        while True:
            yield self.box(start, turns)
            turns += 1

    def size(self, start: Box, turns: int) -> int:
        """What numbers come to at most on the way."""
        far = start.far()
        return max(
            (sum(abs(v) * f for v, f in zip(row.turn(t - 1).row, far)) + self.added(k, t)[1] for k, row in enumerate(self.loop.ends) for t in range(1, turns + 1)),
            default=0,
        )


# ---- certificates


@dataclass(frozen=True)
class Certificate:
    """Where loops start, where no multiplier moves, where loops settle; after how many turns from the start box, and after how many again; how many turns lead from the
    still box to the rows of the cost, 0 where these aren't told."""

    turns: int
    back: int
    start: Box
    still: Box
    rest: Box
    after: int = 0

    def records(self) -> list[list[int]]:
        """Its numbers, a line for each box: the turns from it, and its ends."""
        return [[turns, *box.low, *box.high] for turns, box in ((self.turns, self.start), (self.after, self.still), (self.back, self.rest))]


def settled_box(tubes: Tubes, s: Certificate) -> Box:
    """Where loops lie from the certificate's turn on."""
    return hull([tubes.box(s.rest, turn) for turn in range(s.back)])


def cost_box(loop: Loop, still: Box, turns: int) -> tuple[Box, int]:
    """Where the rows of the cost lie so many turns after states in the still box, none for 0 turns; and what numbers come to at most on the way."""
    ends: dict[int, list[int]] = {1: [], -1: []}
    design, sizes, far = loop.design, [0], still.far()
    for numbers in design.stage_cost + design.final_cost if turns else []:
        for sign, found in ends.items():
            row, added, size = Row(loop, 0, sign), 0, 0
            row.now = [sign * ROW * v for v in numbers[: design.states]]
            for k in range(turns):
                turn = row.turn(k)
                added += (2 * still.most(turn.left) + turn.fixed) // (2 * loop.over) + turn.shift
                size += 2 * sum(s * f for s, f in zip(turn.left_sizes, far)) + turn.fixed_size
            found.append(sign * ((still.most(row.now) + added) // ROW))
            sizes.append(size + sum(abs(v) * f for v, f in zip(row.now, far)))
    return Box(tuple(ends[-1]), tuple(ends[1])), max(sizes)


def first_fault(loop: Loop, rows: Stillness, s: Certificate) -> tuple | None:
    """What `settle` answers to a certificate: None where it shows what it says, ("too-wide",), ("moves", row, left, right), ("unsettled", turn, coordinate, bound) or
    ("no-return", turn, coordinate, bound)."""
    tubes = Tubes(loop, s.still)
    ways = ("unsettled", s.start, s.turns), ("no-return", s.rest, s.back)
    if max(rows.size(s.still), cost_box(loop, s.still, s.after)[1], *(tubes.size(start, turns) for _, start, turns in ways)) > LIMIT:
        return ("too-wide",)
    row = rows.moves(s.still)
    if row is not None:
        return "moves", row + 1, rows.number(s.still, row), rows.limit
    for word, start, turns in ways:
        for turn in range(turns + 1):
            beyond = (s.still if turn < turns else s.rest).beyond(tubes.box(start, turn))
            if beyond:
                return word, turn, beyond[0] + 1, beyond[1]
    return None
