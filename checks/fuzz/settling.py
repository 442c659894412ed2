"""An independent model of the settling check: whether a certificate shows that every closed loop from its start box lies in a small box from a turn on.

In the still box no multiplier of the controller moves, so the closed loop is a matrix, but for floors and rounding. Rows of it, which begin with a coordinate, lead back from a turn to
the box that loops begin in; what rounding leaves of a row is paid over the still box. All in exact whole numbers, by the definitions, and with no code of the program's.
"""
from dataclasses import dataclass

from .model import LIMIT, Refused, read_records

# what a row of a coordinate is over
ROW = 2**24
MOST_TURNS = 4096


@dataclass
class Box:
    """The least and the greatest of each coordinate."""

    low: list
    high: list

    def holds(self, other):
        return all(a <= b for a, b in zip(self.low, other.low)) and all(a >= b for a, b in zip(self.high, other.high))

    def greatest(self, row):
        """The greatest of row'x over the box."""
        return sum(max(v * low, v * high) for v, low, high in zip(row, self.low, self.high))

    def reach(self, k):
        """How far coordinate k lies from 0, and at least 1."""
        return max(abs(self.low[k]), abs(self.high[k]), 1)


@dataclass
class Certificate:
    """Where loops start, where no multiplier moves, where loops settle; after how many turns from the start box, and after how many again; how many turns lead from
    where no multiplier moves to the rows of the cost, 0 where these aren't told."""

    turns: int
    back: int
    start: Box
    still: Box
    rest: Box
    after: int = 0


def column(matrix, k):
    return [row[k] for row in matrix]


def pairs(xs, ys):
    return sum(x * y for x, y in zip(xs, ys))


def sizes(xs, ys):
    return sum(abs(x) * abs(y) for x, y in zip(xs, ys))


# ---- texts


def read_certificate(data, outer):
    """The certificate, or the status 5 with the first fault; its still box is a part of an outer one."""
    n = len(outer.low)
    rows = read_records(data, 2 * n + 1)
    if len(rows) != 3:
        raise Refused(5, "count", len(rows))
    start, still, rest = (Box(row[1 : n + 1], row[n + 1 :]) for row in rows)
    turns, after, back = column(rows, 0)
    right = [0 <= turns <= MOST_TURNS and all(low <= high for low, high in zip(start.low, start.high)), 0 <= after <= MOST_TURNS and outer.holds(still), 1 <= back <= MOST_TURNS]
    if not all(right):
        raise Refused(5, "range", right.index(False) + 1)
    return Certificate(turns, back, start, still, rest, after)


def lines_of(s, box, costs):
    """What is promised: from which turn on, and the box, a line a coordinate; and where the rows of the cost lie that are told, a line a row."""
    yield f"turn {s.turns}\n".encode()
    for i, (low, high) in enumerate(zip(box.low, box.high), 1):
        yield f"state {i} {low} {high}\n".encode()
    for k, (low, high) in enumerate(zip(costs.low, costs.high), 1):
        yield f"cost {k} {s.after} {low} {high}\n".encode()


# ---- where no multiplier moves


def limit_of(c):
    return 4**c.f


def still_sum(c, z, i):
    """The most that row i's residual can be over the box at the plan that the multipliers 0 give, over 2^(3 f)."""
    unit, g = 2**c.f, c.g_mat[i]
    of_state = [unit * c.e_mat[i][j] - pairs(g, column(c.p_mat, j)) for j in range(c.n)]
    floors = sum(max(v, 0) - v * t for v, t in zip(g, c.t))
    return 2 ** (c.f - c.g) * z.greatest(of_state) + unit * (floors - unit * c.bound[i])


def still_size(c, z, i):
    unit, g = 2**c.f, c.g_mat[i]
    of_state = sum((unit * abs(c.e_mat[i][j]) + sizes(g, column(c.p_mat, j))) * z.reach(j) for j in range(c.n))
    floors = sum(abs(v) * (abs(t) + 1) for v, t in zip(g, c.t))
    return 2 ** (c.f - c.g) * of_state + unit * (floors + unit * abs(c.bound[i]))


# ---- the closed loop there


class Loop:
    """The closed loop of a design and a controller in a box where no multiplier moves, its states shifted by numbers of another."""

    def __init__(self, d, c, still, shifts):
        self.d, self.c, self.still, self.shifts = d, c, still, shifts
        self.over = d.plant_den * 2**c.f
        gains = c.p_mat[: d.inputs]
        self.matrix = [[2**c.f * d.a[i][k] - pairs(d.b[i], column(gains, k)) for k in range(d.states)] for i in range(d.states)]
        self.matrix_sizes = [[2**c.f * abs(d.a[i][k]) + sizes(d.b[i], column(gains, k)) for k in range(d.states)] for i in range(d.states)]

    def through(self, row):
        return [pairs(row, column(self.matrix, k)) for k in range(self.d.states)]

    def next_row(self, row):
        return [(2 * v + self.over) // (2 * self.over) for v in self.through(row)]

    def rounded(self, row):
        """The absolute sum of a row's numbers whose coordinates are rounded: none whose row of the plant has no input and only multiples of the denominator."""
        return sum(abs(v) for v, a, b in zip(row, self.d.a, self.d.b) if any(b) or any(w % self.d.plant_den for w in a))

    def adds(self, row, after):
        """What a turn adds at most to what a row has of the state, where `after` is taken for the row before the turn."""
        left = [v - self.over * w for v, w in zip(self.through(row), after)]
        of_inputs = [pairs(row, column(self.d.b, l)) for l in range(self.d.inputs)]
        floors = sum(max(v, 0) - v * t for v, t in zip(of_inputs, self.c.t))
        rest = self.still.greatest(left) + 2**self.d.grid * floors
        half = self.over * self.rounded(row)
        return (2 * rest + half) // (2 * self.over) + self.shifts.greatest(row)

    def adds_size(self, row, after):
        n, whole = self.d.states, [max(abs(v), 1) for v in row]
        through = [pairs(whole, column(self.matrix_sizes, k)) for k in range(n)]
        left = sum((t + self.over * max(abs(w), 1)) * self.still.reach(k) for k, (t, w) in enumerate(zip(through, after)))
        floors = sum(sizes(whole, column(self.d.b, l)) * (abs(self.c.t[l]) + 1) for l in range(self.d.inputs))
        shifts = sum(abs(v) * self.shifts.reach(k) for k, v in enumerate(row))
        return 2 * (left + 2**self.d.grid * floors) + self.over * self.rounded(row) + shifts

    def course(self, first, start, turns):
        """What the state has of a first row after each turn at most, over 2^24, and the size of it."""
        row, added, size = first, 0, 0
        for _ in range(turns):
            after = self.next_row(row)
            added, size = added + self.adds(row, after), size + self.adds_size(row, after)
            row = after
            yield (start.greatest(row) + added) // ROW, sum(abs(v) * start.reach(k) for k, v in enumerate(row)) + size

    def costs(self, turns):
        """Where the rows of the cost lie so many turns after states in the still box, if any, and the greatest size of these."""
        rows, ends = [row[: self.d.states] for row in self.d.stage_cost + self.d.final_cost] if turns else [], {}
        for sign in (-1, 1):
            ends[sign] = [list(self.course([sign * ROW * v for v in row], self.still, turns))[-1] for row in rows]
        return Box([-value for value, _ in ends[-1]], [value for value, _ in ends[1]]), max((size for of in ends.values() for _, size in of), default=0)

    def tube(self, start, turns):
        """The boxes that loops from a box lie in after 0, 1 .. turns turns, and the greatest size on the way."""
        n = self.d.states
        ends = [[list(self.course([sign * ROW * (j == i) for j in range(n)], start, turns)) for i in range(n)] for sign in (-1, 1)]
        lows, highs = ([[value for value, _ in side] for side in of] for of in ends)
        boxes = [start] + [Box([-low[t] for low in lows], [high[t] for high in highs]) for t in range(turns)]
        return boxes, max((size for of in ends for side in of for _, size in side), default=0)


def cost_numbers(d, s, state):
    """What the rows of the cost that are told have of a state, as a box of that alone."""
    numbers = [pairs(row[: d.states], state) for row in d.stage_cost + d.final_cost] if s.after else []
    return Box(numbers, numbers)


# ---- the check


def first_beyond(boxes, certificate, turns):
    """The first turn, and at it the first coordinate, of which the upper end or else the lower lies beyond what is asked; None where there is none."""
    for turn, box in enumerate(boxes):
        goal = certificate.still if turn < turns else certificate.rest
        for i in range(len(box.low)):
            if box.high[i] > goal.high[i]:
                return turn, i + 1, box.high[i]
            if box.low[i] < goal.low[i]:
                return turn, i + 1, box.low[i]
    return None


def check(d, c, certificate, shifts):
    """The box that loops lie in from the certificate's turn on, and where the rows of the cost lie that it tells, or Refused."""
    loop = Loop(d, c, certificate.still, shifts)
    there, greatest = loop.tube(certificate.start, certificate.turns)
    again, also = loop.tube(certificate.rest, certificate.back)
    costs, more = loop.costs(certificate.after)
    if max([greatest, also, more, *(still_size(c, certificate.still, i) for i in range(c.m))]) > LIMIT:
        raise Refused(10, "settle")
    for i in range(c.m):
        left, right = still_sum(c, certificate.still, i), limit_of(c)
        if left >= right:
            raise Refused(23, i + 1, left, right)
    for status, boxes, turns in ((24, there, certificate.turns), (25, again, certificate.back)):
        beyond = first_beyond(boxes, certificate, turns)
        if beyond:
            raise Refused(status, *beyond)
    inside = again[: certificate.back]
    rest = Box([min(column([box.low for box in inside], i)) for i in range(d.states)], [max(column([box.high for box in inside], i)) for i in range(d.states)])
    return rest, costs
