"""What a run of the straight C of a controller costs on a Cortex-M4, as the program's `c` writes it: cycles, flash and RAM.

Counted is what gcc 12 -O2 leaves of its statements. It knows the intervals of all numbers from the box and the clamps: a row that can't bind by these is gone with its products, and where there is one step all are.
The shares of what is counted were fitted to what `bench/target/costs.py` measured of controllers of many sizes (cycles by the processor's table without wait states), which says how near they come.
"""
from __future__ import annotations

from collections import Counter

from .machines import Accelerated
from .strict_texts import absolute_sums, ceil_div
from .texts import Controller

# the widest that `c` writes whose sums are made at once, and the widest whose sums are made in two parts, cut at this bit, of factors below this
MOST_WIDTH, MOST_PARTED_WIDTH, PART, MOST_FACTOR = 64, 79, 16, 2**37
# multipliers below these have their means by a reciprocal, in one round and in two
ONCE, TWICE = 2**30, 2**56
# numbers that one instruction has, numbers of the loop that the registers hold, and the most digits of a factor that are shifted
SHORT, HELD, SHIFTED = range(-256, 65536), 10, 5
# cycles, bytes of code and bytes of stack of each
START = {
    "average": (0.0, 192.9, 0.0),
    "average by a shift": (0.0, 15.8, 0.0),
    "coefficient in parts": (18.8, 28.7, 1.3),
    "coordinate": (2.3, 34.0, 0.8),
    "entry": (12.9, 0.0, 0.0),
    "entry's coefficient": (4.5, 10.7, 0.0),
    "row's coefficient": (5.2, 15.8, 1.9),
}
STEP = {
    "accelerated mean by a division": (119.0, 55.5, 4.3),
    "accelerated mean by a reciprocal": (30.0, 79.3, 6.6),
    "accelerated mean by a reciprocal, in two rounds": (61.5, 158.4, 6.8),
    "accelerated reach of 64 bits": (20.3, 45.8, 5.9),
    "accelerated reciprocal": (122.8, 18.0, 26.7),
    "digit of 64 bits in parts": (6.4, 17.9, 1.1),
    "entry": (0.7, 5.1, 12.6),
    "entry in parts": (18.3, 42.7, 22.2),
    "entry's digit of 64 bits": (6.5, 17.4, 0.6),
    "entry's product": (4.9, 13.7, 0.1),
    "entry's product of 64 bits": (14.3, 39.7, 3.5),
    "entry's product, long factor": (6.2, 19.5, 0.1),
    "entry's sum": (4.4, 13.7, 0.1),
    "entry's sum of 64 bits": (5.4, 26.0, 3.5),
    "number beyond the registers": (1.2, 3.8, 0.3),
    "pair": (9.5, 10.0, 0.0),
    "pair in parts": (8.4, 102.5, 0.0),
    "pair of 64 bits": (21.8, 34.9, 3.7),
    "product in parts": (4.5, 14.9, 0.0),
    "product of 64 bits in parts": (13.0, 38.2, 1.5),
    "product, long factor in parts": (4.5, 14.9, 0.0),
    "residual of 64 bits": (4.5, 7.8, 1.6),
    "residual of 64 bits, shifted": (5.9, 21.6, 2.4),
    "row": (0.0, 0.0, 6.4),
    "row in parts": (40.8, 44.2, 27.6),
    "row of 64 bits": (9.3, 15.6, 8.5),
    "row's digit of 64 bits": (4.3, 14.5, 0.0),
    "row's product": (3.2, 12.4, 0.8),
    "row's product of 64 bits": (12.3, 34.5, 3.0),
    "row's product, long factor": (4.9, 13.1, 0.2),
    "row's sum": (4.4, 30.3, 1.0),
    "row's sum of 64 bits": (5.4, 26.0, 4.0),
    "sum in parts": (4.4, 13.7, 0.1),
    "sum of 64 bits in parts": (5.4, 26.0, 3.5),
    "sum of a run of 64 bits": (3.3, 22.7, 4.8),
}

Interval = tuple[int, int]


def times(factor: int, of: Interval) -> Interval:
    ends = factor * of[0], factor * of[1]
    return min(ends), max(ends)


def total(some: list[Interval]) -> Interval:
    return sum(low for low, _ in some), sum(high for _, high in some)


def is_long(most: int) -> bool:
    """Whether a number of at most this size takes 64 bits."""
    return most >= 2**31


class Rows:
    """The rows of a controller that its C has: their greatest multipliers, which are pairs, the power of two that a row's factors share, and which of them can bind."""

    def __init__(self, c: Controller):
        self.c = c
        self.lowered = [c.step - exponent for exponent in c.exps]
        self.tops = [c.clamp >> k for k in self.lowered]
        self.gains = [[v << k for v, k in zip(row, self.lowered)] for row in c.W]
        self.partners = [next((k for k in range(c.rows) if self.are_opposite(k, i)), c.rows) for i in range(c.rows)]
        self.shared = [max(k for k in range(c.bits + 1) if all(v % (1 << k) == 0 for v in row)) for row in c.G]
        self.written = [i for i in range(c.rows) if self.tops[i] and any(row[i] for row in c.W)]
        self.left = self.binding()
        self.pair()

    def pair(self) -> None:
        """Both of a pair are left, or neither counts as one."""
        self.firsts = [i for i in self.left if i < self.partners[i] and self.partners[i] in self.left]
        self.seconds = [self.partners[i] for i in self.firsts]

    def are_opposite(self, k: int, i: int) -> bool:
        c = self.c
        return c.exps[k] == c.exps[i] and all(a + b == 0 for a, b in zip(c.G[k], c.G[i])) and all(row[k] + row[i] == 0 for row in c.W)

    def binding(self) -> list[int]:
        """The rows whose multipliers leave 0 from some state, by intervals; none where no multiplier meets a plan."""
        c = self.c
        if c.steps == 1:
            return []
        box = [(low << c.bits - c.grid, high << c.bits - c.grid) for low, high in zip(c.lo, c.hi)]
        of_state = lambda offset, factors: total([(offset, offset), *(times(v, of) for v, of in zip(factors, box))])
        bases = [of_state(t << c.bits + c.step, [v << c.step for v in row]) for row, t in zip(c.P, c.T)]
        greatest = {i: of_state(-c.b[i] << c.bits, c.E[i])[1] >> self.shared[i] for i in self.written}
        left: set[int] = set()
        while True:
            moved = [total([base, *(times(row[i], (0, self.tops[i])) for i in left)]) for base, row in zip(bases, self.gains)]
            plan = [(-(high >> c.bits + c.step), -(low >> c.bits + c.step)) for low, high in moved]
            residual = lambda i: greatest[i] + total([times(v >> self.shared[i], of) for v, of in zip(c.G[i], plan)])[1]
            found = {i for i in self.written if residual(i) >> c.bits - self.shared[i] > 0}
            if found <= left:
                return sorted(left)
            left |= found


def has_parts(c: Controller) -> bool:
    """Whether each part of each sum of a controller fits 64 bits, as each variable does."""
    reach, _, _, _, moved, sums = absolute_sums(c)
    factors = [abs(v) << c.step - exponent for row in c.W for v, exponent in zip(row, c.exps)] + [abs(v) for row in c.G for v in row]
    return c.width <= MOST_PARTED_WIDTH and c.bits >= PART and max(reach + factors) < MOST_FACTOR and max(moved + sums) < 2**63


def is_written(c: Controller) -> bool:
    """Whether `c` writes a controller."""
    return c.width <= MOST_WIDTH or has_parts(c)


def digits(factor: int) -> int:
    """How many powers of two a factor is the fewest sum or difference of."""
    triple = 3 * abs(factor)
    return ((triple ^ abs(factor)) >> 1).bit_count()


def product(factor: int, is_wide: bool) -> list[str]:
    """What a product of a factor with a variable of 64 bits or of 32 takes. Of 64 bits gcc makes one of few digits by shifts and sums, though that takes longer."""
    if abs(factor) == 1:
        return ["sum of 64 bits" if is_wide else "sum"]
    if is_wide or is_long(abs(factor)):
        return ["digit of 64 bits"] * digits(factor) if digits(factor) <= SHIFTED else ["product of 64 bits"]
    return ["product" if factor in SHORT else "product, long factor"]


class StraightCosts:
    """Cycles of a run, bytes of flash and of RAM, the stack's among them."""

    # whether gcc has a factor's high part in 64 bits: it has, where it knows that it fits 32, as it knows of all that is clamped
    has_long_parts = True

    def __init__(self, c: Controller):
        self.c, self.rows = c, Rows(c)
        self.reach, _, self.plan, _, self.moved, self.sums = absolute_sums(c)
        self.start, self.step = self.counted_start(), self.counted_step()

    def of_state(self, factors: list[int]) -> int:
        return sum(v * most != 0 for v, most in zip(factors, self.reach))

    def counted_start(self) -> Counter[str]:
        c = self.c
        count = Counter({"entry": c.entries, "coordinate": c.states, "average by a shift" if c.steps & (c.steps - 1) == 0 else "average": c.inputs})
        of_entries, of_rows = sum(map(self.of_state, c.P)), sum(self.of_state(c.E[i]) for i in self.rows.left)
        if c.width > MOST_WIDTH:
            count["coefficient in parts"] = of_entries + of_rows
        else:
            count["entry's coefficient"], count["row's coefficient"] = of_entries, of_rows
        return count

    def counted_parts(self) -> Counter[str]:
        """Of a step whose sums are made in two parts."""
        c, rows = self.c, self.rows
        count = Counter({"entry in parts": c.entries, "row in parts": len(rows.left), "pair in parts": len(rows.firsts)})
        own = [i for i in rows.left if i not in rows.seconds]
        factors = [row[i] for row in rows.gains for i in own if row[i]] + [v for i in own for v, most in zip(c.G[i], self.plan) if v * most]
        for is_wide in (False, self.has_long_parts):
            count.update(what + " in parts" for v in factors for what in product(v, is_wide))
        count["sum of a run of 64 bits"] = sum(map(is_long, self.sums))
        return count

    def counted_step(self) -> Counter[str]:
        c, rows, count = self.c, self.rows, Counter({"entry": self.c.entries})
        if c.width > MOST_WIDTH:
            return self.counted_parts()
        for row in rows.gains:
            count.update("entry's " + what for i in rows.left if row[i] and i not in rows.seconds for what in product(row[i], is_long(rows.tops[i])))
        for i in rows.left:
            if i not in rows.seconds:
                factors = [(v >> rows.shared[i], most) for v, most in zip(c.G[i], self.plan) if v * most]
                count.update("row's " + what for factor, most in factors for what in product(factor, is_long(most)))
            long = " of 64 bits"
            count["row" + long * is_long(self.moved[i])] += 1
            count["residual of 64 bits" + ", shifted" * (rows.shared[i] < c.bits)] += is_long(self.moved[i] << c.bits - rows.shared[i])
        count.update("pair" + " of 64 bits" * is_long(rows.tops[i]) for i in rows.firsts)
        count["sum of a run of 64 bits"] = sum(map(is_long, self.sums))
        own = sum(self.of_state(c.E[i]) > 0 for i in rows.left)
        held = 2 * (c.entries + own) + sum(1 + is_long(most) for most in [*(rows.tops[i] for i in rows.left), *self.sums])
        count["number beyond the registers"] = max(0, held - HELD)
        return count

    def share(self, which: int) -> float:
        """Of a start and a step."""
        return sum(START[what][which] * n for what, n in self.start.items()) + sum(STEP[what][which] * n for what, n in self.step.items())

    @property
    def cycles(self) -> int:
        of_step = sum(STEP[what][0] * n for what, n in self.step.items())
        return round(self.share(0) + (self.c.steps - 1) * of_step)

    @property
    def flash(self) -> int:
        return round(self.share(1))

    @property
    def ram(self) -> int:
        return 8 * (self.c.entries + ceil_div(round(self.share(2)), 8))


class AcceleratedCosts(StraightCosts):
    """The same of a controller of version 3: gcc leaves out no row, since it doesn't follow a mean."""

    has_long_parts = False

    def __init__(self, c: Controller):
        self.c, self.rows = c, Rows(c)
        self.rows.left = self.rows.written
        self.rows.pair()
        self.reach, _, self.plan, _, self.moved, self.sums = absolute_sums(c)
        self.start, self.step = self.counted_start(), self.counted_step()

    def mean(self, i: int) -> str:
        """How the mean of row i is made."""
        own = 2 * self.c.clamp >> self.rows.lowered[i]
        if is_long(2 * Accelerated.total(self.c.steps + 1)) or own >= TWICE:
            return "mean by a division"
        return "mean by a reciprocal" + ", in two rounds" * (own >= ONCE)

    def counted_step(self) -> Counter[str]:
        c, left, count = self.c, self.rows.left, super().counted_step()
        means = Counter(map(self.mean, left))
        means["reach of 64 bits"] = len(left) * is_long(2 * c.clamp * Accelerated.total(c.steps))
        means["reciprocal"] = int(any("reciprocal" in what for what in means))
        return count + Counter({f"accelerated {what}": n for what, n in means.items()})
