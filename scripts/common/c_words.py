"""Which words a controller's run takes in C, and what is left out of it: from the controller's numbers alone.

What the C does otherwise than the written machine (docs/METHOD.md) is exact in whole numbers:

  1. the state's and the offset's part of a sum is made once a run, since it is the same in each step;
  2. a factor that can only be multiplied by 0 is left out, and a row whose multiplier reaches no plan entry too;
  3. the 2^(s-s_i) of a row with a smaller step exponent is multiplied into its gains;
  4. two rows of opposite coefficients share their products: W l - W l' = W (l - l'), and the sum of one is the other's negative but for the state's part;
  5. where a factor needs more than 32 bits it is cut in two parts of 32 at one bit, and the sums of each part stand in words of 64 bits.

So every product and every partial sum, in any order, is at most the absolute sums that are computed here anew, of what is added up and in the form in which it is.
"""
from dataclasses import dataclass

from .strict_texts import absolute_sums, ceil_div

TOP31, TOP63 = 2**31 - 1, 2**63 - 1
NARROW, LONG, PARTS, WIDE = "narrow", "long", "parts", "wide"


@dataclass
class Sums:
    """How the sums of products of one kind are made: by which tier, in how many parts the coefficients and the variables are cut, and at which bit."""

    tier: str
    coefficient_parts: int = 1
    variable_parts: int = 1
    cut: int = 0
    greatest: int = 0

    def words(self):
        """The tier in words."""
        if self.tier == PARTS:
            return f"{self.coefficient_parts} x {self.variable_parts} parts of 32 bits, cut at bit {self.cut}, into words of 64"
        return {NARROW: "32 x 32 bits into 64", LONG: "64 x 64 bits into 64", WIDE: "two words of 64 bits"}[self.tier]


def parts_fit(rows, reach, bases, shift, sums):
    """Whether sums `base + sum of a coefficient times a variable`, floored by 2^shift, fit words of 64 bits in these parts, whatever the variables up to `reach`."""
    cut = sums.cut
    if shift < cut:
        return False
    if sums.variable_parts == 2:
        # the low part of a small negative number is as large as any
        low, high = [2**cut - 1 if v else 0 for v in reach], [(v >> cut) + 1 for v in reach]
    else:
        low, high = reach, [0] * len(reach)
    if max(low + high, default=0) > TOP31:
        return False
    size = lambda row, most: sum(a * v for a, v in zip(row, most))
    for row, base in zip(rows, bases):
        if sums.coefficient_parts == 2:
            row_low, row_high = [a & (2**cut - 1) for a in row], [abs(a >> cut) for a in row]
        else:
            row_low, row_high = [abs(a) for a in row], [0] * len(row)
        lowest = size(row_low, low) + 2**cut
        middle = size(row_low, high) + size(row_high, low) + (base >> cut) + 1
        highest = size(row_high, high)
        carried = middle + (lowest >> cut) + 1
        over = highest + (carried >> cut) + 1
        if sums.coefficient_parts + sums.variable_parts == 4 and shift < 2 * cut:
            over = max(over, (carried >> (shift - cut)) + 1 + (highest << (2 * cut - shift)))
        if max(row_low + row_high, default=0) > TOP31 or max(lowest, middle, carried, over) > TOP63:
            return False
    return True


def chosen(rows, reach, bases, shift):
    """The narrowest tier for these sums: rows of coefficients, the greatest absolute value of each variable, that of each row's base, and the shift of the floor."""
    greatest = max((base + sum(abs(a) * v for a, v in zip(row, reach)) for row, base in zip(rows, bases)), default=0)
    coefficient, variable = max((abs(a) for row in rows for a in row), default=0), max(reach, default=0)
    if greatest <= TOP63 and coefficient <= TOP31 and variable <= TOP31:
        return Sums(NARROW, greatest=greatest)
    for parts in ((1, 2), (2, 1), (2, 2)):
        if (parts[0] == 1 and coefficient > TOP31) or (parts[1] == 1 and variable > TOP31):
            continue
        for cut in range(31, 7, -1):
            found = Sums(PARTS, *parts, cut, greatest)
            if parts_fit(rows, reach, bases, shift, found):
                return found
    return Sums(LONG if greatest <= TOP63 else WIDE, greatest=greatest)


class Form:
    """What is computed, with the rows in the order of the C: pairs of opposite rows first, the first of each, and then the rows that stand alone.

    The rows whose products are made are `rows`; `seconds` are the others of the pairs, in the same order; `left_out` counts rows that reach no plan entry.
    """

    def __init__(self, controller):
        c = self.controller = controller
        self.reach = absolute_sums(c)[0]
        self.tops = [c.clamp >> (c.step - exponent) for exponent in c.exps]
        written_plan = absolute_sums(c)[2]
        self.state_gains = [[v if x else 0 for v, x in zip(row, self.reach)] for row in c.P]
        self.state_rows = [[v if x else 0 for v, x in zip(row, self.reach)] for row in c.E]
        gains = [[(v << (c.step - c.exps[i])) if self.tops[i] else 0 for i, v in enumerate(row)] for row in c.W]
        plan_rows = [[v if u else 0 for v, u in zip(row, written_plan)] for row in c.G]
        live = [i for i in range(c.rows) if any(row[i] for row in gains)]
        self.left_out = c.rows - len(live)
        columns = {i: tuple(row[i] for row in gains) for i in live}
        pairs = self.paired(live, plan_rows, columns)
        paired = {i for pair in pairs for i in pair}
        self.rows = [first for first, _ in pairs] + [i for i in live if i not in paired]
        self.seconds = [second for _, second in pairs]
        self.gains = [[row[i] for i in self.rows] for row in gains]
        self.plan_rows = [plan_rows[i] for i in self.rows]
        self.bound()

    def paired(self, live, plan_rows, columns):
        """The pairs of rows with opposite coefficients and one clamp, the earlier row first."""
        pairs, waiting = [], {}
        for i in live:
            key = (tuple(plan_rows[i]), columns[i], self.tops[i])
            opposite = (tuple(-v for v in key[0]), tuple(-v for v in key[1]), key[2])
            if waiting.get(opposite):
                pairs.append((waiting[opposite].pop(), i))
            else:
                waiting.setdefault(key, []).append(i)
        return pairs

    def bound(self):
        """The absolute sums of what is added up here, and the words that hold them."""
        c = self.controller
        size = lambda row, most: sum(abs(v) * x for v, x in zip(row, most))
        entry_bases = [(size(self.state_gains[j], self.reach) + (abs(c.T[j]) << c.bits)) << c.step for j in range(c.entries)]
        row_bases = [size(self.state_rows[i], self.reach) + (abs(c.b[i]) << c.bits) for i in range(c.rows)]
        multipliers = [self.tops[i] for i in self.rows]
        self.entry_sums = chosen(self.gains, multipliers, entry_bases, c.bits + c.step)
        self.plan = [ceil_div(base + size(row, multipliers), 1 << (c.bits + c.step)) for base, row in zip(entry_bases, self.gains)]
        bases = [max(row_bases[i], row_bases[self.seconds[q]]) if q < len(self.seconds) else row_bases[i] for q, i in enumerate(self.rows)]
        self.row_sums = chosen(self.plan_rows, self.plan, bases, c.bits) if self.rows else Sums(NARROW)
        self.moved = max((self.tops[i] + ceil_div(base + size(row, self.plan), 1 << c.bits) for i, base, row in zip(self.rows, bases, self.plan_rows)), default=0)
        self.sum = c.steps * max(self.plan)
        self.top = max((self.tops[i] for i in self.rows), default=0)
        self.wide_entry_bases, self.wide_row_bases = max(entry_bases) > TOP63, max(bases, default=0) > TOP63
        # where a value that changes needs more than 63 bits, every value is two words
        self.is_wide = max(self.moved, self.sum, self.top, *self.plan, *self.reach) > TOP63
        if self.is_wide:
            self.entry_sums = Sums(WIDE, greatest=self.entry_sums.greatest)
            self.row_sums = Sums(WIDE, greatest=self.row_sums.greatest)

    @property
    def greatest(self):
        """The greatest absolute sum of all."""
        return max(self.entry_sums.greatest, self.row_sums.greatest, self.moved, self.sum, *self.reach)

    def spans(self):
        """The first and one behind the last entry that counts for each row."""
        spans = []
        for row in self.plan_rows:
            entries = [j for j, v in enumerate(row) if v]
            spans.append((entries[0], entries[-1] + 1) if entries else (0, 0))
        # where no row counts any, each has a product with 0, since no table is empty
        return spans if any(last for _, last in spans) else [(0, 1)] * len(spans)

    def products(self):
        """The products of 32 bits (of two words where that is the tier) that a step makes of multipliers and of plan entries."""
        parts = lambda sums: sums.coefficient_parts * sums.variable_parts
        return len(self.gains) * len(self.rows) * parts(self.entry_sums), sum(last - first for first, last in self.spans()) * parts(self.row_sums)
