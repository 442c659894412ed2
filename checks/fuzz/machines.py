"""An independent model of the machines that controllers run on, and of what rests on which one it is: that of versions 1 and 2, and the accelerated one of version 3.

The accelerated one moves multipliers by weights, sums them by their weights in whole numbers, and makes each plan at the mean of what was summed and what was moved. An error of
a residual counts once then, and one of the gradient some times; the greatest multiplier is twice the clamp. All in exact whole numbers, and with no code of the program's.
"""
from math import isqrt

from .forms import ceil_div


class Plain:
    """The sums of the plans are over the steps."""

    # the most steps, and the lists of numbers of the rows that the words hold
    most_steps, lists = 2**22, 1

    @staticmethod
    def total(steps):
        """What the sums of the plans are over, beside 2^bits."""
        return steps

    @staticmethod
    def pace(steps):
        """What stands for the steps in bounds: these, and how much greater all step exponents are."""
        return steps, 0

    @staticmethod
    def least_steps(times):
        """The fewest whose pace is at least this."""
        return times

    @staticmethod
    def carry(_):
        """How often an error of the gradient counts at most."""
        return 1

    @staticmethod
    def mean_errors(form, *_):
        """By how much the rounding of means moves each entry of the gradient, over 2^bits."""
        return [0] * len(form.q)

    @staticmethod
    def multiplier_sums(clamp, _, residuals):
        """What multipliers come to at most before they are clamped, by what residuals do."""
        return [clamp + v for v in residuals]

    @staticmethod
    def turn_entries(plan):
        """By what each entry of a plan counts in the size of a turn, by how far they lie from 0 at most."""
        return plan

    @staticmethod
    def run(c, plan_at, residuals_at):
        """The sums of all plans: `plan_at` is of multipliers, and `residuals_at` of a plan, rounded down."""
        tops, multipliers, sums = [c.clamp >> c.s - exponent for exponent in c.exps], [0] * c.m, [0] * c.nu
        for _ in range(c.steps):
            plan = plan_at(multipliers)
            multipliers = [min(top, max(0, old + v)) for top, old, v in zip(tops, multipliers, residuals_at(plan))]
            sums = [old + new for old, new in zip(sums, plan)]
        return sums

    @staticmethod
    def traced(c, plan_at, residuals_at, meet):
        """The same, where each value is met."""
        tops = [meet(meet(c.clamp) // 2 ** (c.s - exponent)) for exponent in c.exps]
        multipliers, sums = [0] * c.m, [0] * c.nu
        for _ in range(c.steps):
            plan = plan_at(multipliers)
            multipliers = [meet(min(top, max(0, meet(old + v)))) for top, old, v in zip(tops, multipliers, residuals_at(plan))]
            sums = [meet(old + v) for old, v in zip(sums, plan)]
        return sums


class Accelerated:
    """Step k, from 0, has the weight k + 2. Multipliers and their sums are over 2^(bits + exponent + 1), means over 2^(bits + exponent)."""

    # so that means are divided by less than 2^32; of the rows the words hold multipliers, sums and means
    most_steps, lists = 65534, 3

    @staticmethod
    def total(steps):
        return steps * (steps + 3) // 2

    @staticmethod
    def mean_divisor(k):
        """Twice the weights of step k and those before it."""
        return (k + 1) * (k + 4)

    @staticmethod
    def pace(steps):
        return steps * (steps + 3), 2

    @staticmethod
    def least_steps(times):
        # (2 k + 3)^2 is at least 4 times + 9
        return max(1, (isqrt(4 * times + 8) - 3) // 2 + 1)

    @staticmethod
    def carry(steps):
        return ceil_div((steps + 1) * (steps + 5), 3 * (steps + 3))

    @staticmethod
    def mean_errors(form, s, exponents):
        missed = lambda column: sum(2 ** (s - exponent) * v.far for exponent, v in zip(exponents, column, strict=True))
        return [ceil_div(missed(column), 2**s * form.row_den) for column in zip(*form.g)]

    @staticmethod
    def multiplier_sums(clamp, steps, residuals):
        """And what their sums by their weights do."""
        return [2 * clamp + (steps + 1) * v for v in residuals] + [2 * clamp * Accelerated.total(steps)]

    @staticmethod
    def turn_entries(plan):
        return [max(plan)] * len(plan)

    @staticmethod
    def run(c, plan_at, residuals_at):
        return Accelerated.traced(c, plan_at, residuals_at, lambda v: v)

    @staticmethod
    def traced(c, plan_at, residuals_at, meet):
        return Accelerated.after(c, plan_at, residuals_at, meet, lambda *_: None)

    @staticmethod
    def after(c, plan_at, residuals_at, meet, told):
        """The same, which tells of each step its means and plan, and the multipliers and their sums after it."""
        tops = [meet(meet(2 * meet(c.clamp)) // 2 ** (c.s - exponent)) for exponent in c.exps]
        multipliers, reached, sums = [0] * c.m, [0] * c.m, [0] * c.nu
        for k in range(c.steps):
            weight, over = k + 2, Accelerated.mean_divisor(k)
            means = [meet(meet(old + meet(weight * v)) // over) for old, v in zip(reached, multipliers)]
            plan = plan_at(means)
            moved = [meet(old + meet(weight * v)) for old, v in zip(multipliers, residuals_at(plan))]
            multipliers = [meet(min(top, max(0, v))) for top, v in zip(tops, moved)]
            reached = [meet(old + meet(weight * v)) for old, v in zip(reached, multipliers)]
            sums = [meet(old + meet(weight * v)) for old, v in zip(sums, plan)]
            told(means, plan, multipliers, reached)
        return sums


MACHINES = {1: Plain, 2: Plain, 3: Accelerated}
VERSIONS = tuple(MACHINES)
# those of which listings are made
LISTED = (1, 2)
