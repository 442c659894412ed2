"""What rests on the machine that a controller runs on: the plain one of versions 1 and 2, or the accelerated one of version 3 (docs/METHOD.md).

An accelerated run of K steps is off by what a plain one of K (K + 3) / 4 would be; its plans count by weights, 2 at the first step and one more at each.
"""
from fractions import Fraction
from math import ceil, isqrt, sqrt


class Plain:
    """Each plan counts once."""

    # the most steps; of the rows the words hold the multipliers
    most_steps, lists = 4194304, 1
    # how much greater the power of two is that the multiplier bound may not bring beyond the sizes
    more = 0

    @staticmethod
    def steps(times: Fraction) -> int:
        """K: the fewest steps, where a plain run would need so many before they are a whole number."""
        return ceil(times)

    @staticmethod
    def about(times: float) -> float:
        """About K, by so many steps of a plain run."""
        return times

    @staticmethod
    def total(steps: int) -> int:
        """What the weights of all plans come to."""
        return steps

    @staticmethod
    def carry(_: int) -> int:
        """How often an error of the gradient counts."""
        return 1

    @staticmethod
    def means(form, _) -> list[int]:
        """By how much the rounding of means moves each entry of the gradient, over 2^f."""
        return [0] * len(form.hess)

    @staticmethod
    def multiplier_sums(clamp: int, _: int, residuals: list[int]) -> list[int]:
        """What multipliers come to before they are clamped, where residuals over 2^f come to so much."""
        return [clamp + v for v in residuals]


class Accelerated:
    """Each plan counts by its step's weight, and is made at the mean of the multipliers so far."""

    # so that means are divided by less than 2^32; of the rows the words hold multipliers, their sums and means
    most_steps, lists, more = 65534, 3, 2

    @staticmethod
    def steps(times: Fraction) -> int:
        # (2 K + 3)^2 is at least 4 least + 9
        least = ceil(4 * times)
        return max(1, (isqrt(4 * least + 8) - 3) // 2 + 1)

    @staticmethod
    def about(times: float) -> float:
        return max(1.0, sqrt(4 * times + 2.25) - 1.5)

    @staticmethod
    def total(steps: int) -> int:
        return steps * (steps + 3) // 2

    @staticmethod
    def carry(steps: int) -> int:
        return ceil(Fraction((steps + 1) * (steps + 5), 3 * (steps + 3)))

    @staticmethod
    def means(form, exponents: list[int]) -> list[int]:
        missed = lambda *column: sum(Fraction(abs(v) + radius, 2**exponent) for (v, radius), exponent in zip(column, exponents))
        columns = [list(zip(row, radii)) for row, radii in zip(form.rows, form.row_radii)]
        return [ceil(missed(*column) / form.row_den) for column in zip(*columns)]

    @staticmethod
    def multiplier_sums(clamp: int, steps: int, residuals: list[int]) -> list[int]:
        """And what their sums by weights do."""
        return [2 * clamp + (steps + 1) * v for v in residuals] + [2 * clamp * Accelerated.total(steps)]


def machine_of(version: int) -> type[Plain] | type[Accelerated]:
    return Accelerated if version == 3 else Plain


def is_accelerated(version: int) -> bool:
    return machine_of(version) is Accelerated


def accelerated_steps(plain: int) -> int:
    """The most steps that version 3 takes where version 2 takes so many: the fewest with K (K + 3) at least four times as much."""
    return Accelerated.steps(Fraction(plain))


def plain_steps(accelerated: int) -> int:
    """The most steps that version 2 takes where version 3 takes so many."""
    return ceil(Fraction(accelerated * (accelerated + 3), 4))
