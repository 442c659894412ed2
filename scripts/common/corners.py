"""What a policy's plans show at the corners of the box, by the corners' class; and what the multiplier bound and the steps come from.

The plans are simulated in exact fractions; or, where a size of these passes the limit, in enclosures over 2^40, which show slacks that are at most the true ones, and
costs that are at least those.
"""
from dataclasses import dataclass
from fractions import Fraction
from math import ceil, floor

from .enclosures import ONE, enclosed, farthest, fine_costs, fine_limits, fine_trajectory
from .machines import machine_of
from .sizes import has_fine_corners
from .trajectories import cost_of, slacks_of


@dataclass
class Corner:
    """What a corner's plan costs, and its slack in each limit row."""

    number: int
    cost: Fraction
    slacks: list

    @property
    def least(self):
        """The least slack and its row, from 1."""
        slack = min(self.slacks)
        return slack, self.slacks.index(slack) + 1


def exact_corner(design, number, record):
    state, plan = design.corner(number), [Fraction(v, record[0]) for v in record[1:]]
    return Corner(number, cost_of(design, state, plan), slacks_of(design, state, plan))


def fine_corner(design, number, record):
    plan = [enclosed(v, record[0]) for v in record[1:]]
    states = fine_trajectory(design, [enclosed(v.numerator, v.denominator) for v in design.corner(number)], plan)
    slacks = [ONE * row[-1] - mid - radius for (row, _), (mid, radius) in zip(design.limits, fine_limits(design, states, plan))]
    cost = sum(row[-1] * farthest(mid - ONE * row[-2], radius) ** 2 for (row, _), (mid, radius) in zip(design.counted, fine_costs(design, states)))
    cost += sum(design.input_weights[j % design.inputs] * design.row_den**2 * farthest(*u) ** 2 for j, u in enumerate(plan))
    return Corner(number, Fraction(cost, design.cost_den * (design.row_den * ONE) ** 2), [Fraction(v, design.limit_den * ONE) for v in slacks])


def corners_of(design, policy):
    """What each corner's plan shows."""
    shown = fine_corner if has_fine_corners(design, policy) else exact_corner
    return [shown(design, number, record) for number, record in enumerate(policy, 1)]


def margin_of(corners):
    """The least slack in units of 2^-16, rounded down, and the greatest cost, rounded up: the report's margin and cost."""
    return floor(2**16 * min(c.least[0] for c in corners)), ceil(max(c.cost for c in corners))


def multiplier_of(margin, cost):
    """R: the cost over the margin, rounded up, and at least 1; None without a margin."""
    return max(1, ceil(Fraction(2**16 * cost, margin))) if margin > 0 else None


def lean_multiplier_of(design, margin, excess):
    """R of a lean controller: the excess over the sum of the margin and the violation target, rounded up, and at least 1; None without a margin."""
    return max(1, ceil(Fraction(excess, margin + 2**16 * design.violation // design.target_den))) if margin > 0 else None


def half_target(design):
    """Half the violation target over 2^40."""
    return 2**39 * design.violation // design.target_den


def step_share(design, lean=False):
    """How much of the violation target steps may take, over 2^40: half; and 15 sixteenths with a lean controller."""
    return 15 * 2**36 * design.violation // design.target_den if lean else half_target(design)


def rounding_share(design, lean=False):
    """And how much rounding may."""
    return 2**36 * design.violation // design.target_den if lean else half_target(design)


def steps_of(design, step, multiplier, lean=False):
    """K: 2^(s+41) R / Tv, rounded up, Tv the steps' share of the violation target over 2^40; in version 3 the least K with K (K + 3) at least four times that."""
    return machine_of(design.version).steps(Fraction(2 ** (step + 41) * multiplier, step_share(design, lean)))


def cost_limit(design, multiplier, lean=False):
    """What the errors of a step may cost at most, over 2^40."""
    return min(2**40 * design.gap // design.target_den, multiplier * rounding_share(design, lean))
