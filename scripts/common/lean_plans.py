"""Policies of lean controllers and their reference plans, in floating point: what `lean` makes of them counts.

R of a lean controller is what a corner's plan costs more than is best without limits, over the sum of the least slack and the violation target. So plans that touch their limits
are good, where with the cost over the slack they are none; and references are the plans that are best without limits.
"""
import math

from .libraries import need

need("numpy")
import numpy

from .corners import corners_of, lean_multiplier_of, margin_of
from .excess import excesses_of
from .programs import Programs
from .sizes import form_of

GOLDEN = (5**0.5 - 1) / 2
SECTIONS = 14
# by how much R may grow where plans are rounded
LOSS = 1.04
# no slack is less than what is accepted, and none more than so many targets
LEAST, MOST_TARGETS = 2**-15, 4096
# how many slacks are tried for plans that are to be rounded, and how often the greatest of them is halved
TRIED, HALVED = 8, 6
LONGEST = 30


def whole(bound: float) -> int:
    """R as it counts."""
    return max(1, math.ceil(bound - 1e-9))


class LeanPlans:
    """The plans of a design's corners, by their slack."""

    def __init__(self, programs: Programs) -> None:
        self.programs, self.design = programs, programs.design
        self.target = self.design.violation / self.design.target_den
        self.states = [[float(v) for v in self.design.corner(c)] for c in range(1, 2**self.design.states + 1)]
        self.free = numpy.array([programs.unlimited(x) for x in self.states])
        self.room = numpy.array([programs.room(x) for x in self.states])
        self.found: dict[float, numpy.ndarray | None] = {}
        # the greatest slack that is searched
        self.top = 0.0

    def plans(self, slack: float) -> numpy.ndarray | None:
        """The corners' plans of least cost with this slack, or None where a corner has none."""
        if slack not in self.found:
            self.found[slack] = self.sought(slack)
        return self.found[slack]

    def sought(self, slack: float) -> numpy.ndarray | None:
        plans = []
        for state, free, room in zip(self.states, self.free, self.room):
            keeps = (room - self.programs.rows @ free).min() >= slack
            plan = free if keeps else self.programs.best(state, slack)
            if plan is None:
                return None
            plans.append(plan)
        return numpy.array(plans)

    def slack(self, plans: numpy.ndarray) -> float:
        return float((self.room - plans @ self.programs.rows.T).min())

    def excesses(self, plans: numpy.ndarray) -> numpy.ndarray:
        """What each corner's plan costs more than is best without limits."""
        steps = plans - self.free
        return numpy.einsum("ci,ij,cj->c", steps, self.programs.hess, steps) / 2

    def bound(self, plans: numpy.ndarray | None) -> float:
        """R of these plans, not rounded."""
        if plans is None or self.slack(plans) < LEAST:
            return math.inf
        return float(self.excesses(plans).max()) / (self.slack(plans) + self.target)

    def best_slack(self, most: float) -> float:
        """The slack of least R: what a plan costs is convex in the slack, so that R falls and then rises."""
        self.top = max(2 * LEAST, min(0.985 * most, MOST_TARGETS * self.target))
        low, high = math.log(LEAST), math.log(self.top)
        of = lambda power: self.bound(self.plans(math.exp(power)))
        inner, outer = high - GOLDEN * (high - low), low + GOLDEN * (high - low)
        left, right = of(inner), of(outer)
        for _ in range(SECTIONS):
            if left <= right:
                high, outer, right = outer, inner, left
                inner = high - GOLDEN * (high - low)
                left = of(inner)
            else:
                low, inner, left = inner, outer, right
                outer = low + GOLDEN * (high - low)
                right = of(outer)
        return min((slack for slack, plans in self.found.items() if plans is not None), key=lambda slack: self.bound(self.found[slack]))

    def rounded(self, plans: numpy.ndarray, denominator: int) -> list[list[int]]:
        return [[denominator] + [int(v) for v in numpy.rint(plan * denominator)] for plan in plans]

    def roomy_slacks(self, slack: float, allowed: float) -> list[float]:
        """From this slack up to the greatest that R allows: the more there is, the shorter are the numbers that keep some."""
        is_within = lambda tried: self.plans(tried) is not None and whole(self.bound(self.plans(tried))) <= allowed
        low, high = slack, min([other for other in self.found if other > slack and not is_within(other)] + [max(slack, self.top)])
        for _ in range(HALVED):
            middle = math.sqrt(low * high)
            low, high = (middle, high) if is_within(middle) else (low, middle)
        return [slack * (low / slack) ** (place / (TRIED - 1)) for place in range(TRIED)]

    def policy(self, slack: float, denominator: int | None = None, alone: bool = False) -> list[list[int]]:
        """The policy with the shortest denominator that costs at most 4 % of R, or nothing of it as it counts; with this slack alone, or more."""
        best = self.bound(self.plans(slack))
        allowed = max(whole(best), math.floor(LOSS * best)) if math.isfinite(best) else math.inf
        tried = [plans for part in ([slack] if alone else self.roomy_slacks(slack, allowed)) if (plans := self.plans(part)) is not None]
        for den in [denominator] if denominator else [2**k for k in range(LONGEST + 1)]:
            bound, place = min((self.bound(numpy.rint(plans * den) / den), place) for place, plans in enumerate(tried))
            if math.isfinite(bound) and whole(bound) <= allowed:
                break
        return self.rounded(tried[place], den)

    def references(self, policy: list[list[int]]) -> list[list[int]]:
        """For each corner the plan that is best without limits, over the shortest denominator that leaves R as it counts."""
        form = form_of(self.design)
        fine = self.rounded(self.free, 2**LONGEST)
        margin, _ = margin_of(corners_of(self.design, policy))
        wanted = lean_multiplier_of(self.design, margin, max(0, *excesses_of(self.design, form, policy, fine)[0]))
        if wanted is None:
            return fine
        most = wanted * (margin / 2**16 + self.target) * (1 - 2**-20) - 2**-12
        plans = numpy.array([[u / record[0] for u in record[1:]] for record in policy])
        found = [self.reference(*corner, most) for corner in zip(self.free, self.excesses(plans))]
        made = lean_multiplier_of(self.design, margin, max(0, *excesses_of(self.design, form, policy, found)[0]))
        return found if made == wanted else fine

    def reference(self, free: numpy.ndarray, excess: float, most: float) -> list[int]:
        """One corner's, with an excess of at most this, or nearly the least."""
        least = min(self.design.input_weights) / self.design.cost_den
        for k in range(LONGEST + 1):
            reference = numpy.rint(free * 2**k) / 2**k
            step = reference - free
            # what the reference is above the best, and what its gradient says of that
            shown = excess - step @ self.programs.hess @ step / 2 + (self.programs.hess @ step) @ (self.programs.hess @ step) / (4 * least)
            if shown <= max(most, excess + 2**-12):
                break
        return [2**k, *(int(v) for v in numpy.rint(free * 2**k))]
