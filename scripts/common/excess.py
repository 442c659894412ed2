"""The excess of a policy over reference plans, in whole numbers as the program makes it: by how much more a corner's plan costs, at most, than what is best without limits.

What a plan costs more than a reference is half the sum of both gradients along the step between them; what a reference costs more than any plan, its gradient says. All in
enclosures over 2^40 of the condensed form's numbers.
"""
from .enclosures import ONE, combined, farthest, product


def divided(mid, radius, den):
    return (2 * mid + den) // (2 * den), -(-radius // den) + (mid % den != 0)


def added(*enclosures):
    return sum(mid for mid, _ in enclosures), sum(radius for _, radius in enclosures)


def over(value, den):
    return -(-value // den)


class Slopes:
    """The gradient of a design's cost, made of a condensed form; and the greatest number that is met on the way."""

    def __init__(self, design, form):
        self.design, self.greatest = design, 0
        brought = lambda values, radii: [self.met(divided(ONE * v, ONE * r, form.hess_den)) for v, r in zip(values, radii)]
        self.hess, self.lin = list(map(brought, form.hess, form.hess_radii)), list(map(brought, form.lin, form.lin_radii))
        self.off = brought(form.off, form.off_radii)

    def met(self, enclosure):
        self.meet(farthest(*enclosure))
        return enclosure

    def meet(self, size):
        self.greatest = max(self.greatest, size)

    def sum_of(self, factors, enclosures, den):
        self.meet(sum(abs(f) * farthest(*e) for f, e in zip(factors, enclosures)))
        return combined(factors, enclosures, den)

    def total(self, left, right):
        return self.met(added((abs(left[0]), left[1]), (abs(right[0]), right[1]))) and added(left, right)

    def gradient(self, state, record):
        """At a state of the grid, under a record's plan."""
        of_plan = [self.sum_of(record[1:], row, record[0]) for row in self.hess]
        of_state = [self.sum_of(state, row, 2**self.design.grid) for row in self.lin]
        return [self.total(self.total(u, x), h) for u, x, h in zip(of_plan, of_state, self.off)]

    def at(self, state, record, reference):
        """The excess of one corner, over 2^16."""
        here, there, rises = self.gradient(state, record), self.gradient(state, reference), []
        for u, w, one, other in zip(record[1:], reference[1:], here, there):
            step = self.total(divided(ONE * u, 0, record[0]), divided(-ONE * w, 0, reference[0]))
            slope = self.total(one, other)
            self.meet(farthest(*slope) * farthest(*step))
            rises.append(divided(*product(slope, step), ONE))
        pull = self.design.cost_den * sum(over(farthest(*g), 2**16) ** 2 for g in there)
        found = over(sum(map(sum, rises)), 2**25) + over(pull, 2**34 * min(self.design.input_weights))
        for size in (sum(farthest(*rise) for rise in rises), pull, abs(found)):
            self.meet(size)
        return found


def excesses_of(design, form, policy, reference):
    """The excess of each corner, and the size `excess`."""
    slopes = Slopes(design, form)
    whole = lambda number: [int(v * 2**design.grid) for v in design.corner(number)]
    found = [slopes.at(whole(number), *records) for number, records in enumerate(zip(policy, reference), 1)]
    return found, slopes.greatest
