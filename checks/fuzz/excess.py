"""The excess of a policy over reference plans: by how much the plans of its corners cost more, at most, than what is best without limits.

What is best is below a reference plan by no more than its gradient says, since the cost bends up by the input weights at least. All in enclosures over 2^40 and whole
numbers, with no code of the program's; `fault` holds it against the simulated plant.
"""
from fractions import Fraction

from . import at_corners, forms
from .forms import FINE, Enclosure, ceil_div, combined, divided, eliminated, product


class Numbers:
    """Sums and products of enclosures, and the greatest number that one of them is refused by."""

    def __init__(self):
        self.greatest = 0

    def meet(self, size):
        self.greatest = max(self.greatest, size)

    def brought(self, x, den):
        """A number of a form, over its denominator."""
        y = divided(FINE * x.mid, FINE * x.rad, den)
        self.meet(y.far)
        return y

    def combine(self, factors, xs, den):
        self.meet(sum(abs(factor) * x.far for factor, x in zip(factors, xs, strict=True)))
        return combined(factors, xs, den)

    def add(self, x, y):
        self.meet(x.far + y.far)
        return Enclosure(x.mid + y.mid, x.rad + y.rad)

    def multiply(self, x, y):
        self.meet(x.far * y.far)
        return product([1], [x], [y], FINE)


class Slopes:
    """The gradient of a design's cost, in enclosures."""

    def __init__(self, d, form):
        self.d, self.numbers = d, Numbers()
        bring = lambda x: self.numbers.brought(x, form.hess_den)
        self.hess = [[bring(forms.multiple(2, x)) for x in row] for row in form.q]
        self.lin, self.off = [[bring(x) for x in row] for row in form.f], [bring(x) for x in form.h0]

    def at(self, state, plan):
        """At a state of the grid and a plan with its denominator."""
        (q, numerators), of = plan, self.numbers
        by_plan = [of.combine(numerators, row, q) for row in self.hess]
        by_state = [of.combine(state, row, 2**self.d.grid) for row in self.lin]
        return [of.add(of.add(u, x), h) for u, x, h in zip(by_plan, by_state, self.off)]

    def excess(self, state, plan, reference):
        """What the plan costs more than any other from there, at most, over 2^16: what it costs more than the reference, and what this costs more than any."""
        of, enclosed = self.numbers, lambda v, den: divided(FINE * v, 0, den)
        here, there = self.at(state, plan), self.at(state, reference)
        steps = [of.add(enclosed(u, plan[0]), enclosed(-w, reference[0])) for u, w in zip(plan[1], reference[1], strict=True)]
        rises = [of.multiply(of.add(u, w), step) for u, w, step in zip(here, there, steps)]
        of.meet(sum(x.far for x in rises))
        pull = self.d.cost_den * sum(ceil_div(x.far, 2**16) ** 2 for x in there)
        of.meet(pull)
        found = ceil_div(sum(x.mid + x.rad for x in rises), 2**25) + ceil_div(pull, 2**34 * min(self.d.input_weights))
        of.meet(abs(found))
        return found


def excess(d, form, plans, references):
    """The greatest excess of all corners, which is at least 0, over 2^16; and the quantity `excess`."""
    slopes = Slopes(d, form)
    found = [slopes.excess(*corner) for corner in zip(at_corners.states(d), plans, references, strict=True)]
    return max(0, *found), slopes.numbers.greatest


# ---- beside the simulated plant


def unlimited(exact, state):
    """The plan of least cost where there are no limits, in exact fractions, from an exact form."""
    rows = [[Fraction(2 * v.mid) for v in row] + [Fraction(-forms.dot([v.mid for v in of_state], state) - h.mid)] for row, of_state, h in zip(exact.q, exact.f, exact.h0)]
    return [row[-1] for row in eliminated(rows)]


def fault(d, plans, references):
    """What is wrong with the excess, or None: no corner's plan costs more than it above the best plan without limits."""
    exact = forms.exact_form(d)
    most, _ = excess(d, exact if forms.is_within_limit(d, exact) else forms.fine_form(d), plans, references)
    for number, (state, (q, numerators)) in enumerate(zip(at_corners.states(d), plans, strict=True), 1):
        x = [Fraction(v, 2**d.grid) for v in state]
        more = d.cost(x, [Fraction(v, q) for v in numerators]) - d.cost(x, unlimited(exact, x))
        if 2**16 * more > most:
            return f"the plan of corner {number} costs {float(more)} more than the best, and the excess is {float(Fraction(most, 2**16))}"
    return None
