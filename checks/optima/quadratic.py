"""The exact optimum of a quadratic program over fractions: the least of 1/2 u'Hu + g'u where Gu <= b, by an active set of multipliers, with its proof.

The answer is known to be the optimum by what it is, however it was found: its multipliers are at least 0, no row is exceeded, and none but a binding row has one.
"""
from fractions import Fraction
from operator import mul


def dot(xs, ys):
    return sum(map(mul, xs, ys))


def solved(matrix, columns):
    """The solutions of a regular system with these right sides; None where it is singular."""
    size = len(matrix)
    rows = [list(map(Fraction, row)) + [Fraction(column[i]) for column in columns] for i, row in enumerate(matrix)]
    for j in range(size):
        pivot = next((i for i in range(j, size) if rows[i][j]), None)
        if pivot is None:
            return None
        rows[j], rows[pivot] = rows[pivot], rows[j]
        rows[j] = [v / rows[j][j] for v in rows[j]]
        for i in range(size):
            if i != j and rows[i][j]:
                factor = rows[i][j]
                rows[i] = [a - factor * b for a, b in zip(rows[i], rows[j])]
    return [[rows[i][size + number] for i in range(size)] for number in range(len(columns))]


class Program:
    """The matrices H and G, both of fractions; H is positive definite."""

    def __init__(self, hess, rows):
        self.hess, self.rows = hess, rows
        # H^-1 G' by columns, and G H^-1 G'
        self.columns = solved(hess, rows)
        self.gram = [[dot(row, column) for column in self.columns] for row in rows]

    def unlimited(self, pull):
        (plan,) = solved(self.hess, [[-v for v in pull]])
        return plan

    def best(self, pull, bounds):
        """The optimal plan and whether a row binds; None where no plan keeps every row."""
        free = self.unlimited(pull)
        weights = self.multipliers([dot(row, free) - bound for row, bound in zip(self.rows, bounds)])
        if weights is None:
            return None
        plan = [v - sum(w * column[j] for w, column in zip(weights, self.columns) if w) for j, v in enumerate(free)]
        self.prove(plan, weights, pull, bounds)
        return plan, any(weights)

    def multipliers(self, excess):
        """Multipliers at which no row is exceeded and each row with one binds, where these are exceeded by so much without any."""
        weights, active = [Fraction(0)] * len(excess), []
        left = lambda i: excess[i] - sum(w * v for w, v in zip(weights, self.gram[i]) if w)
        while True:
            over, row = max((left(i), -i) for i in range(len(excess)))
            if over <= 0:
                return weights
            row = -row
            while over > 0:
                over, active = self.raised(weights, active, row, over)
                if active is None:
                    return None

    def raised(self, weights, active, row, over):
        """Raises the multiplier of an exceeded row until it binds, or until another one's falls to 0: what is left, and the rows that bind then."""
        falls = []
        if active:
            (falls,) = solved([[self.gram[i][j] for j in active] for i in active], [[self.gram[i][row] for i in active]])
        slope = self.gram[row][row] - dot(falls, [self.gram[row][j] for j in active])
        stops = [(weights[i] / fall, place) for place, (i, fall) in enumerate(zip(active, falls)) if fall > 0]
        whole = over / slope if slope > 0 else None
        first = min(stops, default=None)
        if whole is None and first is None:
            return over, None
        step = whole if first is None or whole is not None and whole <= first[0] else first[0]
        for i, fall in zip(active, falls):
            weights[i] -= step * fall
        weights[row] += step
        if step == whole:
            return Fraction(0), [*active, row]
        return over - step * slope, [i for place, i in enumerate(active) if place != first[1]]

    def prove(self, plan, weights, pull, bounds):
        """Raises where this is no optimum."""
        pulls = [dot(row, plan) + g + sum(w * limits[j] for w, limits in zip(weights, self.rows) if w) for j, (row, g) in enumerate(zip(self.hess, pull))]
        left = [bound - dot(row, plan) for row, bound in zip(self.rows, bounds)]
        if any(pulls) or min(left) < 0 or min(weights) < 0 or any(w and v for w, v in zip(weights, left)):
            raise ArithmeticError("the plan that was found is not optimal")
