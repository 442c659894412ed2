"""A plan simulated in exact fractions: the plant's states, the cost and the slacks."""
from fractions import Fraction


def dot(left, right):
    return sum(l * r for l, r in zip(left, right))


def trajectory(design, state, plan):
    """The states of the stages 0 to N."""
    states, p = [list(state)], design.inputs
    for k in range(design.stages):
        now = states[-1] + list(plan[k * p : (k + 1) * p])
        states.append([dot(a + b, now) / Fraction(design.plant_den) for a, b in zip(design.a, design.b)])
    return states


def cost_of(design, state, plan):
    """The design's cost of a plan from a state."""
    states, n = trajectory(design, state, plan), design.states
    value = sum(row[n + 1] * ((dot(row[:n], states[k]) - row[n]) / Fraction(design.row_den)) ** 2 for row, k in design.counted)
    value += sum(design.input_weights[j % design.inputs] * Fraction(u) ** 2 for j, u in enumerate(plan))
    return value / design.cost_den


def slacks_of(design, state, plan):
    """The slack in each limit row, in the plan's order; a negative one is a limit that is exceeded."""
    states, p = trajectory(design, state, plan), design.inputs
    return [(row[-1] - dot(row[:-1], states[k] + list(plan[k * p : (k + 1) * p]))) / Fraction(design.limit_den) for row, k in design.limits]


def next_state(design, state, inputs):
    """The nearest grid state to what the plant makes of these, over `2^grid`, ties upward."""
    now, scale = [*state, *inputs], 2**design.grid
    exact = [scale * sum(f * v for f, v in zip([*a, *b], now)) / design.plant_den for a, b in zip(design.a, design.b)]
    return [int((2 * v + 1) // 2) for v in exact]
