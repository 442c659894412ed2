"""Designs, controllers, certificates and disturbances for run.py: most of them are accepted, or would be but for a number; and such whose numbers are large."""
from itertools import product

from . import cases, control, model, settling
from .stay_cases import records_text

MOST = 2**31 - 1


def plant_of(pick, n, p):
    """A plant over a denominator, and gains with which its loop mostly shrinks, over 1."""
    den = pick.choice([1, 4, 10, 64, 1000, 2**20])
    if n == 2 and p == 1 and pick.random() < 0.4:
        time, fast = pick.choice([0.5, 1.0, 2.0]), pick.choice([0.2, 0.4, 0.6])
        a, b, gains = [[1, time], [0, 1]], [[time * time / 2], [time]], [[fast / time**2, 1.5 * fast**0.5 / time]]
    else:
        growth, pull = pick.choice([0.3, 0.6, 0.9, 1.05]), pick.choice([0.2, 0.5, 1.0])
        a = [[pick.uniform(-growth, growth) / n for _ in range(n)] for _ in range(n)]
        b = [[pick.uniform(-pull, pull) for _ in range(p)] for _ in range(n)]
        a = [[v + (growth - abs(v)) * (i == j) * pick.choice([0, 1]) for j, v in enumerate(row)] for i, row in enumerate(a)]
        gains = [[pick.choice([0, 0.3, 0.6]) * sum(b[i][l] * a[i][j] for i in range(n)) / max(0.1, sum(b[i][l] ** 2 for i in range(n))) / p for j in range(n)] for l in range(p)]
    whole = lambda table: [[max(-MOST, min(MOST, round(den * v))) for v in row] for row in table]
    return den, whole(a), whole(b), gains


def design_text_of(pick, n, p, stages, g, plant, lo, hi):
    den, a, b, _ = plant
    return cases.design_text({"version": pick.choice([1, 2]), "n": n, "p": p, "stages": stages, "den": den, "a": a, "b": b, "cost_den": 1, "row_den": 1, "input": [1] * p, "cost": [], "final_cost": [],
                              "limit_den": 1, "rows": [[0] * (n + p) + [1]], "final_rows": [], "grid": g, "lo": lo, "hi": hi, "target_den": 1, "violation": 1, "gap": 1})


def controller_beside(pick, n, p, stages, g, gains, still, box):
    """A controller whose first gains are these, and whose rows move no multiplier in a box, or only just."""
    f, version, m, nu = min(48, g + pick.choice([4, 8, 12, 12, 20, 48])), pick.choice([1, 2]), pick.choice([1, 2, 3, 5]), p * stages
    unit = 2**f
    some = lambda count, most: [pick.randrange(-int(most * unit) - 1, int(most * unit) + 2) for _ in range(count)]
    p_mat = [[round(unit * v) for v in row] for row in gains] + [some(n, 0.5) for _ in range(nu - p)]
    offset, s = pick.choice([0, 0, 0.1, 2]), pick.choice([0, 0, 1, 3])
    c = control.Controller(n, p, stages, m, f, g, s, 128, pick.choice([1, 2, 5, 9]), pick.choice([0, 1, unit, unit << 4]), list(box.low), list(box.high), p_mat, some(nu, offset), [some(m, 1) for _ in range(nu)],
                           [some(nu, 1) for _ in range(m)], [some(n, pick.choice([0, 1])) for _ in range(m)], [0] * m, version, [pick.randrange(s + 1) for _ in range(m)] if version == 2 else None)
    for i in range(m):
        # the least bound that passes, or one less
        c.bound[i] = (settling.still_sum(c, still, i) - settling.limit_of(c)) // settling.limit_of(c) + 1 - pick.choice([0] * 30 + [1])
    c.w = control.least_width(c)
    return c


def box_about(pick, n, side):
    ends = [sorted((-pick.randrange(side + 1), pick.choice([side, pick.randrange(side + 1)]))) for _ in range(n)]
    return settling.Box([low for low, _ in ends], [high for _, high in ends])


def part_of(pick, box, part, slack=0):
    """So much of a box about 0, each end a little further out or in."""
    other = lambda v: round(v * part) + pick.randrange(-slack, slack + 1)
    low, high = list(map(other, box.low)), list(map(other, box.high))
    return settling.Box(list(map(min, low, high)), list(map(max, low, high)))


def within(box, other):
    """The part of a box that lies in another one."""
    return settling.Box([min(max(v, low), high) for v, low, high in zip(box.low, other.low, other.high)], [max(min(v, high), low) for v, low, high in zip(box.high, other.low, other.high)])


def certificate_of(pick, loop, start, still):
    """A certificate whose box of rest is where loops lie after some turns, or nearly, and where they are again."""
    turns = pick.choice([1, 1, 2, 3, 5, 8, 20])
    rest = within(loop.tube(start, turns)[0][-1], still)
    if pick.random() < 0.4:
        # wide enough to come back to
        wide = pick.choice([1, 2, 3, 5])
        rest = within(settling.Box([v - wide for v in rest.low], [v + wide for v in rest.high]), still)
    return settling.Certificate(turns, pick.choice([1, 1, 1, 2, 3]), start, still, rest, pick.choice([0, 0, 1, 2, 5]))


def shaken(pick, s):
    """With a box that ends a step elsewhere, or another number of turns, now and then."""
    how = pick.random()
    if how < 0.06:
        s.turns = pick.choice([0, 1, s.turns + 1, max(0, s.turns - 1)])
    elif how < 0.12:
        s.back = pick.choice([1, 2, s.back + 1])
    elif how < 0.2:
        box = pick.choice([s.start, s.still, s.rest])
        i, by = pick.randrange(len(box.low)), pick.choice([1, 1, 7])
        if pick.random() < 0.5:
            box.low[i] = min(box.high[i], box.low[i] + pick.choice([-by, by]))
        else:
            box.high[i] = max(box.low[i], box.high[i] + pick.choice([-by, by]))
    return s


def settle_case(pick):
    """A design and a controller as texts, a certificate, and the least and the greatest disturbances; None where the controller's sums pass the limit."""
    n, p, stages, g = pick.choice([1, 1, 2, 2, 3]), pick.choice([1, 1, 2]), pick.choice([1, 1, 2]), pick.choice([0, 2, 4, 8])
    side = pick.choice([3, 20, 200, 2000, 2**20, MOST])
    box, plant = box_about(pick, n, side), plant_of(pick, n, p)
    still = within(part_of(pick, box, pick.choice([0.5, 0.9, 1])), box)
    design = design_text_of(pick, n, p, stages, g, plant, box.low, box.high)
    c = controller_beside(pick, n, p, stages, g, plant[3], still, box)
    if c.w is None:
        return None
    d, most = model.read_design(design), pick.choice([0, 0, 1, max(1, side // 50)])
    shifts = settling.Box([-pick.randrange(most + 1) for _ in range(n)], [pick.randrange(most + 1) for _ in range(n)])
    start = within(part_of(pick, still, pick.choice([0.1, 0.3, 0.6, 1]), pick.choice([0, 1])), still)
    s = shaken(pick, certificate_of(pick, settling.Loop(d, c, still, shifts), start, still))
    return design, control.text_of(c), s, shifts


def certificate_text(s):
    return records_text([[turns, *box.low, *box.high] for turns, box in ((s.turns, s.start), (s.after, s.still), (s.back, s.rest))])


def settle_texts(pick):
    """A design, a controller, a certificate, and disturbances or None, as texts; now and then one of them changed."""
    made = None
    while made is None:
        made = settle_case(pick)
    design, text, s, shifts = made
    texts = [design, text, certificate_text(s), records_text([shifts.low, shifts.high]) if any(shifts.low + shifts.high) or pick.random() < 0.2 else None]
    if pick.random() < 0.2:
        at = pick.choice([0, 1, 2, 2, 2, 3])
        texts[at] = texts[at] and cases.changed(pick, texts[at])
    return texts


def starts(pick, box):
    """Corners of a start box, and states in it."""
    if not all(low <= high for low, high in zip(box.low, box.high)):
        return []
    corners = list(product(*zip(box.low, box.high)))
    inside = [tuple(pick.randrange(low, high + 1) for low, high in zip(box.low, box.high)) for _ in range(2)]
    return pick.sample(corners, min(4, len(corners))) + inside
