"""Designs with faces and disturbances for run.py: most of them are accepted, or would be but for a number; and designs whose faces are large."""
from itertools import product
from math import gcd

from ..rows import stay_rows
from . import cases, held_boxes, model
from .machines import VERSIONS

MOST = 2**31 - 1


def records_text(rows):
    return "".join(",".join(map(str, row)) + "\n" for row in rows).encode()


def held_design(pick):
    """A plant that doesn't grow, in a box about 0, with limits on its inputs and mostly on its states, a little wider than the box: what coasts is strictly within."""
    version, n, p, stages = pick.choice(VERSIONS), pick.choice([1, 1, 2, 2, 3]), pick.choice([1, 1, 2]), pick.choice([1, 1, 2, 2, 3])
    den, limit_den, grid = pick.choice([1, 4, 10, 1000, 2**20]), pick.choice([4, 100, 1024, 2**20]), pick.choice([0, 0, 0, 1, 2, 4])
    if den == 2**20 and stages > 1:
        limit_den = pick.choice([4, 100, 1024])
    growth, pull = pick.choice([0.3, 0.5, 0.8, 1]), pick.choice([0.1, 0.5, 1])
    some = lambda count, most: [pick.randrange(-int(most), int(most) + 1) for _ in range(count)]
    side = pick.choice([1, 2, 3, 5, 16])
    # a row's bound beyond the end of the box, in grid units, and how much it may be exceeded
    beyond = pick.choice([0.2, 0.25, 0.4])
    allowed = pick.choice([0.5, 0.9]) * (0.5 - beyond) / 2**grid
    unit = lambda at, v: [v if i == at else 0 for i in range(n)]
    bound = lambda at: int(limit_den * (side + beyond) / 2**grid)
    inputs = [[*[0] * n, *[sign * limit_den if k == l else 0 for k in range(p)], limit_den * pick.choice([1, 1, 2])] for l in range(p) for sign in (1, -1)]
    if version > 1 and pick.random() < 0.6:
        # a steep row, which leaves the others smaller exponents
        inputs.insert(pick.randrange(len(inputs) + 1), [*[0] * n, limit_den * pick.choice([3, 8, 16, -8]), *[0] * (p - 1), 40 * limit_den])
    on_states = [[*unit(i, sign * limit_den), bound(i)] for i in range(n) for sign in (1, -1) if pick.random() < 0.9]
    v = {"version": version, "n": n, "p": p, "stages": stages, "den": den, "a": [some(n, growth * den / n) for _ in range(n)], "b": [some(p, pull * den) for _ in range(n)],
         "cost_den": pick.choice([1, 1, 4]), "row_den": 1, "input": [pick.choice([4, 16, 64]) for _ in range(p)], "limit_den": limit_den, "grid": grid, "lo": [-side] * n, "hi": [side] * n,
         "cost": [[*unit(i, 1), 0, pick.choice([0, 1, 1])] for i in range(n)], "final_cost": [], "target_den": 2**20, "violation": max(1, int(2**20 * allowed)), "gap": MOST}
    if stages == 1:
        v |= {"rows": inputs, "final_rows": on_states}
    else:
        v |= {"rows": inputs + [row[:n] + [0] * p + row[n:] for row in on_states], "final_rows": pick.choice([[], on_states])}
    return cases.design_text(v), records_text([[1] + [0] * (p * stages)] * 2**n)


def by_inputs(d, rows, coordinate, sign):
    """The factor and the weights of a face of rows that have one input alone and no state, or None."""
    weights, pulls = [0] * len(rows), d.b[coordinate]
    found = []
    for l, pull in enumerate(pulls):
        mine = [i for i, row in enumerate(rows) if not any(row.of_state) and row.of_input[l] * sign * pull > 0 and not any(v for k, v in enumerate(row.of_input) if k != l)]
        if pull and not mine:
            return None
        if pull:
            found.append((mine[0], abs(rows[mine[0]].of_input[l]), abs(pull)))
    factor = 1
    for _, has, pull in found:
        need = has // gcd(has, pull)
        factor = factor * need // gcd(factor, need)
    for i, has, pull in found:
        weights[i] = factor * pull // has
    return factor, weights


def by_row(d, rows, coordinate, sign):
    """And of a row on the coordinate of the next state alone."""
    for i, row in enumerate(rows):
        for factor in {abs(v) // max(1, abs(b)) for v, b in zip(row.of_input, d.b[coordinate]) if b}:
            if factor and row.of_input == [sign * factor * b for b in d.b[coordinate]] and row.of_state == [sign * factor * a for a in d.a[coordinate]]:
                return factor, [int(k == i) for k in range(len(rows))]
    return None


def face_of(pick, d, rows, coordinate, sign):
    """A face whose equations hold, where one is found: mostly the one that goes least far, or a sum of two."""
    found = [it for it in (by_inputs(d, rows, coordinate, sign), by_row(d, rows, coordinate, sign)) if it and max(it[0], *it[1]) <= MOST]
    if not found:
        return [1] + [0] * len(rows)
    excess = [int(2**40 * d.violation / d.target_den)] * d.rows

    def far(it):
        numerator, den = held_boxes.reach(d, rows, excess, held_boxes.Face(coordinate, sign > 0, *it))
        return numerator / den

    factor, weights = min(found, key=far) if pick.random() < 0.85 else pick.choice(found)
    if len(found) > 1 and pick.random() < 0.2:
        times = pick.choice([1, 1, 3]), pick.choice([1, 2])
        factor, weights = (sum(t * it[0] for t, it in zip(times, found)), [sum(t * it[1][k] for t, it in zip(times, found)) for k in range(len(rows))])
    if pick.random() < 0.2:
        # a row and one that has the opposite of its input
        i = pick.randrange(len(rows))
        opposite = [k for k, row in enumerate(rows) if row.of_input == [-v for v in rows[i].of_input]]
        if opposite:
            times, beyond = pick.choice([1, 1, 10, 100]), pick.choice([1, 1, 2])
            factor, weights = times * factor, [times * w for w in weights]
            for k in {i, pick.choice(opposite)}:
                weights[k] += beyond
    times = pick.choice([1, 1, 1, 2, 7])
    return [min(MOST, times * factor), *(min(MOST, times * w) for w in weights)]


def shift_box(pick, d, rows, faces):
    """Disturbances that the faces mostly bear, or nearly."""
    excess = [int(2**40 * d.violation / d.target_den)] * d.rows
    low, high = [0] * d.states, [0] * d.states
    for i in range(d.states):
        ends = [held_boxes.farthest(d, rows, excess, held_boxes.Face(i, is_upper, row[0], row[1:]), low, high) for is_upper, row in zip((True, False), faces[2 * i : 2 * i + 2])]
        up, down = max(-MOST, min(MOST, d.hi[i] - ends[0])), max(-MOST, min(MOST, d.lo[i] - ends[1]))
        high[i], low[i] = pick.choice([up, up, up, up + 1, up // 2]), pick.choice([down, down, down, down - 1, down // 2])
        if low[i] > high[i]:
            low[i], high[i] = (0, 0) if pick.random() < 0.8 else (low[i], high[i])
    return [low, high]


def held(pick):
    """A design, a policy, faces, and disturbances or None, as texts."""
    design, policy = held_design(pick)
    d = model.read_design(design)
    rows = held_boxes.first_rows(d)
    faces = [face_of(pick, d, rows, i, sign) for i in range(d.states) for sign in (1, -1)]
    return design, policy, records_text(faces), records_text(shift_box(pick, d, rows, faces)) if pick.random() < 0.5 else None


def large_faces(pick):
    """A design that is accepted, with numbers and faces so large that the size of the faces is near its limit now and then."""
    power = lambda most: max(1, min(MOST, (1 << pick.randrange(most + 1)) + pick.choice([0, 0, -1, 1])))
    top, sign = power(30), lambda: pick.choice([-1, 1])
    v = {"version": pick.choice(VERSIONS), "n": 2, "p": 1, "stages": 1, "den": min(2**20, power(20)), "a": [[0, 0], [sign() * power(31), pick.choice([0, 0, 1])]],
         "b": [[0], [pick.choice([0, 1, power(30)])]], "cost_den": 1, "row_den": 1, "input": [1], "cost": [], "final_cost": [], "limit_den": min(2**20, power(20)), "grid": pick.choice([0, 0, 3, 24]),
         "rows": [[sign() * power(31), 0, 0, power(31)], [0, 0, 0, power(31)]], "final_rows": [], "lo": [0, pick.choice([0, -top])], "hi": [0, top], "target_den": 1, "violation": MOST, "gap": MOST}
    rows = [[power(31), *[pick.choice([0, 0, power(31)]) for _ in range(2)]] for _ in range(4)]
    rows[2] = [power(31), power(31), power(31)]
    return cases.design_text(v), b"1,0\n" * 4, records_text(rows), None


def small_values(pick, texts):
    """One of the texts changed."""
    at = pick.choice([at for at, text in enumerate(texts) if text is not None])
    return tuple(cases.changed(pick, text) if i == at else text for i, text in enumerate(texts))


def worked():
    """The design, policy, faces and disturbances of each worked row that is accepted."""
    for _, (words, files, status, *_) in stay_rows.rows():
        if words[0] == "stay" and status == 0:
            texts = [files.get(name) for name in "dpfw"]
            yield tuple(text and text.encode() for text in texts)


def stay_texts(pick, base):
    how = pick.random()
    if how < 0.15:
        return large_faces(pick)
    texts = pick.choice(base) if how < 0.2 or how > 0.95 else held(pick)
    return texts if how < 0.6 else small_values(pick, texts)


# ---- loops


def starts(pick, d, most=8):
    """Corners of a design's box, and states in it."""
    corners = list(product(*zip(d.lo, d.hi)))
    inside = [tuple(pick.randrange(low, high + 1) for low, high in zip(d.lo, d.hi)) for _ in range(2)]
    some = pick.sample(corners, min(most, len(corners)))
    return some[:1] + inside[:1] + some[1:] + inside[1:]


def shifts_within(pick, low, high, turns):
    """A disturbance for each turn: any of the box, or an end of it."""
    ends = pick.choice([0, 0.5, 1])
    return [[pick.choice([a, b]) if pick.random() < ends else pick.randrange(a, b + 1) for a, b in zip(low, high)] for _ in range(turns)]


def shifts_text(pick, n, turns):
    """Disturbances of loops of any design, most of them small."""
    reach = pick.choice([0, 1, 1, 2, 5, MOST])
    return records_text([[pick.choice([0, 0, pick.randrange(-reach, reach + 1)]) for _ in range(n)] for _ in range(min(turns, 1000) + pick.choice([0] * 12 + [1, -1]))])
