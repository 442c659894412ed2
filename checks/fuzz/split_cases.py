"""Designs with cuts and their cells' policies for run.py, most of them accepted or nearly; and texts of cells, of cut boxes and of controllers that have nothing to do with
one another but their sizes."""
from __future__ import annotations

import copy
import random
from fractions import Fraction
from math import lcm, prod

from . import at_corners, cases, control, listing_cases, model, program, split_boxes, stay_cases
from .control import Controller
from .machines import VERSIONS
from .model import Design

# an example whose policy is no longer than this has a model in milliseconds
SHORT_POLICY = 1000
MOST_NUMERATOR = 2**63 - 1
# plans of cells are over no more than this; where their exact numbers are, they are rounded to the other
MOST_DEN, ROUNDED_DEN = 2**40, 2**20


# ---- designs


def text_of_design(d: Design) -> bytes:
    """A design's text again."""
    return cases.design_text({
        "version": d.version, "n": d.states, "p": d.inputs, "stages": d.stages, "den": d.plant_den, "a": d.a, "b": d.b, "cost_den": d.cost_den, "row_den": d.row_den, "input": d.input_weights,
        "cost": d.stage_cost, "final_cost": d.final_cost, "limit_den": d.limit_den, "rows": d.stage_rows, "final_rows": d.final_rows, "grid": d.grid, "lo": d.lo, "hi": d.hi,
        "target_den": d.target_den, "violation": d.violation, "gap": d.gap})


def whole_design(pick: random.Random, base: list[tuple[bytes, bytes]]) -> tuple[Design, list[tuple[int, list[int]]]]:
    """A design with a policy for its whole box, which has more than one grid state most times."""
    while True:
        how = pick.random()
        if how < 0.25:
            design, policy = pick.choice([it for it in base if len(it[1]) <= SHORT_POLICY])
            design = cases.in_version(pick.choice(VERSIONS), design)
        elif how < 0.4:
            design, policy, _ = program.make(pick.randrange(2**32), pick.choice([1, 1, 2]))
            design = cases.in_version(pick.choice(VERSIONS), design)
        elif how < 0.7:
            design, policy = stay_cases.held_design(pick)
        else:
            design, policy = cases.random_design(pick)
        try:
            d = model.read_design(design)
            plans = model.read_policy(policy, d)
        except model.Refused:
            continue
        if d.stages <= 6 and d.entries <= 12 and (d.lo != d.hi or pick.random() < 0.05):
            return d, plans


# ---- cuts


def cuts_between(pick: random.Random, low: int, high: int, count: int) -> list[int]:
    """So many cuts, or fewer where there is no room: the first number and the one before the last are among them now and then."""
    found = {pick.choice([pick.randrange(low, high), pick.randrange(low, high), low, high - 1]) for _ in range(count)} if low < high else set()
    while len(found) < min(count, high - low):
        found.add(pick.randrange(low, high))
    return sorted(found)


def few_cuts(pick: random.Random, lo: list[int], hi: list[int], most: int) -> list[list[int]]:
    """Cuts that make at most so many cells."""
    out, left = [], most
    for low, high in zip(lo, hi):
        out.append(cuts_between(pick, low, high, pick.choice([0, 0, 1, 1, 2, 3, left - 1]) % left))
        left //= len(out[-1]) + 1
    pairs = list(zip(lo, hi, out))
    pick.shuffle(pairs)
    return out


def many_cuts(pick: random.Random, lo: list[int], hi: list[int]) -> list[list[int]]:
    """Cuts that make 64 cells, or a few more than that, where there is room."""
    order, left, counts = list(range(len(lo))), pick.choice([64, 64, 65, 66, 72]), [1] * len(lo)
    pick.shuffle(order)
    for i in order[:-1]:
        fits = [k for k in range(1, left + 1) if left % k == 0 and k - 1 <= min(split_boxes.MOST_CUTS, hi[i] - lo[i])]
        counts[i] = pick.choice(fits)
        left //= counts[i]
    counts[order[-1]] = left
    return [cuts_between(pick, low, high, count - 1) for low, high, count in zip(lo, hi, counts)]


def cuts_text(pick: random.Random, rows: list[list[int]]) -> bytes:
    end = pick.choice([b"\n", b"\n", b"\n", b"\r\n", b"\n\n"])
    comma = pick.choice([b",", b",", b",", b" , "])
    return b"".join(comma.join(b"%d" % v for v in row) + end for row in rows)


def rows_of(cuts: list[list[int]]) -> list[list[int]]:
    return [[len(own), *own] for own in cuts]


def cuts_broken(pick: random.Random, lo: list[int], hi: list[int], rows: list[list[int]]) -> list[list[int]]:
    """The records with one thing changed, which may be right all the same."""
    rows = [list(row) for row in rows]
    i = pick.randrange(len(rows))
    row, low, high, how = rows[i], lo[i], hi[i], pick.randrange(11)
    at = pick.randrange(1, len(row)) if len(row) > 1 else 0
    if how == 0:
        row[0] += pick.choice([-1, 1])
    elif how == 1:
        row[0] = pick.choice([63, 64, -1, len(row), 2**63 - 1])
    elif how == 2 and at:
        row[at] = pick.choice([low - 1, low, high - 1, high, high + 1])
    elif how == 3 and at:
        row[at] += pick.choice([-1, 1])
    elif how == 4 and len(row) > 2:
        other = pick.randrange(1, len(row))
        row[at], row[other] = row[other], row[at]
    elif how == 5 and at:
        row.insert(at, row[at])
        row[0] += pick.choice([0, 1])
    elif how == 6 and at:
        del row[at]
        row[0] -= pick.choice([0, 1])
    elif how == 7:
        del rows[i]
    elif how == 8:
        rows.insert(i, pick.choice([[0], [64], row, [1, low]]))
    elif how == 9:
        rows[i] = pick.choice(rows)
    else:
        row.append(pick.choice([low, high - 1, high, 0]))
    return rows


# ---- the policies of cells


def between(d: Design, plans: list[tuple[int, list[int]]], state: list[int]) -> tuple[int, list[int]]:
    """The plan that the corners' plans have between them at a state of the box, over one denominator: it keeps each row as well as theirs do."""
    mixed = [Fraction(0)] * d.entries
    for corner, (q, u) in enumerate(plans):
        shares = []
        for i, (low, v, high) in enumerate(zip(d.lo, state, d.hi)):
            up = Fraction(v - low, high - low) if low < high else Fraction(0)
            shares.append(up if corner >> i & 1 else 1 - up)
        share = prod(shares, start=Fraction(1))
        mixed = [m + share * Fraction(v, q) for m, v in zip(mixed, u)] if share else mixed
    den = lcm(*(v.denominator for v in mixed))
    return of_plan(den, mixed) if den <= MOST_DEN else of_plan(ROUNDED_DEN, mixed)


def of_plan(den: int, plan: list[Fraction]) -> tuple[int, list[int]]:
    return den, [min(MOST_NUMERATOR, max(-MOST_NUMERATOR, round(den * v))) for v in plan]


def policies(d: Design, plans: list[tuple[int, list[int]]], boxes: list[Design]) -> list[list[int]]:
    """A record for each corner of each cell."""
    return [[den, *plan] for box in boxes for den, plan in (between(d, plans, state) for state in at_corners.states(box))]


def some_left_out(pick: random.Random, rows: list[list[int]], corners: int) -> list[list[int] | None]:
    """The same, with one record for each cell without a controller."""
    share = pick.choice([0, 0, 0, 0.2, 0.4, 0.7])
    found: list[list[int] | None] = []
    for start in range(0, len(rows), corners):
        found += [None] if pick.random() < share else rows[start : start + corners]
    return found


def policies_text(rows: list[list[int] | None]) -> bytes:
    return b"".join(b"none\n" if row is None else stay_cases.records_text([row]) for row in rows)


def policies_broken(pick: random.Random, rows: list[list[int] | None]) -> bytes:
    """The records with some changed: one less, one more, two exchanged, another plan or none, or any other change of the text."""
    rows, how = list(rows), pick.randrange(8)
    at, other = pick.randrange(len(rows)), pick.randrange(len(rows))
    if how == 0:
        del rows[at]
    elif how == 1:
        rows.insert(at, rows[other])
    elif how == 2:
        rows[at], rows[other] = rows[other], rows[at]
    elif how == 3 and rows[at]:
        rows[at] = [rows[at][0], *(pick.choice([v + rows[at][0], v - rows[at][0], -v, 4 * v]) for v in rows[at][1:])]
    elif how == 4 and rows[at]:
        rows[at] = [pick.choice([0, MOST_DEN, MOST_DEN + 1, 1]), *rows[at][1:]]
    elif how == 5:
        rows = rows[: pick.randrange(len(rows))]
    elif how == 6:
        rows[at] = None
    text = policies_text(rows)
    return text if how < 7 or not text else cases.changed(pick, text)


def split_texts(pick: random.Random, base: list[tuple[bytes, bytes]]) -> tuple[bytes, bytes, bytes]:
    """A design, cuts of its box, and the policies of its cells."""
    d, plans = whole_design(pick, base)
    cheap = d.entries <= 2 and d.states <= 2
    cuts = many_cuts(pick, d.lo, d.hi) if cheap and pick.random() < 0.16 else few_cuts(pick, d.lo, d.hi, pick.choice([2, 3, 4, 6, 9, 12 if cheap else 6]))
    count, how = split_boxes.cell_count(cuts), pick.random()
    # (where they are too many, no policy is read)
    rows = some_left_out(pick, policies(d, plans, split_boxes.cells_of(d, cuts) if count <= split_boxes.MOST_CELLS else [d]), 2**d.states)
    design, policy = text_of_design(d), policies_text(rows)
    if how < 0.5:
        return design, cuts_text(pick, rows_of(cuts)), policy
    if how < 0.68:
        return design, cuts_text(pick, cuts_broken(pick, d.lo, d.hi, rows_of(cuts))), policy
    if how < 0.78:
        return design, cases.changed(pick, cuts_text(pick, rows_of(cuts))), policy
    if how < 0.92:
        return design, cuts_text(pick, rows_of(cuts)), policies_broken(pick, rows)
    return cases.changed(pick, design), cuts_text(pick, rows_of(cuts)), policy


# ---- texts of cells


def cut_controller(pick: random.Random, c: Controller) -> list[Controller]:
    """Cells of a controller's box, which put other lines by their steps."""
    cuts = few_cuts(pick, c.lo, c.hi, pick.choice([2, 3, 4, 6])) if pick.random() < 0.95 else many_cuts(pick, c.lo, c.hi)
    box, cells = copy.copy(c), []
    for part in split_boxes.cells_of(box, cuts)[: split_boxes.MOST_CELLS]:
        part.steps = pick.randrange(1, c.steps + 1)
        cells.append(part)
    return cells


def safe(pick: random.Random, like: Controller | None) -> Controller:
    """A random controller, mostly one whose sums fit."""
    for _ in range(pick.choice([1, 6, 6, 6])):
        c = cases.random_controller(pick, like)[1]
        if control.greatest_sum(c) <= min(model.LIMIT, 2 ** (c.w - 1) - 1):
            break
    return c


def foreign(pick: random.Random, texts: list[bytes]) -> list[Controller]:
    """Controllers alike in their sizes, of any versions, whose boxes have nothing to do with one another."""
    first = listing_cases.controller(pick, texts)[0] if pick.random() < 0.5 else safe(pick, None)
    cells = [first]
    for _ in range(pick.choice([0, 1, 1, 2, 2, 3])):
        other = safe(pick, first)
        if pick.random() < 0.8 and control.greatest_sum(other) < 2**126:
            # a box that touches or meets one of the others
            near = pick.choice(cells)
            other.lo = [max(-(2**31) + 1, low - pick.choice([0, 0, 1, 2])) for low in near.lo]
            other.hi = [min(2**31 - 1, high + pick.choice([0, 0, 1, 2])) for high in near.hi]
            greatest = control.greatest_sum(other)
            other.w = min(128, max(2, greatest.bit_length() + pick.choice([1] * 9 + [2, 2, 0])))
        cells.append(other)
    if pick.random() < 0.3:
        pick.shuffle(cells)
    return cells


def unlike(pick: random.Random, cells: list[Controller]) -> bytes:
    """A text of cells of which a later one is no cell of the first one's kind, or one is out of its place."""
    cells, how = [copy.copy(cell) for cell in cells], pick.randrange(8)
    if how == 0:
        return split_boxes.text_of(cells).replace(b"mpc-cells %d\n" % len(cells), b"mpc-cells %d\n" % max(0, len(cells) + pick.choice([-1, 1, -len(cells), 63, 64])), 1)
    if how == 1:
        return split_boxes.text_of([*cells, cases.random_controller(pick)[1]])
    if how == 2:
        return split_boxes.text_of([cases.random_controller(pick)[1], *cells])
    if how == 3:
        return split_boxes.text_of(cells)[: -pick.choice([1, 4, 8])]
    if how == 4:
        return split_boxes.text_of(cells) + pick.choice([b"\n", b"end\n", b" ", control.text_of(cells[0])])
    if how == 5:
        lines = split_boxes.text_of(cells).split(b"\n")
        heads = [i for i, line in enumerate(lines) if line.startswith((b"mpc-controller", b"size", b"bits", b"end"))]
        at = pick.choice(heads)
        lines[at] = pick.choice([b"mpc-controller %d" % pick.choice([1, 2, 3, 4]), cases.number_changed(pick, lines[at]), cases.number_changed(pick, lines[at]), b"end"])
        return b"\n".join(lines)
    if how == 6:
        return split_boxes.text_of(cells * pick.choice([2, 3, 64 // len(cells), 64 // len(cells) + 1]))
    six = copy.copy(cells[0])
    six.version, six.exps = pick.choice([2, 3]), [six.s] * six.m
    return split_boxes.text_of([six, *cells])


def cells_texts(pick: random.Random, texts: list[bytes]) -> tuple[bytes, bytes]:
    """A text of cells, and states."""
    cells = cut_controller(pick, listing_cases.controller(pick, texts)[0]) if pick.random() < 0.5 else foreign(pick, texts)
    states = [cases.state_near(pick, pick.choice(cells)) for _ in range(pick.choice([0, 1, 1, 2, 3, 5]))]
    told, how = cases.states_of(pick, states), pick.random()
    if how < 0.6:
        return split_boxes.text_of(cells), told
    if how < 0.75:
        return unlike(pick, cells), told
    if how < 0.93:
        return cases.changed(pick, split_boxes.text_of(cells)), told
    return split_boxes.text_of(cells), cases.changed(pick, told)
