"""An independent model of split boxes: the cuts of a design's box, its cells, the text of their controllers, and which of them serves a state.

By docs/FORMATS.md and the definitions, and with no code of the program's.
"""
from __future__ import annotations

import copy
from itertools import product

from . import control
from .control import Controller, Reader
from .model import Design, Refused, is_of_plan, number_field, numbers_of, records

MOST_CUTS, MOST_CELLS = 63, 64
# the most bytes of a text of cells
EVERY_CELLS = 268435456


# ---- cuts


def read_cuts(data: bytes, d: Design) -> list[list[int]]:
    """The cuts of each coordinate, or the status 5 with the first fault: that of a record that a coordinate asks for, then their number, then that of the cells."""
    rows, cuts = records(data), []
    for entry, (record, low, high) in enumerate(zip(rows, d.lo, d.hi), 1):
        count = number_field(record[0])
        if count is None or not 0 <= count <= MOST_CUTS:
            raise Refused(5, "number", entry, 1)
        if len(record) != count + 1:
            raise Refused(5, "fields", entry)
        cuts.append([])
        for field, word in enumerate(record[1:], 2):
            cut = number_field(word)
            # a cut ends a part, and the next part begins one above it
            if cut is None or not (cuts[-1][-1] + 1 if cuts[-1] else low) <= cut < high:
                raise Refused(5, "number", entry, field)
            cuts[-1].append(cut)
    if len(rows) != d.states:
        raise Refused(5, "count", len(rows))
    if cell_count(cuts) > MOST_CELLS:
        raise Refused(5, "range", 0)
    return cuts


def cell_count(cuts: list[list[int]]) -> int:
    count = 1
    for own in cuts:
        count *= len(own) + 1
    return count


def parts_of(low: int, high: int, cuts: list[int]) -> list[tuple[int, int]]:
    """The least and the greatest number of each part."""
    return list(zip([low, *(cut + 1 for cut in cuts)], [*cuts, high]))


def cells_of(d: Design, cuts: list[list[int]]) -> list[Design]:
    """The design with the box of each cell, the first coordinate fastest."""
    found = []
    for box in product(*(parts_of(*its) for its in reversed(list(zip(d.lo, d.hi, cuts))))):
        cell = copy.copy(d)
        cell.lo, cell.hi = (list(ends) for ends in zip(*reversed(box)))
        found.append(cell)
    return found


# ---- their policies

Plan = tuple[int, list[int]]


def read_policies(data: bytes, d: Design, count: int) -> list[list[Plan] | None]:
    """The plans of the corners of each cell, or none where it has the record `none`; or the status 5 with the first fault: that of a record, then their number, then that no cell has plans."""
    rows, found, plans = records(data), [], []
    for entry, record in enumerate(rows, 1):
        if record == ["none"] and not plans and len(found) < count:
            found.append(None)
            continue
        den, *plan = numbers_of(entry, record, d.entries + 1, is_of_plan)
        plans.append((den, plan))
        if len(plans) == 2**d.states and len(found) < count:
            found.append(plans)
            plans = []
    if plans or len(found) < count:
        raise Refused(5, "count", len(rows))
    if not any(found):
        raise Refused(5, "range", 0)
    return found


# ---- the controllers' text


def text_of(cells: list[Controller]) -> bytes:
    return b"mpc-cells %d\n" % len(cells) + b"".join(map(control.text_of, cells)) + b"end\n"


def read_cells(data: bytes) -> list[Controller]:
    """The controllers, or the status 11 with the first line that no text of cells has there, or unsafe."""
    text = Reader(data)
    (count,) = text.take(b"mpc-cells", 1, lambda v: 1 <= v[0] <= MOST_CELLS)
    cells: list[Controller] = []
    for _ in range(count):
        cells.append(control.controller_in(text, cells[0] if cells else None))
    text.take(b"end", 0)
    text.finish()
    for cell in cells:
        control.refuse_unsafe(cell)
    return cells


def find(cells: list[Controller], state: list[int]) -> Controller | None:
    """The first whose box holds the state."""
    return next((cell for cell in cells if not control.outside(cell, state)), None)
