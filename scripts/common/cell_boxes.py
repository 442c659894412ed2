"""The cells into which cuts split a design's box."""
import itertools
from dataclasses import replace

from .design_text import Design


def parts_of(design: Design, cuts: list[list[int]]) -> list[list[tuple[int, int]]]:
    """The parts of each coordinate: their least and greatest grid numbers."""
    out = []
    for low, high, own in zip(design.lo, design.hi, cuts):
        starts, ends = [low, *(cut + 1 for cut in own)], [*own, high]
        out.append(list(zip(starts, ends)))
    return out


def cells_of(design: Design, cuts: list[list[int]]) -> list[Design]:
    """The cells' designs, the first coordinate fastest."""
    parts = parts_of(design, cuts)
    boxes = [box[::-1] for box in itertools.product(*parts[::-1])]
    return [replace(design, lo=[low for low, _ in box], hi=[high for _, high in box]) for box in boxes]


def count_of(cuts: list[list[int]]) -> int:
    count = 1
    for own in cuts:
        count *= len(own) + 1
    return count
