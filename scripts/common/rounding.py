"""Whole numbers for the numbers of a model: the shortest by which none moves by more than a stated part of itself, or a limit of its tolerance; and what moved, in words."""
from .libraries import need

need("numpy")
import numpy

from .design_text import plain

# a factor that comes to less than this part of its row's greatest, over the box, is one of rounding
NOTHING = 1e-6
LONGEST = 2**20
# what a factor of a limit that keeps the box may come to over it, of the tolerance: a lean controller leaves a sixtieth of the tolerance for all of them
STRICT = 0.002
CHUNK = 4096


def shortest(values: numpy.ndarray, scales: numpy.ndarray, allowed: numpy.ndarray) -> tuple[float, bool]:
    """The first of these scales by which each value, rounded to whole numbers, moves by no more than is allowed of it (over 1), and whether there is one; else the last."""
    for first in range(0, len(scales), CHUNK):
        some = scales[first : first + CHUNK, None]
        off = abs(numpy.rint(values * some) - values * some) <= allowed * some * (1 + 1e-9) + 1e-9
        good = off.all(axis=1)
        if good.any():
            return float(some[numpy.argmax(good), 0]), True
    return float(scales[-1]), False


def whole_row(row: numpy.ndarray, reach: numpy.ndarray, part: float) -> tuple[list[int], float]:
    """The shortest whole row that points as this one, each factor within the part of itself, and the factor to it. `reach`: what each factor is multiplied by at most."""
    greatest, effect = max(abs(row)), abs(row) * reach
    least = NOTHING * max(effect)
    allowed = numpy.where(effect > least, part * abs(row), least / numpy.maximum(reach, 1e-300))
    most = int(min(LONGEST, max(64, greatest / (part * min(abs(row)[effect > least])))))
    scale, _ = shortest(row, numpy.arange(1, most + 1) / greatest, allowed)
    return [int(v) for v in numpy.rint(row * scale)], 1 / scale


def whole_ratio(weights: list[float], part: float) -> list[int]:
    """The least whole numbers that are to each other as these, each within the part of itself."""
    values = numpy.array(weights, float)
    counts = numpy.arange(1, int(1 / part) + 2)
    scale, _ = shortest(values, counts / min(values), part * values)
    return [int(v) for v in numpy.rint(values * scale)]


def limit_denominator(rows: list[numpy.ndarray], reach: numpy.ndarray, part: float, strict: list[bool] | None = None) -> tuple[int, bool]:
    """The least denominator by which no factor moves by more than the part of itself, or comes to more than the part of the tolerance over the box, and no bound by more
    than the part of itself or of the tolerance; and whether there is one. A factor of a strict row comes to no more than STRICT of the tolerance, where anything says how far
    its coordinate goes."""
    if not rows:
        return 1, True
    factors, bounds = numpy.array([row[:-1] for row in rows]), numpy.array([row[-1] for row in rows])
    allowed = numpy.maximum(part * abs(factors), part / numpy.maximum(reach, 1e-300))
    for line, is_strict in zip(allowed, strict or []):
        if is_strict:
            line[:] = numpy.where(numpy.isfinite(reach), STRICT / numpy.maximum(reach, 1e-300), line)
    for den in [*range(1, CHUNK), *(2**k for k in range(12, 21))]:
        near = abs(numpy.rint(factors * den) - factors * den) <= allowed * den * (1 + 1e-9) + 1e-9
        below = bounds * den - numpy.floor(bounds * den + 1e-6) <= part * numpy.maximum(abs(bounds), 1) * den + 1e-6
        if near.all() and below.all():
            return den, True
    return 2**20, False


def whole_limits(rows: list[numpy.ndarray], den: int) -> list[list[int]]:
    """Numerators over the denominator. Bounds are rounded down."""
    return [[int(v) for v in numpy.rint(row[:-1] * den)] + [int(numpy.floor(row[-1] * den + 1e-6))] for row in rows]


def moves(of: str, places: list[str], exact: list[float], made: list[float], allowed: list[float]) -> tuple[str | None, bool]:
    """What moved of these numbers, in words, or None; and whether one moved by more than is allowed."""
    told, far = [], False
    for place, old, new, most in zip(places, exact, made, allowed):
        if abs(new - old) > 1e-9 * max(1e-9, abs(old)):
            far = far or abs(new - old) > most * (1 + 1e-6) + 1e-12
            part = f" ({plain(100 * abs(new - old) / abs(old))} %)" if old else ""
            told.append(f"{place} {precise(old)} becomes {precise(new)}{part}")
    return (f"{of}: {', '.join(told)}" if told else None), far


def precise(value: float) -> str:
    return f"{value:.6g}"
