"""Controller texts and reports read as strictly as the program reads a controller text: to the byte, and refused at the first line that doesn't belong there."""
import json
import re

from .libraries import Refusal
from .machines import machine_of
from .texts import REPORT_LINES, SCALE, Controller, controller_of

NUMBER = re.compile(r"0|-?[1-9][0-9]*")
COUNT = re.compile(r"0|[1-9][0-9]{0,38}")
NUMERATOR = 2**31 - 1
# the greatest numbers of states, inputs, stages and rows, by version
SIZES = {1: (4, 3, 20, 252), 2: (6, 3, 30, 372), 3: (6, 3, 30, 372)}


class Lines:
    """The lines of a text, taken one after the other."""

    def __init__(self, text):
        self.pieces = text.split("\n")
        self.at = 0

    def refuse(self, should):
        raise Refusal(f"line {self.at + 1}: {should} should stand here")

    def take(self, word, count, should, holds=lambda numbers: True):
        """The numbers of the next line, which begins with the word and has so many for which `holds`."""
        if self.at + 1 >= len(self.pieces):
            self.refuse(should)
        first, *words = self.pieces[self.at].split(" ")
        if first != word or len(words) != count or not all(NUMBER.fullmatch(w) and len(w) <= 40 for w in words):
            self.refuse(should)
        numbers = [int(w) for w in words]
        if not all(-(2**127) <= v < 2**127 for v in numbers) or not holds(numbers):
            self.refuse(should)
        self.at += 1
        return numbers

    def rows(self, word, count, width):
        return [self.take(word, width, f"{word} and {width} numbers, the {number} of {count} such lines") for number in range(1, count + 1)]

    def end(self):
        self.take("end", 0, "end")
        if self.pieces[self.at :] != [""]:
            self.refuse("nothing, since the text has ended,")


def within(*ranges):
    return lambda numbers: all(low <= v <= high for v, (low, high) in zip(numbers, ranges))


def strict_controller(text, last=2):
    """The controller of a text in form, of a version up to the last; Refusal with the first line that no controller text has there."""
    lines = Lines(text)
    if last < 3 and text.startswith("mpc-controller 3\n"):
        raise Refusal("this takes controllers of versions 1 and 2, and not of version 3, the accelerated machine's")
    (version,) = lines.take("mpc-controller", 1, f"mpc-controller and the version, from 1 to {last},", within((1, last)))
    sizes, machine = SIZES[version], machine_of(version)
    n, p, stages, m = lines.take("size", 4, f"size, states up to {sizes[0]}, inputs up to 3, stages up to {sizes[2]} and rows up to {sizes[3]}", within(*[(1, most) for most in sizes]))
    in_range = lambda v: 0 <= v[1] <= 24 and v[1] <= v[0] <= 48 and 0 <= v[2] <= 40 and 2 <= v[3] <= 128
    (_, _, s, _) = lines.take("bits", 4, "bits, f from g to 48, g up to 24, s up to 40 and the width from 2 to 128", in_range)
    lines.take("steps", 1, f"steps, from 1 to {machine.most_steps}", within((1, machine.most_steps)))
    lines.take("clamp", 1, "clamp, from 0 to 2^126", within((0, 2**126)))
    entries = p * stages
    words = n + machine.lists * m + 2 * entries
    lines.take("words", 1, f"words {words}", lambda v: v == [words])
    if version > 1:
        lines.take("exps", m, f"exps and {m} numbers up to {s}", within(*[(0, s)] * m))
    low = lines.take("lo", n, f"lo and {n} numbers up to {NUMERATOR}", within(*[(-NUMERATOR, NUMERATOR)] * n))
    lines.take("hi", n, f"hi and {n} numbers up to {NUMERATOR}, each at least its lo,", within(*[(least, NUMERATOR) for least in low]))
    lines.rows("P", entries, n)
    lines.take("T", entries, f"T and {entries} numbers")
    lines.rows("W", entries, m)
    lines.rows("G", m, entries)
    lines.rows("E", m, n)
    lines.take("b", m, f"b and {m} numbers")
    lines.end()
    return controller_of(text)


def ceil_div(a, b):
    return -(-a // b)


def absolute_sums(c: Controller):
    """The absolute sums by which the program accepts a controller (docs/METHOD.md): X of the state, A of the plan's sums, U of the plan, B of the rows' sums, d of the
    multipliers before they are clamped (in version 3 behind them what is reached of them), e of the sums of a run."""
    reach = [max(abs(low), abs(high)) << (c.bits - c.grid) for low, high in zip(c.lo, c.hi)]
    size = lambda row, most: sum(abs(v) * x for v, x in zip(row, most))
    entry_sums = [((size(c.P[j], reach) + (abs(c.T[j]) << c.bits)) << c.step) + size(c.W[j], [c.clamp] * c.rows) for j in range(c.entries)]
    plan = [ceil_div(v, 1 << (c.bits + c.step)) for v in entry_sums]
    row_sums = [size(c.G[i], plan) + size(c.E[i], reach) + (abs(c.b[i]) << c.bits) for i in range(c.rows)]
    machine = machine_of(c.version)
    moved = machine.multiplier_sums(c.clamp, c.steps, [ceil_div(v, 1 << c.bits) for v in row_sums])
    return reach, entry_sums, plan, row_sums, moved, [machine.total(c.steps) * v for v in plan]


def safe_controller(text, last=2):
    """The controller of a text that `solve` accepts, of a version up to the last."""
    controller = strict_controller(text, last)
    greatest = max(max(sums) for sums in absolute_sums(controller))
    if greatest > min(2**126, 2 ** (controller.width - 1) - 1):
        raise Refusal(f"an absolute sum of {greatest.bit_length()} bits and a sign doesn't fit the width that it says, {controller.width}: no controller that generate made")
    return controller


def report_words_of(is_lean):
    """The words of a report's lines; that of a lean controller has the excess in place of the cost."""
    return ["excess" if is_lean and word == "cost" else word for word in REPORT_LINES]


def strict_report(text, rows):
    """Refusal where a text isn't the report, as lines or as JSON, of a controller with so many rows."""
    if text.startswith("{"):
        strict_json(text, rows)
        return
    lines = Lines(text)
    natural = lambda numbers: all(0 <= v for v in numbers)
    (version,) = lines.take("mpc-report", 1, "mpc-report and the version, 1 or 2", within((1, 2)))
    for word in report_words_of(lines.pieces[2:3] and lines.pieces[2].startswith("excess ")):
        scale = {"margin": 2**16, "excess": 2**16, "violation": SCALE, "gap": SCALE, "undercut": SCALE}.get(word)
        if word == "violation" and version == 2:
            for row in range(1, rows + 1):
                lines.take(word, 3, f"violation {row}, a number and {SCALE}", lambda v, row=row: natural(v) and (v[0], v[2]) == (row, SCALE))
        elif scale:
            lines.take(word, 2, f"{word}, a number and {scale}", lambda v, scale=scale: natural(v) and v[1] == scale)
        else:
            lines.take(word, 1, f"{word} and a number", natural)
    lines.end()


def strict_json(text, rows):
    try:
        told = json.loads(text)
    except (ValueError, RecursionError):
        raise Refusal("it is no JSON") from None
    if json.dumps(told, sort_keys=True, separators=(",", ":")) + "\n" != text:
        raise Refusal("it is no JSON object as generate writes it, with its keys in order and no space")
    lists = {"violations"} if told.get("version") == "2" else set()
    if set(told) != {"version", *report_words_of("excess" in told)} | lists or told["version"] not in ("1", "2"):
        raise Refusal("it has not the keys of a report")
    rows_told = told["violations"] if lists else []
    numbers = [told[key] for key in told if key not in lists] + (rows_told if isinstance(rows_told, list) else [None])
    if not all(isinstance(v, str) and COUNT.fullmatch(v) for v in numbers) or (lists and len(rows_told) != rows):
        raise Refusal(f"its numbers are not those of a report of {rows} rows")
