"""A design as whole numbers, with the names and units that the comments of its text give.

The program reads no comment. The scripts read these, each on a line of its own, so that a report can speak of rad and V:

    # a stage lasts 0.005 s
    # state 1: angle, 1 is 0.0625 rad
    # input 1: voltage, 1 is 1 V
    # stage row 1: voltage above, 1 is 2 V
    # final row 1: angle at the end, 1 is 0.01 rad
"""
import re
import tomllib
from dataclasses import dataclass, field
from fractions import Fraction

from .files import read_bytes

NAMED = re.compile(r"#\s*(state|input|stage row|final row) (\d+): ([^,]+?)(?:, 1 is ([0-9][0-9.eE+-]*) (.+?))?\s*$")
# the greatest numbers of states and of stages, by version
STATES, STAGES = {1: 4, 2: 6, 3: 6}, {1: 20, 2: 30, 3: 30}
LASTS = re.compile(r"#\s*a stage lasts ([0-9][0-9.eE+-]*) s\s*$")


@dataclass
class Name:
    """What a coordinate or a row is called, and how much of which unit 1 of the file is."""

    word: str
    size: float = 1.0
    unit: str = ""

    def shown(self, value):
        """A value of the file in the unit, as '2 V'."""
        return f"{plain(value * self.size)} {self.unit}".rstrip()


def plain(value):
    """A number with four digits, without an exponent where that is readable."""
    value = float(value)
    if value == 0 or 1e-4 <= abs(value) < 1e6:
        text = f"{value:.{max(0, 4 - len(str(int(abs(value)))))}f}" if abs(value) >= 1 else f"{value:.4g}"
        return text.rstrip("0").rstrip(".") if "." in text else text
    return f"{value:.4g}"


@dataclass
class Design:
    """The numbers of a design text, by the names of the text; rows as lists."""

    version: int
    states: int
    inputs: int
    stages: int
    plant_den: int
    a: list
    b: list
    cost_den: int
    row_den: int
    input_weights: list
    stage_cost: list
    final_cost: list
    limit_den: int
    stage_rows: list
    final_rows: list
    grid: int
    lo: list
    hi: list
    target_den: int
    violation: int
    gap: int
    names: dict = field(default_factory=dict)
    period: float | None = None

    @property
    def entries(self):
        return self.inputs * self.stages

    @property
    def rows(self):
        return self.stages * len(self.stage_rows) + len(self.final_rows)

    @property
    def counted(self):
        """The cost rows, each with the stage at which it counts, as often as it counts."""
        return [(row, k) for k in range(1, self.stages + 1) for row in self.stage_cost] + [(row, self.stages) for row in self.final_cost]

    @property
    def limits(self):
        """The limit rows in the plan's order, each with its stage."""
        return [(row, k) for k in range(self.stages) for row in self.stage_rows] + [(row, self.stages) for row in self.final_rows]

    def name(self, kind, number):
        """The name of state, input, stage row or final row number, from 1."""
        short = {"state": f"x{number}", "input": f"u{number}"}
        return self.names.get((kind, number), Name(short.get(kind, f"{kind} {number}")))

    def rows_of(self, kind, number):
        """The limit rows of the plan, from 1, that are a stage row at all its stages or a final row, each with its stage."""
        rows = range(1, self.rows + 1)
        return [(row, stage) for row in rows for *place, stage in [self.place_of_row(row)] if place == [kind, number]]

    def place_of_row(self, row):
        """The kind of limit row `row` of the plan, from 1, its number among its kind, and its stage."""
        at = row - 1
        if at < self.stages * len(self.stage_rows):
            return "stage row", at % len(self.stage_rows) + 1, at // len(self.stage_rows)
        return "final row", at - self.stages * len(self.stage_rows) + 1, self.stages

    def row_words(self, row):
        """As 'stage row 3 (voltage above) at stage 4'."""
        kind, number, stage = self.place_of_row(row)
        word = self.names.get((kind, number))
        return f"{kind} {number}{f' ({word.word})' if word else ''} at stage {stage}"

    def corner(self, number):
        """The state of corner `number`, from 1, as fractions."""
        return [Fraction(self.hi[i] if number - 1 >> i & 1 else self.lo[i], 2**self.grid) for i in range(self.states)]

    def corner_words(self, number):
        """As 'corner 2 (angle high, rate low)'."""
        sides = [f"{self.name('state', i + 1).word} {'high' if number - 1 >> i & 1 else 'low'}" for i in range(self.states)]
        return f"corner {number} ({', '.join(sides)})"


def read_design(path):
    """The design of a file; ValueError or KeyError where it is no design text."""
    return design_of(read_bytes(path).decode("utf-8-sig"))


def design_of(text):
    t = tomllib.loads(text)
    plant, cost, limits, box, targets = t["plant"], t["cost"], t["limits"], t["box"], t["targets"]
    design = Design(
        t["version"],
        t["states"],
        t["inputs"],
        t["stages"],
        plant["den"],
        plant["a"],
        plant["b"],
        cost["den"],
        cost["row_den"],
        cost["input"],
        cost["stage"],
        cost["final"],
        limits["den"],
        limits["stage"],
        limits["final"],
        box["grid"],
        box["lo"],
        box["hi"],
        targets["den"],
        targets["violation"],
        targets["gap"],
    )
    for line in text.splitlines():
        named, lasts = NAMED.match(line.strip()), LASTS.match(line.strip())
        if named:
            design.names[named[1], int(named[2])] = Name(named[3], float(named[4] or 1), named[5] or "")
        if lasts:
            design.period = float(lasts[1])
    return design


def text_of(design, title=""):
    """The text of a design, with its names and units as comments."""
    lines = [f"# {line}" for line in title.splitlines()]
    if design.period:
        lines.append(f"# a stage lasts {design.period!r} s")
    for (kind, number), name in design.names.items():
        lines.append(f"# {kind} {number}: {name.word}" + (f", 1 is {name.size!r} {name.unit}" if name.unit else ""))
    rows = lambda table: "[" + ", ".join(str([int(v) for v in row]) for row in table) + "]"
    lines += [f"version = {design.version}", f"states = {design.states}", f"inputs = {design.inputs}", f"stages = {design.stages}"]
    lines += ["", "[plant]", f"den = {design.plant_den}", f"a = {rows(design.a)}", f"b = {rows(design.b)}"]
    lines += [
        "",
        "[cost]",
        f"den = {design.cost_den}",
        f"row_den = {design.row_den}",
        f"input = {[int(v) for v in design.input_weights]}",
        f"stage = {rows(design.stage_cost)}",
        f"final = {rows(design.final_cost)}",
    ]
    lines += ["", "[limits]", f"den = {design.limit_den}", f"stage = {rows(design.stage_rows)}", f"final = {rows(design.final_rows)}"]
    lines += ["", "[box]", f"grid = {design.grid}", f"lo = {list(design.lo)}", f"hi = {list(design.hi)}"]
    lines += ["", "[targets]", f"den = {design.target_den}", f"violation = {design.violation}", f"gap = {design.gap}"]
    return "\n".join(lines) + "\n"
