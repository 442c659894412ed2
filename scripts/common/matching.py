"""What shows that a report, a controller or the lines of a loop are of another design: the first thing that differs, in words; None where nothing does.

A report says less than a controller, and of some designs that differ little the same. A controller has the rows of its design, number by number.
"""
from collections.abc import Iterable
from fractions import Fraction

from . import sizes
from .condensed import Condensed, factor, solve
from .corners import corners_of, lean_multiplier_of, margin_of, multiplier_of, steps_of
from .design_text import Design, plain
from .excess import excesses_of
from .libraries import Refusal
from .machines import machine_of
from .texts import Controller

# gains are rounded solutions: those of another cost are off by more than this part of the greatest of their column
GAIN_PART, GAIN_UNITS = 0.02, 16.0
# exact_loop rounds its states from floats, and its inputs to 2^-40
NEAREST = Fraction(1, 2) + Fraction(1, 1000)


def refuse(what: str, other: str, difference: str | None) -> None:
    """Ends where there is a difference."""
    if difference:
        raise Refusal(f"{what} is of another {other}: {difference}")


def first(pairs: Iterable[tuple[str, object, object]], other: str) -> str | None:
    """The first of these names whose two values are not the same."""
    for name, here, there in pairs:
        if here != there:
            return f"its {name} is {here}, and that of the {other} {there}"
    return None


def words_of(design: Design) -> int:
    """The words of memory that a run of the design's controller needs."""
    return design.states + machine_of(design.version).lists * design.rows + 2 * design.entries


def report_difference(report: dict, design: Design) -> str | None:
    """Of a report and a design."""
    pairs = [("version", report["version"], design.version), ("number of words", report["words"], words_of(design))]
    if report["violations"]:
        pairs.append(("number of rows", len(report["violations"]), design.rows))
    steps = steps_of(design, report["step"], report["multiplier"], report["lean"])
    pairs.append((f"K, at R {report['multiplier']} and step 2^-{report['step']},", report["steps"], steps))
    found = first(pairs, "design")
    if found:
        return found
    for name, printed, target in (("violation", report["violation"], design.violation), ("gap", report["gap"], design.gap)):
        if printed > Fraction(target, design.target_den):
            return f"its {name} is {plain(printed)}, and the design's target {plain(Fraction(target, design.target_den))}"
    return None


def policy_difference(report: dict, design: Design, policy: list, reference: list | None = None) -> str | None:
    """Of a report and a policy, and of the reference plans of a lean report where these are known: what the plans show is exact."""
    margin, cost = margin_of(corners_of(design, policy))
    told: list[tuple[str, object, object]] = [("margin", plain(report["margin"]), plain(Fraction(margin, 2**16)))]
    if not report["lean"]:
        told += [("cost", report["cost"], cost), ("R", report["multiplier"], multiplier_of(margin, cost))]
    elif reference:
        excess = max(0, *excesses_of(design, sizes.form_of(design), policy, reference)[0])
        told += [("excess", int(report["excess"] * 2**16), excess), ("R", report["multiplier"], lean_multiplier_of(design, margin, excess))]
    return first(told, "policy")


def made_difference(controller: Controller, report: dict) -> str | None:
    """Of a controller and a report."""
    c = controller
    names = [("version", c.version), ("number of bits", c.bits), ("step", c.step), ("width", c.width), ("number of steps", c.steps), ("number of words", c.words)]
    keys = ["version", "bits", "step", "width", "steps", "words"]
    pairs = [(name, value, report[key]) for (name, value), key in zip(names, keys)]
    return first([*pairs, ("clamp", c.clamp, 2 * report["multiplier"] * 2 ** (c.bits + c.step))], "report")


def controller_difference(controller: Controller, design: Design) -> str | None:
    """Of a controller and a design: sizes, box, rows and gains."""
    c, d = controller, design
    pairs: list[tuple[str, object, object]] = [("version", c.version, d.version), ("number of states", c.states, d.states), ("number of inputs", c.inputs, d.inputs), ("number of stages", c.stages, d.stages)]
    pairs += [("number of rows", c.rows, d.rows), ("grid", c.grid, d.grid), ("lo", c.lo, list(d.lo)), ("hi", c.hi, list(d.hi))]
    found = first(pairs, "design")
    if found:
        return found
    form = sizes.form_of(design)
    return row_difference(controller, design, form) or gain_difference(controller, form)


def row_difference(controller: Controller, design: Design, form: Condensed) -> str | None:
    """Of the rows, which are those of the condensed form over 2^f, to the nearest."""
    near = lambda values: [(2 * 2**controller.bits * v + form.row_den) // (2 * form.row_den) for v in values]
    bounds = near(form.bounds)
    for i in range(design.rows):
        made = (controller.G[i], controller.E[i], controller.b[i])
        if made != (near(form.rows[i]), near(form.state_rows[i]), bounds[i]):
            return f"{design.row_words(i + 1)} is not the row of the controller"
    return None


def gain_difference(controller: Controller, form: Condensed) -> str | None:
    """Of the gains, which solve the condensed cost: those of the state, of the targets and of a row."""
    scale = 2**controller.bits
    lower: list = factor([[v / form.hess_den for v in row] for row in form.hess])
    column = lambda table, i: [row[i] for row in table]
    pairs = [(column(controller.P, i), [row[i] / form.hess_den for row in form.lin]) for i in range(controller.states)]
    pairs += [(controller.T, [v / form.hess_den for v in form.off]), (column(controller.W, 0), [v / form.row_den for v in form.rows[0]])]
    for gains, right in pairs:
        wanted: list[float] = [v * scale for v in solve(lower, right)]
        allowed = GAIN_PART * max(abs(v) for v in wanted) + GAIN_UNITS
        if any(abs(gain - value) > allowed for gain, value in zip(gains, wanted)):
            return "its gains are those of other weights or targets, or of another plant"
    return None


def loop_difference(loops: dict, design: Design, shifts: list | None = None) -> str | None:
    """Of loops, record -> list of (state, inputs): each next state is the nearest on the grid to what the plant makes of the one before, and what is added in that turn."""
    scale = 2**design.grid
    for record, loop in loops.items():
        for turn, ((state, inputs), (after, _)) in enumerate(zip(loop, loop[1:]), 1):
            now = [*state, *inputs]
            for i, (a, b) in enumerate(zip(design.a, design.b)):
                shift = shifts[turn - 1][i] if shifts and turn <= len(shifts) else 0
                wanted = scale * sum(f * v for f, v in zip([*a, *b], now)) / design.plant_den + shift
                if abs(wanted - scale * after[i]) > NEAREST:
                    name = design.name("state", i + 1).word
                    return f"after turn {turn} of start {record} its plant goes to {name} {plain(wanted / scale)}, and the next line says {plain(after[i])}"
    return start_difference(loops, design)


def start_difference(loops: dict, design: Design) -> str | None:
    """Of loops that begin outside the box, where none begins."""
    for record, loop in loops.items():
        for i, value in enumerate(loop[0][0]):
            if not design.lo[i] <= value * 2**design.grid <= design.hi[i]:
                return f"start {record} lies outside the box in {design.name('state', i + 1).word} ({plain(value)})"
    return None


def state_fault(states: list, design: Design) -> str | None:
    """What is wrong with the records of a states text."""
    for number, record in enumerate(states, 1):
        if len(record) != design.states:
            return f"record {number} has {len(record)} numbers, and the design {design.states} states"
        for i, value in enumerate(record):
            if not design.lo[i] <= value <= design.hi[i]:
                return f"record {number} is outside the design's box in {design.name('state', i + 1).word} ({value}, and the box is {design.lo[i]} to {design.hi[i]})"
    return None


def policy_fault(policy: list, design: Design) -> str | None:
    """What is wrong with the records of a policy."""
    if len(policy) != 2**design.states:
        return f"it has {len(policy)} plans, and the design {2**design.states} corners"
    for number, record in enumerate(policy, 1):
        if len(record) != 1 + design.entries:
            return f"plan {number} has {len(record)} numbers, and the design wants {1 + design.entries}: a denominator and {design.entries} inputs"
        if record[0] < 1:
            return f"the denominator of plan {number} is {record[0]}"
    return None
