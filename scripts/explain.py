"""Says what a report, a controller, a design with its policy, or the lines of `solve`, `loop` and `settle` hold, in decimals and in the design's units.

    ./mpc explain FILE [DESIGN] [POLICY [REFERENCE]] [CONTROLLER] [REPORT] [--clock MHZ] [--cycles N]

The files come in any order, but for reference plans, which come after their policy; each is known by what it holds. FILE alone will do, and each further one adds what
follows from it:

    a report          every bound in decimals, and K = 2^(s+2) R over the violation target; from version 2 on by how much each row may be exceeded
    with a controller the products of a run, the bits of gains, multipliers and plan, the exponents of rows, and what its C takes of a Cortex-M4 at a clock (100 MHz); what
                      version 3 would take where that is less, and of one of version 3 an estimate, beside what version 2 would take
    with a design     bounds in the units that its comments name, row by row, and the sizes in bits of 126
    with its policy   where R comes from: the corner and row of the least slack, the corner of the greatest cost, the step against the curvature; of a lean controller, with
                      its reference plans, the corner of the greatest excess
    cells             what `split` wrote, the controllers or the reports or both: the box of each cell, and what its report says
    lines             each number as a decimal; with a design, by name and unit
    what settle says  with its design, the box in which every loop lies from its turn on

It computes anew, in Python, what it says of a design and a policy, and changes nothing; the program's report is what counts.
"""
from collections.abc import Callable, Iterable, Iterator, Sequence
from dataclasses import replace
from fractions import Fraction

from .common import files, matching, sizes
from .common.arguments import Parser, positive
from .common.c_costs import c_words, other_cycle_words, saves
from .common.condensed import Condensed, condense, curvature
from .common.corners import Corner, corners_of, cost_limit, lean_multiplier_of, margin_of, multiplier_of, steps_of
from .common.design_text import Design, design_of, plain
from .common.excess import excesses_of
from .common.libraries import Refusal, run
from .common.machines import accelerated_steps, is_accelerated, machine_of, plain_steps
from .common.promises import promise_of, promise_words
from .common.texts import Controller, cells_of, controller_of, kind_of, read_text, records_of, report_of, reports_of
from .common.trajectories import dot

WORD = 32
# above so many steps it is told what the accelerated machine would take
MANY = 100
KINDS = {"design": "a design", "controller": "a controller", "cells": "cells", "report": "a report", "policy": "a policy", "reference": "a policy or reference plans"}
KINDS |= {"lines": "lines of solve or loop, or nothing that is known", "settled": "what settle says"}


def bits_of(numbers: Iterable[int]) -> int:
    """The bits of a signed word that holds each of these."""
    return max((v if v >= 0 else -v - 1).bit_length() + 1 for v in numbers)


def flat(rows: list) -> list:
    return [v for row in rows for v in row]


def report_words(report: dict, design: Design | None) -> Iterator[str]:
    """A report's lines in decimals."""
    least = " or more" if min(report["violations"], default=report["violation"]) < report["violation"] else ""
    yield f"every run takes K = {report['steps']} steps, a step is 2^-{report['step']}{least}, plans and gains have f = {report['bits']} fraction bits"
    if is_accelerated(report["version"]):
        yield weight_words(report["steps"])
    yield f"no product and no partial sum leaves a signed word of {report['width']} bits; {report['words']} words hold all that changes"
    if report["lean"]:
        yield f"R = {report['multiplier']}: the excess {plain(report['excess'])} over the sum of the least slack {plain(report['margin'])} and the violation target, rounded up"
    else:
        yield f"R = {report['multiplier']}: the greatest cost {report['cost']} over the least slack {plain(report['margin'])}, rounded up"
    if design is None:
        by_row = list(enumerate(report["violations"], 1))
        yield f"a limit is exceeded by at most {plain(report['violation'])}, in the unit of its row" + (f": {parted(by_row, plain, 'in row')}" if by_row else "")
    elif report["violations"] and len(report["violations"]) != design.rows:
        raise ValueError(f"the report has {len(report['violations'])} rows, and the design {design.rows}")
    else:
        for number in range(1, len(design.stage_rows) + 1):
            yield violation_words(report, design, "stage row", number)
        for number in range(1, len(design.final_rows) + 1):
            yield violation_words(report, design, "final row", number)
    part = f", {plain(100 * report['gap'] / report['cost'])} % of the corners' greatest cost" if report.get("cost") else ""
    yield f"the plan costs at most {plain(report['gap'])} more than any feasible plan{part}"
    times = "the violation target" if report["lean"] else "the violation"
    yield f"and some feasible plan costs at most {plain(report['undercut'])} more than it (R times {times}, loose)"


def weight_words(steps: int) -> str:
    """How the plans of an accelerated run count."""
    weights = f"weights 2 to {steps + 1}, together" if steps > 1 else "weight"
    return f"the machine is accelerated (version 3): the plans count by the {weights} {machine_of(3).total(steps)}, over which the sums of `solve` are averaged"


def violation_words(report: dict, design: Design, kind: str, number: int) -> str:
    """By how much a row is exceeded at most; where its rows of the plan differ, at which stages."""
    name = design.name(kind, number)
    word = f"{kind} {number} ({name.word})" if (kind, number) in design.names else f"{kind} {number}"
    by_stage = [(stage, report["violations"][row - 1] if report["violations"] else report["violation"]) for row, stage in design.rows_of(kind, number)]
    bounds = {bound for _, bound in by_stage}
    told = name.shown(*bounds) if len(bounds) == 1 else parted(by_stage, name.shown, "at stage")
    return f"{word} is exceeded by at most {told}, at any state of the box"


def parted(places: Sequence[tuple], shown: Callable[..., str], at: str) -> str:
    """Bounds with the places that have them, the greatest first, as '2 V at stage 3, 1 V at stages 0 to 2 and 4'."""
    bounds = sorted({bound for _, bound in places}, reverse=True)
    found = [(bound, [place for place, other in places if other == bound]) for bound in bounds]
    return ", ".join(f"{shown(bound)} {at}{'s' * (len(some) > 1)} {ranges(some)}" for bound, some in found)


def ranges(numbers: Iterable[int]) -> str:
    """Rising numbers in words, as '0 to 2, 4 and 6'."""
    runs: list[list[int]] = []
    for number in numbers:
        if runs and runs[-1][-1] == number - 1:
            runs[-1].append(number)
        else:
            runs.append([number])
    words = [word for run in runs for word in (map(str, run) if len(run) < 3 else [f"{run[0]} to {run[-1]}"])]
    return " and ".join([", ".join(words[:-1]), words[-1]] if len(words) > 1 else words)


def cost_words(controller: Controller, period: float | None, clock: float, cycles: float | None) -> Iterator[str]:
    """What a run costs."""
    c = controller
    plain_step = c.entries * (c.states + c.rows) + c.rows * (c.entries + c.states)
    gains = c.entries * c.rows * 2
    counts = sum(v != 0 for v in flat(c.W)), sum(v != 0 for v in flat(c.G))
    used = sum(counts)
    yield f"a step has {plain_step} products as the machine is written; {gains} where the state's share is made once a run; {used} of these are not with 0"
    multiplier, plan = bits_of([c.clamp]), plan_bits(c)
    # each gain meets a multiplier, and each factor of a row a plan entry
    pairs = (bits_of(flat(c.W)), multiplier), (bits_of(flat(c.G)), plan)
    each = [words_of(left) * words_of(right) for left, right in pairs]
    run, short = used * c.steps, c.steps * sum(count * pieces for count, pieces in zip(counts, each))
    pieces = f", which are {short} of 32-bit words" if short > run else ""
    taken = f": {plain(short * cycles / clock / 1e3)} ms at {plain(clock)} MHz and {plain(cycles)} cycles a product of 32-bit words" if cycles else ""
    yield f"a run has {run} products ({gains * c.steps}; {plain_step * c.steps}){pieces}{taken}"
    if c.version > 1:
        yield exponent_words(c)
    yield (
        f"signed words: gains W {bits_of(flat(c.W))} bits, P {bits_of(flat(c.P))}, rows G {bits_of(flat(c.G))}, E {bits_of(flat(c.E))}, "
        f"{accelerated_bits(c) if is_accelerated(c.version) else f'multipliers {multiplier}'}, plan {plan}"
    )
    yield from c_words(c, period, clock)


def accelerated_bits(c: Controller) -> str:
    """The bits of the rows' numbers in an accelerated run."""
    return f"multipliers {bits_of([2 * c.clamp])}, their sums by weights {bits_of([2 * c.clamp * machine_of(c.version).total(c.steps)])}, means {bits_of([c.clamp])}"


def words_of(bits: int) -> int:
    """The 32-bit words of a signed number of so many bits."""
    return -(-bits // WORD)


def exponent_words(c: Controller) -> str:
    """How many rows have which step exponent."""
    counts = [(exponent, c.exps.count(exponent)) for exponent in sorted(set(c.exps), reverse=True)]
    if len(counts) == 1:
        return f"each row has the step exponent {c.exps[0]}"
    told = ", ".join(f"{exponent} in {count} row{'s' * (count > 1)}" for exponent, count in counts)
    return f"the step exponent of a row is {told}; its multiplier is shifted left by what that is below {c.step}, which is no product"


def plan_bits(c: Controller) -> int:
    """The bits of the greatest plan entry that the gains allow over the box."""
    reach = [max(abs(l), abs(h)) * 2 ** (c.bits - c.grid) for l, h in zip(c.lo, c.hi)]
    entry = lambda j: 2**c.step * (sum(abs(g) * x for g, x in zip(c.P[j], reach)) + abs(c.T[j]) * 2**c.bits) + sum(map(abs, c.W[j])) * c.clamp
    return bits_of([-((-entry(j)) >> (c.bits + c.step)) for j in range(c.entries)])


def bound_words(design: Design, policy: list, report: dict | None, reference: list | None = None) -> Iterator[str]:
    """Where R, the step and K come from."""
    corners = corners_of(design, policy)
    margin, cost = margin_of(corners)
    least, lean = min(corners, key=lambda c: c.least[0]), is_lean(report, reference)
    excesses = excesses_of(design, sizes.form_of(design), policy, reference)[0] if reference else None
    for corner in corners:
        slack, row = corner.least
        costs = f"excess {plain(excesses[corner.number - 1] / 2**16)}" if excesses else f"cost {plain(corner.cost)}"
        yield f"{design.corner_words(corner.number)}: {costs}, least slack {plain(slack)} in {design.row_words(row)}"
    if margin <= 0:
        yield f"there is no margin: the plan of {design.corner_words(least.number)} breaks {design.row_words(least.least[1])}"
        return
    bound = multiplier_from(design, policy, report, reference)
    if excesses:
        yield lean_bound_words(design, least, margin, excesses, bound)
    elif lean:
        yield f"R = {bound}, of the report: its reference plans, named after the policy, show where it comes from"
    else:
        dearest = max(corners, key=lambda c: c.cost)
        yield (
            f"R = {bound}: cost {cost} (from {design.corner_words(dearest.number)}) over margin {plain(Fraction(margin, 2**16))} "
            f"(from {design.corner_words(least.number)}, {design.row_words(least.least[1])})"
        )
        if cost < 10:
            yield "the greatest cost is below 10 and is rounded up to a whole number: all weights by one greater factor lose less"
    yield from step_words(design, report, bound, lean)
    if excesses:
        yield from whole_words(design, report, margin, max(0, *excesses))


def is_lean(report: dict | None, reference: list | None) -> bool:
    return reference is not None or report is not None and report["lean"]


def multiplier_from(design: Design, policy: list, report: dict | None, reference: list | None) -> int | None:
    """R of a policy, and of its reference plans where there are such; a lean report without these says it itself."""
    margin, cost = margin_of(corners_of(design, policy))
    if reference is not None:
        return lean_multiplier_of(design, margin, max(0, *excesses_of(design, sizes.form_of(design), policy, reference)[0]))
    return report["multiplier"] if report and report["lean"] else multiplier_of(margin, cost)


def lean_bound_words(design: Design, least: Corner, margin: int, excesses: list, bound: int) -> str:
    excess, target = max(excesses), Fraction(design.violation, design.target_den)
    return (
        f"R = {bound}: excess {plain(Fraction(max(0, excess), 2**16))} (from {design.corner_words(excesses.index(excess) + 1)}) over the sum of margin {plain(Fraction(margin, 2**16))} "
        f"(from {design.corner_words(least.number)}, {design.row_words(least.least[1])}) and target {plain(target)}"
    )


def step_of(report: dict | None, steep: float) -> int:
    """The step exponent: the report's, or the least that reaches the curvature."""
    return report["step"] if report else next(step for step in range(1000) if 2**step >= steep)


def step_words(design: Design, report: dict | None, bound: int, lean: bool) -> Iterator[str]:
    """The step against the curvature, and K."""
    steep = curvature(design, condense(design))
    step = step_of(report, steep)
    yield f"the curvature is {plain(steep)}, and the step needs 2^{step} = {2**step}: " + (
        "nothing is lost" if steep > 0.9 * 2**step else f"all weights by {plain(steep * 1.003 / 2**step)} would cost nothing and take K by that factor"
    )
    steps, fast = steps_of(design, step, bound, lean), is_accelerated(design.version)
    over = Fraction(design.violation, design.target_den) * (Fraction(15, 16) if lean else 1)
    power = (1 if lean else 2) + 2 * fast
    formula = f"2^(s+{power}) R {'over 15/16 of the target' if lean else '/ target'} = {plain(2 ** (step + power))} * {bound} / {plain(over)}"
    if fast:
        of_plain = steps_of(replace(design, version=2), step, bound, lean)
        yield f"K = {steps}, the least with K (K + 3) at least {formula} = {plain(2 ** (step + power) * bound / over)}; in version 2 K = {of_plain}"
    else:
        yield f"K = {formula} = {steps}"


def other_words(design: Design | None, report: dict | None, controller: Controller | None) -> Iterator[str]:
    """What the other machine would take: the plain one in place of the accelerated; and that in place of the plain one, where it takes many steps or would take fewer cycles."""
    made = report or {"version": controller.version, "steps": controller.steps}
    fast = is_accelerated(made["version"])
    if not fast and not (made["steps"] > MANY or controller and saves(controller)):
        return
    if design and report:
        other = steps_of(replace(design, version=2 if fast else 3), report["step"], report["multiplier"], report["lean"])
        told = f"K = {other}"
    else:
        other = plain_steps(made["steps"]) if fast else accelerated_steps(made["steps"])
        told = f"at most {other} steps"
    cycles = other_cycle_words(controller, other) if controller else ""
    yield f"version {2 if fast else 3} would take {told}{cycles}" + ("" if fast else " (docs/SPEED.md)")


def whole_words(design: Design, report: dict | None, margin: int, excess: int) -> Iterator[str]:
    """What is lost where R is rounded up to a whole number and the step isn't 1."""
    step = step_of(report, curvature(design, condense(design)))
    now = steps_of(design, step, lean_multiplier_of(design, margin, excess), True)
    best, power = min((steps_of(design, step - power, lean_multiplier_of(design, margin, excess * 2**power), True), power) for power in range(step + 1))
    if best < 0.95 * now:
        yield f"R is rounded up to a whole number: with all weights by {2**power} the step would be 2^-{step - power}, and K about {best}"


def told_sizes(found: dict) -> str:
    return ", ".join(f"{name} {sizes.bits(value):.1f}" for name, value in found.items())


def wide(found: dict) -> dict:
    return {name: value for name, value in found.items() if value > sizes.LIMIT}


def class_words(design: Design, policy: list, form: Condensed) -> Iterator[str]:
    """What is held in enclosures, and why."""
    if sizes.has_fine_corners(design, policy):
        found = told_sizes(wide(sizes.exact_corner_sizes(design, policy)))
        yield f"exact numbers of the corners pass 126 bits ({found}), so the plans are simulated in enclosures, midpoints and radii over 2^40: fine corners"
    if form.fine:
        found = told_sizes(wide(sizes.exact_sizes(design, condense(design))))
        yield f"exact condensed numbers pass 126 bits ({found}), so they are held as enclosures, midpoints and radii over 2^40: a fine design"
    lowered, own = wide(sizes.lowered_sizes(design, form)), wide(sizes.form_sizes(design, form))
    if design.version > 1 and lowered and not own:
        yield f"with rows that count 16 times, sizes pass 126 bits ({told_sizes(lowered)}), so that no row has a smaller step exponent, and each the same violation"


def size_words(design: Design, policy: list, report: dict | None, reference: list | None = None, exponents: list | None = None) -> Iterator[str]:
    """Each quantity in bits of 126, of the corners and of the condensed form by their classes."""
    _, cost = margin_of(corners_of(design, policy))
    bound, form = multiplier_from(design, policy, report, reference), sizes.form_of(design)
    yield from class_words(design, policy, form)
    parts = {" of the corners' enclosures": {}, "": {}, " of the enclosures": {}}
    parts[" of the corners' enclosures" if sizes.has_fine_corners(design, policy) else ""] |= sizes.corner_sizes(design, policy)
    if reference is not None:
        found, size = excesses_of(design, form, policy, reference)
        parts[""] |= {"excess": size} | ({"multiplier": sizes.multiplier_size(design, bound, max(found))} if bound else {})
    elif bound:
        parts[""] |= {"multiplier": sizes.multiplier_size(design, bound, 0 if is_lean(report, None) else 2**16 * cost)}
    parts[" of the enclosures" if form.fine else ""] |= later_sizes(design, form, bound, report, is_lean(report, reference), exponents)
    told = "; ".join((f"{of.strip()}: " if of else "") + told_sizes(found) for of, found in parts.items() if found)
    yield f"sizes in bits, at most 126 each: {told}"
    for of, found in parts.items():
        if wide(found):
            yield f"too wide{of}: {', '.join(wide(found))} (docs/SIZES.md)"


def later_sizes(design: Design, form: Condensed, bound: int | None, report: dict | None, lean: bool = False, exponents: list | None = None) -> dict:
    """The sizes of a condensed form, and of what is made of it as far as there is a bound R and a form within the limit; in version 3 by the exponents of rows where these are known."""
    found = sizes.form_sizes(design, form)
    if bound is None:
        return found
    step = report["step"] if report else 0
    steps = steps_of(design, step, bound, lean)
    errors = sizes.Errors(design, form, bound, steps, step, exponents)
    found["error"] = errors.size
    target = cost_limit(design, bound, lean)
    f = next((f for f in range(design.grid, 49) if errors.cost(f) <= target), None)
    if f is not None and found["hessian"] <= sizes.LIMIT:
        found["descent"], bounds = sizes.gain_bounds(design, form, f)
        found["width"] = sizes.greatest_width(design, form, bound, step, steps, f, bounds)
    return found


def exceeded(design: Design, state: list | None, inputs: list) -> Iterator[str]:
    """The stage rows that a state and inputs exceed, and by how much, as words; where the state isn't known, the rows on inputs alone."""
    for number, row in enumerate(design.stage_rows, 1):
        if state is None and any(row[: design.states]):
            continue
        excess = (dot(row[:-1], (state or [0] * design.states) + inputs) - row[-1]) / Fraction(design.limit_den)
        if excess > 0:
            name = design.name("stage row", number)
            yield f"; {name.word} is exceeded by {name.shown(excess)}"


def line_words(line: str, design: Design | None) -> Iterator[str]:
    """A line of `solve` or `loop` in decimals."""
    numbers = [int(word) for word in line.split()]
    if design is None:
        yield " ".join(plain(Fraction(v, numbers[0])) for v in numbers[1:]) if numbers and numbers[0] > 0 else line
        return
    n, p = design.states, design.inputs

    def told(sums: list, den: int, state: list | None = None) -> str:
        values = [Fraction(v, den) for v in sums]
        names = [design.name("input", l + 1) for l in range(p)]
        return ", ".join(f"{name.word} {name.shown(v)}" for name, v in zip(names, values)) + "".join(exceeded(design, state, values))

    if len(numbers) == 1 + design.entries:
        for k in range(design.stages):
            yield f"stage {k}: {told(numbers[1 + k * p : 1 + (k + 1) * p], numbers[0])}"
    elif len(numbers) == n + p + 3:
        state = [Fraction(v, 2**design.grid) for v in numbers[2 : 2 + n]]
        names = [design.name("state", i + 1) for i in range(n)]
        shown = ", ".join(f"{name.word} {name.shown(v)}" for name, v in zip(names, state))
        yield f"start {numbers[0]}, turn {numbers[1]}: {shown}; {told(numbers[3 + n :], numbers[2 + n], state)}"
    else:
        yield f"{len(numbers)} numbers: no line of this design"


def explain(texts: dict, clock: float = 100.0, cycles: float | None = None) -> Iterator[str]:
    """The words for these texts, by kind; of lines there may be any number."""
    design = design_of(texts["design"]) if "design" in texts else None
    reports = reports_of(texts["report"]) if "report" in texts else []
    if "cells" in texts or len(reports) > 1:
        yield from cells_words(texts, design, reports)
        return
    report = report_of(texts["report"]) if "report" in texts else None
    policy = records_of(texts["policy"]) if "policy" in texts else None
    reference = records_of(texts["reference"]) if "reference" in texts else None
    controller = controller_of(texts["controller"]) if "controller" in texts else None
    refuse_others(design, report, policy, controller, reference)
    if report:
        yield from report_words(report, design)
    if controller:
        yield from cost_words(controller, design.period if design else None, clock, cycles)
    if controller or report:
        yield from other_words(design, report, controller)
    if design and policy:
        yield from bound_words(design, policy, report, reference)
        yield from size_words(design, policy, report, reference, controller.exps if controller else None)
    if "settled" in texts:
        if design is None:
            raise Refusal("what settle says is explained with its design: name that, too")
        yield promise_words(design, promise_of(texts["settled"], design.states))
    lines = texts.get("lines", [])
    for line in lines.splitlines() if isinstance(lines, str) else lines:
        yield from line_words(line, design)
    if design and len(texts) == 1:
        yield f"{design.states} states, {design.inputs} inputs, {design.stages} stages, {design.rows} limit rows; name its policy or its report, too"


def cells_words(texts: dict, design: Design | None, reports: list[str]) -> Iterator[str]:
    """Of each cell its box, as far as the controllers are there, and its report, as far as that is."""
    others = [KINDS[kind] for kind in texts if kind not in ("cells", "report", "design")]
    if others:
        raise Refusal(f"cells are explained with their reports and their design, and not with {others[0]}")
    cells = cells_of(texts["cells"]) if "cells" in texts else []
    if cells and reports and len(cells) != len(reports):
        raise Refusal(f"there are {len(cells)} cells, and {len(reports)} reports")
    for number in range(1, 1 + max(len(cells), len(reports))):
        controller, report = (cells[number - 1] if cells else None), report_of(reports[number - 1]) if reports else None
        its = replace(design, lo=controller.lo, hi=controller.hi) if design and controller else design
        refuse_others(its, report, None, controller)
        yield f"cell {number}" + (f": {box_words(controller, design)}" if controller else "")
        if report:
            yield from report_words(report, its)
        else:
            yield f"every run takes K = {controller.steps} steps, with f = {controller.bits} fraction bits in a signed word of {controller.width} bits"


def box_words(controller: Controller, design: Design | None) -> str:
    """A controller's box, in units where there is a design."""
    ends = [[Fraction(v, 2**controller.grid) for v in pair] for pair in zip(controller.lo, controller.hi)]
    names = [design.name("state", i + 1) for i in range(design.states)] if design else []
    if names:
        return ", ".join(f"{name.word} {name.shown(low)} to {name.shown(high)}" for name, (low, high) in zip(names, ends))
    return ", ".join(f"x{i} {plain(low)} to {plain(high)}" for i, (low, high) in enumerate(ends, 1))


def refuse_others(design: Design | None, report: dict | None, policy: list | None, controller: Controller | None, reference: list | None = None) -> None:
    """Ends where two of these are not of one design, by what differs."""
    if report and design:
        matching.refuse("the report", "design", matching.report_difference(report, design))
    if controller and design:
        matching.refuse("the controller", "design", matching.controller_difference(controller, design))
    if controller and report:
        matching.refuse("the controller", "report", matching.made_difference(controller, report))
    for what, records in (("the policy", policy), ("the file of reference plans", reference)):
        if design and records:
            matching.refuse(what, "design", matching.policy_fault(records, design))
    if reference and report and not report["lean"]:
        raise Refusal("the report is of a controller that `generate` made, which has no reference plans")
    if report and design and policy:
        matching.refuse("the report", "policy", matching.policy_difference(report, design, policy, reference))


def read_file(path: str) -> tuple[str, str | Iterator[str]]:
    """The kind of a file, and its text; of lines, as many as come."""
    with open(path, "rb") as file:
        start = file.peek(files.LONGEST_LINE).decode("utf-8-sig", "replace")
    kind = kind_of(start)
    return kind, files.lines_of(path) if kind == "lines" else read_text(path)


def read_files(paths: list[str]) -> dict:
    """The texts by kind, each of another kind."""
    found: dict[str, str | Iterator[str]] = {}
    held: dict[str, str] = {}
    for path in paths:
        kind, text = read_file(path)
        kind = "reference" if kind == "policy" and kind in found else kind
        if kind in found:
            raise Refusal(f"{held[kind]} and {path} both hold {KINDS[kind]}: one of each kind is explained at a time")
        found[kind], held[kind] = text, path
    return found


def main() -> int:
    parser = Parser(__doc__, prog="./mpc explain", usage="./mpc explain FILE [DESIGN] [POLICY [REFERENCE]] [CONTROLLER] [REPORT] [--clock MHZ] [--cycles N]")
    parser.add_argument("files", nargs="+")
    parser.add_argument("--clock", type=positive, default=100.0)
    parser.add_argument("--cycles", type=positive, help="of a product of 32-bit words that isn't by 0, on a processor of your own")
    given = parser.parse_args()
    files.keep_apart({f"FILE {place}": path for place, path in enumerate(given.files, 1)}, {"WORDS": files.STANDARD_OUTPUT})
    for words in explain(read_files(given.files), given.clock, given.cycles):
        print(words)
    return 0


if __name__ == "__main__":
    run(main)
