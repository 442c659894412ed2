"""Drafts a design from a continuous model with limits, cost and box, all in physical units.

    ./mpc draft MODEL [DESIGN] [--gap PART] [--keep-weights] [--lean] [--accelerated]

It samples and rounds the plant, divides each limit row by its tolerance (so that the violation target is 1 for all), holds limits on states at the next state,
takes all weights by one factor so that the curvature is just below 1 (step 0), and asks for a gap of PART (0.1) of the greatest cost. From version 2 on the curvature is just
below 16 (step 4): that leaves the steps as they are, and the exponents of flat rows can be lowered. The design goes to DESIGN, or is printed; what was done goes to
standard error: what each rounding moved, and where the loop of the design settles beside that of the model. The policy is the next step: ./mpc policy DESIGN POLICY.

    --keep-weights    takes the weights as they are, with no common factor
    --lean            for a lean controller, whose R is small and counts as a whole number: from version 2 on the curvature is just below that power of two from 1 to 16, the
                      greatest, by which R loses at most a tenth to that (step 0 to 4)
    --accelerated     for a lean controller of the accelerated machine, which takes about twice the root of the steps: the design is of version 3, whatever the model's is. So it is where
                      the model has `version = 3`

Where a size of the design would pass what the program accepts, the plant is rounded to a smaller denominator, or weights and limits more coarsely, and that is said.
"""
import math
from dataclasses import dataclass, field, replace

from .common import models
from .common.libraries import need, run, say

need("numpy", "scipy", "cvxopt", "jsonschema")
import numpy

from .common import files, sizes
from .common.arguments import Parser, positive
from .common.condensed import curvature
from .common.corners import corners_of, margin_of, multiplier_of
from .common.design_text import Design, Name, plain, text_of
from .common.lean_plans import LeanPlans
from .common.lean_plans import whole as whole_bound
from .common.machines import is_accelerated
from .common.models import Model, named, read_model
from .common.programs import Programs
from .common.rounding import limit_denominator, moves, whole_limits, whole_ratio, whole_row
from .common.settling import Settled, settled
from .discretise import least_den, lost, response_error, responses_error, rounded, row_sum
from .explain import later_sizes
from .policy import plans_with, search

# the step exponent, by version: from version 2 on that of a row is up to 4 less
STEP = {1: 0, 2: 4, 3: 4}
# what R may lose to being whole
WHOLE_LOSS = 1.1
NUMERATOR = 2147483647
DENOMINATOR = 1048576
# the parts of themselves by which numbers may move, one after the other, where the sizes refuse the first
COARSER = (0.002, 0.005, 0.01, 0.03)
TRIES = 24


@dataclass
class Side:
    """One side of a limit: its row over the design's states and inputs, then its bound, all over the tolerance."""

    name: str
    row: numpy.ndarray
    tolerance: float
    unit: str
    later: bool = False
    stays: bool = False


@dataclass
class Drafted:
    """A design, what it would be with nothing rounded, and what was said of it."""

    design: Design
    exact: Design
    said: list[str] = field(default_factory=list)


# ---- limits


def sides_of(model: Model, a: numpy.ndarray, b: numpy.ndarray) -> list[Side]:
    """The limits' sides: above, and below where there is a least value. A limit on states alone holds at the next state, or at the next that inputs change."""
    out = []
    for number, limit in enumerate(model.text.get("limit", []), 1):
        tolerance, name = float(limit["tolerance"]), limit.get("name", f"limit {number}")
        states, inputs, later = model.row(limit), model.planned(limit), False
        if not any(limit.get("input", [])) and not any(limit.get("change", [])):
            later = not numpy.any(abs(states @ b) > 1e-12 * (abs(states) @ abs(a)).max())
            states, inputs = (states @ a @ a, states @ a @ b) if later else (states @ a, states @ b)
        row, unit = numpy.r_[states, inputs], unit_of(model, limit)
        above, below = float(limit.get("bound", math.inf)), float(limit.get("least", -math.inf))
        both = math.isfinite(above) and math.isfinite(below)
        if math.isfinite(above):
            out.append(Side(name + " above" * both, numpy.r_[row, above] / tolerance, tolerance, unit, later))
        if math.isfinite(below):
            out.append(Side(name + " below" * both, numpy.r_[-row, -below] / tolerance, tolerance, unit, later))
    return out + staying_sides(model, a, b)


def staying_sides(model: Model, a: numpy.ndarray, b: numpy.ndarray) -> list[Side]:
    """Limits on the next state, by which it stays in the box: inside its ends by what they may be exceeded, and by what moves it from outside: whole steps of the grid, and half of
    one for rounding."""
    out, grid, (lo, hi) = [], int(model.text["box"].get("grid", 4)), model.ends()
    for i, (tolerance, moved) in enumerate(zip(model.stay, model.disturbed)):
        size, (word, unit) = model.state_units[i], model.names[i]
        if tolerance and not any(abs(b[i]) > 1e-12 * abs(a[i]).max()):
            models.refuse([f"box.stay[{i + 1}]: 0 is expected, since no input moves the next {word}: what drives it keeps it in the box, or nothing does"])
        shift = math.ceil(moved / size * 2**grid - 1e-9) + 0.5
        for sign, end, side in ((1, hi[i], "upper"), (-1, lo[i], "lower")) if tolerance else ():
            bound = (sign * end - shift) * size / 2**grid - tolerance
            out.append(Side(f"{side} end of {word}", numpy.r_[sign * a[i] * size, sign * b[i] * size, bound] / tolerance, tolerance, unit or "units", stays=True))
    return out


def unit_of(model: Model, limit: dict) -> str:
    """The unit of what a limit is on: the one of all its coordinates, or of those that it takes as they are; where these differ no one's."""
    own = [split[1] for split in map(lambda words: models.split_name(words, ""), model.text.get("states", [""] * model.own))]
    held, inputs = [unit for _, unit in model.names[model.own : model.own + len(model.held)]], [unit for _, unit in model.input_names]
    parts = [(f, unit) for key, units in (("state", own), ("held", held), ("input", inputs), ("change", inputs)) for f, unit in zip(limit.get(key, []), units) if f]
    for chosen in (parts, [part for part in parts if abs(part[0]) == 1]):
        if len({unit for _, unit in chosen}) == 1:
            return chosen[0][1] or "units"
    return "units"


def reach_of(design: Design, rows: list[numpy.ndarray]) -> numpy.ndarray:
    """What states and inputs come to at most: states in the box, inputs within the limits on them alone; an infinity where nothing says."""
    n = design.states
    reach = [max(abs(l), abs(h)) / 2**design.grid for l, h in zip(design.lo, design.hi)]
    for l in range(n, n + design.inputs):
        alone = [abs(row[-1] / row[l]) for row in rows if row[l] and sum(map(bool, row[:-1])) == 1]
        reach.append(max(alone) if len(alone) > 1 else math.inf)
    return numpy.array(reach)


# ---- the design before anything is rounded, and the whole one


def names_of(model: Model, sides: list[Side]) -> dict:
    names = {("state", i + 1): named(words, size) for i, (words, size) in enumerate(zip(model.names, model.state_units))}
    names |= {("input", i + 1): named(words, size) for i, (words, size) in enumerate(zip(model.planned_names, model.input_units))}
    return names | {("stage row", i + 1): Name(side.name, side.tolerance, side.unit) for i, side in enumerate(sides)}


def in_floats(model: Model) -> Design:
    """The design of a model with no number of plant, cost and limits rounded: over 1, in floats. The box is whole already."""
    models.refuse_growth(model)
    text, (a, b) = model.text, model.scaled()
    box, sides = text["box"], sides_of(model, a, b)
    grid, (lo, hi) = int(box.get("grid", 4)), model.ends()
    if max(map(abs, hi + lo)) > NUMERATOR:
        models.refuse([f"box: a box of at most {NUMERATOR} over 2^grid is expected, in units of {', '.join(map(plain, model.state_units))}"])
    weights = [float(w) * u**2 for w, u in zip(text["cost"]["input"], model.input_units)]
    stage, final = (cost_rows(model, key) for key in ("rows", "final"))
    rows = [side.row.tolist() for side in sides] or [[0.0] * (model.n + model.p) + [1.0]]
    names, lists = names_of(model, sides), (a.tolist(), b.tolist())
    return Design(model.version, model.n, model.p, model.stages, 1, *lists, 1, 1, weights, stage, final, 1, rows, [], grid, lo, hi, 1, 1, 1, names, model.period)


def cost_rows(model: Model, key: str) -> list[list[float]]:
    """The rows of the cost over the design's states, each with its target and weight."""
    rows = model.text["cost"].get(key, [])
    return [[*model.row(row), float(row.get("target", 0)), float(row["weight"])] for row in rows]


def whole_costs(design: Design, exact: Design, part: float) -> tuple[list[float], list[list[int]], list[list[int]]]:
    """The cost's rows as whole ones; and all weights, those of the inputs first, as these rows ask for."""
    reach = numpy.array([max(abs(l), abs(h)) / 2**design.grid or 1.0 for l, h in zip(design.lo, design.hi)] + [1.0])
    weights, tables = list(exact.input_weights), []
    for table in (exact.stage_cost, exact.final_cost):
        tables.append([])
        for *row, weight in table:
            whole, factor = whole_row(numpy.array(row), reach, part)
            tables[-1].append(whole)
            weights.append(weight * factor**2)
    return weights, *tables


def set_weights(design: Design, weights: list[int], den: int) -> None:
    """These weights over den: those of the inputs, of the stage rows and of the final rows."""
    p = design.inputs
    design.cost_den, design.input_weights = den, weights[:p]
    for row, weight in zip(design.stage_cost + design.final_cost, weights[p:]):
        row[-1] = weight
    if max(weights) > NUMERATOR or any(abs(v) > NUMERATOR for row in design.stage_cost + design.final_cost for v in row):
        models.refuse(["cost: weights are expected of which none is more than 2^31 times another one, in the design's units"])


def fit_weights(design: Design, weights: list[float], part: float, den: int | None, step: int) -> None:
    """All weights by one factor, so that the curvature is just below the power of the step: whole numbers that are to each other as the weights are, over the least
    denominator by which less than half a percent of the step is lost; or rounded up, over the denominator that is asked for."""
    power = 2**step
    ratio = whole_ratio(weights, part)
    set_weights(design, ratio, 1)
    steep = curvature(design)
    if den is not None:
        factor = curvature_of(design, weights) * 1.003 / power
        set_weights(design, [max(1, math.ceil(v * factor * den - 1e-9)) for v in weights], den)
        return
    if steep == 0:
        return
    den_of_one, most = power / (1.003 * steep), NUMERATOR // max(ratio)
    times = max(1, math.ceil(1 / den_of_one))
    least = max(1, min(most, times))
    best = min(range(least, min(most, 201 * least) + 1), key=lambda k: (k * den_of_one / max(1, math.floor(k * den_of_one)) > 1.005, k))
    set_weights(design, [v * best for v in ratio], min(DENOMINATOR, max(1, math.floor(best * den_of_one))))


def curvature_of(design: Design, weights: list[float]) -> float:
    """The curvature with these weights."""
    least = min(weights)
    scaled = replace(design, stage_cost=[list(r) for r in design.stage_cost], final_cost=[list(r) for r in design.final_cost])
    set_weights(scaled, [max(1, math.ceil(v * 2**20 / least - 1e-9)) for v in weights], 1)
    return curvature(scaled) * 2**20 / least


def keep_weights(design: Design, weights: list[float], part: float) -> None:
    """The weights as they are, over the least power of two by which none moves by more than the part of itself."""
    dens = [2**k for k in range(21)]
    near = lambda den: all(abs(round(w * den) - w * den) <= part * w * den for w in weights)
    den = next((den for den in dens if near(den)), dens[-1])
    set_weights(design, [max(1, round(w * den)) for w in weights], den)


def tighten(limits: list[list[int]], sides: list[Side], den: int, reach: numpy.ndarray) -> None:
    """Takes from the bounds of limits that keep the box what rounding their factors comes to over it."""
    known = numpy.isfinite(reach)
    for made, side in zip(limits, sides):
        if side.stays:
            off = abs(side.row[:-1] * den - made[:-1])[known] @ reach[known]
            made[-1] = min(made[-1], math.floor(side.row[-1] * den - off + 1e-6))


def whole(model: Model, exact: Design, den: int, part: float, keep: bool, step: int) -> Design:
    """The design of a model over these denominators and with this step exponent, with a gap yet to be chosen."""
    whole_a, whole_b = rounded(*model.scaled(), den)
    if max(abs(whole_a).max(), abs(whole_b).max()) > NUMERATOR:
        models.refuse([f"units: units are expected in which no number of the plant over {den} is above 2^31"])
    sides = sides_of(model, whole_a / den, whole_b / den)
    rows = [side.row for side in sides]
    limit_den = model.limit_den or limit_denominator(rows, reach_of(exact, rows), part, [side.stays for side in sides])[0]
    limits = whole_limits(rows, limit_den) or [[0] * (model.n + model.p) + [1]]
    tighten(limits, sides, limit_den, reach_of(exact, rows))
    if any(abs(v) > NUMERATOR for row in limits for v in row):
        models.refuse(["limit: factors and bounds are expected of which none is more than 2^31 tolerances, in the design's units"])
    design = replace(exact, plant_den=den, a=whole_a.tolist(), b=whole_b.tolist(), limit_den=limit_den, stage_rows=limits)
    weights, stage, final = whole_costs(design, exact, part)
    if not 0 < max(weights) < NUMERATOR * min(weights):
        models.refuse(["cost: weights are expected of which none is more than 2^31 times another one, in the design's units"])
    design.stage_cost, design.final_cost = [row + [1] for row in stage], [row + [1] for row in final]
    if keep:
        keep_weights(design, weights, part)
    else:
        fit_weights(design, weights, part, model.weight_den, step)
    return design


# ---- the gap, and what the program would refuse


def corner_plans(design: Design) -> tuple[list, list, bool]:
    """The corners; a plan for each at half of the greatest common slack, or at the best where nothing stops it, and without limits where there is none; and whether there is."""
    programs = Programs(design)
    states = [[float(v) for v in design.corner(c)] for c in range(1, 2**design.states + 1)]
    most = min(programs.most_slack(x)[0] for x in states)
    plans = plans_with(programs, good_slack(programs, most))[0] if most > 0 else None
    return states, plans or [programs.unlimited(x) for x in states], plans is not None


def good_slack(programs: Programs, most: float) -> float:
    """Half of the greatest common slack; or the best slack where that is far below."""
    half, sixteenth = (plans_with(programs, most * part)[1] if math.isfinite(most) else math.inf for part in (1 / 2, 1 / 16))
    return most / 2 if half < sixteenth else search(programs, most)


def greatest_cost(design: Design, plans: tuple) -> float:
    programs = Programs(design)
    return max(programs.cost(x, u) for x, u in zip(*plans[:2]))


def too_wide(design: Design, plans: tuple) -> list[str]:
    """The sizes that pass what the program accepts, with these plans for the corners."""
    form = sizes.form_of(design)
    found = sizes.form_sizes(design, form)
    if max(found.values()) <= sizes.LIMIT and plans[2]:
        policy = [[1024] + [round(float(u) * 1024) for u in plan] for plan in plans[1]]
        found |= sizes.corner_sizes(design, policy)
        if max(found.values()) <= sizes.LIMIT:
            margin, cost = margin_of(corners_of(design, policy))
            bound = multiplier_of(margin, cost)
            found |= later_sizes(design, form, bound, None) if bound else {}
    return [name for name, size in found.items() if size > sizes.LIMIT]


def choices(model: Model) -> list[tuple[int, float]]:
    """Denominators of the plant with parts by which other numbers may move, the wanted one first, then by what they lose."""
    a, b = model.scaled()
    reach = [max(abs(l), abs(h)) / u for l, h, u in zip(model.lo, model.hi, model.state_units)]
    first = model.den or least_den(a, b, model.stages, reach)
    dens = [first] if model.den else [den for den in (2**k for k in range(20, -1, -1)) if den <= first]
    off = {den: responses_error(a, b, den, model.stages, reach) + (len(lost(a, b, den)) > 0) for den in dens}
    parts = [model.rounding] + [part for part in COARSER if part > model.rounding]
    rest = [(den, part) for den in dens for part in parts if (den, part) != (first, parts[0])]
    return [(first, parts[0])] + sorted((c for c in rest if off[c[0]] < 0.1), key=lambda c: (max(off[c[0]], c[1]), off[c[0]] + c[1]))


def set_gap(design: Design, part: float, plans: tuple) -> list[str]:
    """The gap target, as a part of the greatest cost; and what is to be said of it."""
    cost = greatest_cost(design, plans)
    design.gap = min(NUMERATOR, max(1, round(part * cost)))
    if not any(map(any, (row[:-1] for row in design.stage_rows))):
        design.stage_rows[0][-1] = min(NUMERATOR, design.limit_den * (math.ceil(cost) + 1))
    if part * cost > NUMERATOR:
        return [f"warning: the greatest cost is {plain(cost)}, and no gap target is above {NUMERATOR}: smaller weights, or limits with larger tolerances"]
    return [] if cost >= 10 else [f"warning: the greatest cost is {plain(cost)}, which counts as a whole number: R and K are more than they need to be"]


# ---- what was done


def lean_step(design: Design) -> int:
    """The greatest step exponent by which R of a lean controller, a whole number, loses little; that of the design where no plan keeps its limits."""
    top, programs = STEP[design.version], Programs(design)
    most = min(programs.most_slack([float(v) for v in design.corner(c)])[0] for c in range(1, 2**design.states + 1))
    if most <= 0:
        return top
    plans = LeanPlans(programs)
    bound = plans.bound(plans.plans(plans.best_slack(most)))
    lengths = {step: 2**step * whole_bound(bound * 2 ** (top - step)) for step in range(top + 1)}
    return max(step for step, length in lengths.items() if length <= WHOLE_LOSS * min(lengths.values()))


def drafted(model: Model, part: float = 0.1, keep: bool = False, lean: bool = False) -> Drafted:
    """The design of a model, as whole numbers, and what is to be said of it."""
    step = STEP[model.version]
    made = with_step(model, part, keep, step)
    chosen = lean_step(made.design) if lean and step and not keep else step
    return made if chosen == step else with_step(model, part, keep, chosen)


def with_step(model: Model, part: float, keep: bool, step: int) -> Drafted:
    """The design whose weights fit this step exponent."""
    exact, said = in_floats(model), []
    wanted, *others = choices(model)
    design = whole(model, exact, *wanted, keep, step)
    plans = corner_plans(design)
    refused, taken = too_wide(design, plans), wanted
    for other in others[:TRIES] if refused else []:
        candidate = whole(model, exact, *other, keep, step)
        candidate_plans = corner_plans(candidate)
        if not too_wide(candidate, candidate_plans):
            design, plans, taken = candidate, candidate_plans, other
            break
    if refused:
        words = f"with a plant over {wanted[0]} and numbers that move by at most {plain(100 * wanted[1])} % the program would refuse {', '.join(refused)}"
        better = f": the plant is over {taken[0]}, and numbers move by at most {plain(100 * taken[1])} %"
        said.append(words + (better if taken != wanted else f", and no coarser rounding helps: {help_for(refused)} (docs/SIZES.md)"))
    if not plans[2]:
        said.append("warning: no plan keeps every limit from every corner; ./mpc policy says where")
    said = plant_words(model, design) + said + set_gap(design, part, plans)
    said += move_words(model, exact, design, model.rounding)
    said.append(f"limits over {design.limit_den}; weights over {design.cost_den}; curvature {plain(curvature(design))}; gap target {design.gap}")
    return Drafted(design, exact, said)


def help_for(refused: list[str]) -> str:
    """What helps against sizes that are refused."""
    if set(refused) <= {"rows", "corner_slack", "curvature"}:
        return "bounds that are less far above their tolerances (inf is no limit), fewer limits or fewer stages"
    return "other units, fewer stages, smaller weights or a smaller box"


def draft(model: Model, part: float = 0.1, keep: bool = False) -> Design:
    """The design of a model, as whole numbers."""
    return drafted(model, part, keep).design


def told(model: Model, part: float, keep: bool, lean: bool = False) -> Drafted:
    """The design of a model with all that is to be said of it. Refusal where its numbers are too far apart for floating point."""
    try:
        made = drafted(model, part, keep, lean)
        made.said += settle_words(model, made)
    except (numpy.linalg.LinAlgError, ArithmeticError) as fault:
        raise models.Refusal(f"units: units are expected in which the numbers of plant, cost and limits are nearer to each other, since floating point fails ({fault})") from None
    return made


def plant_words(model: Model, design: Design) -> list[str]:
    (a, b), den = model.scaled(), design.plant_den
    out = [f"plant over {den}: row sums up to {row_sum(a, b, den)}/{den}, step responses off by {plain(100 * response_error(a, b, den, model.stages))} %"]
    out += [f"warning: {word} is rounded to 0: a finer denominator or other units are needed" for word in lost(a, b, den)]
    if not model.text.get("limit") or not sides_of(model, a, b):
        out.append("nothing is limited: the design has one row that each plan keeps, so that a run takes few steps; a linear controller would do")
    for number, limit in enumerate(model.text.get("limit", []), 1):
        if not math.isfinite(limit.get("bound", math.inf)) and not math.isfinite(limit.get("least", -math.inf)):
            out.append(f"limit {number} limits nothing, and has no row")
    late = [side.name for side in sides_of(model, a, b) if side.later]
    return out + ([f"{', '.join(late)}: held from the second state on, since no input changes the next one"] if late else [])


def move_words(model: Model, exact: Design, design: Design, part: float) -> list[str]:
    """What each rounding moved, a line for each row, and a warning where it is more than the part that was asked for."""
    found = cost_moves(exact, design, part) + limit_moves(model, exact, design, part) + box_moves(model, design, part)
    return [f"{'warning: ' if far else ''}{words}" for words, far in found if words]


def cost_moves(exact: Design, design: Design, part: float) -> list[tuple[str | None, bool]]:
    """The weights against each other, in the units of the design, and the factors and targets of each cost row."""
    places, out, old, new = [f"input {l + 1}" for l in range(design.inputs)], [], list(exact.input_weights), list(design.input_weights)
    for kind, rows, wholes in (("stage", exact.stage_cost, design.stage_cost), ("final", exact.final_cost, design.final_cost)):
        for number, (row, made) in enumerate(zip(rows, wholes), 1):
            greatest = max(range(len(row) - 1), key=lambda i: abs(row[i]))
            factor = row[greatest] / made[greatest]
            allowed = [max(part * abs(v), 1e-5 * abs(row[greatest])) for v in row[:-1]]
            of = [f"x{i + 1}" for i in range(design.states)] + ["target"]
            out.append(moves(f"cost row {number} ({kind})", of, row[:-1], [v * factor for v in made[:-1]], allowed))
            places.append(f"{kind} row {number}")
            old.append(row[-1] * factor**2)
            new.append(made[-1])
    # the common factor is the one that moves them least
    ratios = [n / o for n, o in zip(new, old)]
    factor = math.sqrt(min(ratios) * max(ratios))
    return [moves("weights", places, old, [n / factor for n in new], [part * o for o in old])] + out


def limit_moves(model: Model, exact: Design, design: Design, part: float) -> list[tuple[str | None, bool]]:
    """The factors and the bound of each limit, in the units of the design, over the tolerance."""
    a, b = (m / design.plant_den for m in rounded(*model.scaled(), design.plant_den))
    sides = sides_of(model, a, b)
    reach, out = reach_of(exact, [side.row for side in sides]), []
    for number, (side, made) in enumerate(zip(sides, design.stage_rows), 1):
        allowed = [max(part * abs(v), part / max(r, 1e-300)) for v, r in zip(side.row, reach)] + [part * max(1, abs(side.row[-1]))]
        of = [f"x{i + 1}" for i in range(design.states)] + [f"u{l + 1}" for l in range(design.inputs)] + ["bound"]
        out.append(moves(f"limit {number} ({side.name})", of, list(side.row), [v / design.limit_den for v in made], allowed))
    return out


def box_moves(model: Model, design: Design, part: float) -> list[tuple[str | None, bool]]:
    """The box, in physical units. It moves by up to half a step of its grid; a state that is one number may not."""
    out = []
    for i, unit in enumerate(model.state_units):
        made = [v * unit / 2**design.grid for v in (design.lo[i], design.hi[i])]
        still = model.lo[i] == model.hi[i]
        step = unit / 2**design.grid
        allowed = [part * abs(v) if still else step for v in (model.lo[i], model.hi[i])]
        words, far = moves(f"box of {model.names[i][0]}", ["lo", "hi"], [model.lo[i], model.hi[i]], made, allowed)
        if far or (words and abs(made[1] - model.hi[i]) > part * abs(model.hi[i])):
            out.append((words, far))
    return out


def settle_words(model: Model, made: Drafted) -> list[str]:
    """Where the loop of the design settles from the middle of the box, beside that of the model."""
    design = made.design
    middle = [(l + h) / 2 / 2**design.grid for l, h in zip(design.lo, design.hi)]
    exact = [(l + h) / 2 / u for l, h, u in zip(model.lo, model.hi, model.state_units)]
    ours, theirs = settled(design, middle), settled(made.exact, exact)
    if ours is None and theirs is None:
        return ["from the middle of the box the loop with the best plans settles nowhere, and nor does the model's"]
    if ours and theirs and place_words(design, ours) == place_words(design, theirs):
        return [f"from the middle of the box the design settles where the model does, at {place_words(design, ours)}"]
    words = [f"from the middle of the box the design settles at {place_words(design, ours)}", f"and the model, not rounded, at {place_words(design, theirs)}"]
    if (ours is None) != (theirs is None) or max(abs(v) for v in apart(design, ours, theirs)) > 0.01:
        words[1] = f"warning: {words[1]}: more than a hundredth of the box apart"
    return words


def apart(design: Design, one: Settled, other: Settled) -> list[float]:
    """How far two states are apart, as parts of the box."""
    return [float((v - w) * 2**design.grid / max(1, abs(l), abs(h))) for v, w, l, h in zip(one.state, other.state, design.lo, design.hi)]


def place_words(design: Design, place: Settled | None) -> str:
    """A state and its inputs by name and unit."""
    if place is None:
        return "no state"
    clean = lambda v: 0.0 if abs(v) < 1e-9 else float(v)
    told = [f"{(name := design.name('state', i)).word} {name.shown(clean(v))}" for i, v in enumerate(place.state, 1)]
    told += [f"{(name := design.name('input', l)).word} {name.shown(clean(v))}" for l, v in enumerate(place.inputs, 1)]
    binding = [design.name("stage row", row).word for row in place.rows]
    return ", ".join(told) + (f", where {' and '.join(binding)} bind{'s' * (len(binding) == 1)}" if binding else "")


def accelerated(model: Model) -> Model:
    """The model for the accelerated machine."""
    return Model(model.text | {"version": 3})


def main() -> int:
    parser = Parser(__doc__ + "\nA model is " + models.__doc__.split("\n", 1)[0].lower() + "\n" + models.__doc__.split("\n", 1)[1])
    parser.add_argument("model", metavar="MODEL")
    parser.add_argument("design", metavar="DESIGN", nargs="?")
    parser.add_argument("--gap", type=positive, default=0.1)
    parser.add_argument("--keep-weights", action="store_true")
    parser.add_argument("--lean", action="store_true")
    parser.add_argument("--accelerated", action="store_true")
    given = parser.parse_args()
    files.keep_apart({"MODEL": given.model}, {"DESIGN": given.design or files.STANDARD_OUTPUT})
    model = accelerated(read_model(given.model)) if given.accelerated else read_model(given.model)
    # most controllers of that machine are lean
    made = told(model, given.gap, given.keep_weights, given.lean or is_accelerated(model.version))
    for words in made.said:
        say(words)
    text = text_of(made.design)
    files.put(given.design, text)
    return 0


if __name__ == "__main__":
    run(main)
