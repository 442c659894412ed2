"""Proposes coordinates, limits on the next state and a box for which faces show that no loop ever leaves the box.

    ./mpc staying MODEL [NEW_MODEL] [--generate] [--steps N] [--clock MHZ] [--seconds S] [--same-cost]

Each state whose faces don't hold by the model's own limits gets limits on the next state, by `stay` in the model's `[box]`: the next state is kept so much inside the box, and may exceed
that by as much. From each corner some inputs must then lead back inside. Which box has such inputs at all its corners, and is the largest, a linear program says, of each choice of
coordinates: the model's own, `position + T rate`, and those in which loops of linear gains shrink each by itself, with held states and last inputs in them, as `speed - reference`. Of a box of
last inputs a part may be taken, too: then the limits on these inputs are so much narrower.
Each box is judged by how much of the model's own it holds, and by what its controller takes: which part of a stage a run is on a Cortex-M4 of so many MHz (100), and the steps K.
A controller is one of `lean`, or with --generate of `stay`, of at most N steps (20000). Where a run wouldn't end within its stage, other costs are tried, whose plans ask for less beyond the
limits: inputs that weigh more, and costs of the box's coordinates; and then half as many stages, and a quarter. What was taken is said. With --same-cost both are the model's.

What was tried goes to standard error, and every few seconds how far the search is: it ends after S seconds (60), or by an interrupt. The model with what was found goes to NEW_MODEL, or
is printed. Where `disturbed` stands in `[box]`, faces hold under it. Where nothing was found, NEW_MODEL gets the best that was seen, the status is 12, and it is said which corner,
limit, coordinate or disturbance is in the way. Nothing rests on it: ./mpc faces finds the faces of the design that is drafted of it.
"""
import contextlib
import io
import math
from dataclasses import dataclass, field, replace

from .common.libraries import Refusal, need, run, say

need("numpy", "scipy", "cvxopt", "jsonschema")
import numpy
import scipy.linalg

from . import faces
from .common import files
from .common.arguments import Parser, positive, several
from .common.budget import Budget
from .common.c_costs import about_means, about_step
from .common.design_text import Design, plain
from .common.kept_boxes import Plant, covered, largest, short_of
from .common.lean_plans import LeanPlans
from .common.machines import is_accelerated, machine_of
from .common.model_text import TIMELY, model_text
from .common.models import Model, grid_disturbances, neat, read_model
from .common.programs import Programs
from .common.run_costs import SAME, Weighing, weighings
from .common.turns import candidates
from .coordinates import COUPLED, TIMES, Choice, changed, four, told
from .draft import corner_plans, drafted, in_floats, too_wide
from .policy import find as find_policy
from .policy import find_lean, plans_with

# the slack that a corner's inputs leave in each limit, in tolerances
SLACK = 0.125
# parts of half the box by which next states are kept inside
STAYS = (0.02, 0.04, 0.07, 0.12, 0.2, 0.32)
STARTS = (0.02, 0.07)
# by which part of what inputs move a coordinate by its next state is kept inside the box at most
LED = 0.5
# by which a T is tried larger and smaller, and a part for `stay`
FACTORS, PARTS = (0.5, 0.8, 1.25, 2.0), (1.4, 0.7)
# up to which part of the time coordinates are tried, made better, priced, and priced again with other parts
TRIED, BETTER, PRICED, FINE = 0.25, 0.5, 0.7, 0.85
# the most steps of a controller, where nothing else is asked for
MOST_STEPS = 20000.0
# how many choices are made better, and how many priced
FEW, SOME = 2, 3
# e times the part of a stage, and e times the steps, are worth so much of the box, as a logarithm; less than so much of a stage, and fewer than so many steps, are worth nothing
SHARE_WORTH, SMALL, STEPS_WORTH, FEW_STEPS = 0.25, 0.02, 0.1, 40
# where a run takes more of a stage than this, e times as much is worth so much more
ENOUGH, LONG_WORTH = 0.8, 2.0
# e times the room of each next state inside the box, from the least that is tried, is worth so much of the box: what is exceeded less than that bears disturbances
ROOM_WORTH = 0.05
# less of the model's box than this is nothing
NOTHING = 0.005
# parts of the greatest slack at which plans are tried
SLACKS = (0.5, 0.75, 0.92)
LEAST, FAR = 2**-8, 64.0
# by how many quarters of its tolerance a limit is taken to be exceeded where its steps aren't known
EXCEEDED = {True: 4, False: 3}


@dataclass
class Staying(Choice):
    """A choice with the parts of half the box by which the next state is kept inside, 0 for no limit; how much of the model's box it holds, about how many steps a run takes, and which part of
    a stage; the parts where each coordinate has limits; fewer stages than the model's, where its own take too long or are refused; and the cost."""

    stay: list = field(default_factory=list)
    covers: float = 0.0
    steps: float = math.inf
    share: float = 0.0
    wide: list = field(default_factory=list)
    stages: int | None = None
    weighing: Weighing = SAME

    @property
    def worth(self) -> float:
        if self.covers < NOTHING or math.isinf(self.steps):
            return -math.inf
        beyond = lambda value, free: math.log(max(value, free) / free)
        run = SHARE_WORTH * beyond(self.share, SMALL) + LONG_WORTH * beyond(self.share, ENOUGH) + STEPS_WORTH * beyond(self.steps, FEW_STEPS)
        parts = [part for part in self.stay if part]
        room = sum(math.log(part / STAYS[0]) for part in parts) / len(parts) if parts else 0.0
        return math.log(self.covers) - run + ROOM_WORTH * room

    @property
    def run_words(self) -> str:
        return f"K about {self.steps:.0f}, {plain(float(f'{100 * self.share:.2g}'))} % of a stage"


def with_limits(model: Model, choice: Staying) -> dict:
    """The model's keys with the choice's coordinates, box and limits on the next state."""
    text = changed(model, choice)
    box = dict(text["box"])
    lo = box.get("lo", [-v for v in box["hi"]])
    box["stay"] = [neat(part * (high - low) / 2) for part, low, high in zip(choice.stay, lo, box["hi"])]
    text |= {"box": box} | ({"stages": choice.stages} if choice.stages else {})
    if choice.weighing != SAME:
        text["cost"] = choice.weighing.cost(model, text, reach_of_inputs(model))
    kept = dict(zip(model.last, choice.kept[model.n - len(model.last) :]))
    if min(kept.values(), default=1.0) < 1 and "last" not in model.text["box"]:
        # the box of a last input is that of its limits with their tolerances
        del box["last"]
        text["limit"] = [narrowed(model, limit, kept) for limit in text["limit"]]
    return text


def reach_of_inputs(model: Model) -> list[float]:
    """What each planned input comes to at most, by the limits on it alone and their tolerances; infinite where there is none."""
    return [float(most * unit) for most, unit in zip(plant_of(model).reach, model.input_units)]


def narrowed(model: Model, limit: dict, kept: dict[int, float]) -> dict:
    """A limit, which is narrower where it is one on an input alone of whose last values a part is kept."""
    l = model.input_alone(limit)
    if l is None or kept.get(l, 1.0) == 1.0:
        return limit
    factor, tolerance, (least, most) = limit["input"][l], limit["tolerance"], model.reach_of_input(l)
    middle = factor * (least + most) / 2
    within = lambda end: middle + kept[l] * (end - middle)
    ends = {"bound": lambda v: within(v + tolerance) - tolerance, "least": lambda v: within(v - tolerance) + tolerance}
    return limit | {key: four(end(limit[key])) for key, end in ends.items() if key in limit and math.isfinite(limit[key])}


def plant_of(model: Model) -> Plant:
    """A model's plant with its own limits, and the box that it wants, in the design's units."""
    design = in_floats(Model(model.text | {"box": {key: v for key, v in model.text["box"].items() if key != "stay"}}))
    lo, hi = numpy.array(design.lo) / 2**design.grid, numpy.array(design.hi) / 2**design.grid
    rows = numpy.array(design.stage_rows, float)
    low, high = grid_disturbances(model, design)
    # half a step of the grid is what rounding takes
    shift = (numpy.array(high) + 0.5) / 2**design.grid
    own, kept = model.own, model.own + len(model.held)
    a, b, middle, last = numpy.array(design.a), numpy.array(design.b), (lo + hi) / 2, list(range(kept, model.n))
    ends = {} if "last" in model.text["box"] else ends_of_last(numpy.hstack([a, b]), rows, last, middle)
    return Plant(a, b, rows[:, :-1], rows[:, -1], middle, (hi - lo) / 2, shift, list(range(own, kept)), last, ends, numpy.array(high, float) / 2**design.grid)


def ends_of_last(plant: numpy.ndarray, rows: numpy.ndarray, last: list[int], middle: numpy.ndarray) -> dict[int, tuple[int, float]]:
    """The rows that are limits on the next last value of one input alone, each with that state and what the row comes to in the middle of its box."""
    out = {}
    for i in last:
        of = plant[i]
        for r, row in enumerate(rows[:, :-1]):
            times = float(row @ of / (of @ of))
            if times and numpy.allclose(row, times * of, rtol=1e-6, atol=1e-9 * abs(times)):
                out[r] = (i, times * float(middle[i]))
    return out


# ---- what a choice costs, in floating point


def corner_states(design: Design) -> list[list[float]]:
    return [[float(v) for v in design.corner(number)] for number in range(1, 2**design.states + 1)]


def steps_of(design: Design, generate: bool) -> float:
    """About how many steps a run takes, with weights whose curvature is just below a power of two."""
    programs = Programs(design)
    slack = min(programs.most_slack(state)[0] for state in corner_states(design))
    if slack <= LEAST:
        return math.inf
    steep = scipy.linalg.eigh(programs.rows.T @ programs.rows, programs.hess / 2, eigvals_only=True)[-1]
    if generate:
        bound = min(plans_with(programs, slack * part)[1] for part in SLACKS) if math.isfinite(slack) else 1 / steep
        steps = 4 * max(1.0, bound * steep)
    else:
        lean = LeanPlans(programs)
        bound = min(lean.bound(lean.plans(part)) for part in (LEAST / 2, *(min(slack, FAR) * part for part in SLACKS[:2])))
        steps = 32 / 15 * max(1.0, bound * steep)
    return machine_of(design.version).about(steps)


def share_of(design: Design, steps: float, period: float, clock: float) -> float:
    """About which part of a stage a run of so many steps takes on a Cortex-M4 of so many MHz."""
    rows = Programs(design).rows
    more = about_means(len(rows)) if is_accelerated(design.version) else 0
    return steps * (about_step(rows.round(12).tolist(), design.entries) + more) / (period * clock * 1e6)


def lost_coordinate(model: Model, design: Design, generate: bool) -> int | None:
    """The first coordinate without a limit on the next state that no sum of limits keeps in the box, each exceeded by a part of its tolerance."""
    excess = [EXCEEDED[not generate] * faces.SCALE // 4] * len(faces.first_rows(design))
    shifts = grid_disturbances(model, design)
    for face in faces.faces_of(design):
        i = face.coordinate
        if i < len(model.stay) and model.stay[i]:
            continue
        weights = faces.program(design, face, excess)
        if weights is None:
            return i
        far, over = faces.reach(design, face, [1.0, *weights], excess)
        if far / over + abs(shifts[face.upper][i]) > face.sign * face.end(design) + 0.5:
            return i
    return None


def with_faces(model: Model, choice: Staying, generate: bool) -> Staying | None:
    """The choice with limits where faces need them and nowhere else; None where it has no faces."""
    stay = [0.0] * model.own
    while True:
        trial = replace(choice, stay=stay)
        try:
            made = Model(with_limits(model, trial))
            design = in_floats(made)
            lost = lost_coordinate(made, design, generate)
        except Refusal:
            return None
        if lost is None:
            return replace(trial, wide=choice.stay)
        if lost >= model.own or stay[lost] or not choice.stay[lost]:
            return None
        stay = [choice.stay[i] if i == lost else part for i, part in enumerate(stay)]


def priced(model: Model, choice: Staying, generate: bool, clock: float) -> Staying:
    """The choice with about what a run takes: infinitely many steps where there are no plans."""
    try:
        design = in_floats(Model(with_limits(model, choice)))
    except Refusal:
        return replace(choice, steps=math.inf)
    steps = steps_of(design, generate)
    return replace(choice, steps=steps, share=share_of(design, steps, model.period, clock))


# ---- the search


class Search:
    """Choices for a model, and the best of them."""

    def __init__(self, model: Model, budget: Budget, generate: bool, clock: float, same: bool = False, most: float = MOST_STEPS) -> None:
        self.model, self.budget, self.generate, self.clock, self.most, self.plant = model, budget, generate, clock, most, plant_of(model)
        # costs beside the model's, and counts of stages; and what served last
        self.others = [] if same else weighings(model, reach_of_inputs(model))
        self.counts = [None] + ([] if same else [-(-model.stages // part) for part in (2, 4) if model.stages >= part])
        self.weighing, self.stages = SAME, self.counts[0]
        self.best: Staying | None = None
        self.pool: list[dict] = []

    def larger(self, times: dict, stay: float | list[float]) -> Staying | None:
        """The largest box in these coordinates, with these parts of it for `stay`, and how much of the model's box that holds."""
        choice = Staying(times, [1.0] * self.model.n, stay if isinstance(stay, list) else [stay] * self.model.own)
        turn = choice.rows(self.model.n)
        # where inputs move a coordinate by little, so much less is asked of them
        most = self.plant.within_reach(turn, LED)
        choice.stay = [min(part, float(limit)) if limit else part for part, limit in zip(choice.stay, most)]
        found = largest(self.plant, turn, numpy.array(choice.stay + [0.0] * (self.model.n - self.model.own)), SLACK)
        if found is None or found.least <= 0:
            return None
        # a little less, so that two digits of `stay` do
        choice.kept = [1.0 if half == 0 or part == 1.0 else 0.998 * part for part, half in zip(found.parts, self.plant.half)]
        choice.covers = covered(self.plant, turn, numpy.array(choice.kept) * 1.003)
        return choice

    def turns(self) -> list[dict]:
        """What is tried: coordinates of loops of gains, and positions some time ahead."""
        design, model = in_floats(self.model), self.model
        out = list(candidates(design, model.own, self.plant.held, model.state_units))
        for i, j in pairs_of(model, self.plant)[:3]:
            ratio = model.state_units[i] / model.state_units[j]
            out += [{(i, j): neat(self.plant.a[i, j] * part * ratio) / ratio} for part in TIMES[1:]]
        return out

    def coordinates(self) -> list[Staying]:
        """The boxes that hold most, in other coordinates each, the best first: a few with narrow parts for `stay`, and a few with wide ones."""
        out: list[Staying] = []
        self.pool = self.turns()
        for number, stay in enumerate(STARTS, 1):
            found: list[Staying] = []
            for times in self.pool:
                if found and not self.budget.goes_on(TRIED * number / len(STARTS)):
                    break
                if (choice := self.larger(times, stay)) is not None and choice.covers > NOTHING / 10:
                    found.append(choice)
                    self.tell(max(out + found, key=lambda one: one.covers))
            out += sorted(found, key=lambda one: -one.covers)[:FEW]
        return sorted(out, key=lambda one: -one.covers)

    def rows_for(self, i: int) -> list[dict]:
        """What is tried in the place of a coordinate: of all that was tried one of each that look alike."""
        rows: dict[tuple, dict] = {}
        for times in self.pool:
            row = {pair: time for pair, time in times.items() if pair[0] == i}
            rows.setdefault(tuple(sorted((pair, float(f"{time:.1g}")) for pair, time in row.items())), row)
        return list(rows.values())

    def tell(self, choice: Staying) -> None:
        self.budget.best = f"best so far: {plain(100 * choice.covers)} % of the model's box {told(self.model, choice)}" + (f", {choice.run_words}" if math.isfinite(choice.steps) else "")

    def better(self, choice: Staying, part: float) -> Staying:
        """The choice with single coordinates of others, and then with other T, one at a time, as long as its box holds more, within this part of the time."""
        stay, improved = choice.stay[0], True
        while improved:
            improved = False
            for i in range(self.model.own):
                for row in self.rows_for(i):
                    if not self.budget.goes_on(part):
                        return choice
                    times = {key: v for key, v in choice.times.items() if key[0] != i} | row
                    trial = self.larger(times, stay) if times != choice.times else None
                    if trial and trial.covers > choice.covers + 0.002:
                        choice, improved = trial, True
                        self.tell(choice)
            for pair, time in list(choice.times.items()):
                ratio = self.model.state_units[pair[0]] / self.model.state_units[pair[1]]
                for factor in (*FACTORS, 0.0):
                    if not self.budget.goes_on(part):
                        return choice
                    times = {key: v for key, v in choice.times.items() if key != pair} | ({pair: neat(time * ratio * factor) / ratio} if factor else {})
                    trial = self.larger(times, stay)
                    if trial and trial.covers > choice.covers + (0.002 if factor else -0.002):
                        choice, improved = trial, True
                        self.tell(choice)
                        break
        return choice

    def prices(self, choices: list[Staying]) -> list[Staying]:
        """What these cost with several parts for `stay`, the best first; and the best with other parts of single coordinates."""
        out: list[Staying] = []
        for choice in choices[:SOME]:
            for stay in STAYS:
                if self.budget.goes_on(PRICED) or choice is choices[0] and stay == STAYS[0]:
                    self.price(self.larger(choice.times, stay), out)
        improved = True
        while improved and out:
            best = max(out, key=lambda one: one.worth)
            for i, factor in [(i, factor) for i, part in enumerate(best.stay) if part for factor in PARTS]:
                if self.budget.goes_on(FINE):
                    self.price(self.larger(best.times, [part * factor if k == i else part for k, part in enumerate(best.stay)]), out)
            improved = max(out, key=lambda one: one.worth).worth > best.worth + 0.01
        return sorted(out, key=lambda one: -one.worth)

    def price(self, sized: Staying | None, out: list[Staying]) -> None:
        """Adds a choice with its price."""
        if sized is None:
            return
        limited = with_faces(self.model, sized, self.generate)
        if limited is None:
            return
        out.append(self.timely(limited))
        best = max(out, key=lambda one: one.worth)
        if math.isfinite(best.worth):
            self.best = best
            self.tell(best)

    def timely(self, choice: Staying) -> Staying:
        """The choice with about what a run takes, by the cost that served last; and where that doesn't end in time, by the first other one that does, or the shortest, of as many stages as can be."""
        priced_as = lambda weighing, stages: priced(self.model, replace(choice, weighing=weighing, stages=stages), self.generate, self.clock)
        best = priced_as(self.weighing, self.stages)
        for stages in self.counts[self.counts.index(self.stages) :]:
            for weighing in [SAME, *self.others]:
                if self.is_timely(best) or math.isinf(best.steps) or not self.budget.goes_on(PRICED):
                    break
                trial = priced_as(weighing, stages)
                best = trial if trial.steps <= self.most and trial.share < best.share or self.is_timely(trial) else best
        self.weighing, self.stages = best.weighing, best.stages
        return best

    def is_timely(self, choice: Staying) -> bool:
        """Whether a run ends within its stage, and takes no more steps than it may."""
        return choice.share <= ENOUGH and choice.steps <= self.most

    def run(self) -> dict | None:
        """The keys of the model with the best choice whose faces are found."""
        found = self.coordinates()
        self.best = found[0] if found else None
        parts = [TRIED + (BETTER - TRIED) * (place + 1) / len(found) for place in range(len(found))]
        found = sorted((self.better(choice, part) for choice, part in zip(found, parts)), key=lambda one: -one.covers)
        for place, choice in enumerate(self.prices(found)):
            # the best is drafted, however late it is
            if not math.isfinite(choice.worth) or choice.steps > self.most or (place and not self.budget.goes_on()):
                continue
            say(f"{words_of(self.model, choice)}: {plain(100 * choice.covers)} % of the model's box, {choice.run_words}")
            wide = [replace(choice, stay=choice.wide)] * (choice.stay != choice.wide)
            fewer = [replace(choice, stages=count) for part in (2, 4) if (count := -(-self.model.stages // part)) < (choice.stages or self.model.stages)]
            for trial in [choice, *wide, *fewer]:
                made = drafted_faces(self.model, trial, self.generate)
                if not isinstance(made, str):
                    self.best = trial
                    if trial.stages:
                        say(f"  drafted with {trial.stages} stages in place of {self.model.stages} the faces hold")
                    return with_limits(self.model, trial)
                say(f"  drafted, {made}")
        return None


def pairs_of(model: Model, plant: Plant) -> list[tuple[int, int]]:
    """Each state with one that moves it and that it moves less, the strongest coupling first."""
    part = lambda i, j: abs(plant.a[i, j]) * plant.half[j] / plant.half[i] if plant.half[i] > 0 else 0.0
    found = [(part(i, j), (i, j)) for i in range(model.own) for j in range(model.n) if i != j and plant.half[j] > 0]
    return [pair for weight, pair in sorted(found, reverse=True) if weight > COUPLED and plant.a[pair[0], pair[0]] > 0.5 and weight > part(*pair[::-1])]


# ---- what is drafted of a choice


def quietly(call, *arguments):
    """What a call answers, with nothing said."""
    with contextlib.redirect_stderr(io.StringIO()):
        return call(*arguments)


def drafted_faces(model: Model, choice: Staying | None, generate: bool) -> tuple[Design, list] | str:
    """The design of a model, or of a choice for it, and its faces; or why there are none."""
    try:
        model = Model(with_limits(model, choice)) if choice else model
        design = drafted(model, lean=not generate).design
    except Refusal as fault:
        return str(fault)
    wide = too_wide(design, corner_plans(design))
    if wide:
        return f"the program would refuse {', '.join(wide)}"
    policy = quietly(find_policy, design) if generate else quietly(find_lean, design)
    excess = faces.excesses(design, *([policy] if generate else policy)) if policy else None
    if excess is None:
        return "the design has no policy"
    low, high = grid_disturbances(model, design)
    found = faces.holding(design, excess, low, high)
    return (design, found) if found else "; ".join(faces.beyond(design, excess, low, high))


def found_faces(model: Model, generate: bool = False) -> tuple[Design, list] | None:
    """The design of a model and its faces; None where it has no policy or a face doesn't hold."""
    found = drafted_faces(model, None, generate)
    return None if isinstance(found, str) else found


def words_of(model: Model, choice: Staying) -> str:
    """A choice in words."""
    kept = [f"the next {model.names[i][0]} {plain(part)} of the box inside it" for i, part in enumerate(choice.stay) if part]
    others = [f"{choice.stages} stages in place of {model.stages}"] * bool(choice.stages) + [choice.weighing.words] * (choice.weighing != SAME)
    told_others = f"; {TIMELY}, {' and '.join(others)}" if others else ""
    return told(model, choice) + (", and " if kept else "") + ", ".join(kept) + told_others


# ---- what is in the way


def in_the_way(model: Model, plant: Plant, choice: Staying | None) -> list[str]:
    """What stops the model's box, or the best that was seen, in words: the corner, the limits and ends that meet there, and whether the disturbances are to blame."""
    turn = choice.rows(model.n) if choice else numpy.eye(model.n)
    parts = numpy.ones(model.n)
    stay = numpy.array([STARTS[-1]] * model.own + [0.0] * (model.n - model.own))
    names = [name for name, _ in Model(changed(model, Staying(choice.times, list(parts), []))).names] if choice and choice.times else [name for name, _ in model.names]
    short = short_of(plant, turn, parts, stay)
    if short is None or short.blame is None:
        return ["no inputs are within the limits at all"]
    own = plant.turned(turn)
    at = ", ".join(f"{name} {'high' if sign > 0 else 'low'}" for name, sign in zip(names, short.blame.corner) if sign)
    ends = [f"the {'upper' if sign > 0 else 'lower'} end of {names[i]}" for i, sign in short.blame.ends]
    met = ends + [limit_words(model, row) for row in short.blame.limits]
    meets = "meet there" if len(met) > 1 else "is in the way there"
    words = [f"at the corner of {at} the next state can't be kept in the box: {' and '.join(met)} {meets}, {plain(max(0.0, -short.least))} tolerances short"]
    calm = short_of(replace(plant, shift=numpy.zeros(model.n)), turn, parts, stay)
    if any(own.shift > 0.6 / 2 ** int(model.text["box"].get("grid", 4))) and calm and calm.least - short.least > 0.25 * max(0.25, -short.least):
        words.append(f"without what is disturbed it would be {plain(max(0.0, -calm.least))}: a smaller `disturbed` helps")
    return words


def limit_words(model: Model, row: int) -> str:
    """A stage row by its name."""
    return f"the limit {in_floats(model).name('stage row', row + 1).word}"


def search(model: Model, most: float = MOST_STEPS, seconds: float = 60.0, generate: bool = False, clock: float = 100.0, same: bool = False) -> tuple[dict, bool]:
    """The keys of a model whose design has faces, and whether they hold; else of the best that was seen."""
    with Budget(seconds) as budget:
        if found_faces(model, generate):
            say("as it is: the faces hold" if any(model.stay) else "the model's own limits keep it in the box")
            return model.text, True
        found = Search(model, budget, generate, clock, same, most)
        keys = found.run()
    if keys is not None:
        return keys, True
    for words in in_the_way(model, found.plant, found.best):
        say(words)
    return (with_limits(model, found.best) if found.best else model.text), False


def others_words(model: Model, keys: dict) -> str:
    """What isn't the model's of cost and stages, as a page of the design has to say."""
    others = [f"its {key}" for key in ("cost", "stages") if keys.get(key) != model.text.get(key)]
    return f"; {TIMELY} {' and '.join(others)} {'is' if others == ['its cost'] else 'are'} not what was asked for" if others else ""


def main() -> int:
    parser = Parser(__doc__)
    parser.add_argument("model", metavar="MODEL")
    parser.add_argument("new", metavar="NEW_MODEL", nargs="?")
    parser.add_argument("--generate", action="store_true")
    parser.add_argument("--steps", type=several, default=MOST_STEPS, metavar="N")
    parser.add_argument("--clock", type=positive, default=100.0, metavar="MHZ")
    parser.add_argument("--seconds", type=positive, default=60.0, metavar="S")
    parser.add_argument("--same-cost", action="store_true")
    given = parser.parse_args()
    files.keep_apart({"MODEL": given.model}, {"NEW_MODEL": given.new or files.STANDARD_OUTPUT})
    model = read_model(given.model)
    found, holds = search(model, given.steps, given.seconds, given.generate, given.clock, given.same_cost)
    if not holds:
        say("no coordinates, no limits and no box were found for which faces hold, and the best that was seen is kept: stronger inputs, a smaller box or a smaller `disturbed` (docs/BOXES.md)")
    text = files.read_bytes(given.model).decode() if found is model.text else model_text(found, "a model whose loops never leave the box, by ./mpc staying" + others_words(model, found))
    files.put(given.new, text)
    return 0 if holds else 12


if __name__ == "__main__":
    run(main)
