"""Proposes coordinates, or a box, in which the closed loops of a model stay.

    ./mpc coordinates MODEL [NEW_MODEL] [--turns N] [--seconds S]

A box of a position and its rate is left at once from the corner where both have one sign: what moves goes on moving. In place of the position it tries the position in some time,
`position + T rate`, for each state that another one moves, with T from half a period to 40 of them; and where the rate then leaves its box, a smaller box of the position, a fifth at a
time. Then it tries the coordinates in which loops of linear gains shrink each by itself, with held states and last inputs in them, as `position - target`. Where loops leave all the
same, it makes the box smaller in one coordinate after the other, held states among them, in that which helps most. Loops are those of exact model predictive control (cvxopt) from the
corners, N turns (50).

What was tried goes to standard error, and every few seconds how far the search is: it ends after S seconds (60), or by an interrupt. The model with what was found goes to NEW_MODEL, or
is printed; where loops stay in the model as it is, it is MODEL's own. Where no loops were found to stay, that is the best that was seen, the status is 12, and what leads out is
said. Nothing rests on it: `./mpc loop` shows the controller's own loops.
"""
import itertools
from collections.abc import Iterator
from dataclasses import dataclass, field

from .common.libraries import Refusal, need, run, say

need("numpy", "scipy", "cvxopt")
import numpy

from .common import files
from .common.arguments import Parser, positive, turns
from .common.budget import Budget
from .common.design_text import Design, plain
from .common.model_text import model_text
from .common.models import Model, neat, read_model, split_name
from .common.programs import Programs, reach_of
from .common.turns import candidates
from .draft import draft

# T in periods
TIMES = (0.0, 0.5, 0.7, 1.0, 1.3, 1.6, 2.0, 2.5, 3.2, 4.0, 5.0, 6.3, 8.0, 10.0, 13.0, 16.0, 20.0, 25.0, 32.0, 40.0)
# by which a coordinate of the box is made smaller, and how often at most: of a pair, and of each
SMALLER, CUTS, ROUNDS = 0.8, 8, 12
# how far loops may go in a trial, as a part of the box, since drafting rounds: the first that is kept when it is drafted serves
WANTED = (1.0, 0.97, 0.93, 0.88)
# a coupling that moves less than this part of a coordinate's box in a period is none
COUPLED = 0.02
# the slack that a corner's plan must leave, in tolerances
SLACK = 1 / 16
# up to which part of the time pairs, and other coordinates, are tried
PAIRS_PART, TURNED_PART = 0.35, 0.6


@dataclass
class Choice:
    """The new coordinates as sums of the design's, T by the pair that has it, and the parts of the box that are kept."""

    times: dict = field(default_factory=dict)
    kept: list = field(default_factory=list)

    def rows(self, size: int) -> numpy.ndarray:
        rows = numpy.eye(size)
        for (i, j), time in self.times.items():
            rows[i, j] = time
        return rows


class Search:
    """Loops of a design, from the corners of other boxes; all in the design's units."""

    def __init__(self, design: Design, own: int, count: int) -> None:
        self.design, self.own, self.count, self.programs = design, own, count, Programs(design)
        self.a, self.b = numpy.array(design.a) / design.plant_den, numpy.array(design.b) / design.plant_den
        lo, hi = numpy.array(design.lo) / 2**design.grid, numpy.array(design.hi) / 2**design.grid
        self.middle, self.half = (lo + hi) / 2, (hi - lo) / 2

    def corners(self, choice: Choice, moved: tuple[int, ...]) -> list[numpy.ndarray]:
        """The corners of the choice's box in these of its coordinates, the others in the middle; of a problem that looks the same from both sides, one of each two."""
        sides = [(-1.0, 1.0) if i in moved and half else (0.0,) for i, half in enumerate(self.half)]
        if self.is_even():
            sides[moved[0]] = sides[moved[0]][:1]
        middle = choice.rows(self.design.states) @ self.middle
        return [middle + numpy.array(signs) * self.half * choice.kept for signs in itertools.product(*sides)]

    def is_even(self) -> bool:
        d = self.design
        rows = lambda table: sorted(map(tuple, table))
        turned = lambda table: sorted((*(-v for v in row[:-1]), row[-1]) for row in table)
        targets = any(row[-2] for row in d.stage_cost + d.final_cost)
        return not targets and not self.middle.any() and all(rows(t) == turned(t) for t in (d.stage_rows, d.final_rows))

    def far(self, choice: Choice, moved: tuple[int, ...], enough: float = float("inf")) -> float:
        """How far the loops from these corners go in these coordinates after their start, as a part of the box; infinite where a corner has no plan, and no more than that it is beyond
        `enough`."""
        rows = choice.rows(self.design.states)
        back, half, most = numpy.linalg.inv(rows), self.half * numpy.array(choice.kept), 0.0
        for corner in self.corners(choice, moved):
            state = back @ corner
            if self.programs.best(state, SLACK) is None:
                return float("inf")
            for _ in range(self.count):
                plan = self.programs.best(state)
                plan = self.programs.unlimited(state) if plan is None else plan
                before, state = state, self.a @ state + self.b @ plan[: self.design.inputs]
                off = abs(rows @ (state - self.middle))
                most = max(most, *(float(off[i] / half[i]) for i in moved if half[i] > 0))
                if most > enough:
                    return most
                if all(abs(state - before) < 1e-3 * numpy.maximum(self.half, 1e-9)) and all(off[i] <= 0.5 * half[i] for i in moved):
                    break
        return most

    def pairs(self) -> list[tuple[int, int]]:
        """Each coordinate with one that moves it and that it moves less, the strongest coupling first."""
        part = lambda i, j: abs(self.a[i, j]) * self.half[j] / self.half[i] if self.half[i] > 0 else 0.0
        found = [(part(i, j), (i, j)) for i in range(self.own) for j in range(len(self.a)) if i != j and self.half[j] > 0]
        return [pair for weight, pair in sorted(found, reverse=True) if weight > COUPLED and self.a[pair] and self.a[pair[0], pair[0]] > 0.5 and weight > part(*pair[::-1])]


def with_pair(found: Search, units: numpy.ndarray, choice: Choice, pair: tuple[int, int], wanted: float, budget: Budget) -> Choice:
    """The choice with a T for this pair, and as much of its box as lets the loops go no further than wanted; else those at which they go least far."""
    (i, j), best, least = pair, choice, float("inf")
    ratio = units[i] / units[j]
    for round_ in range(CUTS):
        kept = [part * SMALLER**round_ if k == i else part for k, part in enumerate(choice.kept)]
        for time in TIMES:
            if not budget.goes_on(PAIRS_PART):
                return best
            # T in physical units has two digits, so that a text shows it
            trial = Choice(choice.times | ({pair: neat(time * found.a[pair] * ratio) / ratio} if time else {}), kept)
            there = found.far(trial, pair, least)
            if there < least:
                best, least = trial, there
        if least <= wanted:
            break
    return best


def smaller_boxes(found: Search, choice: Choice, budget: Budget) -> Iterator[Choice]:
    """Choices with a box that is smaller in one coordinate after the other, in that which helps most."""
    able = [i for i in range(found.design.states) if found.half[i]]
    for _ in range(ROUNDS):
        trials = [(found.far(cut(choice, i), tuple(able)), i) for i in able if budget.goes_on()]
        if len(trials) < len(able):
            return
        choice = cut(choice, min(trials)[1])
        yield choice


def cut(choice: Choice, i: int) -> Choice:
    """The choice with a smaller box in one coordinate."""
    return Choice(choice.times, [part * SMALLER if k == i else part for k, part in enumerate(choice.kept)])


def choices(model: Model, found: Search, budget: Budget) -> Iterator[Choice]:
    """What is to be drafted, one after the other."""
    plain_choice, able = Choice({}, [1.0] * model.n), tuple(i for i in range(model.n) if found.half[i])
    pairs, last = found.pairs(), Choice({}, [1.0] * model.n)
    for wanted in WANTED if pairs else ():
        choice = plain_choice
        for pair in pairs:
            if found.far(choice, pair, wanted) > wanted:
                choice = with_pair(found, model.state_units, choice, pair, wanted, budget)
        if choice != last:
            yield choice
        last = choice
    held, best, least = list(range(model.own, model.own + len(model.held))), last, found.far(last, able)
    for times in candidates(found.design, model.own, held, model.state_units):
        if times and budget.goes_on(TURNED_PART) and (far := found.far(Choice(times, plain_choice.kept), able, least)) < least:
            best, least = Choice(times, plain_choice.kept), far
            if least <= 1:
                break
    if best != last:
        yield best
    yield from smaller_boxes(found, best, budget)


def reach(model: Model, choice: Choice, count: int) -> numpy.ndarray:
    """How far the loops of the choice's drafted design go; infinite where it can't be drafted."""
    try:
        return reach_of(draft(Model(changed(model, choice))), count)
    except Refusal:
        return numpy.full(model.n, numpy.inf)


def told(model: Model, choice: Choice) -> str:
    """A choice in words."""
    units, names = model.state_units, model.names
    rows = (units[:, None] * choice.rows(model.n) / units[None, :]) @ model.to
    words = [f"{name_of(model, i, rows[i])} in place of {names[i][0]}" for i in sorted({i for i, _ in choice.times})]
    words += [f"{plain(part)} of the box of {names[i][0]}" for i, part in enumerate(choice.kept) if abs(part - 1) > 1e-9]
    return "with " + ", ".join(words) if words else "as it is"


def search(model: Model, design: Design, count: int, seconds: float = 60.0) -> tuple[Choice, numpy.ndarray]:
    """The choice in which loops stay, or the one in which they go least far; and how far they go in each coordinate, as a part of the box."""
    with Budget(seconds) as budget:
        best = Choice({}, [1.0] * design.states), reach_of(design, count)
        say(f"{told(model, best[0])}: the loops reach {plain(best[1].max())} of the box")
        if best[1].max() <= 1:
            return best
        for choice in choices(model, Search(design, model.own, count), budget):
            far = reach(model, choice, count)
            say(f"{told(model, choice)}: the loops reach {plain(far.max())} of the box")
            if far.max() < best[1].max():
                best = choice, far
                budget.best = f"best so far, the loops reach {plain(far.max())} of the box {told(model, choice)}"
            if far.max() <= 1:
                break
    return best


def changed_text(model: Model, choice: Choice) -> str:
    return model_text(changed(model, choice), "a model in coordinates and a box in which its loops stay, by ./mpc coordinates")


def changed(model: Model, choice: Choice) -> dict:
    """The model's keys with the choice's coordinates and box."""
    own, text, units = model.own, dict(model.text), model.state_units
    turn = units[:, None] * choice.rows(model.n) / units[None, :]
    if choice.times:
        text["coordinates"] = coordinates_of(model, turn @ model.to)
    ends = numpy.array([model.lo, model.hi], float)
    middle, half = turn @ ends.mean(axis=0), (ends[1] - ends[0]) / 2 * numpy.array(choice.kept)
    if choice.times or min(choice.kept) < 1:
        text["box"] = box_of(model, choice, middle, half)
        text["held"] = [still if part == 1 else still | {"lo": four(m - h), "hi": four(m + h)} for still, part, m, h in zip(model.held, choice.kept[own:], middle[own:], half[own:])]
        if not text["held"]:
            del text["held"]
    if choice.times and any(model.disturbed):
        text["box"]["disturbed"] = [four(v) for v in (abs(turn[:own, :own]) @ numpy.array(model.disturbed))]
    return text


def coordinates_of(model: Model, rows: numpy.ndarray) -> dict:
    """The table of coordinates, as sums of the model's own states, of the held ones and of last inputs."""
    own, kept = model.own, model.own + len(model.held)
    neat_rows = lambda table: [[neat_sum(v) for v in row] for row in table]
    out = {"rows": neat_rows(rows[:own, :own])}
    if model.held and rows[:own, own:kept].any():
        out["held"] = neat_rows(rows[:own, own:kept])
    if rows[:own, kept:].any():
        last = numpy.zeros((own, model.p))
        last[:, model.last] = rows[:own, kept:]
        out["last"] = neat_rows(last)
    return out | {"names": [name_of(model, i, rows[i]) for i in range(own)]}


def box_of(model: Model, choice: Choice, middle: numpy.ndarray, half: numpy.ndarray) -> dict:
    """The table of the box with other ends."""
    own, kept, box = model.own, model.own + len(model.held), dict(model.text["box"])
    box["hi"] = [four(m + h) for m, h in zip(middle[:own], half)]
    if "lo" in box or any(middle[:own]):
        box["lo"] = [four(m - h) for m, h in zip(middle[:own], half)]
    if min(choice.kept[kept:], default=1) < 1:
        most = dict(zip(model.last, half[kept:]))
        box["last"] = [four(most[l]) if l in most else box.get("last", [1.0] * model.p)[l] for l in range(model.p)]
    return box


def neat_sum(value: float) -> float:
    return float(f"{value:.9g}")


def four(value: float) -> float:
    """A number of four digits."""
    return float(f"{value:.4g}")


def name_of(model: Model, i: int, row: numpy.ndarray) -> str:
    """What a coordinate is called that is this sum of the model's states, held ones and last inputs: where it is a state of the plant with its rate in it, by the time."""
    text, plant = model.text, numpy.array(model.text["a"], float)
    names = [split_name(words, f"x{k + 1}") for k, words in enumerate(text.get("states", [""] * model.own))] + model.names[model.own :]
    unit = model.names[i][1] or "units"
    if numpy.count_nonzero(row) == 1 or not numpy.any(row != model.to[i]):
        return " ".join(filter(None, model.names[i]))
    ahead, rest = {}, dict(enumerate(row))
    for k, rate in itertools.permutations(range(model.own), 2):
        if row[k] == 1.0 and row[rate] > 0 and numpy.count_nonzero(row[: model.own]) == 2 and plant[k][rate] == 1.0 and not text.get("sampled"):
            ahead = {k: f" in {plain(row[rate] * 1000)} ms" if row[rate] < 1 else f" in {plain(row[rate])} s"}
            del rest[rate]
    terms = [(v, names[k][0] + ahead.get(k, "")) for k, v in rest.items() if v]
    words = "".join(f" {'-' if v < 0 else '+'} {f'{plain(abs(v))} ' if abs(v) != 1 else ''}{name}" for v, name in terms).removeprefix(" + ").strip()
    return f"{words} {unit}" if len(words) + len(unit) < 60 else f"{model.names[i][0]} and others {unit}"


def to_blame(model: Model, far: numpy.ndarray) -> str:
    """Which coordinates the loops leave, and by how much."""
    out = [f"{model.names[i][0]} ({plain(far[i])} of its box)" for i in numpy.argsort(-far) if far[i] > 1]
    return f"the loops leave in {', '.join(out)}"


def main() -> int:
    parser = Parser(__doc__)
    parser.add_argument("model", metavar="MODEL")
    parser.add_argument("new", metavar="NEW_MODEL", nargs="?")
    parser.add_argument("--turns", type=turns, default=50, metavar="N")
    parser.add_argument("--seconds", type=positive, default=60.0, metavar="S")
    given = parser.parse_args()
    files.keep_apart({"MODEL": given.model}, {"NEW_MODEL": given.new or files.STANDARD_OUTPUT})
    model = read_model(given.model)
    choice, far = search(model, draft(model), given.turns, given.seconds)
    if far.max() > 1:
        say(f"no coordinates and no box were found in which loops stay; the best is kept, {told(model, choice)}: {to_blame(Model(changed(model, choice)), far)}")
        say("what helps: weights that move these less, more stages, limits on what overshoots, or --stay, which limits the next state (docs/BOXES.md)")
    changes = bool(choice.times) or min(choice.kept) < 1
    text = changed_text(model, choice) if changes else files.read_bytes(given.model).decode()
    files.put(given.new, text)
    return 12 if far.max() > 1 else 0


if __name__ == "__main__":
    run(main)
