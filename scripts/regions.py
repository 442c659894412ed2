"""Proposes a box for start states that are no box: the least, in the model's coordinates or in others, that holds all states of the model's box at which its half-planes hold (`region`).

    ./mpc regions MODEL [NEW_MODEL] [--cells DESIGN CUTS POLICIES] [--seconds S]

Each half-plane takes the place of a state that it has, or of none. Of the boxes with a plan from each corner the smallest is taken, else that which lacks least, with a warning; it may hold
states, too, that weren't meant. The model with that box and without half-planes goes to NEW_MODEL, or is printed; one that has none stays as it is. `./mpc design` searches on from there.

    --cells DESIGN CUTS POLICIES   cuts the box into at most 64 cells, the fewest that were found, such that each state of the model's box at which the half-planes hold lies in one with a policy:
                 DESIGN is what ./mpc draft makes of NEW_MODEL, and CUTS and POLICIES are for ./mpc split DESIGN CUTS POLICIES CELLS REPORT, with `none` for a cell without
    --seconds S  how long it searches at most (60); an interrupt ends the search before, and the best is taken. Every few seconds it says how far it is

Where no cells do, it says which corner of what is meant lies in none, by how much, and ends with status 6; then nothing is written. No promise rests on it.
"""
import itertools
import math
from dataclasses import dataclass

from .common.libraries import Refusal, need, run, say

need("numpy", "scipy", "cvxopt", "jsonschema")
import numpy
import scipy.optimize
import scipy.spatial

from .cells import MOST_CELLS, Cell, about_steps, cuts_text, each_made, policies_text, search, states_in, words_of
from .common import files
from .common.arguments import Parser, positive
from .common.budget import Budget
from .common.cell_boxes import cells_of
from .common.design_text import Design, plain, text_of
from .common.machines import machine_of
from .common.model_text import model_text
from .common.models import Model, read_model, split_name
from .common.programs import Programs
from .coordinates import Choice, changed, told
from .draft import drafted, in_floats

# what counts as a plan's slack, in tolerances
SOME = 2**-16
# parts of a corner's slack at which plans are tried, and what is taken for any
PARTS, MUCH = (0.5, 0.9), 4.0
# how near to a half-plane states are on it, as a part of the box
NEAR = 1e-7
# at most so many coordinates are tried
MOST = 64
DIGITS = 4


class Region:
    """The states of a model's box at which its half-planes hold, as `rows x <= bounds` over the plant's states, the held ones and last inputs."""

    def __init__(self, model: Model) -> None:
        self.model, self.to = model, model.to
        self.planes = [(self.factors(plane), sign * plane[key], sign) for plane in model.text.get("region", []) for key, sign in (("bound", 1), ("least", -1)) if math.isfinite(plane.get(key, math.inf))]
        self.rows = numpy.vstack([*(sign * row for row, _, sign in self.planes), self.to, -self.to])
        self.bounds = numpy.r_[[bound for _, bound, _ in self.planes], model.hi, -numpy.array(model.lo)]
        self.middle, self.half = (numpy.array(model.hi) + model.lo) / 2, (numpy.array(model.hi) - model.lo) / 2
        self.words = f"the states of the box within {' and '.join(plane.get('name', 'a half-plane') for plane in model.text.get('region', []))}"

    def factors(self, plane: dict) -> numpy.ndarray:
        model = self.model
        last = numpy.array(plane.get("last", [0.0] * model.p), float)[model.last]
        return numpy.r_[plane.get("state", [0.0] * model.own), plane.get("held", [0.0] * len(model.held)), last]

    def most(self, row: numpy.ndarray) -> float:
        """The most that a sum of states comes to; Refusal where no state is left."""
        got = scipy.optimize.linprog(-row, A_ub=self.rows, b_ub=self.bounds, bounds=(None, None), method="highs")
        if got.x is None:
            raise Refusal("region: half-planes are expected that leave some state of the box")
        return float(-got.fun)

    def part(self, rows: numpy.ndarray, low: numpy.ndarray, high: numpy.ndarray) -> tuple[numpy.ndarray, numpy.ndarray]:
        """The part with these sums of states from low to high: rows of length 1 and bounds, over the coordinates of the model's box that aren't one number, each from -1 to 1 in it."""
        rows = numpy.vstack([self.rows, rows, -rows]) @ numpy.linalg.inv(self.to)
        left, rows = numpy.r_[self.bounds, high, -low] - rows @ self.middle, (rows * self.half)[:, self.half > 0]
        sizes = numpy.linalg.norm(rows, axis=1)
        able = sizes > 1e-12
        return rows[able] / sizes[able, None], left[able] / sizes[able] + NEAR

    def meets(self, *part: numpy.ndarray) -> bool:
        """Whether the part has a state."""
        rows, bounds = self.part(*part)
        return scipy.optimize.linprog(numpy.zeros(rows.shape[1]), A_ub=rows, b_ub=bounds, bounds=(None, None), method="highs").status == 0

    def corners(self, *part: numpy.ndarray) -> numpy.ndarray:
        """The corners of a part that has a state, in the coordinates of the model's box."""
        rows, bounds = self.part(*part)
        far = numpy.hstack([rows, numpy.ones((len(rows), 1))])
        inner = scipy.optimize.linprog(numpy.r_[numpy.zeros(rows.shape[1]), -1.0], A_ub=far, b_ub=bounds, bounds=(None, None), method="highs").x[:-1]
        if len(inner) == 1:
            found = numpy.array([[-min(bounds[rows[:, 0] < 0])], [min(bounds[rows[:, 0] > 0])]])
        else:
            found = scipy.spatial.HalfspaceIntersection(numpy.c_[rows, -bounds], inner).intersections
        corners = numpy.tile(self.middle, (len(found), 1))
        corners[:, self.half > 0] += found * self.half[self.half > 0]
        return corners

    def worst(self, *part: numpy.ndarray) -> tuple[float, str]:
        """The least slack, over the corners of a part, of the best plan from there; and that corner in the model's units."""
        programs = Programs(in_floats(self.model))
        slack, place = min((programs.most_slack(list(corner / self.model.state_units))[0], tuple(corner)) for corner in self.corners(*part))
        state = numpy.linalg.inv(self.to) @ place
        names = [split_name(words, f"x{i + 1}") for i, words in enumerate(self.model.text.get("states", [""] * self.model.own))] + self.model.names[self.model.own :]
        return slack, ", ".join(f"{name} {plain(value if abs(value) > 1e-9 else 0)} {unit}".rstrip() for (name, unit), value in zip(names, state))

    def turns(self) -> list[dict]:
        """Coordinates in which half-planes are ends of a box, each in the place of a state that it has; by (state, what is added of), in the design's units."""
        model, back, found = self.model, numpy.linalg.inv(self.to), []
        rows = {tuple((row @ back).round(12)) for row, _, _ in self.planes}
        places = [[None, *(i for i in range(model.own) if abs(row[i]) > 1e-9)] for row in rows]
        for chosen in itertools.product(*places):
            used = [i for i in chosen if i is not None]
            if len(used) == len(set(used)):
                times = {(i, j): factor / row[i] for i, row in zip(chosen, rows) if i is not None for j, factor in enumerate(row) if j != i and factor}
                found.append({(i, j): time * model.state_units[j] / model.state_units[i] for (i, j), time in times.items()})
        return sorted(found, key=len)[:MOST]

    def text(self, times: dict) -> dict:
        """The keys of the model with these coordinates, and with the least box that holds the region."""
        model = self.model
        text = changed(model, Choice(times, [1.0] * model.n))
        made = Model({key: value for key, value in text.items() if key != "region"})
        ends = [(-self.most(-made.to[i]), self.most(made.to[i])) for i in range(model.own)]
        box = dict(made.text["box"]) | {"lo": [outward(low, -1) for low, _ in ends], "hi": [outward(high, 1) for _, high in ends]}
        return made.text | {"box": box}


def outward(value: float, sign: int) -> float:
    """A number of a few digits, no less far out but for what floating point loses."""
    if abs(value) < 1e-12:
        return 0.0
    step = 10.0 ** (math.floor(math.log10(abs(value))) - DIGITS + 1)
    return float(f"{sign * step * math.ceil(sign * value / step - 1e-6):.{DIGITS}g}")


def least_slack(model: Model) -> float:
    """The least slack of the corners' best plans, in tolerances: at most 0 where some corner has none."""
    design = in_floats(model)
    programs = Programs(design)
    return min(programs.most_slack([float(v) for v in design.corner(number)])[0] for number in range(1, 2**design.states + 1))


def size_of(model: Model) -> float:
    """How large a model's box is."""
    sides = [high - low for low, high in zip(model.lo, model.hi) if high > low]
    return float(numpy.prod(sides) / abs(numpy.linalg.det(model.to)))


@dataclass
class Box:
    """A box that holds a region: how much slack plans from its corners have, its model, and its coordinates in words."""

    slack: float
    made: Model
    words: str

    @property
    def worth(self) -> tuple[bool, float]:
        return self.slack > SOME, -size_of(self.made) if self.slack > SOME else self.slack


def boxes_of(region: Region, budget: Budget) -> list[Box]:
    """Boxes that hold the region, the best first: the smallest whose corners all have plans, then that which lacks least."""
    found: list[Box] = []
    for times in region.turns():
        if found and not budget.goes_on():
            break
        made = Model(region.text(times))
        found.append(Box(least_slack(made), made, told(region.model, Choice(times, [1.0] * region.model.n))))
        budget.best = f"best so far a box {max(found, key=lambda box: box.worth).words}"
    return sorted(found, key=lambda box: box.worth, reverse=True)


def within_region(region: Region, budget: Budget) -> tuple[Model, str]:
    """The model with a box that holds the states that it asks for, and what is to be said of it."""
    box = boxes_of(region, budget)[0]
    if box.slack > SOME:
        return box.made, f"{region.words} lie in a box {box.words}, and each of its corners has a plan"
    lacking = f"but a corner of it has no plan, {-box.slack:.3g} tolerances short, and so has one of each other box that was tried"
    return box.made, f"warning: {region.words} lie in a box {box.words}; {lacking}\n./mpc regions MODEL NEW_MODEL --cells DESIGN CUTS POLICIES goes on: it leaves out such corners by cells of a box"


# ---- cells


class Lacking:
    """How much of a design's box lies in cells that hold a state of the region and have no policy that `generate` takes; each corner is looked at once."""

    def __init__(self, region: Region, box: Box, design: Design) -> None:
        self.region, self.box, self.programs = region, box, Programs(design)
        self.unit, self.about, self.most = box.made.state_units / 2**design.grid, about_steps(design), machine_of(design.version).most_steps
        self.corners: dict[tuple, tuple[float, list[float]]] = {}
        self.met: dict[tuple, bool] = {}

    def part(self, cell: Design) -> tuple:
        return self.box.made.to, self.unit * cell.lo, self.unit * cell.hi

    def corner(self, corner: tuple, grid: int) -> tuple[float, list[float]]:
        """The greatest slack of a plan from a corner, and what the best costs with these parts of it."""
        if corner not in self.corners:
            state = [v / 2**grid for v in corner]
            slack = min(self.programs.most_slack(state)[0], MUCH)
            plans = [self.programs.best(state, part * slack) for part in PARTS] if slack > SOME else [None for _ in PARTS]
            self.corners[corner] = slack, [math.inf if plan is None else self.programs.cost(state, plan) for plan in plans]
        return self.corners[corner]

    def found(self, cell: Design) -> tuple[float, float]:
        """The least slack of a cell's corners, and a K with a part of that, which costs no more than this part of each one's own."""
        slacks, costs = zip(*(self.corner(corner, cell.grid) for corner in itertools.product(*zip(cell.lo, cell.hi))))
        least = min(slacks)
        return least, self.about(min(max(of) / (part * least) for part, of in zip(PARTS, zip(*costs)))) if least > SOME else math.inf

    def is_met(self, cell: Design) -> bool:
        key = (*cell.lo, *cell.hi)
        if key not in self.met:
            self.met[key] = self.region.meets(*self.part(cell))
        return self.met[key]

    def cells(self, design: Design, cuts: list[list[int]]) -> list[Design]:
        # a policy is rounded
        return [cell for cell in cells_of(design, cuts) if 1.05 * self.found(cell)[1] > self.most and self.is_met(cell)]

    def worth(self, design: Design, cuts: list[list[int]]) -> tuple[float, ...]:
        return (sum(map(states_in, self.cells(design, cuts))) / states_in(design),)

    def words(self, worth: tuple[float, ...]) -> str:
        return f"{plain(100 * worth[0])} % of a box {self.box.words} lacks a policy"


@dataclass
class Cover:
    """A box's design with cuts, and the cells that lack a policy."""

    box: Box
    design: Design
    cuts: list[list[int]]
    lacking: Lacking

    def fewer(self) -> None:
        """Takes out cuts without which no cell lacks a policy."""
        for i, own in enumerate(self.cuts):
            for cut in own:
                fewer = [[v for v in other if v != cut] if k == i else other for k, other in enumerate(self.cuts)]
                if not self.lacking.cells(self.design, fewer):
                    self.cuts = fewer


def cover_of(region: Region, boxes: list[Box], budget: Budget) -> Cover:
    """The first of the boxes that cells cover, or the one that lacks least."""
    found = []
    for number, box in enumerate(boxes):
        if found and not budget.goes_on():
            break
        try:
            design = drafted(box.made).design
        except (Refusal, numpy.linalg.LinAlgError, ArithmeticError):
            continue
        lacking = Lacking(region, box, design)
        cover = Cover(box, design, search(design, MOST_CELLS, lacking, budget), lacking)
        found.append((lacking.worth(design, cover.cuts), number, cover))
        if not found[-1][0][0]:
            cover.fewer()
            return cover
    if not found:
        raise Refusal("none of the boxes that were tried can be drafted: ./mpc draft says why", 6)
    return min(found)[-1]


def in_cells(region: Region, budget: Budget) -> tuple[Cover, list[Cell | None]]:
    """Cells that hold the region, each of which has a policy where it has a state of it; Refusal with a corner that lies in none."""
    boxes = boxes_of(region, budget)
    slack, place = region.worst(region.to, numpy.array(region.model.lo), numpy.array(region.model.hi))
    if slack <= SOME:
        raise Refusal(f"{region.words}: {place} is one, and no plan from there keeps every limit: it is {plain(-slack)} tolerances short. No cells help, but other half-planes or wider limits", 6)
    cover = cover_of(region, boxes, budget)
    cells: list[Design] = cells_of(cover.design, cover.cuts)
    is_lost = any(cover.lacking.found(cell)[0] <= SOME and cover.lacking.is_met(cell) for cell in cells)
    kept: list[Cell | None] = [None] * len(cells) if is_lost else each_made(cover.design, cover.cuts, budget)
    lacking = [(cover.lacking.found(cell), number) for number, cell in enumerate(cells) if not kept[number] and cover.lacking.is_met(cell)]
    if lacking:
        (least, steps), number = min(lacking)
        short = f"a corner is {plain(-least)} tolerances short" if least <= SOME else f"K would be about {plain(steps)}, and at most {cover.lacking.most} are made"
        raise Refusal(f"{region.words}: {region.worst(*cover.lacking.part(cells[number]))[1]} is one, and lies in no cell with a policy: of the cell that was cut about it {short}", 6)
    return cover, kept


def say_cells(region: Region, cover: Cover, kept: list[Cell | None]) -> None:
    cells = [cell for cell in kept if cell]
    for words in words_of(cover.design, cells, None)[: len(cells)]:
        say(words)
    others = ", and the others hold none of these states" if len(cells) < len(kept) else ""
    say(f"{region.words} lie in cells of a box {cover.box.words}: {len(cells)} of {len(kept)} have a policy{others}")


def main() -> int:
    parser = Parser(__doc__)
    parser.add_argument("model", metavar="MODEL")
    parser.add_argument("new", metavar="NEW_MODEL", nargs="?")
    parser.add_argument("--cells", nargs=3, metavar=("DESIGN", "CUTS", "POLICIES"))
    parser.add_argument("--seconds", type=positive, default=60.0, metavar="S")
    given = parser.parse_args()
    files.keep_apart({"MODEL": given.model}, {"NEW_MODEL": given.new or files.STANDARD_OUTPUT} | dict(zip(("DESIGN", "CUTS", "POLICIES"), given.cells or [])))
    asked = read_model(given.model)
    made, texts = asked, []
    if asked.text.get("region"):
        with Budget(given.seconds) as budget:
            if given.cells:
                cover, kept = in_cells(region := Region(asked), budget)
                say_cells(region, cover, kept)
                made, texts = cover.box.made, [text_of(cover.design), cuts_text(cover.cuts), policies_text(kept)]
            else:
                made, words = within_region(Region(asked), budget)
                say(words)
    elif given.cells:
        raise Refusal(f"{given.model} has no half-planes (`region`), so nothing is to be left out: ./mpc cells cuts a design's box")
    else:
        say("the model has no half-planes, and stays as it is")
    text = files.read_bytes(given.model).decode() if made is asked else model_text(made.text, "a model with a box that holds its starts, by ./mpc regions")
    for path, cells_text in zip(given.cells or [], texts):
        files.write(path, cells_text)
    files.put(given.new, text)
    return 0


if __name__ == "__main__":
    run(main)
