"""Proposes cells of a design's box, each with a controller of its own: a smaller box has a smaller cost, and so fewer steps K.

    ./mpc cells DESIGN CUTS POLICIES [--cells N] [--seconds S] [--cuts FILE] [--leave-out] [--picture FILE] [--generate FOLDER] [--lines FILE]

It cuts the box in the coordinate that lowers the greatest K of a cell most, and where no cut does, the mean K over all grid states, once or twice in one of its parts, until there are N cells (9, at
most 64), or nothing is gained, or S seconds (60) are over, or by an interrupt; where a corner has no plan, in that which leaves the fewest states in cells without a policy. Every few seconds it says
how far the search is. Cells are all combinations of the coordinates' parts, the first coordinate fastest. CUTS gets a record for each coordinate: how many cuts it has, and the last
grid number of each part but the last. POLICIES gets the plans of the first cell's corners, then those of the next.

    --cuts FILE      takes the cuts of FILE, and searches none: CUTS is a copy of them
    --leave-out      has `none` in POLICIES for a cell that has no policy, so that `serve` refuses its states
    --picture FILE   draws the cells and their K over two coordinates, in .svg, .pdf or .png
    --generate FOLDER   has `./mpc generate` make each cell's controller, and says its K: design-1.toml, policy-1.csv, controller-1.txt, report-1.txt and so on stand then in FOLDER
    --lines FILE     lines of `./mpc loop`: says the mean K over their turns, where each state is served by its cell

`./mpc split DESIGN CUTS POLICIES CELLS REPORT` makes the controllers of all cells, and `./mpc serve CELLS STATES` runs them. What each cell's K is by its policy
goes to standard error, and the mean over all grid states beside the K of the whole box. It ends with status 6 where a cell that isn't left out has no policy, and with the status of
`generate` where that refuses one. Nothing rests on it.
"""
import contextlib
import io
import math
import os
import subprocess
from collections.abc import Callable
from dataclasses import dataclass, replace
from typing import Protocol

from .common.libraries import Refusal, need, run, say

need("numpy", "cvxopt")
from .common import files, matching
from .common.arguments import Parser, positive, whole
from .common.budget import Budget
from .common.cell_boxes import cells_of, count_of, parts_of
from .common.condensed import condense, curvature
from .common.corners import corners_of, margin_of, multiplier_of, steps_of
from .common.design_text import Design, plain, read_design, text_of
from .common.launcher import LAUNCHER
from .common.machines import machine_of
from .common.programs import Programs
from .common.texts import loop_lines_of, read_text, records_text, report_of
from .policy import find

MOST_CELLS, MOST_CUTS = 64, 63
# parts of a part at which it is cut, once or twice
PLACES = ((0.5,), (0.25,), (0.75,), (0.25, 0.75), (0.125, 0.875), (0.375, 0.625))
# slacks at which plans are tried, by the greatest that all corners of the box have
TIMES = tuple(2 ** (k / 2) for k in range(-6, 5))
# what is no gain
NOTHING = 0.99


def step_of(design: Design) -> int:
    """The step exponent, which no cell changes."""
    steep, step = curvature(design, condense(design)), 0
    while 2**step < steep:
        step += 1
    return step


def about_steps(design: Design) -> Callable[[float], float]:
    """About K, by what a corner's plan costs over its slack at most."""
    factor, machine = float(steps_of(replace(design, version=2), step_of(design), 1)), machine_of(design.version)
    return lambda cost: machine.about(factor * max(1.0, cost))


# ---- cuts


def states_in(design: Design) -> int:
    """How many grid states a box has."""
    count = 1
    for low, high in zip(design.lo, design.hi):
        count *= high - low + 1
    return count


def cuts_text(cuts: list[list[int]]) -> str:
    return records_text([[len(own), *own] for own in cuts])


def policies_text(cells: list["Cell | None"]) -> str:
    """The cells' policies, one after the other, with `none` for a cell without a controller."""
    return "".join(records_text(cell.policy) if cell else "none\n" for cell in cells)


def fault_of(design: Design, records: list[list[int]]) -> str | None:
    """What is wrong with the records of cuts, in the program's order: the first record, then their number, then the cells."""
    for number, record in enumerate(records[: design.states], 1):
        low, high = design.lo[number - 1], design.hi[number - 1]
        if not record or not 0 <= record[0] <= MOST_CUTS:
            return f"record {number} begins with no number of cuts from 0 to {MOST_CUTS}"
        if len(record) != record[0] + 1:
            return f"record {number} has {len(record)} numbers, and with {record[0]} cuts it should have {record[0] + 1}"
        for place, (before, cut) in enumerate(zip([low - 1, *record[1:]], record[1:]), 2):
            if not max(low, before + 1) <= cut < high:
                return f"record {number}, number {place}: a cut above {before if place > 2 else low - 1} and below {high} is expected, and {cut} stands there"
    if len(records) != design.states:
        return f"it has {len(records)} records, and the design {design.states} states"
    cells = count_of([record[1:] for record in records])
    return f"its cuts make {cells} cells, and at most {MOST_CELLS} are served" if cells > MOST_CELLS else None


def cuts_in(path: str, design: Design) -> list[list[int]]:
    """The cuts of a text."""
    try:
        records = [[int(word.strip().strip('"')) for word in line.split(",")] for line in read_text(path).splitlines() if line]
    except ValueError:
        raise Refusal(f"{path}: records of whole numbers are expected, a line each") from None
    fault = fault_of(design, records)
    if fault:
        raise Refusal(f"{path}: {fault}")
    return [record[1:] for record in records]


# ---- what a cell costs


@dataclass
class Cell:
    """A cell's design with its policy, R and K."""

    design: Design
    policy: list
    bound: int
    steps: int


class Judge(Protocol):
    """What says how good cuts are: by numbers, of which less is better and a later one counts where those before are about the same; and in words."""

    def worth(self, design: Design, cuts: list[list[int]]) -> tuple[float, ...]: ...

    def words(self, worth: tuple[float, ...]) -> str: ...


class Guesses:
    """About what K a box takes, by the costs of its corners' plans with one slack of a few; each corner is looked at once."""

    def __init__(self, design: Design) -> None:
        self.programs, self.about = Programs(design), about_steps(design)
        most = min(self.programs.most_slack(as_floats(design.corner(number)))[0] for number in range(1, 2**design.states + 1))
        self.slacks = [(most if math.isfinite(most) and most > 0 else 1.0) * times for times in TIMES]
        self.known: dict[tuple, list[float]] = {}

    def costs(self, corner: tuple) -> list[float]:
        """The cost of the best plan from a corner with each of the slacks; infinite where none has it."""
        if corner not in self.known:
            state, out = as_floats(corner), []
            for slack in self.slacks:
                plan = self.programs.best(state, slack) if not out or math.isfinite(out[-1]) else None
                out.append(math.inf if plan is None else self.programs.cost(state, plan))
            self.known[corner] = out
        return self.known[corner]

    def steps(self, design: Design) -> float:
        costs = [self.costs(tuple(design.corner(number))) for number in range(1, 2**design.states + 1)]
        return self.about(min(max(column) / slack for slack, column in zip(self.slacks, zip(*costs))))

    def worth(self, design: Design, cuts: list[list[int]]) -> tuple[float, ...]:
        """How much of the box has no policy; the greatest K of a cell, and the mean over the grid states that have one."""
        cells = [(self.steps(cell), states_in(cell)) for cell in cells_of(design, cuts)]
        kept = [(steps, count) for steps, count in cells if math.isfinite(steps)]
        served = sum(count for _, count in kept)
        return 1 - served / states_in(design), max((steps for steps, _ in kept), default=0.0), sum(steps * count for steps, count in kept) / max(1, served)

    def words(self, worth: tuple[float, ...]) -> str:
        lacking, greatest, middle = worth
        return f"the greatest K {plain(greatest)}, the mean {plain(middle)}" + (f", {plain(100 * lacking)} % of the box without a policy" if lacking else "")


def as_floats(state: list) -> list[float]:
    return [float(v) for v in state]


def made(design: Design, step: int) -> Cell | None:
    """What a cell's controller takes; None where it has no policy, or none of so few steps that `generate` takes them."""
    with contextlib.redirect_stderr(io.StringIO()):
        policy = find(design)
    bound = multiplier_of(*margin_of(corners_of(design, policy))) if policy else None
    steps = steps_of(design, step, bound) if bound else math.inf
    return Cell(design, policy, bound, steps) if steps <= machine_of(design.version).most_steps else None


# ---- the search


def with_more(design: Design, cuts: list[list[int]], most: int) -> list[list[list[int]]]:
    """The cuts with one or two more in a part of a coordinate, as long as there are no more cells than this."""
    out = []
    for i, parts in enumerate(parts_of(design, cuts)):
        for low, high in parts:
            for places in PLACES:
                new = {low + int((high - low) * place) for place in places}
                if high - low >= len(places) and max(new) < high:
                    out.append([sorted({*own, *new}) if k == i else own for k, own in enumerate(cuts)])
    return [trial for trial in out if count_of(trial) <= most and all(len(own) <= MOST_CUTS for own in trial)]


def against(worth: tuple[float, ...], best: tuple[float, ...]) -> tuple[float, ...]:
    """A worth whose numbers count as the best's up to the first that gains something."""
    place = next((place for place, (new, old) in enumerate(zip(worth, best)) if new < NOTHING * old), len(best))
    return (*best[:place], *worth[place:])


def search(design: Design, most: int, judge: Judge, budget: Budget) -> list[list[int]]:
    """Cuts that lower their worth most, one coordinate after the other, within a time."""
    cuts: list[list[int]] = [[] for _ in design.lo]
    best = judge.worth(design, cuts)
    while True:
        trials = []
        for number, trial in enumerate(with_more(design, cuts, most)):
            if not budget.goes_on():
                break
            trials.append((against(judge.worth(design, trial), best), number, trial))
        worth, _, trial = min(trials, default=(best, 0, cuts))
        if worth == best:
            return cuts
        best, cuts = worth, trial
        budget.best = f"best so far {count_of(cuts)} cells, {judge.words(best)}"


def each_made(design: Design, cuts: list[list[int]], budget: Budget) -> list[Cell | None]:
    """What each cell's controller takes."""
    step, out = step_of(design), []
    for number, cell in enumerate(cells_of(design, cuts), 1):
        budget.best = f"{count_of(cuts)} cells, and the policy of cell {number} is searched"
        out.append(made(cell, step))
    return out


def mean(cells: list[Cell]) -> float:
    """The mean K over all grid states."""
    return sum(cell.steps * states_in(cell.design) for cell in cells) / sum(states_in(cell.design) for cell in cells)


# ---- what is said and drawn


def words_of(design: Design, cells: list[Cell], whole_box: Cell | None) -> list[str]:
    """The cells in words, and the mean beside the whole box."""
    names = [design.name("state", i + 1) for i in range(design.states)]
    out = []
    for number, cell in enumerate(cells, 1):
        box = ", ".join(f"{name.word} {name.shown(low / 2**cell.design.grid)} to {name.shown(high / 2**cell.design.grid)}" for name, low, high in zip(names, cell.design.lo, cell.design.hi))
        out.append(f"cell {number}: {box}: R {cell.bound}, K about {cell.steps}")
    told = f", {plain(100 * mean(cells) / whole_box.steps)} % of {whole_box.steps} in one box" if whole_box else ", and there is no policy for one box"
    return [*out, f"{len(cells)} cells: the greatest K {max(cell.steps for cell in cells)}, the mean over all grid states {plain(mean(cells))}{told}"]


def generate(cells: list[Cell], folder: str, title: str) -> None:
    """Has the program make each cell's controller, and says what K its report has."""
    os.makedirs(folder, exist_ok=True)
    for number, cell in enumerate(cells, 1):
        design, policy, controller, report = (os.path.join(folder, name) for name in (f"design-{number}.toml", f"policy-{number}.csv", f"controller-{number}.txt", f"report-{number}.txt"))
        files.write(design, text_of(cell.design, f"cell {number} of {title}"))
        files.write(policy, records_text(cell.policy))
        made = subprocess.run([LAUNCHER, "generate", design, policy, controller, report])
        if made.returncode:
            raise Refusal(f"cell {number} is refused: {design}", made.returncode)
        say(f"cell {number}: its controller takes {report_of(read_text(report))['steps']} steps")


def mean_of_lines(design: Design, cells: list[Cell], path: str) -> str:
    """The mean K over the turns of loops, in words."""
    try:
        loops = loop_lines_of("\n".join(files.lines_of(path)), design.states, design.inputs, design.grid)
    except ValueError as fault:
        raise Refusal(f"{path}: {fault}") from None
    matching.refuse(path, "design", matching.loop_difference(loops, design))
    steps = [serving(cells, [int(v * 2**design.grid) for v in state]).steps for loop in loops.values() for state, _ in loop]
    if not steps:
        raise Refusal(f"{path} has no line")
    return f"the mean over the {len(steps)} turns of {len(loops)} loops is {plain(sum(steps) / len(steps))}"


def serving(cells: list[Cell], state: list[int]) -> Cell:
    """The first cell whose box holds a grid state."""
    found = next((cell for cell in cells if all(low <= v <= high for v, low, high in zip(state, cell.design.lo, cell.design.hi))), None)
    if found is None:
        raise Refusal(f"the state {state} over 2^grid lies in no cell that has a controller")
    return found


def draw(design: Design, cells: list[Cell], path: str) -> None:
    """The picture of the cells."""
    need("matplotlib")
    from .common import cell_pictures, pictures

    pictures.prepare()
    pictures.write(cell_pictures.draw(design, cells), path)


def main() -> int:
    parser = Parser(__doc__)
    for word in ("design", "cuts_file", "policies"):
        parser.add_argument(word, metavar={"cuts_file": "CUTS"}.get(word, word.upper()))
    parser.add_argument("--cells", type=whole(1, MOST_CELLS), default=9, metavar="N")
    parser.add_argument("--seconds", type=positive, default=60.0, metavar="S")
    parser.add_argument("--cuts", metavar="FILE")
    parser.add_argument("--leave-out", action="store_true")
    parser.add_argument("--picture", metavar="FILE")
    parser.add_argument("--generate", metavar="FOLDER")
    parser.add_argument("--lines", metavar="FILE")
    given = parser.parse_args()
    inputs = {"DESIGN": given.design} | {word: path for word, path in (("--cuts", given.cuts), ("--lines", given.lines)) if path}
    files.keep_apart(inputs, {"CUTS": given.cuts_file, "POLICIES": given.policies} | ({"--picture": given.picture} if given.picture else {}))
    design = read_design(given.design)
    with Budget(given.seconds) as budget:
        cuts = cuts_in(given.cuts, design) if given.cuts else search(design, given.cells, Guesses(design), budget)
        tried = each_made(design, cuts, budget)
    lacking, cells = [number for number, cell in enumerate(tried, 1) if not cell], [cell for cell in tried if cell]
    if lacking and not (given.leave_out and cells):
        say(f"cell {lacking[0]} has no policy, or none with a K of at most {machine_of(design.version).most_steps}: ./mpc policy says where, of the design with its box")
        return 6
    if lacking:
        say(f"without a controller: cell {', '.join(map(str, lacking))} of {len(tried)}; those below are counted without them")
    for words in words_of(design, cells, made(design, step_of(design))):
        say(words)
    if given.lines:
        say(mean_of_lines(design, cells, given.lines))
    if given.picture:
        draw(design, cells, given.picture)
    if given.generate:
        generate(cells, given.generate, given.design)
    files.write(given.cuts_file, cuts_text(cuts))
    files.write(given.policies, policies_text(tried))
    return 0


if __name__ == "__main__":
    run(main)
