"""Says within seconds what can be said of a model before anything is searched: its units, the poles and the growth of a stage, whether each corner of the box has a plan, what a run takes, and sizes.

    ./mpc outlook MODEL

A pole by which a stage or the horizon multiplies so much that no plan could follow is refused, with the pole; what is odd is a warning. Where no plan keeps every limit from a
corner, the corner is named, with the limits that meet there: ./mpc coordinates and ./mpc staying look for other coordinates and for a smaller box.
"""
import math

from .common.libraries import need, run

need("numpy", "scipy", "cvxopt", "jsonschema")
import numpy

from .common.arguments import Parser
from .common.design_text import Design, plain
from .common.models import Model, poles_of, read_model
from .common.programs import Programs
from .common.run_costs import weighings
from .draft import choices, corner_plans, in_floats, too_wide, whole
from .staying import ENOUGH, reach_of_inputs, share_of, steps_of

# MHz
CLOCK = 100.0
# what is left of a state after a stage where a period is odd; and where others add up
LEFT, NOTHING = 0.02, 1e-6


def pole_words(model: Model) -> list[str]:
    """The poles of a stage, the greatest first, and what is odd about them."""
    poles = poles_of(model)
    out = ["a stage multiplies by " + ", ".join(pole.told for pole in poles)]
    fading = [abs(pole.a_stage) for pole in poles if abs(pole.a_stage) < 1 - 1e-9]
    slowest = max(fading, default=1.0)
    if slowest < (LEFT if len(fading) == len(poles) else NOTHING):
        out.append(f"warning: after a stage of {plain(model.period)} s at most {plain(100 * slowest)} % is left of all that fades: is the period in seconds?")
    out += [f"warning: within a stage of {plain(model.period)} s the pole {pole.told} turns by more than half a turn: a shorter period sees it" for pole in poles if pole.turns > 0.5]
    unstable = max(abs(pole.a_stage) for pole in poles)
    if unstable > 1 + 1e-9:
        out.append(f"the plant is unstable: what no input meets grows by {plain(unstable**model.stages)} over {model.stages} stages")
    return out


def corner_words(design: Design) -> list[str]:
    """How many corners have plans that keep every limit, and what is in the way at the worst."""
    programs, found = Programs(design), []
    for number in range(1, 2**design.states + 1):
        found.append((*programs.most_slack([float(v) for v in design.corner(number)]), number))
    good = sum(slack > 2**-16 for slack, _, _ in found)
    slack, rows, number = min(found, key=lambda one: one[0])
    if good == len(found):
        return [f"each of {good} corners has a plan that keeps every limit" + (f", with {plain(slack)} tolerances to spare" if math.isfinite(slack) else "")]
    where = f"{design.corner_words(number)}: {', '.join(design.row_words(row) for row in rows[:4])}"
    return [f"warning: {good} of {len(found)} corners have a plan that keeps every limit; at the worst it is {plain(-slack)} tolerances short, at {where}"]


def size_words(model: Model, exact: Design) -> list[str]:
    """Which sizes the program would refuse with the first choice of denominators; a coarser one is searched by ./mpc draft."""
    first = choices(model)[0]
    design = whole(model, exact, *first, False, 0)
    wide = too_wide(design, corner_plans(design))
    fits = "fits" if not wide else f"would be refused for {', '.join(wide)}, so that coarser numbers are taken (docs/SIZES.md)"
    return [f"a plant over {first[0]} with numbers that move by at most {plain(100 * first[1])} % {fits}"]


def run_words(model: Model, exact: Design) -> list[str]:
    """About what a run of a lean controller takes of a stage; where it doesn't end in time, a cost by which it does."""
    told = lambda steps, share: f"K about {steps:.0f}, {plain(float(f'{100 * share:.2g}'))} % of a stage"
    steps = steps_of(exact, False)
    share = share_of(exact, steps, model.period, CLOCK)
    if not math.isfinite(steps):
        return []
    if share <= ENOUGH:
        return [f"a run of a lean controller: {told(steps, share)} of a Cortex-M4 of {plain(CLOCK)} MHz"]
    reach, words = reach_of_inputs(model), f"warning: a run of a lean controller doesn't end in time: {told(steps, share)} of a Cortex-M4 of {plain(CLOCK)} MHz"
    for weighing in weighings(model, reach):
        other = in_floats(Model(model.text | {"cost": weighing.cost(model, model.text, reach)}))
        fewer = steps_of(other, False)
        less = share_of(other, fewer, model.period, CLOCK)
        if less <= ENOUGH:
            return [f"{words}; with {weighing.words} {told(fewer, less)}"]
    return [f"{words}; fewer stages, larger tolerances or a smaller box make it less (docs/TARGETS.md)"]


def words_of(model: Model):
    yield "1 of the design is " + ", ".join(f"{plain(size)} {unit or 'units'} of {name}" for (name, unit), size in zip(model.names, model.state_units))
    yield "and of its inputs " + ", ".join(f"{plain(size)} {unit or 'units'} of {name}" for (name, unit), size in zip(model.planned_names, model.input_units))
    yield from pole_words(model)
    exact = in_floats(model)
    if not numpy.all(numpy.isfinite(exact.a)):
        return
    yield from corner_words(exact)
    yield from run_words(model, exact)
    yield from size_words(model, exact)


def main() -> int:
    parser = Parser(__doc__)
    parser.add_argument("model", metavar="MODEL")
    given = parser.parse_args()
    for words in words_of(read_model(given.model)):
        print(words, flush=True)
    return 0


if __name__ == "__main__":
    run(main)
