"""Finds a policy for a design: a plan for each corner of the box, with the least multiplier bound R.

    ./mpc policy DESIGN [POLICY] [--lean REFERENCE] [--denominator Q] [--margin T] [--turns N]

R is the greatest cost over the least slack, and the steps K grow with it. For each corner one convex problem gives the plan of least cost that keeps every limit
with a slack T, and a search over T finds the least R. The plans are rounded to the shortest denominator that costs at most 4 % of R. The policy goes to POLICY,
or is printed; what was found goes to standard error.

    --lean REFERENCE  for a lean controller: R is what a plan costs more than is best without limits, over the sum of the slack and the violation target. The plans that
                      are best without limits go to REFERENCE, each over the shortest denominator that leaves R as it is
    --denominator Q   this denominator and no other
    --margin T        this slack, in the units of the rows, with no search
    --turns N         how many turns the loops with the best plans are followed to see whether they stay in the box (50; 0 for none)

Where no plan keeps every limit at some corner, it names the corner and the rows to blame, and ends with status 6. Nothing rests on the solver: `generate`
simulates the policy in whole numbers.
"""
import math
from collections.abc import Callable

from .common.libraries import need, run, say

need("numpy", "cvxopt")
from .common import files
from .common.arguments import Parser, positive, several, turns
from .common.condensed import step_of
from .common.corners import corners_of, lean_multiplier_of, margin_of, multiplier_of, steps_of
from .common.design_text import Design, plain, read_design
from .common.excess import excesses_of
from .common.lean_plans import LeanPlans
from .common.programs import Programs, reach_of
from .common.sizes import form_of
from .common.texts import records_text
from .explain import size_words

FINE = 2**24
MOST = 1024
GOLDEN = (5**0.5 - 1) / 2
SECTIONS = 16


def plans_with(programs: Programs, slack: float) -> tuple[list | None, float]:
    """The corners' plans of least cost with this slack, and their R; None where a corner has none."""
    design = programs.design
    states = [[float(v) for v in design.corner(c)] for c in range(1, 2**design.states + 1)]
    plans = []
    for state in states:
        plan = programs.best(state, slack)
        if plan is None:
            return None, float("inf")
        plans.append(plan)
    return plans, max(programs.cost(x, u) for x, u in zip(states, plans)) / slack


def search(programs: Programs, most: float) -> float:
    """The slack below `most` with the least R. R falls and then rises with the slack, so that thirds of a bracket tell where it is least."""
    if math.isinf(most):
        return between(programs, *bracket(programs))
    slack = golden(lambda slack: plans_with(programs, slack)[1], 0.02 * most, 0.985 * most)
    # where the greatest slack is far above the best, this is below the bracket
    return slack if slack > 0.03 * most else between(programs, 1e-9 * most, 0.06 * most)


def golden(of: Callable[[float], float], low: float, high: float) -> float:
    """Where a function that falls and then rises is least."""
    for _ in range(SECTIONS):
        first, second = high - GOLDEN * (high - low), low + GOLDEN * (high - low)
        if of(first) < of(second):
            high = second
        else:
            low = first
    return (low + high) / 2


def between(programs: Programs, low: float, high: float) -> float:
    """The slack with the least R between two that are far apart."""
    return math.exp(golden(lambda power: plans_with(programs, math.exp(power))[1], math.log(low), math.log(high)))


def bracket(programs: Programs) -> tuple[float, float]:
    """Slacks below and above the best, where no limit stops the slack: R falls by doubling it, and then rises. Nothing is gained by an R below 1."""
    low = 2**-12
    bound = plans_with(programs, low)[1]
    while True:
        after = plans_with(programs, 2 * low)[1]
        if after >= bound or bound <= 1:
            return low / 2, 2 * low
        low, bound = 2 * low, after


def rounded(plans: list, denominator: int) -> list[list[int]]:
    return [[denominator] + [int(round(float(u) * denominator)) for u in plan] for plan in plans]


def bound_of(design: Design, policy: list[list[int]]) -> float:
    """R of a rounded policy, before R itself is rounded; infinite where a limit isn't kept."""
    margin, cost = margin_of(corners_of(design, policy))
    return cost * 2**16 / margin if margin > 0 else float("inf")


def shortest(design: Design, plans: list) -> list[list[int]]:
    """The policy with the shortest denominator that costs at most 4 % of R."""
    best = bound_of(design, rounded(plans, FINE))
    denominator = 1
    while denominator < MOST and bound_of(design, rounded(plans, denominator)) > 1.04 * best:
        denominator *= 2
    return rounded(plans, denominator)


def blame(design: Design, programs: Programs) -> tuple[float, str]:
    """The least, over the corners, of the greatest slack; and words for the corner and the rows."""
    found = []
    for corner in range(1, 2**design.states + 1):
        slack, rows = programs.most_slack([float(v) for v in design.corner(corner)])
        found.append((slack, corner, rows))
    slack, corner, rows = min(found)
    if math.isinf(slack):
        return slack, "no corner"
    return slack, f"{design.corner_words(corner)}: {', '.join(design.row_words(row) for row in rows[:4])}"


def binding_words(design: Design, programs: Programs) -> list[str]:
    """At how many corners a limit binds: where none does, none binds in the box, since what the best plan without limits leaves in a row is linear in the state."""
    states = [[float(v) for v in design.corner(c)] for c in range(1, 2**design.states + 1)]
    binding = sum((programs.room(x) - programs.rows @ programs.unlimited(x)).min() < 0 for x in states)
    if binding:
        return [f"limits bind at {binding} of {len(states)} corners"]
    return ["no limit binds anywhere in the box: the best plan is linear in the state there, and needs no steps; narrower limits or a larger box make use of a run"]


def find(design: Design, margin: float | None = None, denominator: int | None = None) -> list[list[int]] | None:
    """The policy, or None with the reason said."""
    programs = Programs(design)
    most, where = blame(design, programs)
    if not is_possible(most, where):
        return None
    slack = margin if margin else search(programs, most)
    plans, _ = plans_with(programs, slack)
    if not are_told(design, programs, plans is not None, slack, most, where):
        return None
    return rounded(plans, denominator) if denominator else shortest(design, plans)


def find_lean(design: Design, margin: float | None = None, denominator: int | None = None) -> tuple[list[list[int]], list[list[int]]] | None:
    """The policy of a lean controller and its reference plans, or None with the reason said."""
    programs = Programs(design)
    most, where = blame(design, programs)
    if not is_possible(most, where):
        return None
    lean = LeanPlans(programs)
    slack = margin if margin else lean.best_slack(most)
    if not are_told(design, programs, lean.plans(slack) is not None, slack, most, where):
        return None
    policy = lean.policy(slack, denominator, alone=margin is not None)
    return policy, lean.references(policy)


def is_possible(most: float, where: str) -> bool:
    """Whether plans keep every limit with some slack; else that is said."""
    if most <= 2**-16:
        say(f"no plan keeps every limit with a slack of 2^-16: at most {plain(most)} is possible at {where}")
        say("a smaller box, wider limits or more stages before the limit holds; a state row at stage 0 limits the box itself (docs/MODELS.md)")
    return most > 2**-16


def are_told(design: Design, programs: Programs, found: bool, slack: float, most: float, where: str) -> bool:
    """Whether there are plans with this slack; what stops it is said."""
    if not found:
        say(f"no plan keeps every limit with a slack of {plain(slack)}: at most {plain(most)} is possible at {where}")
        return False
    stopped = f"of at most {plain(most)}, which is stopped at {where}" if math.isfinite(most) else "of any: plans can keep every limit with as much slack as they like"
    say(f"margin {plain(slack)} {stopped}")
    say(*binding_words(design, programs))
    return True


def tell(design: Design, policy: list[list[int]], turns: int, reference: list[list[int]] | None = None) -> None:
    """What the policy makes of R and K, and whether the loops stay in the box."""
    corners = corners_of(design, policy)
    step, steep = step_of(design)
    least = min(corners, key=lambda c: c.least[0])
    say(f"plans over {policy[0][0]}: least slack {plain(least.least[0])} at {design.corner_words(least.number)} in {design.row_words(least.least[1])}")
    dearest, bound = dearest_words(design, policy, reference)
    say(f"{dearest}; R {bound}, curvature {plain(steep)}, so step {step} and K about {steps_of(design, step, bound, reference is not None)}")
    for words in size_words(design, policy, None, reference):
        say(words)
    if turns:
        far = reach_of(design, turns)
        say(
            f"with the best plans, the loops of {turns} turns from the corners reach {', '.join(plain(v) for v in far)} of the box"
            + ("" if max(far) <= 1 else ": they leave it, and `loop` will end there")
        )


def dearest_words(design: Design, policy: list[list[int]], reference: list[list[int]] | None) -> tuple[str, int]:
    """The corner of the greatest cost, or of the greatest excess; and R."""
    corners = corners_of(design, policy)
    margin, cost = margin_of(corners)
    if reference is None:
        dearest = max(corners, key=lambda c: c.cost)
        return f"greatest cost {plain(dearest.cost)} at {design.corner_words(dearest.number)}", multiplier_of(margin, cost)
    found, _ = excesses_of(design, form_of(design), policy, reference)
    excess = max(0, *found)
    words = f"greatest excess {plain(excess / 2**16)} at {design.corner_words(found.index(max(found)) + 1)}, with references over at most {max(r[0] for r in reference)}"
    return words, lean_multiplier_of(design, margin, excess)


def main() -> int:
    parser = Parser(__doc__)
    parser.add_argument("design", metavar="DESIGN")
    parser.add_argument("policy", metavar="POLICY", nargs="?")
    parser.add_argument("--lean", metavar="REFERENCE")
    parser.add_argument("--denominator", type=several)
    parser.add_argument("--margin", type=positive)
    parser.add_argument("--turns", type=turns, default=50)
    given = parser.parse_args()
    outputs = {"POLICY": given.policy or files.STANDARD_OUTPUT} | ({"REFERENCE": given.lean} if given.lean else {})
    files.keep_apart({"DESIGN": given.design}, outputs)
    design = read_design(given.design)
    if given.lean:
        policy, reference = find_lean(design, given.margin, given.denominator) or (None, None)
    else:
        policy, reference = find(design, given.margin, given.denominator), None
    if policy is None:
        return 6
    tell(design, policy, given.turns, reference)
    if reference:
        files.write(given.lean, records_text(reference))
    files.put(given.policy, records_text(policy))
    return 0


if __name__ == "__main__":
    run(main)
