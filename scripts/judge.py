"""Lays what a controller does beside exact model predictive control: the greatest violation, gap and undercut of its plans that were met.

    ./mpc judge DESIGN CONTROLLER [REPORT] [--states N] [--seed N]

`./mpc solve` runs the controller at every corner of the box and at N random grid states of it (96); the exact problem (cvxopt) stands beside each. The report's bounds
hold at every state; what is measured is mostly far below, and least so with lean controllers. With REPORT it says which part of each bound was met.
"""
from fractions import Fraction

from .common.libraries import Refusal, need, run

need("numpy", "cvxopt")
from .common import matching
from .common.arguments import Parser, count
from .common.design_text import Design, plain, read_design
from .common.files import STANDARD_OUTPUT, keep_apart
from .common.launcher import solved
from .common.programs import Programs
from .common.progress import Progress
from .common.texts import Controller, controller_of, kind_of, read_text, report_of
from .common.trajectories import slacks_of
from .states import chosen


def judge(design: Design, states: list[list[int]], lines: list[str]) -> list[tuple]:
    """For each state whose problem has a plan: the greatest excess of a row with its row, the controller's cost over the best, whether a limit binds, and all slacks."""
    programs, out = Programs(design), []
    with Progress("states", len(states)) as progress:
        for number, (grid_state, line) in enumerate(zip(states, lines)):
            progress.reach(number)
            out += judged(design, programs, grid_state, line)
    return out


def judged(design: Design, programs: Programs, grid_state: list[int], line: str) -> list[tuple]:
    """What `judge` says of one state; nothing where its problem has no plan."""
    state = [Fraction(v, 2**design.grid) for v in grid_state]
    scale, *sums = map(int, line.split())
    plan = [Fraction(v, scale) for v in sums]
    best = programs.best([float(v) for v in state])
    if best is None:
        return []
    slacks = slacks_of(design, state, plan)
    excess = -min(slacks)
    binds = (programs.room([float(v) for v in state]) - programs.rows @ best).min() < 1e-5
    return [(excess, slacks.index(-excess) + 1, programs.cost(state, plan) - programs.cost(state, best), binds, slacks)]


def part_words(design: Design, found: list[tuple], report: dict) -> str:
    """Which part of each printed bound was met."""
    printed = report["violations"] or [report["violation"]] * design.rows
    over = [max(-one[4][row] for one in found) / bound if bound else Fraction(0) for row, bound in enumerate(printed)]
    row = over.index(max(over))
    parts = (max(0, max(over)), max(0, max(one[2] for one in found)) / float(report["gap"]), max(0, -min(one[2] for one in found)) / float(report["undercut"]))
    violation, gap, undercut = (f"{plain(round(100 * float(part), 1))} %" for part in parts)
    return f"of what is printed that is {violation} of the violation, in {design.row_words(row + 1)}, {gap} of the gap and {undercut} of the undercut"


def told(design: Design, found: list[tuple], report: dict | None = None) -> list[str]:
    """What was found, in words."""
    if not found:
        return ["at no state that was tried has the exact problem a plan: there is nothing to judge"]
    excess, row = max(one[:2] for one in found)
    kind, number, _ = design.place_of_row(row)
    # the exact problem is solved in floating point, so what is below a thousandth says nothing
    gap, undercut = max(0.0, max(f[2] for f in found)), max(0.0, -min(f[2] for f in found))
    return [
        f"at {len(found)} states, at {sum(f[3] for f in found)} of which a limit binds:",
        f"greatest violation {plain(max(excess, 0))}, that is {design.name(kind, number).shown(max(excess, 0))}, in {design.row_words(row)}",
        f"greatest gap {plain(round(gap, 3))}, greatest undercut {plain(round(undercut, 3))}",
        *([part_words(design, found, report)] if report else []),
    ]


def report_beside(path: str, controller: Controller) -> dict:
    """The report of a controller."""
    text = read_text(path)
    if kind_of(text) != "report":
        raise Refusal(f"{path} is no report")
    matching.refuse("the controller", f"report than {path}", matching.made_difference(controller, report_of(text)))
    return report_of(text)


def main() -> int:
    parser = Parser(__doc__)
    parser.add_argument("design", metavar="DESIGN")
    parser.add_argument("controller", metavar="CONTROLLER")
    parser.add_argument("report", metavar="REPORT", nargs="?")
    parser.add_argument("--states", type=count, default=96, metavar="N")
    parser.add_argument("--seed", type=int, default=1)
    given = parser.parse_args()
    inputs = {"DESIGN": given.design, "CONTROLLER": given.controller} | ({"REPORT": given.report} if given.report else {})
    keep_apart(inputs, {"LINES": STANDARD_OUTPUT})
    design, text = read_design(given.design), read_text(given.controller)
    if kind_of(text) != "controller":
        raise Refusal(f"{given.controller} is no controller text: `./mpc generate` writes one")
    matching.refuse(f"the controller {given.controller}", "design", matching.controller_difference(controller_of(text), design))
    report = report_beside(given.report, controller_of(text)) if given.report else None
    states = chosen(design, given.states, given.seed)
    print("\n".join(told(design, judge(design, states, solved(given.controller, states)), report)))
    return 0


if __name__ == "__main__":
    run(main)
