"""Prints the closed loop of exact model predictive control, in lines like those of `./mpc loop`, to lay beside them.

    ./mpc exact_loop DESIGN STATES TURNS [DISTURBANCES]

Each turn takes the first inputs of the best plan (cvxopt), and rounds the next state to the grid as `loop` does; where there are DISTURBANCES, the turn's record of them is then added.
Inputs are over 2^40. Nothing rests on it.
"""
from collections.abc import Iterator

from .common.libraries import Refusal, need, run

need("numpy", "cvxopt")
from .common import matching
from .common.arguments import Parser, turns
from .common.design_text import Design, read_design
from .common.disturbances import turns_in
from .common.files import STANDARD_OUTPUT, keep_apart
from .common.programs import Programs, exact_loop
from .common.progress import Progress
from .common.texts import read_text, records_of

SCALE = 2**40


def lines(design: Design, states: list, turns: int, progress: Progress | None = None, shifts: list | None = None) -> Iterator[str]:
    """The lines of the loops from these grid states."""
    programs = Programs(design)
    for record, state in enumerate(states, 1):
        if progress:
            progress.reach(record - 1)
        for turn, (now, inputs) in enumerate(exact_loop(design, state, turns, programs, shifts), 1):
            numbers = [int(round(v * 2**design.grid)) for v in now] + [SCALE] + [int(round(float(u) * SCALE)) for u in inputs]
            yield " ".join(map(str, [record, turn] + numbers))


def main() -> int:
    parser = Parser(__doc__)
    parser.add_argument("design", metavar="DESIGN")
    parser.add_argument("states", metavar="STATES")
    parser.add_argument("turns", metavar="TURNS", type=turns)
    parser.add_argument("disturbances", metavar="DISTURBANCES", nargs="?")
    given = parser.parse_args()
    keep_apart({"DESIGN": given.design, "STATES": given.states} | ({"DISTURBANCES": given.disturbances} if given.disturbances else {}), {"LINES": STANDARD_OUTPUT})
    design, states = read_design(given.design), records_of(read_text(given.states))
    fault = matching.state_fault(states, design)
    if fault:
        raise Refusal(f"{given.states}: {fault}")
    shifts = turns_in(given.disturbances, design, given.turns) if given.disturbances else None
    with Progress("starts", len(states)) as progress:
        for line in lines(design, states, given.turns, progress, shifts):
            print(line)
    return 0


if __name__ == "__main__":
    run(main)
