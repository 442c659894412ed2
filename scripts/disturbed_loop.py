"""Prints the closed loop of a controller and its plant under disturbances, in lines like those of `./mpc loop`.

    ./mpc disturbed_loop DESIGN CONTROLLER STATES TURNS DISTURBANCES

In each turn `./mpc solve` runs the controller from each state; the plant moves by the first inputs of the averaged plan to the nearest grid state, ties upward, as in `loop`, and then the
turn's record of DISTURBANCES is added (./mpc disturbances makes them). Where a state lies outside the box it ends with status 12, the lines of all turns before it printed. With
disturbances of 0 it prints what `loop` prints.
"""
from fractions import Fraction

from .common import matching
from .common.arguments import Parser, turns
from .common.design_text import Design, read_design
from .common.disturbances import added, turns_in
from .common.files import STANDARD_OUTPUT, keep_apart
from .common.launcher import solved
from .common.libraries import Refusal, run, say
from .common.texts import controller_of, kind_of, read_text, records_of
from .common.trajectories import next_state

OUTSIDE = 12


def outside(design: Design, state: list[int]) -> int | None:
    """The first coordinate, from 1, that lies outside the box."""
    return next((i for i, (v, l, h) in enumerate(zip(state, design.lo, design.hi), 1) if not l <= v <= h), None)


def lines_of(design: Design, controller: str, states: list[list[int]], shifts: list[list[int]]) -> tuple[list[list[str]], list[int | None]]:
    """The lines of the loop from each state, and the coordinate by which it leaves the box, where it does. A loop that leaves has no more turns."""
    now, lines, left = [list(state) for state in states], [[] for _ in states], [outside(design, state) for state in states]
    for turn, shift in enumerate(shifts, 1):
        running = [k for k, out in enumerate(left) if out is None]
        for k, line in zip(running, solved(controller, [now[k] for k in running]) if running else []):
            scale, *sums = map(int, line.split())
            lines[k].append(" ".join(map(str, [k + 1, turn, *now[k], scale, *sums[: design.inputs]])))
            inputs = [Fraction(v, scale) for v in sums[: design.inputs]]
            now[k] = added(next_state(design, [Fraction(v, 2**design.grid) for v in now[k]], inputs), shift)
            left[k] = outside(design, now[k]) if turn < len(shifts) else None
    return lines, left


def main() -> int:
    parser = Parser(__doc__)
    for word in ("design", "controller", "states"):
        parser.add_argument(word, metavar=word.upper())
    parser.add_argument("turns", metavar="TURNS", type=turns)
    parser.add_argument("disturbances", metavar="DISTURBANCES")
    given = parser.parse_args()
    inputs = {"DESIGN": given.design, "CONTROLLER": given.controller, "STATES": given.states, "DISTURBANCES": given.disturbances}
    keep_apart(inputs, {"LINES": STANDARD_OUTPUT})
    design, text, states = read_design(given.design), read_text(given.controller), records_of(read_text(given.states))
    if kind_of(text) != "controller":
        raise Refusal(f"{given.controller} is no controller text: `./mpc generate` writes one")
    matching.refuse(f"the controller {given.controller}", "design", matching.controller_difference(controller_of(text), design))
    fault = matching.state_fault(states, design)
    if fault:
        raise Refusal(f"{given.states}: {fault}")
    lines, left = lines_of(design, given.controller, states, turns_in(given.disturbances, design, given.turns))
    for number, (loop, coordinate) in enumerate(zip(lines, left), 1):
        print("".join(line + "\n" for line in loop), end="")
        if coordinate is not None:
            say(f"start {number} leaves the box before turn {len(loop) + 1}, in {design.name('state', coordinate).word}")
            return OUTSIDE
    return 0


if __name__ == "__main__":
    run(main)
