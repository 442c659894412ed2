"""Says how far closed loops go, also where they leave the box: `./mpc loop` ends there, and here the exact plant goes on.

    ./mpc reach DESIGN STATES [LINES] [--turns N]

From each state the plant of DESIGN is moved by the best plans of exact model predictive control (cvxopt), each next state rounded to the grid, for N turns (50). Outside the box, where
a controller promises nothing and isn't run, the plans go on, without limits where none keeps them. LINES of `./mpc loop` are taken as far as they go, and followed from there. For each
coordinate it prints how far the loops go, as a part of the box from its middle: above 1 they leave it; and for each loop that leaves, when, where and how far. Nothing rests on it.
"""
from dataclasses import dataclass

from .common.libraries import Refusal, need, run

need("numpy", "cvxopt")
from .common import files, matching
from .common.arguments import Parser, turns
from .common.design_text import Design, plain, read_design
from .common.programs import Programs, exact_loop
from .common.progress import Progress
from .common.texts import loop_lines_of, read_text, records_of
from .common.trajectories import next_state


@dataclass
class Way:
    """How far a loop goes: the greatest part of the box in each coordinate with the value there, and the first turn outside with its coordinate."""

    record: int
    parts: list[float]
    values: list[float]
    left: tuple[int, int] | None


def part_of(design: Design, i: int, value: float) -> float:
    """How far a coordinate is from the middle of its box, as a part of half the box."""
    low, high = design.lo[i] / 2**design.grid, design.hi[i] / 2**design.grid
    half = (high - low) / 2
    off = abs(value - (low + high) / 2)
    return off / half if half else off and float("inf")


def way_of(design: Design, record: int, states: list) -> Way:
    """Of the states of a loop, turn by turn."""
    parts, values, left = [0.0] * design.states, [0.0] * design.states, None
    for turn, state in enumerate(states, 1):
        for i, value in enumerate(state):
            part = part_of(design, i, float(value))
            if part > parts[i]:
                parts[i], values[i] = part, float(value)
            if part > 1 and left is None:
                left = (turn, i)
    return Way(record, parts, values, left)


def followed(design: Design, start: list[int], count: int, programs: Programs, lines: list) -> list:
    """The states of a loop of so many turns: those of its lines, and then those of the exact loop from there."""
    held = [state for state, _ in lines]
    if lines:
        start = next_state(design, *lines[-1])
    return held + [state for state, _ in exact_loop(design, start, count - len(held), programs)]


def words(design: Design, ways: list[Way]) -> list[str]:
    """What the loops do, in words."""
    far = [max(ways, key=lambda way: way.parts[i]) for i in range(design.states)]
    out = ["the loops reach " + ", ".join(f"{plain(way.parts[i])} in {design.name('state', i + 1).word}" for i, way in enumerate(far)) + " of the box"]
    for way in ways:
        if way.left:
            turn, i = way.left
            name = design.name("state", i + 1)
            out.append(
                f"start {way.record} leaves before turn {turn} in {name.word}, and goes to " + ", ".join(
                    f"{design.name('state', k + 1).word} {design.name('state', k + 1).shown(value)} ({plain(part)} of the box)"
                    for k, (part, value) in enumerate(zip(way.parts, way.values))
                    if part > 1
                )
            )
    return out if any(way.left for way in ways) else [*out, "no loop leaves"]


def main() -> int:
    parser = Parser(__doc__)
    parser.add_argument("design", metavar="DESIGN")
    parser.add_argument("states", metavar="STATES")
    parser.add_argument("lines", metavar="LINES", nargs="?")
    parser.add_argument("--turns", type=turns, default=50, metavar="N")
    given = parser.parse_args()
    inputs = {"DESIGN": given.design, "STATES": given.states} | ({"LINES": given.lines} if given.lines else {})
    files.keep_apart(inputs, {"WORDS": files.STANDARD_OUTPUT})
    design, states = read_design(given.design), records_of(read_text(given.states))
    fault = matching.state_fault(states, design)
    if fault or not states:
        raise Refusal(f"{given.states}: {fault or 'it has no record'}")
    loops = loop_lines_of("\n".join(files.lines_of(given.lines)), design.states, design.inputs, design.grid) if given.lines else {}
    matching.refuse(f"{given.lines}", "design", matching.loop_difference(loops, design))
    programs, ways = Programs(design), []
    with Progress("starts", len(states)) as progress:
        for record, state in enumerate(states, 1):
            progress.reach(record - 1)
            ways.append(way_of(design, record, followed(design, state, given.turns, programs, loops.get(record, []))))
    print("\n".join(words(design, ways)))
    return 0


if __name__ == "__main__":
    run(main)
