"""Writes states to begin loops from: corners of a design's box, and random states of its grid.

    ./mpc states DESIGN [STATES] [--corners N] [--random N] [--seed N]

They go to STATES, or are printed, numbers over `2^grid`, a line each. Of more corners than N, which is 8, the first and the last are taken, and others at random; of random
states N, which is 4.
"""
import random

from .common import files
from .common.arguments import Parser, count
from .common.design_text import Design, read_design
from .common.libraries import run
from .common.texts import records_text


def corners(design: Design) -> list[list[int]]:
    """Every corner, over `2^grid`."""
    return [[int(v * 2**design.grid) for v in design.corner(c)] for c in range(1, 2**design.states + 1)]


def chosen(design: Design, random_states: int, seed: int, most: int | None = None) -> list[list[int]]:
    """Corners, at most so many, and random grid states."""
    draw, ends = random.Random(seed), corners(design)
    if most is not None and most < len(ends):
        ends = [*ends[:1], *sorted(draw.sample(ends[1:-1], max(0, most - 2))), *ends[-1:]][:most]
    return ends + [[draw.randint(l, h) for l, h in zip(design.lo, design.hi)] for _ in range(random_states)]


def main() -> int:
    parser = Parser(__doc__)
    parser.add_argument("design", metavar="DESIGN")
    parser.add_argument("states", metavar="STATES", nargs="?")
    parser.add_argument("--corners", type=count, default=8, metavar="N")
    parser.add_argument("--random", type=count, default=4, metavar="N")
    parser.add_argument("--seed", type=int, default=1, metavar="N")
    given = parser.parse_args()
    files.keep_apart({"DESIGN": given.design}, {"STATES": given.states or files.STANDARD_OUTPUT})
    states = chosen(read_design(given.design), given.random, given.seed, given.corners)
    files.put(given.states, records_text(states))
    return 0


if __name__ == "__main__":
    run(main)
