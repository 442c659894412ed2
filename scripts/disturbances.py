"""Makes disturbances: what is added to each next state from outside, a record for each turn.

    ./mpc disturbances DESIGN TURNS [FILE] [--constant V,V] [--step V,V --at TURN] [--sine V,V --every N] [--random V,V --seed N] [--within BOX]

V,V is a number for each state, in the units that the design's comments name (as rad); these are added where several are given, and each sum is rounded to the grid. A record
has the numbers over `2^grid`, as the plant adds them after its next state was rounded: the first is that of turn 1. They go to FILE, or are printed.

    --constant V,V        as much in each turn, as of a load that stays
    --step V,V            as much from turn TURN (1) on
    --sine V,V            as a sine of this height, with a period of N turns (20)
    --random V,V          a random grid number up to this height, either way, drawn anew for each turn and state from N (1)
    --within BOX          two records, the least and the greatest: a sum beyond them is refused, by its turn
"""
import argparse
import math
import random

from .common import files
from .common.arguments import Parser, several, turns
from .common.design_text import Design, read_design
from .common.disturbances import MOST, box_in
from .common.libraries import Refusal, run
from .common.texts import records_text


def heights(word: str) -> list[float]:
    """Numbers with a comma between two."""
    try:
        values = [float(part) for part in word.split(",")]
    except ValueError:
        raise argparse.ArgumentTypeError(f"`{word}` is no list of numbers") from None
    if not all(map(math.isfinite, values)):
        raise argparse.ArgumentTypeError(f"`{word}` has a number that isn't finite")
    return values


def on_grid(design: Design, values: list[float]) -> list[float]:
    """Heights in units, over `2^grid`; the next grid number is not yet taken."""
    if len(values) != design.states:
        raise Refusal(f"{len(values)} numbers are given, and the design has {design.states} states", 2)
    return [v / design.name("state", i).size * 2**design.grid for i, v in enumerate(values, 1)]


def records(design: Design, count: int, given: argparse.Namespace) -> list[list[int]]:
    """A record for each turn: the sum of all that is asked for."""
    zero, draw = [0.0] * design.states, random.Random(given.seed)
    constant, step, sine, most = (on_grid(design, v) if v else zero for v in (given.constant, given.step, given.sine, given.random))
    out = []
    for turn in range(1, count + 1):
        wave = math.sin(2 * math.pi * (turn - 1) / given.every)
        steady = [c + s * (turn >= given.at) + w * wave for c, s, w in zip(constant, step, sine)]
        chance = [draw.randint(-math.floor(abs(m)), math.floor(abs(m))) for m in most]
        out.append([math.floor(v + 0.5) + r for v, r in zip(steady, chance)])
    return out


def refuse_beyond(design: Design, made: list[list[int]], low: list[int], high: list[int]) -> None:
    """Ends where a disturbance lies outside a box, by its turn and coordinate."""
    for turn, record in enumerate(made, 1):
        for i, (v, l, h) in enumerate(zip(record, low, high), 1):
            if not l <= v <= h:
                raise Refusal(f"turn {turn}: {v} is added to {design.name('state', i).word}, beyond {l} to {h}")


def main() -> int:
    parser = Parser(__doc__)
    parser.add_argument("design", metavar="DESIGN")
    parser.add_argument("turns", metavar="TURNS", type=turns)
    parser.add_argument("file", metavar="FILE", nargs="?")
    for name in ("--constant", "--step", "--sine", "--random"):
        parser.add_argument(name, type=heights, metavar="V,V")
    parser.add_argument("--at", type=several, default=1, metavar="TURN")
    parser.add_argument("--every", type=several, default=20, metavar="N")
    parser.add_argument("--seed", type=int, default=1, metavar="N")
    parser.add_argument("--within", metavar="BOX")
    given = parser.parse_args()
    files.keep_apart({"DESIGN": given.design} | ({"--within": given.within} if given.within else {}), {"FILE": given.file or files.STANDARD_OUTPUT})
    design = read_design(given.design)
    made = records(design, given.turns, given)
    refuse_beyond(design, made, *(box_in(given.within, design) if given.within else ([-MOST] * design.states, [MOST] * design.states)))
    files.put(given.file, records_text(made))
    return 0


if __name__ == "__main__":
    run(main)
