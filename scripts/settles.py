"""Proposes a certificate that closed loops settle: from which part of the box they all lie in a small box from a turn on, under every disturbance of a range.

    ./mpc settles DESIGN CONTROLLER [CERTIFICATE] [--within PART] [--disturbances FILE] [--turns N] [--promise FILE]

In a box in which no multiplier of the controller moves, the still box, the closed loop is a matrix, but for floors and rounding; so whole numbers show where its loops lie turn by turn. The box
of rest is PART of the controller's box, and the start box another part of it, both about the state at which the loop rests: the largest from which loops come to the box of rest, and on their
way lie in a still box; then the fewest turns from it, and back to the box of rest from there. The still box is a part of the controller's box, too, where one will do, and else the least that
loops need. Without --within the box of rest is the first of 5, 10, 15, 20, 30, 40 and 50 % that loops settle in.
A held state stands still wherever it is. Its range is the same in all three boxes: the greatest of 100, 90 .. 10 % of the box with which loops settle; and the certificate tells how near to
their targets the rows of the cost come, after so many turns that more of them gain little.

The certificate goes to CERTIFICATE, or is printed, and what it says to standard error. Nothing rests on it: it is tested in the program's whole numbers, by `settle`.

    --within PART         the box of rest, as a part of the controller's box, from 0.001 to 1
    --disturbances FILE   two records, a number for each coordinate over `2^grid`: the least and the greatest that is added to a next state
    --turns N             at most so many turns (1000)
    --promise FILE        writes what `settle` prints of the certificate: from which turn on, and where every loop lies from then on

Where there is none, it says what is in the way, and ends with status 12.
"""
from __future__ import annotations

import argparse
from dataclasses import dataclass
from fractions import Fraction

from .common import files, matching
from .common.arguments import Parser, whole
from .common.design_text import Design, read_design
from .common.disturbances import box_in
from .common.libraries import Refusal, run, say
from .common.promises import Promise, certificate_text, costs_of, ends_of, percent, promise_text, time_of
from .common.texts import Controller, controller_of, kind_of, read_text
from .common.tubes import Box, Certificate, Loop, Stillness, Tubes, cost_box, first_fault, hull, settled_box

# parts of the box that are tried for the box of rest, and how finely other parts are found
RESTS = tuple(Fraction(part, 100) for part in (5, 10, 15, 20, 30, 40, 50))
FINE = 2**12
NONE = 12

# parts of the box that are tried for the range of a held state
KEPT = tuple(Fraction(part, 10) for part in range(10, 0, -1))


@dataclass
class Found:
    """A certificate, what parts of the controller's box its start box and its box of rest are, that of the still box where it is one, and where loops lie from its turn on."""

    certificate: Certificate
    start: Fraction
    rest: Fraction
    still: Fraction | None
    settled: Box
    kept: Fraction | None
    costs: Box


def largest(holds) -> Fraction | None:
    """The greatest part for which something holds that holds of all that are smaller; None where it holds of none."""
    low, high = 0, FINE + 1
    while high - low > 1:
        middle = (low + high) // 2
        low, high = (middle, high) if holds(Fraction(middle, FINE)) else (low, middle)
    return Fraction(low, FINE) if low else None


def way_to(tubes: Tubes, start: Box, goal: Box, least: int, most: int) -> list[Box] | None:
    """Where loops from a box lie turn by turn, until they lie in another, after no fewer turns than these; None where they may leave the tubes' box before."""
    way: list[Box] = []
    for box in tubes.boxes(start):
        way.append(box)
        if len(way) > least and goal.holds(box):
            return way
        if len(way) > most or not tubes.still.holds(box):
            return None
    return None


class Proposal:
    """The boxes of a controller's loop."""

    def __init__(self, design: Design, controller: Controller, low: list[int], high: list[int], most: int, kept: Fraction = Fraction(1)) -> None:
        self.design, self.most, self.box, self.kept = design, most, Box(tuple(controller.lo), tuple(controller.hi)), kept
        self.loop, self.rows = Loop(design, controller, low, high), Stillness(controller)
        self.held = self.loop.held()
        centre = self.loop.rest({i: (controller.lo[i] + controller.hi[i]) // 2 for i in self.held})
        if centre is None:
            raise Refusal("the loop has no one state at which it rests, and boxes of coordinates show no settling there", NONE)
        if not self.box.holds(Box(tuple(centre), tuple(centre))):
            raise Refusal(f"the loop rests at {self.words(centre)}, outside the box", NONE)
        self.centre = centre
        still = largest(lambda part: self.rows.moves(self.of(part)) is None)
        if still is None:
            raise Refusal(f"a multiplier may move beside {self.words(centre)}, at which the loop rests", NONE)
        self.still = still
        # what rounding leaves of rows is paid over the whole box: a still box is a part of it
        self.tubes = Tubes(self.loop, self.box)

    def of(self, part: Fraction) -> Box:
        """So much of the controller's box about the state of rest; of held states so much as is kept."""
        inner, outer = self.box.about(self.centre, part), self.box.about(self.centre, self.kept)
        ends = [tuple((wide if i in self.held else own)[i] for i in range(self.design.states)) for own, wide in ((inner.low, outer.low), (inner.high, outer.high))]
        return Box(*ends)

    def after(self, turns: int, still: Box) -> tuple[int, Box]:
        """From how many turns on the rows of the cost lie about as near to their targets as ever, and where; none where no state is held."""
        if not self.held:
            return 0, Box((), ())
        boxes = {t: cost_box(self.loop, still, t)[0] for t in {max(1, turns), min(self.most, 8 * turns + 40)}}
        last = boxes[max(boxes)]
        for t in range(max(1, turns), max(boxes)):
            box = cost_box(self.loop, still, t)[0]
            if all(a >= b - max(1, abs(b) // 10) for a, b in zip(box.low, last.low)) and all(a <= b + max(1, abs(b) // 10) for a, b in zip(box.high, last.high)):
                return t, box
        return max(boxes), last

    def words(self, state: list[int]) -> str:
        names = [self.design.name("state", i + 1) for i in range(self.design.states)]
        return ", ".join(f"{name.word} {name.shown(v / 2**self.design.grid)}" for name, v in zip(names, state))

    def settle(self, part: Fraction) -> Found | None:
        """The certificate of the largest start box whose box of rest is this part of the box."""
        rest = self.of(part)
        back = way_to(self.tubes, rest, rest, 1, self.most)
        start = back and largest(lambda other: self.still_for(other, rest, back) is not None)
        if not back or not start:
            return None
        there, still = self.still_for(start, rest, back) or ([], None)
        if still is None:
            return None
        wide = self.of(self.still)
        inside = wide if wide.holds(still) else still
        after, costs = self.after(len(there) - 1, inside)
        certificate = Certificate(len(there) - 1, len(back) - 1, self.of(start), inside, rest, after)
        fault = first_fault(self.loop, self.rows, certificate)
        if fault:
            raise Refusal(f"the certificate that was found isn't one: {' '.join(map(str, fault))}", NONE)
        settled = settled_box(Tubes(self.loop, certificate.still), certificate)
        return Found(certificate, start, part, self.still if wide.holds(still) else None, settled, self.kept if self.held else None, costs)

    def still_for(self, part: Fraction, rest: Box, back: list[Box]) -> tuple[list[Box], Box] | None:
        """The way from this part of the box to the box of rest, and the least box that holds it before, and the way back; None where a multiplier may move in that."""
        there = way_to(self.tubes, self.of(part), rest, 0, self.most)
        if there is None:
            return None
        still = hull(there[:-1] + back[:-1])
        return None if self.rows.moves(still) is not None else (there, still)

    def best(self, parts: tuple[Fraction, ...]) -> Found:
        """The certificate of the first of these parts that has one."""
        for part in parts:
            found = self.settle(part)
            if found:
                return found
        raise Refusal(self.why(parts[-1]), NONE)

    def why(self, part: Fraction) -> str:
        """What is in the way of the last part that was tried."""
        rest, where = self.of(part), f"within {percent(part)} of the box"
        if self.rows.moves(rest) is not None:
            return f"a multiplier may move {where}: none moves in {percent(self.still)} of it, where loops could be followed"
        beyond = rest.beyond(self.tubes.box(rest, self.most))
        if beyond is None:
            return f"on the way of loops from {where} back there a multiplier may move"
        name = self.design.name("state", beyond[0] + 1)
        return f"loops from {where} aren't shown to be back there: after {self.most} turns {name.word} may be {name.shown(beyond[1] / 2**self.design.grid)}"


def proposed(design: Design, controller: Controller, low: list[int], high: list[int], most: int, parts: tuple[Fraction, ...]) -> Found:
    """The certificate with the greatest range of held states, where there are any."""
    if not Loop(design, controller, low, high).held():
        return Proposal(design, controller, low, high, most).best(parts)
    why = Refusal("", NONE)
    for kept in KEPT:
        try:
            return Proposal(design, controller, low, high, most, kept).best(parts)
        except Refusal as refused:
            why = refused
    raise why


def said(design: Design, found: Found, disturbed: bool) -> list[str]:
    """What a certificate says, in words."""
    s = found.certificate
    after = f"after {time_of(design, s.turns)}{' under every disturbance of the range' if disturbed else ''}"
    again = ", for ever" if s.back == 1 else f", and again every {time_of(design, s.back)}"
    kept = f", held states in {percent(found.kept)} of it," if found.kept else ""
    near = [f"from turn {s.after} on, for ever: {costs_of(design, found.costs)}"] if s.after else []
    return [
        f"every loop from {percent(found.start)} of the box{kept} lies within {percent(found.rest)} of it {after}{again}",
        f"from then on, for ever: {ends_of(design, found.settled)}",
        f"no multiplier moves in {f'{percent(found.still)} of the box' if found.still else f'the box of {ends_of(design, s.still)}'}, which no such loop leaves",
        *near,
    ]


def part_of_box(text: str) -> Fraction:
    try:
        part = Fraction(text)
    except (ValueError, ZeroDivisionError):
        part = Fraction(0)
    if not Fraction(1, 1000) <= part <= 1:
        raise argparse.ArgumentTypeError(f"a part from 0.001 to 1 is expected, and it is {text}")
    return part


def main() -> int:
    parser = Parser(__doc__)
    for word in ("design", "controller"):
        parser.add_argument(word, metavar=word.upper())
    parser.add_argument("certificate", metavar="CERTIFICATE", nargs="?")
    parser.add_argument("--within", type=part_of_box, metavar="PART")
    parser.add_argument("--disturbances", metavar="FILE")
    parser.add_argument("--turns", type=whole(1, 4096), default=1000, metavar="N")
    parser.add_argument("--promise", metavar="FILE")
    given = parser.parse_args()
    inputs = {"DESIGN": given.design, "CONTROLLER": given.controller} | ({"--disturbances": given.disturbances} if given.disturbances else {})
    files.keep_apart(inputs, {"CERTIFICATE": given.certificate or files.STANDARD_OUTPUT} | ({"--promise": given.promise} if given.promise else {}))
    design, text = read_design(given.design), read_text(given.controller)
    if kind_of(text) != "controller":
        raise Refusal(f"{given.controller} is no controller text: `./mpc lean` and `./mpc generate` write one")
    controller = controller_of(text)
    matching.refuse(f"the controller {given.controller}", "design", matching.controller_difference(controller, design))
    still = [0] * design.states
    low, high = box_in(given.disturbances, design) if given.disturbances else (still, still)
    found = proposed(design, controller, low, high, given.turns, (given.within,) if given.within else RESTS)
    for line in said(design, found, bool(given.disturbances)):
        say(line)
    if given.promise:
        files.write(given.promise, promise_text(Promise(found.certificate.turns, found.settled, found.certificate.after, found.costs)))
    files.put(given.certificate, certificate_text(found.certificate))
    return 0


if __name__ == "__main__":
    run(main)
