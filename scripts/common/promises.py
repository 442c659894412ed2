"""That loops settle, as texts and in words: a certificate of it, and what `settle` prints of that."""
from __future__ import annotations

from dataclasses import dataclass
from fractions import Fraction

from .design_text import Design, Name, plain
from .libraries import Refusal
from .texts import records_of, records_text
from .tubes import Box, Certificate


@dataclass(frozen=True)
class Promise:
    """From which turn on every loop from the start box lies in which box; and from which turn on the rows of the cost lie where, 0 where none are told."""

    turn: int
    box: Box
    after: int = 0
    costs: Box = Box((), ())


def certificate_text(s: Certificate) -> str:
    return records_text(s.records())


def certificate_of(text: str, states: int) -> Certificate:
    """The certificate of a text: a record for its start box, its still box and its box of rest, each of a number of turns and the box's ends."""
    records = records_of(text)
    if [len(record) for record in records] != [2 * states + 1] * 3:
        raise Refusal(f"a certificate of this design has three records of {2 * states + 1} numbers: turns, and the least and the greatest of each state")
    start, still, rest = (Box(tuple(record[1 : states + 1]), tuple(record[states + 1 :])) for record in records)
    return Certificate(records[0][0], records[2][0], start, still, rest, records[1][0])


def promise_text(promise: Promise) -> str:
    """As `settle` prints it."""
    states = (f"state {i} {low} {high}\n" for i, (low, high) in enumerate(zip(promise.box.low, promise.box.high), 1))
    costs = (f"cost {k} {promise.after} {low} {high}\n" for k, (low, high) in enumerate(zip(promise.costs.low, promise.costs.high), 1))
    return f"turn {promise.turn}\n" + "".join(states) + "".join(costs)


def promise_of(text: str, states: int) -> Promise:
    """What `settle` printed: a line with the turn, and one for each coordinate with its number, the least and the greatest of it; and where rows of the cost are told, one for each."""
    all_lines = [line.split() for line in text.splitlines()]
    lines, costs = all_lines[: states + 1], all_lines[states + 1 :]
    words = [["turn"], *(["state", str(i)] for i in range(1, states + 1))]
    right = [line[: len(own)] for line, own in zip(lines, words)] == words and [len(line) for line in lines] == [2] + [4] * states
    if not right or any(line[:3] != ["cost", str(k), costs[0][2]] or len(line) != 5 for k, line in enumerate(costs, 1)):
        raise Refusal(f"what `settle` prints of this design is a line `turn N` and a line `state I LEAST GREATEST` for each of {states} states, and this is none")
    box = Box(tuple(int(line[2]) for line in lines[1:]), tuple(int(line[3]) for line in lines[1:]))
    return Promise(int(lines[0][1]), box, int(costs[0][2]) if costs else 0, Box(tuple(int(line[3]) for line in costs), tuple(int(line[4]) for line in costs)))


# ---- in words


def percent(part: Fraction) -> str:
    return f"{plain(100 * part)} %"


def time_of(design: Design, turns: int) -> str:
    """Turns in words, with the time that they take."""
    return f"{turns} turn{'s' * (turns != 1)}" + (f" ({plain(turns * design.period)} s)" if design.period else "")


def ends_of(design: Design, box: Box) -> str:
    """A box in the units of its design."""
    out = []
    for i, (low, high) in enumerate(zip(box.low, box.high)):
        name, scale = design.name("state", i + 1), 2**design.grid
        out.append(f"{name.word} within {name.shown(high / scale)}" if low == -high else f"{name.word} from {name.shown(low / scale)} to {name.shown(high / scale)}")
    return ", ".join(out)


def costs_of(design: Design, costs: Box) -> str:
    """What the rows of the cost have of a state: in the unit of the states where these have one, and else as the design has it."""
    out, rows = [], design.stage_cost + design.final_cost
    for row, low, high in zip(rows, costs.low, costs.high):
        names = {i: design.name("state", i + 1) for i, v in enumerate(row[: design.states]) if v}
        words = " ".join(f"{'+' if row[i] > 0 else '-'} {'' if abs(row[i]) == 1 else f'{abs(row[i])} '}{name.word}" for i, name in names.items())
        own = {(name.size, name.unit) for name in names.values()}
        shown = Name("", *own.pop()).shown if len(own) == 1 else plain
        least, greatest = (shown(Fraction(v, design.row_den * 2**design.grid)) for v in (low, high))
        out.append(f"{words.removeprefix('+ ')} {f'within {greatest}' if low == -high else f'from {least} to {greatest}'}")
    return ", ".join(out)


def promise_words(design: Design, promise: Promise, start: Box | None = None) -> str:
    """What is promised, in the design's units."""
    from_box = ends_of(design, start) if start else "its certificate's start box"
    costs = f", and after {time_of(design, promise.after)} with {costs_of(design, promise.costs)}" if promise.costs.low else ""
    return f"every loop from {from_box} lies after {time_of(design, promise.turn)}, for ever, with {ends_of(design, promise.box)}{costs}"
