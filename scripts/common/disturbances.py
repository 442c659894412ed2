"""What is added to a next state from outside, in whole numbers over `2^grid`: a box of it, or a record for each turn."""
from .design_text import Design
from .libraries import Refusal
from .texts import read_text, records_of

MOST = 2**31 - 1


def numbers_in(path: str, states: int) -> list[list[int]]:
    """The records of a text, of as many numbers as the design has states, each within what the program reads."""
    try:
        records = records_of(read_text(path))
    except ValueError:
        raise Refusal(f"{path}: records of {states} whole numbers over 2^grid are expected, a line each") from None
    for number, record in enumerate(records, 1):
        if len(record) != states:
            raise Refusal(f"{path}: record {number} has {len(record)} numbers, and the design {states} states")
        if any(abs(v) > MOST for v in record):
            raise Refusal(f"{path}: record {number} has a number beyond {MOST}")
    return records


def box_in(path: str, design: Design) -> tuple[list[int], list[int]]:
    """The least and the greatest disturbances of a text of two records."""
    records = numbers_in(path, design.states)
    if len(records) != 2:
        raise Refusal(f"{path}: two records are expected, the least and the greatest disturbances, and it has {len(records)}")
    low, high = records
    for i, (l, h) in enumerate(zip(low, high), 1):
        if l > h:
            raise Refusal(f"{path}: the least of coordinate {i} is {l}, above the greatest, {h}")
    return low, high


def turns_in(path: str, design: Design, turns: int) -> list[list[int]]:
    """What is added turn by turn, of a text with a record for each of so many turns."""
    records = numbers_in(path, design.states)
    if len(records) != turns:
        raise Refusal(f"{path}: a record for each of {turns} turns is expected, and it has {len(records)}")
    return records


def added(state: list[int], shift: list[int]) -> list[int]:
    return [v + d for v, d in zip(state, shift)]
