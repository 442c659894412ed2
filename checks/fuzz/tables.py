"""Tables for run.py: a worked text cut after each of its bytes, and with each byte replaced by a space, `-`, `0` and `9`."""
from __future__ import annotations

from bisect import bisect_right
from dataclasses import dataclass
from itertools import accumulate

from ..rows import stay_rows, texts, worked_texts
from . import control, listing, split_boxes, stay_cases
from .model import Refused

OTHERS = b" -09"
FACES_OF_TWO = "16,4,0,2,0\n16,0,4,0,2\n16,0,0,0,4\n16,0,0,4,0\n"
# two states with a box of 62 by 81 grid states, and no cost but the input's
PLANE = texts.sub(worked_texts.DESIGN, ("states = 1", "states = 2"), ("a = [[1]]\nb = [[1]]", "a = [[1, 0], [0, 1]]\nb = [[1], [0]]"), texts.costs(1, 1, 1, []), texts.limits(
    4, [[0, 0, 4, 4], [0, 0, -4, 4]]), ("lo = [0]\nhi = [1]", "lo = [-1, -50]\nhi = [60, 30]"))
SECOND = texts.sub(worked_texts.CONTROLLER, ("mpc-controller 1", "mpc-controller 2"), ("words 6\n", "words 6\nexps 0 1 1\n"), ("lo 0\n", "lo -1\n"), ("hi 1\n", "hi -1\n"))
# a machine with each instruction once
MACHINE = "mpc-listing 1\nword 40\ninput 2 3\nlo -2 0\nhi 1 7\nwords 5\noutput 3 2 16\nrepeat 2 12\ncount 24\n" \
    "clear\nload 1\nmac 0 -25 2\ncon 7 3\naddm 2\nshl 4\nshr 5\nneg\nstore 3\nlow\ncap 99\nstore 4\nend\n"


@dataclass
class Text:
    """A command with its files, of which one is changed. What is beside it may rest on it."""

    words: str
    files: dict[str, bytes]
    changed: str

    @property
    def whole(self) -> bytes:
        return self.files[self.changed]

    @property
    def count(self) -> int:
        return len(self.whole) * (1 + len(OTHERS)) + 1

    def case(self, number: int) -> tuple[list[str], dict[str, bytes]]:
        size = len(self.whole)
        if number <= size:
            text = self.whole[:number]
        else:
            at, other = divmod(number - size - 1, len(OTHERS))
            text = self.whole[:at] + OTHERS[other : other + 1] + self.whole[at + 1 :]
        files = {**self.files, self.changed: text}
        if self.words == "serve c s":
            files["s"] = states_of(text)
        return self.words.split(), files


def states_of(cells: bytes) -> bytes:
    """The first and the last corner of each cell's box, where these are cells."""
    try:
        return stay_cases.records_text([end for cell in split_boxes.read_cells(cells) for end in (cell.lo, cell.hi)])
    except Refused:
        return b"0\n1\n"


def given(**files: str) -> dict[str, bytes]:
    return {name: text.encode() for name, text in files.items()}


def faces() -> list[Text]:
    held = given(d=stay_rows.HELD, p=worked_texts.POLICY, f=stay_rows.FACES, q="1,0\n2,-1\n", w="0\n1\n")
    two = next(files for _, (_, files, status, *_) in stay_rows.rows() if status == 0 and files.get("f") == FACES_OF_TWO)
    return [Text("stay d p c r f", held, "f"), Text("stay d p c r f w", held, "f"), Text("stay d p c r f", given(**two), "f"), Text("lean d p q c r f", held, "f")]


def disturbances() -> list[Text]:
    held = given(d=stay_rows.HELD, p=worked_texts.POLICY, f=stay_rows.FACES, q="1,0\n2,-1\n", w="0\n1\n")
    long = {**held, "w": b"-2147483647\n 2147483647\n"}
    loop = given(d=worked_texts.DESIGN, c=worked_texts.CONTROLLER, s="0\n1\n", v="1\n-0\n1\n 01 \n")
    return [Text("stay d p c r f w", held, "w"), Text("stay d p c r f w", long, "w"), Text("lean d p q c r f w", held, "w"), Text("loop d c s 4 v", loop, "v")]


def cuts() -> list[Text]:
    first = given(d=worked_texts.DESIGN, l="1,0\n", p="1,0\n1,0\n8,-7\n8,-7\n")
    plane = given(d=PLANE, l="2,-1,12\n3,-50, 09 ,29\n", p=4 * 12 * "1,0\n")
    return [Text("split d l p c r", first, "l"), Text("split d l p c r", plane, "l")]


def policies() -> list[Text]:
    return [Text("split d l p c r", given(d=worked_texts.DESIGN, l="1,0\n", p="1,0\n 1 ,0\n8,-7\n8,-07\n"), "p")]


def cells() -> list[Text]:
    high = texts.sub(worked_texts.CONTROLLER, ("lo 0\n", "lo 1\n"))
    return [Text("serve c s", given(c=f"mpc-cells 2\n{worked_texts.LOW}{high}end\n"), "c"), Text("serve c s", given(c=f"mpc-cells 3\n{high}{SECOND}{worked_texts.LOW}end\n"), "c")]


def controllers() -> list[Text]:
    second = texts.sub(worked_texts.CONTROLLER, ("mpc-controller 1", "mpc-controller 2"), ("words 6\n", "words 6\nexps 0 1 1\n"))
    third = texts.sub(worked_texts.LEAN_CONTROLLER, ("mpc-controller 1", "mpc-controller 3"), ("words 6\n", "words 12\nexps 0 1 1\n"))
    return [Text("solve c s", given(c=text, s="0\n1\n"), "c") for text in (worked_texts.CONTROLLER, second, third)]


def listings() -> list[Text]:
    first = listing.text_of(listing.listing_of(control.read_controller(worked_texts.CONTROLLER.encode())))
    return [Text("play l s", {"l": first, "s": b"0\n1\n"}, "l"), Text("play l s", given(l=MACHINE, s="-2,0\n1,7\n0,3\n"), "l")]


TABLES = {"controllers": controllers, "faces": faces, "disturbances": disturbances, "cuts": cuts, "policies": policies, "cells": cells, "listings": listings}


class Table:
    """The cases of a table, by their numbers from 0."""

    def __init__(self, name: str):
        self.texts = TABLES[name]()
        self.ends = list(accumulate(text.count for text in self.texts))

    @property
    def count(self) -> int:
        return self.ends[-1]

    def case(self, number: int) -> tuple[list[str], dict[str, bytes]]:
        which = bisect_right(self.ends, number)
        return self.texts[which].case(number - (self.ends[which - 1] if which else 0))
