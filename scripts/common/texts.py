"""The other texts that the program reads and writes: policies, states, controllers, reports and lines."""
import json
from dataclasses import dataclass
from fractions import Fraction

from .files import read_bytes

REPORT_LINES = ["margin", "cost", "multiplier", "step", "steps", "bits", "width", "words", "violation", "gap", "undercut"]
SCALE = 2**40


def read_text(path: str) -> str:
    """A text of at most as many bytes as the program reads."""
    return read_bytes(path).decode("utf-8-sig", "replace")


def records_of(text):
    """The records of a policy or states text as lists of whole numbers; ValueError where a field is none."""
    return [[int(word.strip().strip('"')) for word in line.split(",")] for line in text.splitlines() if line]


def records_text(records) -> str:
    """The text of records, a line each."""
    return "".join(",".join(map(str, record)) + "\n" for record in records)


@dataclass
class Controller:
    """The numbers of a controller text, by its words; exps has a step exponent for each row."""

    version: int
    states: int
    inputs: int
    stages: int
    rows: int
    bits: int
    grid: int
    step: int
    width: int
    steps: int
    clamp: int
    words: int
    lo: list
    hi: list
    P: list
    T: list
    W: list
    G: list
    E: list
    b: list
    exps: list

    @property
    def entries(self):
        return self.inputs * self.stages


def controller_of(text):
    """The controller of a text that `generate` wrote."""
    lines = {}
    for line in text.splitlines()[:-1]:
        word, *numbers = line.split(" ")
        lines.setdefault(word, []).append([int(n) for n in numbers])
    (states, inputs, stages, rows), (bits, grid, step, width) = lines["size"][0], lines["bits"][0]
    return Controller(
        lines["mpc-controller"][0][0],
        states,
        inputs,
        stages,
        rows,
        bits,
        grid,
        step,
        width,
        lines["steps"][0][0],
        lines["clamp"][0][0],
        lines["words"][0][0],
        lines["lo"][0],
        lines["hi"][0],
        lines["P"],
        lines["T"][0],
        lines["W"],
        lines["G"],
        lines["E"],
        lines["b"][0],
        lines["exps"][0] if "exps" in lines else [step] * rows,
    )


def cells_of(text):
    """The controllers of a text that `split` wrote."""
    _, *parts = text.removesuffix("end\n").split("mpc-controller ")
    return [controller_of("mpc-controller " + part) for part in parts]


def reports_of(text):
    """The reports that stand in a text: those of the cells, where `split` wrote it."""
    start = text.lstrip()
    return [start] if start.startswith("{") else ["mpc-report" + part for part in start.split("mpc-report")[1:]]


def report_of(text):
    """The numbers of a report, text or JSON, by its words: margin over 2^16, the bounds over 2^40, as fractions. `violations` has the one of each row in version 2,
    and nothing in version 1, where all are `violation`. A lean controller has an excess, over 2^16, and no cost; `lean` says which."""
    if text.lstrip().startswith("{"):
        told = json.loads(text)
        numbers, rows = {key: int(value) for key, value in told.items() if isinstance(value, str)}, told.get("violations", [])
    else:
        if len(reports_of(text)) != 1:
            raise ValueError(f"{len(reports_of(text))} reports stand in one text, as of cells, and one is expected")
        lines = [line.split() for line in text.splitlines()[:-1]]
        numbers = {word: int(number) for word, number, *_ in lines} | {"version": int(lines[0][1])}
        rows = [row[2] for row in lines if row[0] == "violation"] if numbers["version"] > 1 else []
    violations = [Fraction(int(number), SCALE) for number in rows]
    lean = "excess" in numbers
    out = {key: numbers[key] for key in ["version", *REPORT_LINES] if key != "cost" or not lean}
    out |= {"lean": lean, "violations": violations, "margin": Fraction(numbers["margin"], 2**16)}
    out |= {"excess": Fraction(numbers["excess"], 2**16)} if lean else {}
    out |= {key: Fraction(numbers[key], SCALE) for key in ("violation", "gap", "undercut")}
    return out | {"violation": max(violations)} if violations else out


def loop_lines_of(text, states, inputs, grid):
    """The loops of a text of loop lines: record -> list of (state, input), each as fractions."""
    loops = {}
    for line in text.splitlines():
        record, _, *numbers = (int(word) for word in line.split(" "))
        if len(numbers) != states + 1 + inputs:
            raise ValueError(f"a loop line of this design has {states + inputs + 3} numbers, and one has {len(numbers) + 2}")
        state = [Fraction(v, 2**grid) for v in numbers[:states]]
        loops.setdefault(record, []).append((state, [Fraction(v, numbers[states]) for v in numbers[states + 1 :]]))
    return loops


def kind_of(text):
    """'design', 'controller', 'cells', 'report', 'settled', 'policy' or 'lines', by what the text begins with."""
    first = text.lstrip().split("\n", 1)[0]
    if first.startswith("turn "):
        return "settled"
    if first.startswith("mpc-controller"):
        return "controller"
    if first.startswith("mpc-cells"):
        return "cells"
    if first.startswith("mpc-report") or first.startswith("{"):
        return "report"
    if "=" in text or first.startswith(("[", "#")):
        return "design"
    return "policy" if "," in first else "lines"
