"""Measures the commands at their limits: time and memory.

    python3 -m bench.limits.run PROGRAM [NAME ..]

listing   a controller of 90 plan entries and 372 rows, in version 2: `list`, whose mark is 50 ms, and `play` of its listing beside `solve`
cells     a design of 60 plan entries and 252 rows in 64 cells: `split`, whose mark is 70 times `generate` of one of its cells, and `serve` of its text beside `solve`
states    a million states through `solve`, `serve` and `play`
turns     a million turns under disturbances

Without a name all of them. Times are those of the processor, of one run each, and memory is the most that the process held. What two commands print of the same states must
be the same. A million states may take what their file takes, twice, above what the same command takes for one of them, and disturbances too; `above` at the end of a line says how many times it is.
"""
from __future__ import annotations

import os
import subprocess
import sys
import tempfile

from checks.fuzz import cases, control, model, split_boxes

HERE = os.path.dirname(os.path.abspath(__file__))
EXAMPLES = os.path.join(HERE, "..", "..", "examples")
MILLION = 1_000_000
MOST_LIST, MOST_SPLIT, MOST_MEMORY = 0.05, 70, 2


class Work:
    """A folder in which the program is run."""

    def __init__(self, program: str, folder: str):
        self.program, self.folder, self.well = program, folder, True
        self.measure = self.path("measure")
        subprocess.run(["cc", "-O2", "-o", self.measure, os.path.join(HERE, "..", "loop", "measure.c")], check=True)

    def path(self, name: str) -> str:
        return os.path.join(self.folder, name)

    def write(self, name: str, data: bytes) -> None:
        with open(self.path(name), "wb") as file:
            file.write(data)

    def read(self, name: str) -> bytes:
        with open(self.path(name), "rb") as file:
            return file.read()

    def run(self, *words: str, out: str = "out") -> tuple[float, int]:
        """The processor's time in seconds and the most memory in bytes. What it prints is in the file `out`."""
        with open(self.path(out), "wb") as file:
            ran = subprocess.run([self.measure, self.program, *words], cwd=self.folder, env={"MEASURE": self.path("figures")}, stdout=file, stderr=subprocess.PIPE)
        microseconds, kilobytes, status = map(int, self.read("figures").split())
        if ran.returncode or status:
            sys.exit(f"{words}: status {status} {ran.stderr.decode()}")
        return microseconds / 1e6, kilobytes * 1024

    def tell(self, holds: bool, said: str) -> None:
        self.well &= holds
        print(f"{said}{'' if holds else ': NOT as it must be'}", flush=True)

    def size(self, name: str) -> int:
        return os.path.getsize(self.path(name))


def figures(seconds: float, memory: int) -> str:
    return f"{seconds:.3f} s, {memory / 2**20:.1f} MB"


def times_above(took: tuple[float, int], one: tuple[float, int], size: int) -> float:
    """How many times a file's bytes are the memory of a run above that of a run on one record."""
    return (took[1] - one[1]) / size


def listing(work: Work) -> None:
    subprocess.run([sys.executable, os.path.join(HERE, "..", "kernel", "make.py"), work.folder, "6", "3", "30", "372", "10", "4", "20"], check=True)
    took = work.run("list", "second", "listing")
    count = sum(1 for _ in work.read("listing").splitlines()) - 10
    work.tell(took[0] <= MOST_LIST, f"list of 90 entries and 372 rows, {count} instructions in {work.size('listing')} bytes: {figures(*took)}, mark {MOST_LIST} s")
    solve, play = work.run("solve", "second", "states", out="solved"), work.run("play", "listing", "states", out="played")
    work.tell(work.read("solved") == work.read("played"), f"20 states: solve {figures(*solve)}, play {figures(*play)}, {play[0] / solve[0]:.2f} times")


def large_design(lo: list[int], hi: list[int]) -> bytes:
    """A design of two states, three inputs and 20 stages, with 12 rows a stage and 12 at its end, for which the plan of zeros is feasible."""
    stage = [[0, 0, *(sign * (i == j) for j in range(3)), 64] for i in range(3) for sign in (1, -1)]
    stage += [[sign * (i == j) for j in range(2)] + [0, 0, 0, 4096] for i in range(2) for sign in (1, -1)] + [[1, 1, 1, 0, 0, 8192], [-1, 1, 0, 1, 0, 8192]]
    final = [[a, b, 8192] for a, b in ((1, 0), (-1, 0), (0, 1), (0, -1), (1, 1), (-1, 1), (1, -1), (-1, -1), (2, 1), (-2, 1), (2, -1), (-2, -1))]
    return cases.design_text({
        "version": 1, "n": 2, "p": 3, "stages": 20, "den": 2, "a": [[1, 1], [0, 1]], "b": [[1, 0, 1], [0, 1, 1]], "cost_den": 64, "row_den": 1, "input": [64, 64, 64],
        "cost": [[1, 0, 0, 1], [0, 1, 0, 1]], "final_cost": [[1, 0, 0, 1], [0, 1, 0, 1]], "limit_den": 1, "rows": stage, "final_rows": final, "grid": 4, "lo": lo, "hi": hi,
        "target_den": 1, "violation": 4096, "gap": 1 << 20})


def cells(work: Work) -> None:
    work.write("design", large_design([-64, -64], [63, 63]))
    work.write("one", large_design([-64, -64], [-49, -49]))
    cuts = [-49 + 16 * k for k in range(7)]
    work.write("cuts", "".join(f"7,{','.join(map(str, cuts))}\n" for _ in range(2)).encode())
    plan = "1" + ",0" * 60 + "\n"
    work.write("policies", plan.encode() * 256)
    work.write("policy", plan.encode() * 4)
    one, all_cells = work.run("generate", "one", "policy", "c", "r"), work.run("split", "design", "cuts", "policies", "cells", "reports")
    made = split_boxes.read_cells(work.read("cells"))
    work.tell(len(made) == 64 and (made[0].nu, made[0].m) == (60, 252) and control.text_of(made[0]) == work.read("c"),
              f"one cell of 60 entries and 252 rows: generate {figures(*one)}")
    work.tell(all_cells[0] <= MOST_SPLIT * one[0], f"64 such cells, {work.size('cells') / 2**20:.1f} MB: split {figures(*all_cells)}, {all_cells[0] / one[0]:.1f} times, mark {MOST_SPLIT}")
    work.write("states", b"-61,-59\n-50,-64\n")
    solve, serve = work.run("solve", "c", "states", out="solved"), work.run("serve", "cells", "states", out="served")
    work.tell(work.read("solved") == work.read("served"), f"2 states of one cell: solve {figures(*solve)}, serve {figures(*serve)}")


def states(work: Work) -> None:
    example = os.path.join(EXAMPLES, "first")
    work.run("generate", *(os.path.join(example, name) for name in ("design.toml", "policy.csv")), "controller", "report")
    work.run("list", "controller", "listing")
    work.write("cells", split_boxes.text_of([control.read_controller(work.read("controller"))]))
    work.write("states", b"0\n1\n" * (MILLION // 2))
    work.write("state", b"0\n")
    for command, file in (("solve", "controller"), ("serve", "cells"), ("play", "listing")):
        one, took = work.run(command, file, "state"), work.run(command, file, "states", out=command)
        well = work.read(command) == work.read("solve") and work.read(command).count(b"\n") == MILLION
        above = times_above(took, one, work.size("states"))
        work.tell(well and above <= MOST_MEMORY, f"{command} of a million states, {work.size('states') / 2**20:.1f} MB: {figures(*took)}, above one state's {above:.1f} times the file, mark {MOST_MEMORY}")


def turns(work: Work) -> None:
    example = os.path.join(EXAMPLES, "motor", "stay")
    design, policy, faces, box = (os.path.join(example, name) for name in ("design.toml", "policy.csv", "faces.csv", "disturbances.csv"))
    work.run("stay", design, policy, "controller", "report", faces, box)
    with open(design, "rb") as file:
        d = model.read_design(file.read())
    with open(box) as file:
        high = [int(v) for v in file.read().split()[1].split(",")]
    # (of one digit, so that the file has room for a million)
    lines = [",".join(str(min(most, least)) for least in high) + "\n" for most in (9, 0)]
    work.write("shifts", "".join(lines).encode() * (MILLION // 2))
    work.write("start", (",".join(map(str, d.hi)) + "\n").encode())
    work.write("shift", lines[0].encode())
    one = work.run("loop", design, "controller", "start", "1", "shift")
    took = work.run("loop", design, "controller", "start", str(MILLION), "shifts")
    above = times_above(took, one, work.size("shifts"))
    work.tell(work.read("out").count(b"\n") == MILLION and above <= MOST_MEMORY,
              f"loop of a million turns under disturbances, {work.size('shifts') / 2**20:.1f} MB: {figures(*took)}, above one turn's {above:.1f} times the file, mark {MOST_MEMORY}")


LIMITS = {"listing": listing, "cells": cells, "states": states, "turns": turns}


def main() -> None:
    if len(sys.argv) < 2 or not {*sys.argv[2:]} <= {*LIMITS}:
        sys.exit(__doc__)
    well = True
    for name in sys.argv[2:] or LIMITS:
        with tempfile.TemporaryDirectory() as folder:
            work = Work(os.path.abspath(sys.argv[1]), folder)
            LIMITS[name](work)
            well &= work.well
    sys.exit(not well)


main()
