#!/usr/bin/env python3
"""Measures `play` beside `solve` on the same states.

    bench/play/run.py PROGRAM [RUNS]

Of each example below: its controller by `generate`, the listing of that by `list`, and both commands from the same states, in turn, RUNS (5) times each. The least user times are
compared. The mark is 31. Both must print the same lines.
"""
import os
import resource
import subprocess
import sys
import tempfile

HERE = os.path.dirname(os.path.abspath(__file__))
EXAMPLES = os.path.join(HERE, "..", "..", "examples")
STATES = os.path.join(HERE, "..", "kernel", "make.py")
MARK = 31.0
# an example, and how many states
CASES = [("motor", 9000), ("satellite", 1800), ("wheel", 1800), ("antenna", 40), ("rendezvous", 20)]


def timed(program: str, words: list[str], folder: str) -> tuple[float, bytes]:
    """The user time in seconds, and what it printed."""
    before = resource.getrusage(resource.RUSAGE_CHILDREN).ru_utime
    ran = subprocess.run([program, *words], cwd=folder, capture_output=True)
    if ran.returncode:
        sys.exit(f"{words}: status {ran.returncode} {ran.stderr.decode()}")
    return resource.getrusage(resource.RUSAGE_CHILDREN).ru_utime - before, ran.stdout


def width_of(listing: str) -> int:
    with open(listing) as file:
        return next(int(line.split()[1]) for line in file if line.startswith("word "))


def made(program: str, example: str, count: int, folder: str) -> int:
    """Writes the controller, the listing and the states of an example, and tells the width."""
    files = [os.path.abspath(os.path.join(EXAMPLES, example, name)) for name in ("design.toml", "policy.csv")]
    timed(program, ["generate", *files, "controller", "report"], folder)
    timed(program, ["list", "controller", "listing"], folder)
    with open(os.path.join(folder, "states"), "wb") as file:
        subprocess.run([sys.executable, STATES, "states", "controller", str(count)], cwd=folder, stdout=file, check=True)
    return width_of(os.path.join(folder, "listing"))


def compared(program: str, example: str, count: int, runs: int) -> bool:
    with tempfile.TemporaryDirectory() as folder:
        width = made(program, example, count, folder)
        solves, plays = [], []
        same = True
        for _ in range(runs):
            solve, wanted = timed(program, ["solve", "controller", "states"], folder)
            play, got = timed(program, ["play", "listing", "states"], folder)
            solves.append(solve)
            plays.append(play)
            same &= wanted == got
    ratio = min(plays) / min(solves)
    print(f"{example}, width {width}, {count} states: solve {min(solves):.3f} s, play {min(plays):.3f} s, ratio {ratio:.2f}, mark {MARK}")
    if not same:
        print("  the lines differ")
    return same and ratio <= MARK


def main() -> None:
    program = os.path.abspath(sys.argv[1])
    runs = int(sys.argv[2]) if len(sys.argv) > 2 else 5
    well = [compared(program, example, count, runs) for example, count in CASES]
    sys.exit(not all(well))


main()
