"""python3 -m checks.plants.run [NAME ..] [--folder FOLDER] [--seconds S] [--machine plain|accelerated] [--tables] [--plain] [--few]:
designs each plant of this folder by `./mpc design --stay`, with --plain by `./mpc design`, and prints a table of what it came to.

The models are as a new user writes them: a plant, limits with the tolerances of a data sheet, weights, a box. `--seconds` is the time of each search (40). With --machine the
controllers are of that machine, else of the one that takes less. A line has K, and whether it is of version 3; cycles of a run of the
straight C of `./mpc c`, counted on an emulated Cortex-M4 where gcc-arm-none-eabi and qemu-system-arm are installed, else (or with --tables) about those of tables; their share of a stage at 100 MHz;
of the limit that is exceeded most of what is asked of it the tolerance, what is promised and what was measured at 100 states; how much of the model's box no loop leaves; the disturbances of a stage
that it bears; seconds by the clock, and of the processor. Where there is no controller the line has the cause. With --few two loops of four turns and no random states are tried, where the program
is the slow model.
"""
import argparse
import os
import re
import resource
import shutil
import subprocess
import sys
import tempfile
import time

from bench.target import board

HERE = os.path.dirname(os.path.abspath(__file__))
TOP = os.path.dirname(os.path.dirname(HERE))
MPC = os.path.join(TOP, "mpc")
HEAD = "| Plant | K | Cycles | Of a stage | Limit | Asked | Promised | Measured | Of the box | Bears | Seconds |\n|" + "---|" * 11
CLOCK = 100e6
FEW = ["--turns", "4", "--corners", "2", "--random", "0", "--states", "0"]
# states that are run to count cycles
COUNTED = 2


def text_of(folder, name):
    with open(os.path.join(folder, name), encoding="utf-8") as file:
        return file.read()


def designed(name, folder, seconds, options):
    """What `./mpc design` said, its status, and its seconds by the clock and of the processor."""
    used = lambda: sum(resource.getrusage(resource.RUSAGE_CHILDREN)[:2])
    began, before = time.monotonic(), used()
    command = [MPC, "design", os.path.join(HERE, name + ".toml"), folder, *options, "--seconds", str(seconds)]
    got = subprocess.run(command, stdout=subprocess.PIPE, stderr=subprocess.STDOUT, text=True)
    return got.returncode, got.stdout.splitlines(), f"{time.monotonic() - began:.0f}, {used() - before:.0f}"


def straight_cycles(folder):
    """The most cycles of a run of the straight C, from a few states; None where it isn't written, or can't be run here."""
    if board.lacking():
        return None
    with tempfile.TemporaryDirectory() as work:
        path = lambda file: os.path.join(work, file)
        written = subprocess.run([MPC, "c", os.path.join(folder, "controller.txt"), "mpc", path("mpc.c"), path("mpc.h")], stderr=subprocess.DEVNULL)
        if written.returncode:
            return None
        states = [[int(v) for v in line.split(",")] for line in text_of(folder, "states.csv").split()][:COUNTED]
        answers = board.solve(work, None, states, "m4", straight=True)
        if any(status for status, _ in answers):
            raise SystemExit(f"{folder}: the C refuses a corner of the box: {answers}")
        return max(cycles for _, cycles in board.counts(work, "m4"))


def most_exceeded(folder):
    """The limit row that is exceeded most of what is promised, else of what is asked: its name, and in its unit what is asked, promised and measured."""
    judged, explained = text_of(folder, "judged.txt"), text_of(folder, "explained.txt")
    measured, row = re.search(r"greatest violation \S+?,? (?:that is )?(\S+ \S+), in stage row (\d+)", judged).groups()
    promised = re.search(rf"stage row {row} \((.*)\) is exceeded by at most (\S+ \S+),", explained)
    asked = re.search(rf"# stage row {row}: .*, 1 is (.*)", text_of(folder, "design.toml"))
    return promised[1], asked[1], promised[2], measured


def figures(folder, said, tables):
    """The cells of a plant's line behind its name."""
    explained, whole = text_of(folder, "explained.txt"), "\n".join(said)
    about, share = re.search(r"about ([\d,]+) cycles a run.*?(?:, (\S+) % of a stage|;)", explained).groups()
    counted = None if tables else straight_cycles(folder)
    period = float(re.search(r"a stage lasts (\S+) s", text_of(folder, "design.toml"))[1])
    cycles = f"{counted:,}" if counted else f"about {about}"
    part = f"{100 * counted / CLOCK / period:.2g} %" if counted else f"{share} %"
    box = re.findall(r"([\d.]+) % of the model's box, K", whole) or ["100"]
    # faces are made once more where the other machine is taken
    last = whole[whole.rfind(" faces ") :]
    bears = re.findall(r"bears disturbances from \S+ to \S+ a turn, \S+ \S+ to (\S+ \S+)", last)
    third = " of version 3" * text_of(folder, "controller.txt").startswith("mpc-controller 3\n")
    return [re.search(r"K = (\d+)", explained)[1] + third, cycles, part, *most_exceeded(folder), f"{box[-1]} %", ", ".join(bears)]


def line_of(name, folder, seconds, tables, options):
    status, said, took = designed(name, folder, seconds, options)
    if status:
        cause = [line.strip() for line in said if line.startswith("    ")][-2:]
        return f"| {name.replace('_', ' ')} | {' '.join(cause)} |" + " |" * 8 + f" {took} |"
    return f"| {name.replace('_', ' ')} | " + " | ".join([*figures(folder, said, tables), took]) + " |"


def main():
    names = sorted(file.removesuffix(".toml") for file in os.listdir(HERE) if file.endswith(".toml"))
    parser = argparse.ArgumentParser(prog="python3 -m checks.plants.run", description=__doc__, formatter_class=argparse.RawDescriptionHelpFormatter)
    parser.add_argument("names", metavar="NAME", nargs="*", default=names)
    parser.add_argument("--folder")
    parser.add_argument("--seconds", type=float, default=40)
    parser.add_argument("--machine", choices=["plain", "accelerated"])
    parser.add_argument("--tables", action="store_true")
    parser.add_argument("--plain", action="store_true")
    parser.add_argument("--few", action="store_true")
    given = parser.parse_args()
    for name in given.names:
        if name not in names:
            parser.error(f"{name}: no such plant (there are {', '.join(names)})")
    folder = given.folder or tempfile.mkdtemp()
    print(HEAD)
    for name in given.names:
        place = os.path.join(folder, name)
        shutil.rmtree(place, ignore_errors=True)
        print(line_of(name, place, given.seconds, given.tables, [*([] if given.plain else ["--stay"]), *(["--" + given.machine] if given.machine else []), *(FEW if given.few else [])]), flush=True)
    print(f"the designs are in {folder}", file=sys.stderr)


if __name__ == "__main__":
    main()
