"""run.py PROGRAM [--boards m4,m7] [--examples motor,pmsm] [--optimise -O3] [--by generate] [--accelerated] [--part N] [--eva SECONDS]: what the C of the examples' controllers costs on emulated boards.

For each example PROGRAM makes the controller by `lean`, or by `generate`, and the plans of its states; its C, as tables and as the program of `c` where there is one, runs on the boards, must print
the same sums, and is counted: exact instructions of a run, cycles by the table of instructions of the Cortex-M4 without wait states (of m4 alone), flash, RAM of work and sums. With --accelerated
the controllers are of version 3, of which there are no tables; with --part N the targets of all are an N-th of the examples'. With --eva Frama-C's Eva is asked whether
any value leaves its type, from every state that 32 bits hold and through all steps, for at most so many seconds each.

Needs gcc-arm-none-eabi and qemu-system-arm (--eva: frama-c-base); says so where they aren't installed.
"""
import argparse
import os
import re
import subprocess
import sys
import tempfile

from scripts.common.strict_texts import safe_controller

from . import board

EXAMPLES = ["motor", "pmsm", "satellite", "wheel", "kiln", "antenna", "rendezvous"]
# the status of `c` where the controller is too wide for it
TOO_WIDE = 22
# cycles mean nothing on other processors than the one whose table they are of
TABLED = "m4"
# states of each that are run: a run of the wide ones has tens of millions of instructions
COUNTS = {"antenna": 2, "rendezvous": 1}


def asked(example, folder, accelerated, part):
    """The design of an example, for the accelerated machine and with a part of its targets, where that is asked for."""
    with open(os.path.join(example, "design.toml"), encoding="utf-8") as file:
        text = file.read()
    if accelerated:
        text = re.sub(r"(?m)^version = [12]$", "version = 3", text, count=1)
    text = re.sub(r"(?ms)^(\[targets\].*?^den = )(\d+)$", lambda found: f"{found[1]}{int(found[2]) * part}", text, count=1)
    board.write(folder, "design.toml", text)
    return os.path.join(folder, "design.toml")


def made(program, name, folder, by, accelerated, part):
    """The controller of an example, its states and the sums of their plans; and whether the program writes its C."""
    example = os.path.join(board.TOP, "examples", name)
    controller, states = os.path.join(folder, "controller"), os.path.join(example, "state.csv" if name == "first" else "states.csv")
    plans = ["policy.csv"] if by == "generate" else ["lean.csv", "reference.csv"]
    subprocess.run([program, by, asked(example, folder, accelerated, part), *(os.path.join(example, file) for file in plans), controller, os.path.join(folder, "report")], check=True)
    written = subprocess.run([program, "c", controller, "mpc", os.path.join(folder, "mpc.c"), os.path.join(folder, "mpc.h")], capture_output=True, text=True)
    if written.returncode not in (0, TOO_WIDE):
        raise SystemExit(f"run.py: {name}: {written.stderr.strip()}")
    plans = subprocess.run([program, "solve", controller, states], capture_output=True, text=True, check=True).stdout.splitlines()
    with open(states, encoding="ascii") as file:
        rows = [[int(v) for v in line.split(",")] for line in file.read().split()]
    with open(controller, encoding="ascii") as file:
        count = COUNTS.get(name, len(rows))
        return safe_controller(file.read(), 3), rows[:count], [[int(v) for v in line.split()[1:]] for line in plans[:count]], written.returncode == 0


def measured(folder, controller, states, sums, name, which, optimise, straight):
    """A row of the table; an error where the board prints other sums."""
    outside = [*controller.hi[:-1], controller.hi[-1] + 1]
    got = board.solve(folder, controller, [*states, outside], which, optimise, straight)
    if got != [*[(0, plan) for plan in sums], (controller.states, [])]:
        raise SystemExit(f"run.py: {name} on {which} prints other sums than solve: {got}")
    runs = {run for run in board.counts(folder, which)[: len(states)]}
    flash, own = board.sizes(folder)
    held = (0 if straight else board.size_of(folder, "work")) + board.size_of(folder, "sums") + own
    instructions, cycles = max(runs)
    constant = "" if len({count for count, _ in runs}) == 1 else f" (from {min(runs)[0]:,})"
    told = f"{cycles:,}" if which == TABLED else ""
    sizes = f"{controller.width} | {controller.steps} | {instructions:,}{constant} | {instructions / controller.steps:,.0f}"
    return f"| {name}, {'straight' if straight else 'tables'} | {which} {optimise} | {sizes} | {told} | {flash} | {held} |"


def eva(controller, name, seconds):
    """What Eva says of the C."""
    with tempfile.TemporaryDirectory() as folder:
        board.write_c(folder, controller)
        command = ["frama-c", "-eva", "-eva-precision", "2", "-machdep", "gcc_x86_32", "-warn-signed-overflow", "-warn-signed-downcast", "-eva-slevel", "2000"]
        command += ["-eva-auto-loop-unroll", str(controller.steps + 10), f"-cpp-extra-args=-I{folder}", os.path.join(board.HERE, "eva.c"), os.path.join(folder, "mpc.c")]
        try:
            got = subprocess.run(command, capture_output=True, text=True, timeout=seconds)
        except subprocess.TimeoutExpired:
            return f"{name}: Eva was not done in {seconds} s"
    alarms = [line.strip() for line in got.stdout.splitlines() if "alarm" in line and "generated" in line]
    return f"{name}: Eva: {alarms[0] if alarms else 'failed: ' + got.stdout[-300:]}"


def main():
    parser = argparse.ArgumentParser(prog="python3 -m bench.target.run", description=__doc__, formatter_class=argparse.RawDescriptionHelpFormatter)
    parser.add_argument("program")
    parser.add_argument("--boards", default="m4")
    parser.add_argument("--examples", default=",".join(EXAMPLES))
    parser.add_argument("--optimise", default="-O2")
    parser.add_argument("--by", choices=["lean", "generate"], default="lean")
    parser.add_argument("--accelerated", action="store_true")
    parser.add_argument("--part", type=int, default=1, metavar="N")
    parser.add_argument("--eva", type=int, default=0, metavar="SECONDS")
    given = parser.parse_args()
    if not given.eva and board.lacking():
        sys.exit(f"run.py: nothing was measured: apt-get install {' '.join(board.lacking())}")
    if not given.eva:
        print("| Example | Board | Width | K | Instructions a run | a step | Cycles | Flash | RAM |\n|---|---|---|---|---|---|---|---|---|")
    for name in given.examples.split(","):
        with tempfile.TemporaryDirectory() as folder:
            controller, states, sums, has_program = made(os.path.abspath(given.program), name, folder, given.by, given.accelerated, given.part)
            if given.eva:
                print(eva(controller, name, given.eva), flush=True)
                continue
            for which in given.boards.split(","):
                for straight in [True] * has_program + [False] * (not given.accelerated):
                    print(measured(folder, controller, states, sums, name, which, given.optimise, straight), flush=True)


if __name__ == "__main__":
    main()
