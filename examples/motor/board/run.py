"""run.py [PROGRAM]: the motor's controller as C on an emulated Cortex-M4, in closed loop with the plant, beside `loop`.

Makes the controller, writes it as C, builds it with the loop of main.c for the board, runs 50 turns from each of the example's states, and compares each line with
what `loop` prints. Then it says what a run costs. PROGRAM is ./mpc where none is named. Needs gcc-arm-none-eabi, qemu-system-arm and cc.
"""
import os
import subprocess
import sys
import tempfile

from bench.target import board

HERE = os.path.dirname(os.path.abspath(__file__))
EXAMPLE = os.path.dirname(HERE)
TOP = os.path.dirname(os.path.dirname(EXAMPLE))
TURNS, CLOCK, STAGE = 50, 168e6, 0.005


def main():
    if board.lacking():
        sys.exit(f"run.py: nothing was run: apt-get install {' '.join(board.lacking())}")
    launcher = os.path.join(TOP, "mpc")
    program = sys.argv[1] if len(sys.argv) > 1 else launcher
    design, policy, states = (os.path.join(EXAMPLE, name) for name in ("design.toml", "policy.csv", "states.csv"))
    with tempfile.TemporaryDirectory() as folder:
        controller, report = os.path.join(folder, "motor.txt"), os.path.join(folder, "motor-report.txt")
        subprocess.run([program, "generate", design, policy, controller, report], check=True)
        subprocess.run([launcher, "c", controller, report, design, "--name", "motor", "--out", folder], check=True)
        with open(states, encoding="ascii") as file:
            board.write_states(folder, [[int(v) for v in line.split(",")] for line in file.read().split()])
        board.build(folder, "m4", [os.path.join(HERE, "main.c")], defines=[f"-DTURNS={TURNS}"], name="motor")
        printed = board.emulate(folder, "m4")
        loop = subprocess.run([program, "loop", design, controller, states, str(TURNS)], capture_output=True, text=True, check=True).stdout.splitlines()
        if printed != loop:
            at = next((i for i, (one, other) in enumerate(zip(printed, loop)) if one != other), min(len(printed), len(loop)))
            sys.exit(f"run.py: line {at + 1} differs: the board printed {printed[at : at + 1]}, and loop {loop[at : at + 1]}")
        runs = set(board.counts(folder, "m4", "motor"))
        flash, own = board.sizes(folder, "motor")
        held = own + board.size_of(folder, "work") + board.size_of(folder, "sums")
    ((instructions, cycles),) = runs
    print(f"{len(loop)} turns on a Cortex-M4, each line as loop prints it; {instructions:,} instructions a run, the same in each")
    print(f"{cycles:,} cycles by the M4's table, without wait states: {cycles / CLOCK * 1e3:.2f} ms at {CLOCK / 1e6:.0f} MHz, of {STAGE * 1e3:.0f} ms; {flash} bytes of flash, {held} of RAM")


if __name__ == "__main__":
    main()
