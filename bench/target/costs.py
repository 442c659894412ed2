"""costs.py [COUNT]: how near `scripts/common/c_costs.py` and `straight_costs.py` come to what is measured on an emulated Cortex-M4, on COUNT controllers of each kind (4 where none is given).

The controllers have random numbers in the shape of a design's: rows on inputs that count one entry, rows on states that count all entries before them, most in pairs of opposite rows.
For each kind of words it prints the least and the greatest ratio of what is said to what is measured, of cycles and of flash; RAM of tables must be the same. The straight C, of controllers that `c`
writes and of the same numbers as controllers of version 3, is the model's in checks/fuzz, which has the program's bytes. Needs gcc-arm-none-eabi, qemu-system-arm and cc.
"""
import random
import sys
import tempfile

from checks.fuzz import compiled, control
from scripts.common.c_costs import Costs
from scripts.common.straight_costs import AcceleratedCosts, StraightCosts, is_written
from scripts.common.texts import Controller
from scripts.tests.controllers import accelerated, text_of, with_width

from . import board

# fraction bits, step exponent, bits of the clamp over 2^(f+s), and how often a stage has a row on states
KINDS = {"32 bits": (16, 1, 8, 0.7), "32 bits, inputs alone": (16, 1, 8, 0), "two parts": (26, 1, 8, 0.7), "two parts, inputs alone": (26, 1, 8, 0), "four parts": (33, 2, 6, 0.7), "two words": (46, 3, 12, 0.5)}


def numbers(r, bits):
    return r.randint(1, 2**bits - 1) * r.choice([-1, 1])


def rows_of(r, f, p, stages, states):
    """Limit rows over the plan's entries."""
    entries, rows = p * stages, []
    for k in range(stages):
        some = [[numbers(r, f) if j == k * p + l else 0 for j in range(entries)] for l in range(p) if r.random() < 0.8]
        some += [[numbers(r, f - 1) if j < (k + 1) * p else 0 for j in range(entries)]] if r.random() < states else []
        for row in some:
            rows += [row, [-v for v in row]] if r.random() < 0.8 else [row]
    return rows


def shaped(r, f, s, clamp, states):
    """A controller of random sizes in a design's shape, or None where it is too large for this."""
    version = r.choice([1, 2])
    n, p, stages = r.randint(1, 6 if version == 2 else 4), r.randint(1, 3), r.randint(2, 10)
    rows = rows_of(r, f, p, stages, states)
    entries, m = p * stages, len(rows)
    if not rows or entries * m > 1200:
        return None
    gains, exps = [[0] * m for _ in range(entries)], [s - (r.randint(0, min(s, 3)) if version == 2 else 0) for _ in range(m)]
    for i in range(m):
        is_second = i > 0 and rows[i] == [-v for v in rows[i - 1]]
        exps[i] = exps[i - 1] if is_second else exps[i]
        for row in gains:
            row[i] = -row[i - 1] if is_second else numbers(r, f - 2)
    table = lambda height: [[numbers(r, f) if r.random() < 0.7 else 0 for _ in range(n)] for _ in range(height)]
    bounds = [numbers(r, f) for _ in range(m)]
    return with_width(Controller(version, n, p, stages, m, f, 6, s, 128, 6, 2**clamp << (f + s), n + m + 2 * entries, [-100] * n, [100] * n, table(entries), [0] * entries, gains, rows, table(m), bounds, exps))


def ratios(controller):
    """What is said over what is measured: cycles and flash. RAM must be the same."""
    said = Costs(controller)
    with tempfile.TemporaryDirectory() as folder:
        board.solve(folder, controller, [controller.hi], "m4")
        ((_, cycles),) = board.counts(folder, "m4")
        flash, own = board.sizes(folder)
        held = own + board.size_of(folder, "work") + board.size_of(folder, "sums")
    if held != said.ram:
        raise SystemExit(f"costs.py: {said.ram} bytes of RAM are said, and it takes {held}")
    return said.cycles / cycles, said.flash / flash


def straight_ratios(controller):
    """The same of its straight C, and of RAM."""
    said = (AcceleratedCosts if controller.version == 3 else StraightCosts)(controller)
    with tempfile.TemporaryDirectory() as folder:
        source, header = compiled.texts_of("mpc", control.read_controller(text_of(controller).encode()))
        for name, text in (("mpc.c", source), ("mpc.h", header)):
            board.write(folder, name, text.decode())
        board.solve(folder, controller, [controller.hi], "m4", straight=True)
        ((_, cycles),) = board.counts(folder, "m4")
        held = board.stack_of(folder, "m4") + board.size_of(folder, "sums")
        return said.cycles / cycles, said.flash / board.sizes(folder)[0], said.ram / held


def told(name, found):
    ranges = ", ".join(f"{what} {min(some):.2f} to {max(some):.2f}" for what, some in zip(("cycles", "flash", "RAM"), zip(*found)))
    print(f"{name}: said over measured, {ranges}", flush=True)


def main():
    if board.lacking():
        sys.exit(f"costs.py: nothing was measured: apt-get install {' '.join(board.lacking())}")
    count, r = int(sys.argv[1]) if len(sys.argv) > 1 else 4, random.Random(47)
    straight, fast = [], []
    for name, sizes in KINDS.items():
        found = []
        while len(found) < count:
            controller = shaped(r, *sizes)
            if controller is not None:
                found.append(ratios(controller))
                if is_written(controller):
                    straight.append(straight_ratios(controller))
                    other = accelerated(controller)
                    if other is not None and is_written(other):
                        fast.append(straight_ratios(other))
        told(name, found)
    told(f"straight C of {len(straight)} of these", straight)
    told(f"straight C of {len(fast)} as controllers of version 3", fast)


if __name__ == "__main__":
    main()
