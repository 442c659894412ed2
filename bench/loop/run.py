"""Measures `loop`: its time beside `solve` on the same states, and its memory over its turns.

    python3 -m bench.loop.run PROGRAM [RUNS]

Time: the satellite's controller over 200 turns, and `solve` on the states that those turns began with, in turn, RUNS (9) times each; the least processor times
are compared. The mark is 1.02. The plans of both must be the same.
Memory: a small loop of 10, 200 and 1,000,000 turns: the most memory of the process (the least of RUNS runs), and the most bytes that it had from the allocator. Both must stay
within a page of what they are at 10 turns. The last line of the longest must be the model's.
"""
import collections
import os
import subprocess
import sys
import tempfile

from checks.fuzz import control, model

HERE = os.path.dirname(os.path.abspath(__file__))
PROGRAM = os.path.abspath(sys.argv[1])
RUNS = int(sys.argv[2]) if len(sys.argv) > 2 else 9
EXAMPLES = os.path.join(HERE, "..", "..", "examples")
TURNS, MANY, MARK, PAGE = 200, 1000000, 1.02, 4096


def compiled(folder):
    """The launcher and the counting allocator."""
    measure, counting = os.path.join(folder, "measure"), os.path.join(folder, "counting.so")
    subprocess.run(["cc", "-O2", "-o", measure, os.path.join(HERE, "measure.c")], check=True)
    subprocess.run(["cc", "-O2", "-shared", "-fPIC", "-fno-builtin", "-o", counting, os.path.join(HERE, "..", "..", "checks", "faults", "refuse.c")], check=True)
    return measure, counting


class Measured:
    def __init__(self, folder):
        self.folder = folder
        self.measure, self.counting = compiled(folder)

    def path(self, name):
        return os.path.join(self.folder, name)

    def run(self, *words, out="out", counts=False):
        """The processor time in seconds, and the most memory in bytes, or with `counts` the most bytes from the allocator."""
        env = {"MEASURE": self.path("figures"), "REFUSE_REPORT": self.path("counts"), **({"MEASURE_PRELOAD": self.counting} if counts else {})}
        with open(self.path(out), "wb") as file:
            ran = subprocess.run([self.measure, PROGRAM, *words], cwd=self.folder, env=env, stdout=file, stderr=subprocess.PIPE)
        with open(self.path("figures")) as file:
            microseconds, kilobytes, status = map(int, file.read().split())
        if ran.returncode or status:
            sys.exit(f"{words}: status {status} {ran.stderr.decode()}")
        if counts:
            with open(self.path("counts"), "rb") as file:
                return int.from_bytes(file.read()[16:24], sys.byteorder)
        return microseconds / 1e6, kilobytes * 1024

    def lines(self, name):
        with open(self.path(name)) as file:
            return [line.split() for line in file]


def satellite(work):
    """The files of the first start state that stays in the box for all turns."""
    example = os.path.join(EXAMPLES, "satellite")
    design, policy = os.path.join(example, "design.toml"), os.path.join(example, "policy.csv")
    work.run("generate", design, policy, "controller", "report")
    with open(design, "rb") as file:
        d = model.read_design(file.read())
    for part in (2, 4, 8, 16):
        with open(work.path("start"), "w") as file:
            file.write(",".join(str(high // part) for high in d.hi) + "\n")
        ran = subprocess.run([PROGRAM, "loop", design, "controller", "start", str(TURNS)], cwd=work.folder, capture_output=True, text=True)
        if ran.returncode == 0:
            break
    else:
        sys.exit(f"no start state was found whose loop stays in the box: {ran.stderr}")
    rows = [line.split() for line in ran.stdout.splitlines()]
    with open(work.path("states"), "w") as file:
        file.writelines(",".join(row[2 : 2 + d.states]) + "\n" for row in rows)
    return design, d


def time(work):
    design, d = satellite(work)
    loops, solves = [], []
    for _ in range(RUNS):
        loops.append(work.run("loop", design, "controller", "start", str(TURNS), out="turns")[0])
        solves.append(work.run("solve", "controller", "states", out="plans")[0])
    turns, plans = work.lines("turns"), work.lines("plans")
    same = len(turns) == len(plans) == TURNS and all(turn[2 + d.states :] == plan[: 1 + d.inputs] for turn, plan in zip(turns, plans))
    ratio = min(loops) / min(solves)
    states = len({tuple(turn[2 : 2 + d.states]) for turn in turns})
    print(f"{TURNS} turns from {', '.join(turns[0][2 : 2 + d.states])} through {states} states: loop {min(loops):.3f} s, solve on the same states {min(solves):.3f} s")
    print(f"  ratio {ratio:.4f} (mark {MARK}), and the inputs are {'the same' if same else 'NOT the same'}")
    return ratio <= MARK and same


def memory(work):
    example = os.path.join(EXAMPLES, "first")
    files = [os.path.join(example, name) for name in ("design.toml", "controller.txt")]
    with open(work.path("one"), "w") as file:
        file.write("1\n")
    well, first = True, None
    for turns in (10, TURNS, MANY):
        words = ["loop", *files, "one", str(turns)]
        most = min(work.run(*words)[1] for _ in range(RUNS if turns < MANY else 1))
        lent = work.run(*words, counts=True)
        first = first or (most, lent)
        well &= abs(most - first[0]) <= PAGE and abs(lent - first[1]) <= PAGE
        print(f"{turns} turns: {most // 1024} KB, of it at most {lent} bytes from the allocator at a time")
    with open(files[0], "rb") as design, open(files[1], "rb") as text:
        lines = control.loop_lines(model.read_design(design.read()), control.read_controller(text.read()), 1, [1], MANY, {})
    (wanted,) = collections.deque(lines, maxlen=1)
    got = subprocess.run(["tail", "-n", "1", work.path("out")], capture_output=True).stdout
    print(f"  the last line, {got.decode().strip()}, is {'the model' + chr(39) + 's' if got == wanted else 'not ' + wanted.decode().strip()}")
    return well and got == wanted


def main():
    with tempfile.TemporaryDirectory() as folder:
        work = Measured(folder)
        well = [time(work), memory(work)]
    sys.exit(not all(well))


main()
