"""run.py [PROGRAM] [--count 100] [--seed 1]: the C of random controllers of all kinds of words, under gcc's sanitizers, beside the machine and beside `solve`.

Each controller gets single steps from any multipliers, runs from states of its box and states outside it. With PROGRAM its `solve` prints the plans of the same states. It says how
many controllers of which words were tried, and ends with 1 at the first that differs, whose text it prints. Needs cc.
"""
import argparse
import collections
import os
import random
import subprocess
import sys
import tempfile

from scripts.common.c_words import Form
from scripts.tests import c_trials
from scripts.tests.controllers import random_controller, run, text_of


def differs_from_solve(program, c, folder, states):
    """Whether the program's plans aren't the machine's."""
    for name, text in (("controller", text_of(c)), ("states", "".join(",".join(map(str, state)) + "\n" for state in states))):
        c_trials.write(folder, name, text)
    told = subprocess.run([program, "solve", os.path.join(folder, "controller"), os.path.join(folder, "states")], capture_output=True, text=True, check=True).stdout
    return [[int(v) for v in line.split()[1:]] for line in told.splitlines()] != [run(c, state) for state in states]


def main():
    parser = argparse.ArgumentParser(prog="python3 -m checks.c.run", description=__doc__, formatter_class=argparse.RawDescriptionHelpFormatter)
    parser.add_argument("program", nargs="?")
    parser.add_argument("--count", type=int, default=100)
    parser.add_argument("--seed", type=int, default=1)
    given = parser.parse_args()
    r, tried = random.Random(given.seed), collections.Counter()
    while sum(tried.values()) < given.count:
        seed = r.randrange(10**9)
        c = random_controller(seed)
        if c is None:
            continue
        form = Form(c)
        with tempfile.TemporaryDirectory() as folder:
            try:
                c_trials.trial(c, folder, count=60, runs=6, changes=False)
                if given.program and differs_from_solve(given.program, c, folder, c_trials.states_of(c, r, 6)):
                    raise AssertionError("solve differs from the machine")
            except (AssertionError, subprocess.CalledProcessError) as why:
                print(text_of(c))
                sys.exit(f"run.py: controller {seed}: {why}")
        tried["two words for all" if form.is_wide else f"entries {form.entry_sums.tier}, rows {form.row_sums.tier}"] += 1
    for words, count in sorted(tried.items()):
        print(f"{count} of {words}")
    print(f"{given.count} controllers: equal")


if __name__ == "__main__":
    main()
