"""rules.py PROGRAM [--count 10] [--seed 1] [--eva SECONDS] [--examples motor,pmsm]: the C that PROGRAM's `c` writes of the examples' lean controllers, and of random ones, by rules and by Eva.

cppcheck's MISRA addon may tell of no rule but those that docs/C.md names, and of 10.1, the only required one, at nothing but `>>`. With --eva Frama-C's Eva, from every state that 32 bits hold and through all steps,
for at most so many seconds each, may find no value that leaves its type, of the examples alone. Ends with 1 where one does. Needs cppcheck, --eva frama-c-base; says so where they aren't installed.
"""
import argparse
import collections
import itertools
import json
import os
import random
import re
import shutil
import subprocess
import sys
import tempfile

from scripts.tests import c_trials
from scripts.tests.controllers import text_of

from .straight import drawn

TOP = os.path.join(os.path.dirname(os.path.abspath(__file__)), "..", "..")
EXAMPLES = ["first", "motor", "satellite", "wheel", "pmsm"]
ADDONS = ["/usr/lib/x86_64-linux-gnu/cppcheck/addons/misra.py", "/usr/share/cppcheck/addons/misra.py"]
REQUIRED, ADVISORY = {"10.1"}, {"2.3", "2.5", "12.1", "15.5"}
# of this alone cppcheck has no rules to tell
STDINT = "typedef signed int int32_t;\ntypedef signed long long int64_t;\n#define INT64_C(c) ((int64_t)(c))\n"
MAIN = """#include "mpc.h"
volatile int32_t any;
int main(void)
{
    static int64_t sums[mpc_INPUTS * mpc_STAGES], inputs[mpc_INPUTS];
    int32_t state[mpc_STATES];
    int i;
    for (i = 0; i < mpc_STATES; i++) { state[i] = any; }
    if (mpc_solve(state, sums) == 0) { mpc_first_inputs(sums, inputs); }
    return 0;
}
"""


def example(program, name, folder):
    """Makes an example's lean controller."""
    files = [os.path.join(TOP, "examples", name, file) for file in ("design.toml", "lean.csv", "reference.csv")]
    subprocess.run([program, "lean", *files, *(os.path.join(folder, file) for file in ("controller", "report"))], check=True)


def write_c(program, folder):
    path = lambda name: os.path.join(folder, name)
    subprocess.run([program, "c", path("controller"), "mpc", path("mpc.c"), path("mpc.h")], check=True)


def broken_rules(folder, addon):
    """The rules that cppcheck tells of, and how often; that of operands' types only where a signed number is shifted to the right."""
    c_trials.write(folder, "stdint.h", STDINT)
    source = os.path.join(folder, "mpc.c")
    subprocess.run(["cppcheck", "--dump", "-q", "--std=c99", "--platform=unix32", f"-I{folder}", source], check=True)
    told = subprocess.run([sys.executable, addon, "--cli", source + ".dump"], capture_output=True, text=True).stdout
    with open(source, encoding="ascii") as file:
        lines = file.read().splitlines()
    found = collections.Counter()
    for it in map(json.loads, filter(lambda line: line.startswith("{"), told.splitlines())):
        if it.get("addon") == "misra" and os.path.basename(it["file"]) != "stdint.h":
            rule = it["errorId"].removeprefix("c2012-")
            is_shift = rule == "10.1" and lines[it["linenr"] - 1][it["column"] - 1 :].startswith(">>")
            found[rule if rule != "10.1" or is_shift else "10.1, no shift"] += 1
    # without a shift nothing was read
    if "10.1" not in found:
        raise SystemExit(f"rules.py: cppcheck tells of no shift: {told[-300:]}")
    return found


def alarms(folder, seconds):
    """How many Eva finds, or what it says."""
    c_trials.write(folder, "main.c", MAIN)
    with open(os.path.join(folder, "mpc.h"), encoding="ascii") as file:
        steps = int(re.search(r"#define mpc_STEPS (\d+)", file.read())[1])
    command = ["frama-c", "-eva", "-eva-precision", "1", "-machdep", "gcc_x86_32", "-warn-signed-overflow", "-warn-signed-downcast", "-eva-auto-loop-unroll", str(steps + 10)]
    os.remove(os.path.join(folder, "stdint.h"))
    try:
        got = subprocess.run([*command, f"-cpp-extra-args=-I{folder}", *(os.path.join(folder, file) for file in ("main.c", "mpc.c"))], capture_output=True, text=True, timeout=seconds)
    except subprocess.TimeoutExpired:
        return f"not done in {seconds} s"
    # all three functions are reached
    is_whole = re.search(r"3 functions analyzed \(out of 3\): 100% coverage", got.stdout)
    found = re.search(r"(\d+) alarms? generated", got.stdout)
    return int(found[1]) if found and is_whole else got.stdout[-300:]


def made(program, given, folder):
    """The controllers to be tried, one after the other: their names."""
    for name in filter(None, given.examples.split(",")):
        example(program, name, folder)
        yield name
    for number, (c, _) in enumerate(itertools.islice(drawn(random.Random(given.seed)), given.count), 1):
        c_trials.write(folder, "controller", text_of(c))
        yield f"random {number}"


def main():
    parser = argparse.ArgumentParser(prog="python3 -m checks.c.rules", description=__doc__, formatter_class=argparse.RawDescriptionHelpFormatter)
    parser.add_argument("program")
    parser.add_argument("--examples", default=",".join(EXAMPLES))
    for name, value in (("--count", 10), ("--seed", 1), ("--eva", 0)):
        parser.add_argument(name, type=int, default=value)
    given = parser.parse_args()
    program, addon = os.path.abspath(given.program), next(filter(os.path.exists, ADDONS), None)
    lacking = [package for command, package, is_needed in (("cppcheck", "cppcheck", True), ("frama-c", "frama-c-base", given.eva)) if is_needed and not shutil.which(command)]
    if lacking or not addon:
        sys.exit(f"rules.py: nothing was tried: apt-get install {' '.join(lacking or ['cppcheck'])}")
    is_well, rules = True, collections.Counter()
    with tempfile.TemporaryDirectory() as folder:
        for name in made(program, given, folder):
            write_c(program, folder)
            found = broken_rules(folder, addon)
            rules += found
            others = sorted(set(found) - REQUIRED - ADVISORY)
            told = alarms(folder, given.eva) if given.eva and not name.startswith("random") else None
            print(f"{name}: {f'breaks {others}' if others else 'no other rule'}{'' if told is None else f'; Eva: alarms {told}'}", flush=True)
            is_well = is_well and not others and told in (None, 0)
    print("MISRA C:2012: " + ", ".join(f"{rule} ({'required' if rule in REQUIRED else 'advisory'}) {count} times" for rule, count in sorted(rules.items())))
    sys.exit(not is_well)


if __name__ == "__main__":
    main()
