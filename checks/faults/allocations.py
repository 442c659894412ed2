#!/usr/bin/env python3
"""Runs the crates' tests while memory fails: each request of each test refused in turn.

    checks/faults/allocations.py [NAME ..] [--most COUNT] [--jobs JOBS] [--build]

Each test runs in a process of its own under an allocator that refuses its n-th request, for every n up to COUNT (2000) and for as many more that are spread evenly
over the rest. `rt test` leaves the program of a crate's tests in its folder out/, and is called where there is none, with --build also where there is one; with no
NAME all crates of crates.txt with tests are taken. A run is counted as one of these:

    right     the test passes: the answer is the right one all the same
    memory    the test ends with an error that is out of memory, or one of its comparisons shows that on its left
    unclear   another comparison fails, or a plain assertion: the test doesn't say whether the answer was out of memory or a wrong one
    wrong     anything else: another error, a signal, no end, or an answer although no request was refused

Unclear ones are told by test and message; the command ends with 1 where there are wrong ones.
"""
import argparse
import collections
import concurrent.futures
import os
import re
import resource
import struct
import subprocess
import sys
import tempfile

HERE = os.path.dirname(__file__)
TOP = os.path.join(HERE, "..", "..")
# of each test, so many messages are told
SHOWN = 5


def crates():
    """The names of the crates with tests, in the order of crates.txt."""
    with open(os.path.join(TOP, "crates.txt")) as file:
        for line in file:
            name = line.split("#")[0].split(":")[0].strip()
            if name and "#[test]" in "".join(text_of(name)):
                yield name


def text_of(name):
    for folder, _, files in os.walk(os.path.join(TOP, "crates", name, "src")):
        for it in files:
            with open(os.path.join(folder, it)) as file:
                yield file.read()


def built(name, again):
    folder = os.path.join(TOP, "crates", name)
    program = os.path.join(folder, "out", f"{name}_tests")
    if again or not os.path.isfile(program):
        subprocess.run(["rt", "test"], cwd=folder, stdout=subprocess.DEVNULL, check=True)
    return program


def compiled(folder: str) -> str:
    """The allocator, to be preloaded."""
    library = os.path.join(folder, "refuse.so")
    subprocess.run(["cc", "-O2", "-shared", "-fPIC", "-fno-builtin", "-o", library, os.path.join(HERE, "refuse.c")], check=True)
    return library


class Refused:
    """A run, with how many requests it made and how many were refused."""

    def __init__(self, library, program, test, at):
        with tempfile.TemporaryDirectory() as folder:
            report = os.path.join(folder, "report-of-the-allocator")
            env = {"PATH": os.environ.get("PATH", ""), "LD_PRELOAD": library, "REFUSE_REPORT": report, "REFUSE_AT": str(at)}
            how = {"cwd": folder, "env": env, "stdin": subprocess.DEVNULL, "stdout": subprocess.PIPE, "stderr": subprocess.STDOUT}
            try:
                ran = subprocess.run([program, test], timeout=60, preexec_fn=no_core, **how)
                self.status, self.said = ran.returncode, ran.stdout.decode(errors="replace").strip()
            except subprocess.TimeoutExpired:
                self.status, self.said = None, "no end within a minute"
            with open(report, "rb") as file:
                self.asked, self.refused, _ = struct.unpack("QQQ", file.read())


def no_core():
    resource.setrlimit(resource.RLIMIT_CORE, (0, 0))


def kind_of(ran):
    if not ran.refused:
        return "wrong"
    if ran.status == 0:
        return "right"
    if re.search(r"^error: .*(AllocError|AllocFailed|Memory)", ran.said, re.M) or re.search(r"^ *left: .*(AllocError|AllocFailed|Memory)", ran.said, re.M):
        return "memory"
    return "unclear" if "assertion" in ran.said else "wrong"


def numbers(asked, most):
    """The requests that are refused."""
    first = list(range(1, min(asked, most) + 1))
    rest = asked - len(first)
    return first + [len(first) + 1 + i * rest // most for i in range(min(rest, most))]


def tried(options, library, program, test, counts, told):
    whole = Refused(library, program, test, 0)
    if whole.status != 0:
        counts["wrong"] += 1
        told.append(f"{test}, nothing refused: {whole.said}")
        return whole.asked
    shown = 0
    with concurrent.futures.ThreadPoolExecutor(options.jobs) as pool:
        for at, ran in pool.map(lambda at: (at, Refused(library, program, test, at)), numbers(whole.asked, options.most)):
            kind = kind_of(ran)
            counts[kind] += 1
            if kind in ("unclear", "wrong"):
                shown += 1
                if shown <= SHOWN:
                    told.append(f"{kind}: {test}, request {at} of {whole.asked}: status {ran.status}, {' / '.join(ran.said.split(chr(10)))[:300]}")
    return whole.asked


def main():
    parser = argparse.ArgumentParser(description=__doc__, formatter_class=argparse.RawDescriptionHelpFormatter)
    parser.add_argument("names", nargs="*", metavar="NAME")
    parser.add_argument("--most", type=int, default=2000)
    parser.add_argument("--jobs", type=int, default=os.cpu_count())
    parser.add_argument("--build", action="store_true")
    options = parser.parse_args()
    all_counts = collections.Counter()
    with tempfile.TemporaryDirectory() as folder:
        library = compiled(folder)
        for name in options.names or crates():
            program = built(name, options.build)
            listed = subprocess.run([program, "--list"], stdout=subprocess.PIPE, text=True, check=True).stdout
            tests = re.findall(r"^(.*): test$", listed, re.M)
            counts, told, asked = collections.Counter(), [], 0
            for test in tests:
                asked += tried(options, library, program, test, counts, told)
            all_counts += counts
            figures = ", ".join(f"{counts[kind]} {kind}" for kind in ("right", "memory", "unclear", "wrong"))
            print(f"{name}: {len(tests)} tests, {asked} requests; {sum(counts.values())} runs: {figures}", flush=True)
            for line in told:
                print(f"  {line}", flush=True)
    print(f"{sum(all_counts.values())} runs: " + ", ".join(f"{all_counts[kind]} {kind}" for kind in ("right", "memory", "unclear", "wrong")))
    return 1 if all_counts["wrong"] else 0


if __name__ == "__main__":
    sys.exit(main())
