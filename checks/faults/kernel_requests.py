"""Counts how often a kernel asks for memory, by tests of `trials_number` that run alone under an allocator that counts.

    python3 -m checks.faults.kernel_requests [--build]

Of three tests each does what the one before it does, and one thing more: it makes a controller, prepares a kernel with it, makes a run. So what two of them differ by is what that thing
asks for. `prepare` asks once, for its one region, where the machine's factors pass 64 bits; where a run is made in words of 64 bits, also for two matrices, each a list of rows and each row a
list, and for five lists beside the region. A run asks for nothing. `rt test` makes the program of the tests, and is called where there is none, with --build also where there is one. Ends with 1 where a count is another.
"""
import argparse
import sys
import tempfile

from . import allocations

CRATE = "trials_number"
# the plan entries and the rows of the tests' controllers
ENTRIES, ROWS = 1, 3
# by width: what `prepare` asks for, and a run
WANTED = {"wide": (1, 0), "narrow": (1 + (1 + ENTRIES) + (1 + ROWS) + 5, 0)}


def asked(library: str, program: str, test: str) -> int:
    """The requests of a test that passes."""
    ran = allocations.Refused(library, program, test, 0)
    if ran.status != 0:
        sys.exit(f"{test}: {ran.said}")
    return ran.asked


def differences(counts: list[int]) -> tuple[int, ...]:
    """What each count has more than the one before it."""
    return tuple(later - earlier for earlier, later in zip(counts, counts[1:]))


def problem(width: str, counts: list[int]) -> str | None:
    """What is wrong with the requests of the three tests, if anything is."""
    found = differences(counts)
    if found == WANTED[width]:
        return None
    return f"{width}: prepare and a run ask {found} times, not {WANTED[width]}"


def main() -> int:
    parser = argparse.ArgumentParser(description=__doc__, formatter_class=argparse.RawDescriptionHelpFormatter)
    parser.add_argument("--build", action="store_true")
    options = parser.parse_args()
    program = allocations.built(CRATE, options.build)
    wrong = []
    with tempfile.TemporaryDirectory() as folder:
        library = allocations.compiled(folder)
        for width in WANTED:
            counts = [asked(library, program, f"requests::{width}_{what}") for what in ("controller", "kernel", "run")]
            prepared, run = differences(counts)
            print(f"{width}: a controller takes {counts[0]} requests, prepare {prepared} more, a run {run}")
            wrong += filter(None, [problem(width, counts)])
    for line in wrong:
        print(line)
    return 1 if wrong else 0


if __name__ == "__main__":
    sys.exit(main())
