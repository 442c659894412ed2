#!/usr/bin/env python3
"""Checks a crate from nothing in a fresh clone with one process, and prints which modules took the longest.

    bench/gate/modules.py NAME [COUNT]

The check keeps a file for each module as it ends with it, so the time before a file is mostly that module's (now and then that of one whose file comes a little
later). What is measured is what is committed. The mark is 20 s for a module.
"""
import os
import re
import shutil
import subprocess
import sys
import tempfile
import time

MARK = 20


def kept(folder):
    """The modules with their times of ending."""
    for at, _, names in os.walk(folder):
        for name in names:
            # besides a module's own file there can be others, of its records
            if name.endswith(".oantt") and os.path.basename(at) != "records":
                yield os.stat(os.path.join(at, name)).st_mtime, re.sub(r"^Rattle-\w+[-.]", "", name.removesuffix(".oantt"))


def main():
    name, count = sys.argv[1], int(sys.argv[2]) if len(sys.argv) > 2 else 20
    here = os.path.dirname(os.path.abspath(__file__))
    top = subprocess.run(["git", "rev-parse", "--show-toplevel"], cwd=here, check=True, capture_output=True, text=True).stdout.strip()
    with tempfile.TemporaryDirectory(prefix="modules-") as room:
        root = f"{room}/clone"
        subprocess.run(["git", "clone", "-q", "--no-local", top, root], check=True)
        crate = f"{root}/crates/{name}"
        check = ["rt", "check", "--jobs", "1"]
        # first the crates below; what this says of the crate itself is done again
        said = subprocess.run(check, cwd=crate, capture_output=True, text=True)
        if said.returncode:
            sys.exit(said.stdout[-2000:] + f"{name} isn't proved")
        # the folder stays, empty: without it a check begins with what another checkout kept of the same text
        shutil.rmtree(f"{crate}/out/incremental")
        os.mkdir(f"{crate}/out/incremental")
        began = time.time()
        before = os.times()
        subprocess.run(check, cwd=crate, capture_output=True, check=True)
        after = os.times()
        files = sorted(kept(f"{crate}/out/incremental"))
    spent = after.children_user + after.children_system - before.children_user - before.children_system
    ends = [began] + [at for at, _ in files]
    took = sorted(((end - start, module) for start, (end, module) in zip(ends, files)), reverse=True)
    print(f"{name}: {len(files)} modules, {spent:.0f} s of the processor, {ends[-1] - began:.0f} s by the clock")
    for seconds, module in took[:count]:
        print(f"{seconds:7.1f} s  {module}{'  (beyond its mark)' if seconds > MARK else ''}")


main()
