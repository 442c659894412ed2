#!/usr/bin/env python3
"""Tries wrong bodies, each of which the prover must refuse: those that the gate keeps in crates/CRATE/must-fail, and those that stand in checks/edits/CRATE.

    checks/edits/run.py [NAME ..]                those of these crates, or of all
    checks/edits/run.py --table LOG ..           tries none: which clause refuses which, by the logs of this command and of the gate

The gate keeps the wrong bodies that the promise's clauses and the refusals' causes need, one each, since each costs a load of all that stands below its crate. Whoever changes a crate's
contract tries all of that crate's. They are tried by `rt must-fail` in a copy of the crates, over what checks on this machine have kept; what hasn't changed since it was refused isn't tried again.
"""
import argparse
import collections
import pathlib
import re
import shutil
import subprocess
import sys
import tempfile

TOP = pathlib.Path(__file__).resolve().parents[2]
HERE = TOP / "checks" / "edits"
# what rt says of an edit; of one that is refused, the first place that it was refused at, and why
TOLD = re.compile(r"^rt: must-fail (\w+)/(\S+)\.edit: (refused, as it must be|[A-Z ]+)(?: \(only .*?\))?(?:: (?:note: )?(\S+?):\d+:\d+: (.*))?$", re.M)

TACTICS = ("search", "grind", "omega", "simp", "rw", "decide", "auto")


def edits(names: list[str]) -> dict[str, list[str]]:
    """The edits of these crates that the gate doesn't try."""
    return {name: sorted(file.name for file in (HERE / name).glob("*.edit")) for name in names}


def crates() -> list[str]:
    """Those that have an edit, of the gate or here."""
    return sorted({file.parents[1].name for file in TOP.glob("crates/*/must-fail/*.edit")} | {file.parent.name for file in HERE.glob("*/*.edit")})


def copied(room: pathlib.Path, names: list[str]) -> None:
    """A copy of the crates in which the edits of both places stand together."""
    shutil.copytree(TOP / "crates", room / "crates", ignore=shutil.ignore_patterns("out", "build.log*"))
    for file in ("crates.txt", "HANDLES"):
        shutil.copy(TOP / file, room)
    (room / ".git").mkdir()
    for name, files in edits(names).items():
        for file in files:
            to = room / "crates" / name / "must-fail" / file
            to.parent.mkdir(exist_ok=True)
            if to.exists():
                sys.exit(f"{name}/{file} stands in must-fail, too")
            shutil.copy(HERE / name / file, to)


def tried(names: list[str]) -> int:
    with tempfile.TemporaryDirectory(prefix="edits-") as room:
        copied(pathlib.Path(room), names)
        return subprocess.run(["rt", "must-fail", *names], cwd=room).returncode


def table(logs: list[str]) -> None:
    """For each function and the place that refuses its wrong bodies those of the gate, and those that stand here; of what no log speaks, the function alone."""
    told = {(found[1], found[2]): found for log in logs for found in TOLD.finditer(pathlib.Path(log).read_text(encoding="utf-8"))}
    rows: dict[tuple, tuple[list, list]] = collections.defaultdict(lambda: ([], []))
    for file in sorted([*TOP.glob("crates/*/must-fail/*.edit"), *HERE.glob("*/*.edit")]):
        is_here = HERE in file.parents
        crate, edit = file.parent.name if is_here else file.parents[1].name, file.stem
        function, _, wrong = edit.rpartition(".")
        found = told.get((crate, edit))
        rows[crate, function, refused_at(found) if found else "(in no log)"][is_here].append(wrong)
    print("| Crate | Function | Refused at | In the gate | In checks/edits |\n|---|---|---|---|---|")
    for (crate, function, place), (kept, others) in sorted(rows.items()):
        print(f"| `{crate}` | `{function}` | {place} | {', '.join(kept)} | {', '.join(others)} |")
    both = [{key for key, row in rows.items() if row[is_here]} for is_here in (0, 1)]
    print(f"\n{len(rows)} functions with places; {len(both[0])} have a wrong body in the gate, {len(both[1] - both[0])} only here")


def refused_at(found: re.Match) -> str:
    """The goal that an edit breaks, by its name: a clause of the contract (`returns`), of an invariant or of what a call requires; or else what was said."""
    goals = [goal for goal in re.findall(r"`([a-z][\w-]*)`", found[5] or "") if goal not in TACTICS]
    return f"`{goals[0]}`" if goals else (found[5] or found[3]).replace("|", "/").strip()[:80]


def main() -> None:
    parser = argparse.ArgumentParser(description=__doc__, formatter_class=argparse.RawDescriptionHelpFormatter)
    parser.add_argument("names", nargs="*", metavar="NAME")
    parser.add_argument("--table", nargs="+", metavar="LOG")
    options = parser.parse_args()
    known = crates()
    lost = [name for name in options.names if name not in known]
    if lost:
        sys.exit(f"no edits of {', '.join(lost)}: of {', '.join(known)} there are some")
    if options.table:
        table(options.table)
        return
    if shutil.which("rt") is None:
        sys.exit("rt isn't on the path")
    sys.exit(tried(options.names or known))


if __name__ == "__main__":
    main()
