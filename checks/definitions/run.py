#!/usr/bin/env python3
"""Changes each definition that the promise cites by one step, and tells which worked line refuses the change.

    checks/definitions/run.py [NAME ..] [--batch COUNT]

The files *.edit beside it hold the changes, one file a module of docs/THEOREM.md: a line `file:` with the module's path from the top, and for each change a line `name:` and then pairs of a line `old:`, a text that
stands in the module exactly once, and a line `new:`, what stands there in its place. Other lines are read by people alone. NAME is a module, as `Cost`, or a change, as `Cost.term.without_the_lift`.

What is asked are lines alone, those of `trials_definitions`, and of commands those of the crates of their trials, that stand on the changed module's crate and on crates below it; no body and no other
lemma, which may refuse more. COUNT (24) changes are tried in one check, each in modules of its own: the changed one, those that cite it, and the lines that cite these. Of each the first refused line
is told. The last line counts the changes; the status is 1 where no line refused one.

Needs `rt` on the path. Where its gate keeps what passed, the libraries below are those that `rt ci` of these trials kept on this machine; else they are proved first, in the copy. It takes a quarter of an hour
of the processor and the time of these proofs, and writes nothing into the repository.
"""
import argparse
import dataclasses
import importlib.machinery
import importlib.util
import os
import pathlib
import re
import shutil
import subprocess
import sys
import tempfile

HERE = pathlib.Path(__file__).resolve().parent
TOP = HERE.parents[1]
TRIALS = ("trials_definitions", "trials_makers", "trials_command")
# the start of a line's module in any of them
IN_TRIALS = rf"Rattle\.(?:{'|'.join(TRIALS)})\.proofs\."
# so many changes share a check of their lines
BATCH = 24


def tool():
    """rt, as a module of this process."""
    path = os.path.realpath(shutil.which("rt") or sys.exit("rt isn't on the path"))
    loader = importlib.machinery.SourceFileLoader("rt", path)
    module = importlib.util.module_from_spec(importlib.util.spec_from_loader("rt", loader))
    sys.modules["rt"] = module
    loader.exec_module(module)
    return module


# ---- the changes
@dataclasses.dataclass
class Change:
    """A change: its module's name, its crate, the path of the file in it, and the pairs of texts."""

    name: str
    crate: str
    path: str
    pairs: list[tuple[str, str]]

    def text(self, was: str) -> str:
        for old, new in self.pairs:
            if was.count(old) != 1:
                sys.exit(f"{self.name}: a text 'old:' is in {self.path} {was.count(old)} times, and not once: {old}")
            was = was.replace(old, new)
        return was


def changes_in(file: pathlib.Path) -> list[Change]:
    found: list[Change] = []
    crate, path, old = "", "", ""
    for line in file.read_text(encoding="utf-8").splitlines():
        word, _, rest = line.partition(": ") if ": " in line else line.partition(":")
        if word == "file":
            crate, _, path = rest.removeprefix("crates/").partition("/")
        elif word == "name":
            found.append(Change(f"{file.stem}.{rest}", crate, path, []))
        elif word == "old":
            old = rest.replace(r"\n", "\n")
        elif word == "new":
            found[-1].pairs.append((old, rest.replace(r"\n", "\n")))
    return found


def is_named(change: Change, names: list[str]) -> bool:
    return not names or any(it == change.name or change.name.startswith(f"{it}.") for it in names)


# ---- the crates
class Work:
    """The crates of the repository as it stands, in a copy, over the libraries that an earlier gate on this machine has kept of the same files, or that are proved in it."""

    def __init__(self, rt, folder: pathlib.Path):
        self.rt, self.folder, self.copy = rt, folder, folder / "copy"
        shutil.copytree(TOP / "crates", self.copy / "crates", ignore=shutil.ignore_patterns("out", "must-fail"))
        for name in ("crates.txt", "HANDLES"):
            shutil.copy(TOP / name, self.copy)
        (self.copy / ".git").mkdir()
        os.chdir(self.copy)
        # its first call sets a signal's handler
        rt.rtlib.guarded()
        rt.Crate.allowed = rt.handles_of(str(self.copy))
        # from the bottom up
        keeps = hasattr(rt, "Kept")
        found = rt.crates_of(str(self.copy)) if keeps else sorted(rt.rtlib.crates_below(str(self.copy)), key=lambda it: len(it.below()))
        self.crates = {it.name: it for it in found}
        self.kept = rt.Kept(found) if keeps else None
        self.given: set[str] = set()

    def give(self, name: str) -> None:
        """Has the libraries below a crate at hand."""
        for it in (self.crates[below.name] for below in self.crates[name].below()):
            if it.name in self.given:
                continue
            if self.kept is None:
                self.prove(it)
            elif self.kept.give(it, False, self.kept.key(it)):
                self.kept.is_built(it)
            else:
                sys.exit(f"the library {it.name} isn't kept on this machine: run 'rt ci {' '.join(TRIALS)}' first")
            self.given.add(it.name)

    def prove(self, crate) -> None:
        """Proves a crate whose libraries are there, and builds its library."""
        ran = subprocess.run(["rt", "lib", "--jobs", "1"], cwd=crate.folder, stdin=subprocess.DEVNULL, stdout=subprocess.PIPE, stderr=subprocess.STDOUT, errors="replace")
        if ran.returncode:
            sys.exit(f"the library {crate.name} isn't proved:\n{ran.stdout[-6000:]}")

    def check(self, name: str, texts: dict[str, str], kept: pathlib.Path) -> subprocess.CompletedProcess:
        """Proves the lines that stand on a crate, with these modules beside them, over the kept work."""
        crate = self.crates[name]
        with tempfile.TemporaryDirectory(prefix="definitions-") as room:
            for part in self.rt.rtlib.PARTS:
                if os.path.isdir(f"{crate.folder}/{part}"):
                    shutil.copytree(f"{crate.folder}/{part}", f"{room}/{part}")
            leave_lines(pathlib.Path(room), name, self.trials(name), texts)
            for path, text in texts.items():
                pathlib.Path(room, path).parent.mkdir(parents=True, exist_ok=True)
                pathlib.Path(room, path).write_text(text, encoding="utf-8")
            words = ["check", *crate.words(["--jobs", "1"], keeps=False), "--incremental", str(kept)]
            how = {"cwd": room, "stdin": subprocess.DEVNULL, "stdout": subprocess.PIPE, "stderr": subprocess.STDOUT, "errors": "replace"}
            return subprocess.run([*self.rt.rtlib.guarded(), self.rt.rtlib.RATTLE, *words], **how)

    def trials(self, name: str) -> list[pathlib.Path]:
        """The files of the trials that stand on no other crate than this one and those below it, and on no other file that does: those that cite this crate, and what these need."""
        known = {name, "std", *(below.name for below in self.crates[name].below())}
        files = sorted(it for trials in TRIALS for it in pathlib.Path(self.crates[trials].folder, "proofs").glob("*.antt") if it.stem != "Lib")
        used = {it: re.findall(rf"^use (?:{IN_TRIALS}|Rattle\.)(\w+)", it.read_text(encoding="utf-8"), re.MULTILINE) for it in files}
        while left := [it for it in files if not known.union(file.stem for file in files).issuperset(used[it])]:
            files = [it for it in files if it not in left]
        wanted = {name}
        while more := {it.stem for it in files if wanted.intersection(used[it])} - wanted:
            wanted |= more
        while more := {other for it in files if it.stem in wanted for other in used[it]} - wanted:
            wanted |= more
        return [it for it in files if it.stem in wanted]

    def lines_kept(self, name: str) -> pathlib.Path:
        """What is kept of a check of the lines as they stand, which all must hold."""
        kept = self.folder / name
        if not kept.exists():
            kept.mkdir()
            self.give(name)
            ran = self.check(name, {}, kept)
            if ran.returncode:
                sys.exit(f"the lines that stand on {name} don't hold as they stand:\n{ran.stdout[-6000:]}")
        return kept


def leave_lines(folder: pathlib.Path, name: str, trials: list[pathlib.Path], more: dict[str, str]) -> None:
    """Leaves of a crate's text its definitions and the types that these name, and puts the lines of the trials beside them, and the modules of variants."""
    shutil.rmtree(folder / "proofs")
    (folder / "proofs").mkdir()
    for it in trials:
        text = re.sub(IN_TRIALS, f"Rattle.{name}.proofs.", it.read_text(encoding="utf-8"))
        (folder / "proofs" / it.name).write_text(text, encoding="utf-8")
    named = [it.read_text(encoding="utf-8") for part in ("specs", "proofs") for it in (folder / part).rglob("*.antt")]
    types = sorted({it for text in named for it in re.findall(rf"Rattle\.{name}\.specs\.declared\.(\w+)\.", text)})
    for it in (folder / "src").iterdir():
        if it.stem not in types:
            it.unlink()
    lines = [f"mod {it.stem}\n" for it in trials] + [f"mod {path[7:-5]}\n" for path in more if re.fullmatch(r"proofs/v\d+\.antt", path)]
    (folder / "proofs" / "Lib.antt").write_text("".join(lines), encoding="utf-8")
    if more:
        with open(folder / "specs" / "Lib.antt", "a", encoding="utf-8") as file:
            file.write("\npub mod variants\n")
    (folder / "src" / "lib.rt").write_text("#![tactic(auto)]\n" + "".join(f"pub mod {it};\n" for it in types), encoding="utf-8")


def module_of(crate: str, path: str) -> str:
    return f"Rattle.{crate}.{path.rpartition('.')[0].replace('/', '.')}"


# ---- many changes in one check
class Variants:
    """Changes of one crate side by side: for each, in modules of its own, the changed module, those that cite it, and the lines that cite these."""

    def __init__(self, work: Work, name: str):
        self.work, self.name = work, name
        folder = pathlib.Path(work.crates[name].folder)
        self.specs = {f"Rattle.{name}.specs.{'.'.join(it.relative_to(folder / 'specs').with_suffix('').parts)}": it for it in sorted((folder / "specs").rglob("*.antt"))}
        self.lines = {f"Rattle.{name}.proofs.{it.stem}": it for it in work.trials(name)}
        texts = {**self.specs, **self.lines}
        self.texts = {it: re.sub(IN_TRIALS, f"Rattle.{name}.proofs.", file.read_text(encoding="utf-8")) for it, file in texts.items()}
        self.cited = {it: {other for other in texts if re.search(rf"^use {re.escape(other)}(?!\w)", text, re.MULTILINE)} for it, text in self.texts.items()}

    def concerned(self, module: str) -> list[str]:
        """The lines that cite the module, also through others, and what of these others they need."""
        changed = {module}
        while more := {it for it in self.texts if self.cited[it] & changed} - changed:
            changed |= more
        needed = changed & set(self.lines)
        while more := {other for it in needed for other in self.cited[it]} & changed - needed:
            needed |= more
        return sorted(needed | {module})

    def place(self, number: int, module: str) -> str:
        if module in self.lines:
            return f"Rattle.{self.name}.proofs.v{number}.{module.rpartition('.')[2]}"
        return f"Rattle.{self.name}.specs.variants.v{number}.{module.partition('.specs.')[2].replace('.', '')}"

    def modules(self, changes: list[Change]) -> dict[str, str]:
        """The texts of all variants by their paths in the crate."""
        made: dict[str, str] = {}
        for number, change in enumerate(changes):
            module = module_of(change.crate, change.path)
            concerned = self.concerned(module)
            names: dict[str, list[str]] = {"specs/variants": [], "proofs": []}
            for it in concerned:
                text = change.text(self.texts[it]) if it == module else self.texts[it]
                for other in concerned:
                    text = re.sub(rf"{re.escape(other)}(?!\w)", self.place(number, other), text)
                folder, stem = ("proofs" if it in self.lines else "specs/variants"), self.place(number, it).rpartition(".")[2]
                names[folder].append(stem)
                made[f"{folder}/v{number}/{stem}.antt"] = text
            for folder, found in names.items():
                made[f"{folder}/v{number}.antt"] = "".join(f"{'pub ' * (folder != 'proofs')}mod {it}\n" for it in found)
        made["specs/variants.antt"] = "".join(f"pub mod v{it}\n" for it in range(len(changes)))
        return made

    def refusals(self, changes: list[Change]) -> list[list[str]]:
        """The errors of each change, with the paths of the modules that they are in as these stand in the crate or in the trials."""
        room = self.work.folder / "tried"
        shutil.rmtree(room, ignore_errors=True)
        shutil.copytree(self.work.lines_kept(self.name), room)
        ran = self.work.check(self.name, self.modules(changes), room)
        found: list[list[str]] = [[] for _ in changes]
        for line in ran.stdout.split("\n"):
            at = re.match(r"(?:\./)?(specs/variants|proofs)/v(\d+)/(\w+)\.antt(:\d+):\d+: error: (.*)", line)
            if at:
                number = int(at[2])
                module = next(it for it in self.concerned(module_of(changes[number].crate, changes[number].path)) if self.place(number, it).endswith(f".{at[3]}"))
                file = (self.specs | self.lines)[module].relative_to(self.work.copy / "crates")
                # the changed module itself must be read, or nothing was tried
                words = f"{file}{at[4]}: {at[5]}"
                found[number].append(f"NOT READ: {words}" if module == module_of(changes[number].crate, changes[number].path) else words)
            elif re.search(r": error|^error", line):
                found.append([line])
        if len(found) > len(changes) or ran.returncode not in (0, 1):
            sys.exit(f"the lines of {self.name} can't be tried:\n" + "\n".join([*(it for more in found[len(changes):] for it in more), ran.stdout[-2000:]]))
        return found


# ---- the trial
def main() -> int:
    parser = argparse.ArgumentParser(description=__doc__, formatter_class=argparse.RawDescriptionHelpFormatter)
    parser.add_argument("names", nargs="*", metavar="NAME")
    parser.add_argument("--batch", type=int, default=BATCH)
    options = parser.parse_args()
    changes = [it for file in sorted(HERE.glob("*.edit")) for it in changes_in(file) if is_named(it, options.names)]
    if not changes:
        sys.exit("no change has such a name")
    refused, nothing = 0, 0
    with tempfile.TemporaryDirectory(prefix="definitions-") as folder:
        work = Work(tool(), pathlib.Path(folder).resolve())
        for crate in dict.fromkeys(it.crate for it in changes):
            variants, mine = Variants(work, crate), [it for it in changes if it.crate == crate]
            for part in (mine[it : it + options.batch] for it in range(0, len(mine), options.batch)):
                for change, errors in zip(part, variants.refusals(part)):
                    first = errors[0] if errors else ""
                    refused, nothing = refused + first.startswith(tuple(f"{it}/" for it in TRIALS)), nothing + (not first)
                    print(f"{change.name}: {'refused: ' + first[:200] if first else 'REFUSED BY NO LINE'}", flush=True)
    print(f"{len(changes)} changes: {refused} refused by a line, {nothing} by none")
    return 1 if nothing else 0


if __name__ == "__main__":
    sys.exit(main())
