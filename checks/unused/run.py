#!/usr/bin/env python3
"""Tells which imports a file never uses, and which lemmas and definitions of proofs/ no file cites, also through others.

    checks/unused/run.py [NAME ..]

NAME is a crate; without one all are read. It reads words alone and proves nothing: after what it tells was removed, `rt check` says whether all is still proved. Worked lines (modules *Worked and *Example, and
the trials) are cited by nobody. Where an import names a module as a whole, all of its names count as imported. The status is 1 where it tells anything.
"""
import pathlib
import re
import sys

CRATES = pathlib.Path(__file__).resolve().parents[2] / "crates"
IMPORT = re.compile(r"^(pub |ghost )?use (Rattle\.[\w.'+-]+?)(?:\.\{([^}]*)\}| as \S+)?;?$", re.M)
DEFINED = re.compile(r"(?:abbrev |unfoldable |pub )*(?:(?:record|data|ruleset) (\S+)|(\S+) :)(?= |$)")
# what a check makes of a function's contract is cited by name
GOALS = ("Answers", "Invariants", "Lib")


class File:
    def __init__(self, path: pathlib.Path):
        text = path.read_text(encoding="utf-8")
        self.path, self.crate, self.module = path, path.relative_to(CRATES).parts[0], ".".join(("Rattle", *path.relative_to(CRATES).with_suffix("").parts))
        self.imports = [(how, module, names and [it.strip().split(" as ") for it in names.split(",") if it.strip()]) for how, module, names in IMPORT.findall(text)]
        self.lines = [re.sub(r"(^|\s)(--|//).*", "", line) for line in IMPORT.sub("", text).split("\n")]
        self.words = words(self.lines)
        # a module's own names: those that others may cite
        self.is_lemmas = path.suffix == ".antt" and "proofs" in path.parts and path.stem not in GOALS and not path.stem.endswith(("Worked", "Example")) and not self.crate.startswith("trials_")

    def unused(self) -> list[str]:
        return [f"{self.path.relative_to(CRATES)}: {module} {names[-1]}" for how, module, all_ in self.imports if how != "pub " for names in all_ or [] if not is_said(names[-1], self.words)]

    def definitions(self) -> dict[str, set[str]]:
        """The words of each definition of the module; those of no definition stand under ''."""
        found, levels, name = {"": []}, [0], ""
        for line in filter(str.strip, self.lines):
            indent, said = len(line) - len(line.lstrip()), line.strip()
            while indent < levels[-1]:
                levels.pop()
                name = ""
            if indent == levels[-1] and re.match(r"(pub )?module .*where$", said):
                levels.append(indent + 2)
                name = ""
            elif indent == levels[-1] and (defined := DEFINED.match(said)):
                name = defined[1] or defined[2]
            elif indent == levels[-1] and not said.startswith(("unfolding ", *(it for it in name.split("◌")[:1] if it))) and "◌" not in name:
                name = ""
            found.setdefault(name, []).append(line)
        return {it: words(lines) for it, lines in found.items()}


def words(lines: list[str]) -> set[str]:
    return {it if it == "&&" else it.lstrip("&") for it in re.split(r'[\s(){}\[\],;."]+', "\n".join(lines))}


def is_said(name: str, said: set[str]) -> bool:
    """Whether a name is among the words, or all parts of one that stands around its arguments. Brackets are no words, so `[]` is taken for said."""
    return name == "[]" or all(part in said for part in name.split("◌") if part)


def main() -> int:
    files = [File(path) for path in sorted(CRATES.rglob("*.*t*")) if path.suffix in (".antt", ".rt") and not {"out", "must-fail"}.intersection(path.parts)]
    lemmas = {(file.module, name): (file, said) for file in files if file.is_lemmas for name, said in file.definitions().items()}
    by_place: dict[str, list[tuple[str, str]]] = {}
    for module, name in lemmas:
        by_place.setdefault(module, []).append((module, name))
        by_place.setdefault(module.rpartition(".")[2], []).append((module, name))

    def cited(file: File, said: set[str]) -> set[tuple[str, str]]:
        """The lemmas that these words of a file cite. A module that isn't there by its whole name is passed on by another crate's."""
        scope = by_place.get(file.module, []) if file.is_lemmas else []
        found = {it for it in scope if is_said(it[1], said)}
        for how, module, names in file.imports:
            there = by_place.get(module) or by_place.get(module.rpartition(".")[2], [])
            told = {it[0] for it in names or [] if how == "pub " or is_said(it[-1], said)}
            found |= {it for it in there if (it[1] in told if names else how != "pub " and is_said(it[1], said))}
        return found

    live: set[tuple[str, str]] = set()
    new = set().union(*(cited(file, file.definitions()[""] if file.is_lemmas else file.words) for file in files))
    while new:
        live |= new
        new = set().union(*(cited(*lemmas[it]) for it in new)) - live
    names = sys.argv[1:]
    told = [f"unused: {line}" for file in files if not names or file.crate in names for line in file.unused()]
    told += [f"cited by none: {module} {name}" for module, name in sorted(lemmas.keys() - live) if name and (not names or module.split(".")[1] in names)]
    print("\n".join([*told, f"{len(files)} files: {len(told)} names that nothing uses"]))
    return 1 if told else 0


if __name__ == "__main__":
    sys.exit(main())
