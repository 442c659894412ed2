"""Each wrong body, of the gate or of checks/edits, can be applied, and names modules and crates that are there: the prover tells so too, but only after its proofs."""
import contextlib
import importlib.util
import io
import pathlib
import re
import tempfile
import unittest

TOP = pathlib.Path(__file__).resolve().parents[2]
spec = importlib.util.spec_from_file_location("edits_run", TOP / "checks" / "edits" / "run.py")
run = importlib.util.module_from_spec(spec)
spec.loader.exec_module(run)


def all_edits() -> list[pathlib.Path]:
    """Those that the gate tries, and those that it leaves to checks/edits."""
    return sorted([*TOP.glob("crates/*/must-fail/*.edit"), *TOP.glob("checks/edits/*/*.edit")])


def crate_of(edit: pathlib.Path) -> pathlib.Path:
    return TOP / "crates" / edit.relative_to(TOP).parts[1 if edit.parent.name == "must-fail" else 2]


def fault(edit: pathlib.Path) -> str | None:
    """What keeps an edit from being applied, one pair of an old and a new text after the other."""
    crate, texts, name, old, pairs = crate_of(edit), {}, "", None, 0
    for line in edit.read_text(encoding="utf-8").splitlines():
        if line.startswith("file: "):
            name = line.removeprefix("file: ").strip()
            if not (crate / name).is_file():
                return f"there is no {name}"
            texts.setdefault(name, (crate / name).read_text(encoding="utf-8"))
        elif line.startswith("old: "):
            old = line.removeprefix("old: ")
        elif line.startswith("new:"):
            if not name or not old or texts[name].count(old) != 1:
                return f"of {old!r} there isn't one in {name}"
            texts[name] = texts[name].replace(old, line.removeprefix("new:").removeprefix(" "))
            old, pairs = None, pairs + 1
    return None if pairs else "it changes nothing"


def crates_of() -> dict[str, set[str]]:
    """The crates of crates.txt, each with what its line names."""
    lines = [line.split("#")[0].split(":") for line in (TOP / "crates.txt").read_text(encoding="utf-8").splitlines() if ":" in line.split("#")[0]]
    return {name.strip(): set(used.split()) for name, used in lines}


def lost_names(edit: pathlib.Path, crates: dict[str, set[str]]) -> list[str]:
    """The modules of its own crate and the other crates that the new texts of an edit name, and that aren't there."""
    crate = crate_of(edit)
    new = "\n".join(line for line in edit.read_text(encoding="utf-8").splitlines() if line.startswith("new:"))
    own = "\n".join(file.read_text(encoding="utf-8") for file in sorted(crate.glob("src/**/*.rt")))
    modules = [f"crate::{name}" for name in re.findall(r"\bcrate::(\w+)", new) if not re.search(rf"\b(mod|use|fn|struct|enum|const)\b[^;{{]*\b{name}\b", own)]
    others = [name for name in re.findall(r"(?<![\w:])(\w+)::", new) if name in crates and name not in crates[crate.name]]
    return modules + others


class Edits(unittest.TestCase):
    def test_each_name_is_there(self):
        crates = crates_of()
        lost = {str(edit.relative_to(TOP)): lost_names(edit, crates) for edit in all_edits()}
        self.assertEqual({name: names for name, names in lost.items() if names}, {})

    def test_each_edit_applies(self):
        faults = {str(edit.relative_to(TOP)): fault(edit) for edit in all_edits()}
        self.assertGreater(len(faults), 0)
        self.assertEqual({name: why for name, why in faults.items() if why}, {})

    def test_the_gate_is_light(self):
        """Each edit of the gate costs a load of all below its crate: those that it can leave out stand in checks/edits."""
        self.assertLessEqual(len([edit for edit in all_edits() if edit.parent.name == "must-fail"]), 150)

    def test_none_stands_twice(self):
        """A wrong body stands in the gate or in checks/edits, so that a crate's can be put together."""
        names = [(crate_of(edit).name, edit.name) for edit in all_edits()]
        self.assertEqual(sorted(names), sorted(set(names)))
        self.assertEqual([str(file) for file in TOP.glob("checks/edits/*") if file.name not in ("run.py", "__pycache__") and not (TOP / "crates" / file.name).is_dir()], [])


class Command(unittest.TestCase):
    """checks/edits/run.py puts the edits of a crate together."""

    def test_copy(self):
        names = run.crates()
        self.assertEqual(set(names), {crate_of(edit).name for edit in all_edits()})
        with tempfile.TemporaryDirectory() as room:
            run.copied(pathlib.Path(room), names)
            copied = sorted(str(edit.relative_to(room)) for edit in pathlib.Path(room).glob("crates/*/must-fail/*.edit"))
            self.assertEqual(copied, sorted(f"crates/{crate_of(edit).name}/must-fail/{edit.name}" for edit in all_edits()))

    def test_table(self):
        """What refused them is read from what the kit said."""
        kept, *_ = sorted(TOP.glob("crates/*/must-fail/*.edit"))
        crate, (function, _, wrong) = crate_of(kept).name, kept.stem.rpartition(".")
        with tempfile.NamedTemporaryFile("w", suffix=".log") as log, contextlib.redirect_stdout(io.StringIO()) as told:
            said = "note: src/lib.rt:140:5: it is not proved that what the function ensures holds when it returns (`returns-clause-put`); `search` gave up at one of its limits"
            log.write(f"rt: must-fail {crate}/{kept.name}: refused, as it must be: {said}\n")
            log.flush()
            run.table([log.name])
        self.assertIn(f"| `{crate}` | `{function}` | `returns-clause-put` | {wrong} |  |", told.getvalue())


if __name__ == "__main__":
    unittest.main()
