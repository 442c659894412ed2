"""The runner of pages tells what differs."""
import contextlib
import io
import os
import re
import unittest
import unittest.mock

from bench.gate import page
from scripts import pages

from .worked import TOP, folder_with

PAGE = "Text\n\n    ./one a && ./two b\n\nprints\n\n    first\n      second\n\nText\n\n    ./three\n    ./four\n\n    ./mpc plot\n\n    version = 1\n"


class Pages(unittest.TestCase):
    def test_commands(self):
        self.assertEqual(
            list(pages.commands_of(PAGE)), [("./one a && ./two b", ["first", "  second"]), ("./three\n./four", []), ("./mpc plot", ["version = 1"])]
        )

    def wrong(self, printed, lacking=()):
        with contextlib.redirect_stdout(io.StringIO()):
            return list(pages.wrong_in(PAGE, lacking, lambda command: printed.get(command, [])))

    def test_all_right(self):
        self.assertEqual(self.wrong({"./one a && ./two b": ["first", "  second"], "./mpc plot": ["version = 1"]}), [])

    def test_another_line(self):
        self.assertEqual(len(self.wrong({"./one a && ./two b": ["first", "second"], "./mpc plot": ["version = 1"]})), 1)

    def test_lines_in_another_order(self):
        self.assertEqual(len(self.wrong({"./one a && ./two b": ["  second", "first"], "./mpc plot": ["version = 1"]})), 1)

    def test_a_line_where_none_is_said(self):
        self.assertEqual(len(self.wrong({"./one a && ./two b": ["first", "  second"], "./three\n./four": ["x"], "./mpc plot": ["version = 1"]})), 1)

    def test_rewritten(self):
        printed = {"./one a && ./two b": ["first", "third"], "./three\n./four": [], "./mpc plot": ["version = 2", "x"]}
        text = PAGE.replace("    first\n      second\n", "    first\n    third\n").replace("    version = 1\n", "    version = 2\n    x\n")
        self.assertEqual(pages.rewritten(PAGE, printed.get), text)
        self.assertEqual(pages.rewritten(text, printed.get), text)

    def test_left_out_without_libraries(self):
        self.assertEqual(self.wrong({"./one a && ./two b": ["first", "  second"]}, ["numpy"]), [])

    def test_left_out_without_a_compiler(self):
        _, paths = folder_with(self, plain="    ./one\n", compiles="    ./one && cc -O2 a.c\n\n    a\n")
        with contextlib.redirect_stdout(io.StringIO()) as said, unittest.mock.patch.object(pages.shutil, "which", lambda name: None), unittest.mock.patch.object(pages, "run_at_top", lambda command: []):
            self.assertEqual(pages.main([paths["plain"], paths["compiles"]]), 0)
        self.assertEqual(said.getvalue(), f"pages: left out, for want of cc: {paths['compiles']}\n")


class Costs(unittest.TestCase):
    """The page of costs that bench/gate writes."""

    def written(self, first=""):
        costs = {"low": page.Cost(30, 0, 2, 61, 0.72), "mid": page.Cost(121, 0, 0, 0, 1.5), "trials_low": page.Cost(3, 181, 0, 0, 2)}
        page.add_changes(costs, {"mid": ["low"], "trials_low": ["low"]})
        return page.text("kit-1", 4, 600, costs, (151, ["low", "mid"]), first)

    def test_rows(self):
        self.assertEqual(
            self.written().split("\n")[-4:],
            ["| `low` | 30 |  | 2 | 61 | 0.7 | 6 |", "| `mid` | **121** |  |  |  | 1.5 | 2 |", "| `trials_low` | 3 | **181** |  |  | 2.0 | 3 |", ""],
        )
        self.assertIn("The longest chain of proofs is 2.5 minutes: `low`, `mid`.\nBeyond the mark of 2 minutes for a proof or 3 for tests, where the number is bold: the proof of `mid`, the tests of", self.written())

    def test_slower_machine(self):
        text = page.text("kit-1", 4, 600, {"low": page.Cost(200, 370), "high": page.Cost(241)}, (441, ["low", "high"]), pace=2)
        self.assertEqual(text.split("\n")[-3:-1], ["| `low` | 200 | **370** |  |  | 0.0 | 0 |", "| `high` | **241** |  |  |  | 0.0 | 0 |"])
        self.assertIn("Beyond the mark of 2 minutes for a proof or 3 for tests, 2 times on this machine, where the number is bold: the proof of `high`, the tests of `low`.", text)

    def test_first_answer(self):
        told = page.with_first(self.written(), "The first answer takes 7 minutes.")
        self.assertEqual(told, self.written("The first answer takes 7 minutes."))
        self.assertEqual(page.first_line(page.with_first(told, "The first answer takes 6 minutes.")), "The first answer takes 6 minutes.")

    def test_rows_of_more_than_one_run(self):
        """What was measured stays, what is gone falls away, and what is new has an empty row."""
        costs = page.rows_in(self.written())
        self.assertEqual(costs, {"low": page.Cost(30, 0, 2, 61, 0.7), "mid": page.Cost(121, 0, 0, 0, 1.5), "trials_low": page.Cost(3, 181, 0, 0, 2)})
        told = page.renewed({"low": costs["low"], "new": page.Cost(), "mid": page.Cost(100, memory=1)}, (130, ["low", "mid"]), "The first answer takes 7 minutes.", "Of two runs.", 1)
        self.assertEqual(told.split("\n")[-4:], ["| `low` | 30 |  | 2 | 61 | 0.7 | 0 |", "| `new` |  |  |  |  |  | 0 |", "| `mid` | 100 |  |  |  | 1.0 | 0 |", ""])
        for words in ("one check in GB. Of two runs.\n", "Of 3 crates 2 were measured: their proofs take 2 processor minutes", "Not measured: `new`.", "is 2.2 minutes: `low`, `mid`.\nThe first answer takes 7"):
            self.assertIn(words, told)

    def test_pace(self):
        """Twice the marks' time for the three crates is a pace of 2, and what is measured is told beside its mark at that pace."""
        seconds = {name: 2 * mark for name, mark in page.PACE.items()}
        self.assertEqual(page.pace_of(seconds), 2)
        self.assertIn("the pace of this machine: 2.00 times the marks' time (integer_algebra 24 s of 12", page.pace_line(seconds))
        self.assertEqual(page.beside("the gate", 18000, page.WHOLE, 2), "the gate: 300.0 processor minutes, 150.0 at the marks' speed, where 150 are the mark: kept")
        self.assertTrue(page.beside("a look", 181, page.LOOK, 2).endswith("where 1.5 are the mark: NOT KEPT"))

    def test_the_page_has_the_form(self):
        text = page.read(os.path.join(TOP, "bench", "gate", "COSTS.md"))
        self.assertTrue(text.startswith(page.HEAD) and page.first_line(text))
        rows = re.findall(r"^\| `([a-z_]+)` \|(?: [*0-9]* \|){4} [0-9.]* \| [0-9]+ \|$", text, re.M)
        with open(os.path.join(TOP, "crates.txt"), encoding="utf-8") as file:
            crates = re.findall(r"^([a-z]\w*)[^:\n]*:", file.read(), re.M)
        self.assertEqual((set(rows) - set(crates), len(rows) > 60), (set(), True), "--renew drops rows of crates that are gone")


if __name__ == "__main__":
    unittest.main()
