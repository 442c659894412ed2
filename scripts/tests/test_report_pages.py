"""The page of a controller: what stands on it, that it is well-formed, and that a browser shows it."""
import os
import shutil
import subprocess
import unittest
import xml.dom.minidom

from scripts import report_page
from scripts.common.libraries import Refusal

from .worked import FIRST, FIRST_CONTROLLER, FIRST_REPORT, as_command, folder_with

SVG = '<?xml version="1.0"?>\n<svg xmlns="http://www.w3.org/2000/svg" width="4" height="4"><rect width="4" height="4"/></svg>\n'
JUDGED = "at 2 states, at 1 of which a limit binds:\ngreatest violation 0.25 & more < 1\n"
EXPLAINED = "every run takes K = 4 steps\non a Cortex-M4 about 900 cycles: 9 µs at 100 MHz, 0.9 % of a stage of 0.001 s\nR = 8: of a slack\n"
NAMED = "# state 1: place <i>, 1 is 0.5 m\n# stage row 1: force above, 1 is 2 N\n" + FIRST
BROWSER = shutil.which("chromium") or shutil.which("chromium-browser") or shutil.which("google-chrome")


class Pages(unittest.TestCase):
    def folder(self, **changed):
        texts = {"design.toml": NAMED, "controller.txt": FIRST_CONTROLLER, "report.txt": FIRST_REPORT, "judged.txt": JUDGED, "explained.txt": EXPLAINED, "loop.svg": SVG}
        texts |= {"loop.txt": "1 1 1 4096 -2224\n1 2 0 4096 0\n2 1 0 4096 0\n2 2 0 4096 0\n"}
        return folder_with(self, **(texts | {name.replace("_", "."): text for name, text in changed.items()}))[0]

    def page(self, **changed):
        return report_page.page(report_page.read_folder(self.folder(**changed)))

    def warned(self, **changed):
        return " ".join(report_page.warnings(report_page.read_folder(self.folder(**changed))))

    def test_well_formed_and_escaped(self):
        text = self.page()
        xml.dom.minidom.parseString(text.removeprefix("<!DOCTYPE html>\n"))
        for words in ("greatest violation 0.25 &amp; more &lt; 1", "<td>place &lt;i&gt;</td>", "<td>force above</td>", '<td class="number">32 N</td>', "K = 4 steps", "<rect"):
            self.assertIn(words, text)
        # nothing is fetched from anywhere
        self.assertNotRegex(text, r'(?:src|href)="http')

    def test_another_cost(self):
        head = "# a model whose loops never leave the box, by ./mpc staying"
        self.assertNotIn("asked for", self.warned(fitted_toml=head + "\n"))
        told = self.warned(fitted_toml=head + "; so that it can be run in time its cost and its stages are not what was asked for\n")
        self.assertIn("So that it can be run in time its cost and its stages are not what was asked for: what is promised of the cost is promised of this one.", told)

    def test_promises_by_row(self):
        # 8850854903808 over 2^40 of 16, in units of 2 N
        self.assertEqual(report_page.limit_rows(report_page.read_folder(self.folder()))[0], ["force above", "32 N", "16.1 N", "50.31 %"])

    def test_warnings(self):
        self.assertEqual(self.warned(), "Nothing shows that loops stay in the box: each promise is of a run from a state of the box. (./mpc design --stay)")
        stays = {"faces_csv": "4,0,0,1,0\n4,0,0,0,1\n", "disturbances_csv": "0\n1\n"}
        self.assertEqual(self.warned(**stays), "")
        self.assertIn("no disturbance is borne", self.warned(**(stays | {"disturbances_csv": "0\n0\n"})))
        self.assertIn("No limit binds at any of the 2 states", self.warned(**stays, judged_txt=JUDGED.replace("at 1 of", "at 0 of")))
        self.assertIn("Nothing was judged", self.warned(**stays, judged_txt="at no state that was tried has the exact problem a plan\n"))
        self.assertIn("A run takes 120 % of a stage", self.warned(**stays, explained_txt=EXPLAINED.replace("0.9 %", "120 %")))
        self.assertIn("The loops from start 2 leave the box", self.warned(loop_txt="1 1 1 4096 -2224\n1 2 0 4096 0\n2 1 0 4096 0\n"))

    def test_bears(self):
        text = self.page(faces_csv="4,0,0,1,0\n4,0,0,0,1\n", disturbances_csv="0\n1\n")
        self.assertIn('<td>place &lt;i&gt;</td><td class="number">0 m</td><td class="number">0.5 m</td><td class="number">0 m</td><td class="number">0.5 m</td>', text)
        with self.assertRaisesRegex(Refusal, "two records of 1 numbers are expected"):
            self.page(faces_csv="4\n", disturbances_csv="0,0\n")

    def test_settles(self):
        text = self.page(settle_csv="3,0,1\n0,0,1\n1,0,0\n", settled_txt="turn 3\nstate 1 0 1\n")
        xml.dom.minidom.parseString(text.removeprefix("<!DOCTYPE html>\n"))
        self.assertIn("Loops settle: every loop from place &lt;i&gt; from 0 m to 0.5 m lies after 3 turns, for ever, with place &lt;i&gt; from 0 m to 0.5 m.", text)
        self.assertNotIn("settle", self.page())
        with self.assertRaisesRegex(Refusal, "three records of 3 numbers"):
            self.page(settle_csv="3,0,1\n", settled_txt="turn 3\nstate 1 0 1\n")
        with self.assertRaisesRegex(Refusal, "for each of 1 states"):
            self.page(settle_csv="3,0,1\n0,0,1\n1,0,0\n", settled_txt="turn 3\n")

    def test_command(self):
        folder = self.folder()
        self.assertEqual(self.run_page(folder, os.path.join(folder, "page.html")).returncode, 0)
        got = self.run_page(folder, os.path.join(folder, "loop.svg"))
        self.assertEqual((got.returncode, "is the same file as loop.svg" in got.stderr), (2, True))
        self.assertEqual(self.run_page(os.path.join(folder, "nowhere")).returncode, 1)

    def run_page(self, *words):
        return subprocess.run([*as_command("report_page"), *words], capture_output=True, text=True)

    @unittest.skipUnless(BROWSER, "no Chromium is installed")
    def test_in_a_browser(self):
        path = os.path.join(self.folder(), "page.html")
        self.run_page(os.path.dirname(path), path)
        got = subprocess.run([BROWSER, "--headless", "--no-sandbox", "--disable-gpu", "--dump-dom", f"file://{path}"], capture_output=True, text=True, timeout=120)
        self.assertIn("<td>force above</td>", got.stdout)
        self.assertIn("<rect", got.stdout)


if __name__ == "__main__":
    unittest.main()
