"""The Rust program that bench/descent makes of the product's sources is still one: a source that it can't follow shows here, and not when somebody measures."""
import pathlib
import shutil
import subprocess
import sys
import tempfile
import unittest

TOP = pathlib.Path(__file__).resolve().parents[2]
# two plan entries, one state and one row; the denominators, the power and the floor; the hessian, the linear cost, its constant and the row
FORM = "2 1 1 1 1 1 1 3 4 1 1 4 1 0 0 0 1 1"


@unittest.skipIf(shutil.which("rustc") is None, "missing: rustc")
class RustCopy(unittest.TestCase):
    def setUp(self):
        room = tempfile.TemporaryDirectory()
        self.addCleanup(room.cleanup)
        self.program = f"{room.name}/moves"
        subprocess.run([sys.executable, TOP / "bench/descent/rust_copy.py", f"{room.name}/rust"], check=True)
        built = subprocess.run(["rustc", "-A", "warnings", "--edition", "2015", f"{room.name}/rust/main.rs", "-o", self.program], capture_output=True, text=True)
        self.assertEqual((built.returncode, built.stderr), (0, ""))

    def test_counts_moves(self):
        """From a guess it takes fewer moves than from 0, to the same solutions."""
        said = [subprocess.run([self.program, *words], input=FORM, capture_output=True, text=True, check=True).stdout.split() for words in ([], ["from-zero"])]
        (moves, solutions), (moves_from_zero, solutions_from_zero) = said
        self.assertLess(float(moves), float(moves_from_zero))
        self.assertEqual(solutions, solutions_from_zero)


if __name__ == "__main__":
    unittest.main()
