"""The scripts, and the model of checks/fuzz, are packages that can be installed; from a checkout they run as they stand."""
import ast
import importlib.util
import os
import pathlib
import re
import shutil
import subprocess
import sys
import tomllib
import unittest

from .worked import FIRST_CONTROLLER, TOP, folder_with

ROOT = pathlib.Path(TOP)
LACKING = [name for name in ("pip", "setuptools", "wheel") if importlib.util.find_spec(name) is None]
with open(ROOT / "pyproject.toml", "rb") as file:
    PROJECT = tomllib.load(file)


def python_files():
    return [path for folder in ("scripts", "checks", "bench", "examples") for path in sorted((ROOT / folder).rglob("*.py"))]


def imports_of(path: pathlib.Path) -> list[str]:
    """The first word of each import, or its dots."""
    return re.findall(r"^\s*(?:from|import) +(\.+|\w+)", path.read_text(encoding="utf-8"), re.MULTILINE)


class Packages(unittest.TestCase):
    def test_no_file_edits_the_path(self):
        edits = re.compile(r"sys\.path\b(?!_)")
        self.assertEqual([str(path.relative_to(ROOT)) for path in python_files() if path.name != "test_packages.py" and edits.search(path.read_text(encoding="utf-8"))], [])

    def test_what_is_installed_names_its_own_by_dots(self):
        """The folders have other names where they are installed."""
        for folder in ("scripts", "scripts/common", "checks/fuzz"):
            for path in (ROOT / folder).glob("*.py"):
                self.assertEqual({"scripts", "checks", "bench", "common", "tests"} & set(imports_of(path)), set(), path)

    def test_the_model_takes_nothing_of_the_scripts(self):
        for path in [*(ROOT / "checks" / "fuzz").glob("*.py"), *(ROOT / "checks" / "rows").glob("*.py"), ROOT / "checks" / "optima" / "quadratic.py"]:
            self.assertNotRegex(path.read_text(encoding="utf-8"), r"(?m)^\s*(from|import) +(\.\.\.)?scripts\b", path)

    def test_version(self):
        self.assertIn(f"\nVersion {PROJECT['project']['version']}, ", (ROOT / "CHANGELOG.md").read_text(encoding="utf-8"))

    @unittest.skipIf(LACKING, f"missing: {', '.join(LACKING)}")
    def test_installed(self):
        """From a copy, whose folders the build writes to."""
        folder, paths = folder_with(self, c=FIRST_CONTROLLER, s="1\n")
        copy, installed = os.path.join(folder, "copy"), os.path.join(folder, "installed")
        for part in ("scripts", "checks/fuzz"):
            shutil.copytree(ROOT / part, os.path.join(copy, part), symlinks=False, ignore=shutil.ignore_patterns("__pycache__", "tests"))
        for name in ("pyproject.toml", "README.md", "commands.txt"):
            shutil.copy(ROOT / name, copy)
        words = [sys.executable, "-m", "pip", "install", "--quiet", "--no-build-isolation", "--no-index", "--no-deps", "--target", installed, copy]
        got = subprocess.run(words, capture_output=True, text=True, env=os.environ | {"PIP_ROOT_USER_ACTION": "ignore"})
        self.assertEqual(got.returncode, 0, got.stderr)
        run = lambda name, *more: subprocess.run([os.path.join(installed, "bin", name), *more], cwd=folder, env=os.environ | {"PYTHONPATH": installed}, capture_output=True, text=True)
        self.assertIn("explain", run("nuddrwyn").stdout.split())
        told = run("nuddrwyn", "explain", paths["c"])
        self.assertEqual((told.returncode, "a run has 24 products" in told.stdout), (0, True), told.stderr)
        self.assertEqual(run("nuddrwyn", "explain", "nowhere").stderr, "explain.py: nowhere: No such file or directory\n")
        self.assertEqual(run("nuddrwyn", "nothing").returncode, 1)
        self.assertEqual(run("nuddrwyn-model", "solve", paths["c"], paths["s"]).stdout, "4096 -2224\n")


class Style(unittest.TestCase):
    """What pyproject.toml asks of all Python, as far as a tool for it is installed here."""

    def passes(self, *words):
        got = subprocess.run(words, cwd=ROOT, capture_output=True, text=True)
        self.assertEqual(got.returncode, 0, got.stdout + got.stderr)

    @unittest.skipIf(shutil.which("isort") is None, "missing: isort")
    def test_order_of_imports(self):
        self.passes("isort", "--check", *map(str, python_files()))

    @unittest.skipIf(shutil.which("mypy") is None, "missing: mypy")
    def test_types_of_the_common_parts(self):
        self.passes("mypy", "--cache-dir", os.devnull)

    def test_causes_of_faults(self):
        """What is raised where another fault was caught says from which, or from none."""
        for path in python_files():
            caught = [node for node in ast.walk(ast.parse(path.read_text(encoding="utf-8"))) if isinstance(node, ast.ExceptHandler)]
            raised = [node for handler in caught for part in handler.body for node in ast.walk(part) if isinstance(node, ast.Raise) and isinstance(node.exc, ast.Call)]
            self.assertEqual([node.lineno for node in raised if node.cause is None], [], path)

    @unittest.skipIf(importlib.util.find_spec("pycodestyle") is None, "missing: pycodestyle")
    def test_errors_of_style(self):
        ruff = PROJECT["tool"]["ruff"]
        wide = list(ruff["lint"]["per-file-ignores"])
        longer = [path for path in python_files() if not any(path.relative_to(ROOT).match(it) for it in wide)]
        self.passes(sys.executable, "-m", "pycodestyle", f"--max-line-length={ruff['line-length']}", "--select=E501", *map(str, longer))
        self.passes(sys.executable, "-m", "pycodestyle", "--select=E401,E701,E702,E703,E711,E712,E713,E714,E721,E722,E901,E902,W605", *map(str, python_files()))


if __name__ == "__main__":
    unittest.main()
