"""Runs the commands of pages, and compares what they print with what the page says.

    ./mpc pages [--write] PAGE ..

A block of lines of four spaces that begins with ./ has commands, run at the top of the repository; the next such block is what they print. Commands that need a
library which isn't there (those of scripts/, but for `./mpc explain`) are left out, and told; so is a whole page that compiles C where there is no cc. With --write a page is given what its commands print.
"""
import os
import re
import shutil
import subprocess
import sys
from collections.abc import Callable, Iterator

from .common import files
from .common.libraries import PACKAGES, missing, run

TOP = os.path.dirname(os.path.dirname(os.path.realpath(__file__)))
# what needs no library is tried everywhere
PLAIN = {"explain", "pages", "refusals", "report_page"}


def blocks_of(text: str) -> list[list[str]]:
    """The blocks of lines that begin with four spaces."""
    blocks, block = [], []
    for line in text.split("\n") + [""]:
        if line.startswith("    "):
            block.append(line[4:])
        elif block:
            blocks.append(block)
            block = []
    return blocks


def commands_of(text: str) -> Iterator[tuple[str, list[str]]]:
    """Each block of commands with the lines that it prints: those of the next block, or none where the next has commands too."""
    blocks = blocks_of(text)
    for block, after in zip(blocks, blocks[1:] + [[]]):
        if block[0].startswith("./"):
            yield "\n".join(block), [] if after and after[0].startswith("./") else after


def needs_libraries(command: str) -> bool:
    return any(name not in PLAIN and os.path.exists(os.path.join(TOP, "scripts", name + ".py")) for name in re.findall(r"\./mpc (\w+)", command))


def needs_compiler(text: str) -> bool:
    return any(" cc " in command for command, _ in commands_of(text))


def wrong_in(text: str, lacking: list[str], run: Callable[[str], list[str]]) -> Iterator[str]:
    """What is wrong: a line for each block of commands that prints something else."""
    for command, printed in commands_of(text):
        if lacking and needs_libraries(command):
            print(f"pages: left out, for want of {', '.join(PACKAGES[name] for name in lacking)}: {command}")
            continue
        got = run(command)
        if got != printed:
            yield f"{command} printed {got}, and the page says {printed}"


def rewritten(text: str, run: Callable[[str], list[str]]) -> str:
    """The page with what its commands print. A block that another block of commands follows prints nothing."""
    indented = lambda lines: "\n".join("    " + line for line in lines)
    for command, printed in commands_of(text):
        got = run(command)
        if printed and got != printed:
            place = text.index(indented(printed), text.index(indented(command.split("\n"))))
            text = text[:place] + indented(got) + text[place + len(indented(printed)) :]
    return text


def run_at_top(command: str) -> list[str]:
    text = subprocess.run(command, shell=True, capture_output=True, text=True, cwd=TOP).stdout.rstrip("\n")
    return text.split("\n") if text else []


def write(pages: list[str]) -> int:
    for page in pages:
        with open(page, encoding="utf-8") as file:
            text = rewritten(file.read(), run_at_top)
        files.write(page, text)
    return 0


def main(pages: list[str]) -> int:
    if pages in ([], ["--help"]):
        print(__doc__.strip())
        return 0
    if pages[0] == "--write":
        return write(pages[1:])
    failed = 0
    for page in pages:
        with open(page, encoding="utf-8") as file:
            text = file.read()
        if needs_compiler(text) and shutil.which("cc") is None:
            print(f"pages: left out, for want of cc: {page}")
            continue
        for wrong in wrong_in(text, missing(*PACKAGES), run_at_top):
            print(f"{page}: {wrong}")
            failed = 1
    return failed


if __name__ == "__main__":
    run(lambda: main(sys.argv[1:]))
