"""The numbers that a command takes, each refused in words where it is out of its range."""
import argparse
import math
import os
import sys
from collections.abc import Callable
from typing import Any

# as many turns as `loop` makes at most
MOST_TURNS = 1000000


class Parser(argparse.ArgumentParser):
    """A parser whose description stands as written, whose name is that of the command by the launcher, and whose help fails where it can't be printed."""

    def __init__(self, description: str | None, **given: Any) -> None:
        given.setdefault("prog", "./mpc " + os.path.basename(sys.argv[0]).removesuffix(".py"))
        super().__init__(description=description, formatter_class=argparse.RawDescriptionHelpFormatter, **given)

    def print_help(self, file: Any = None) -> None:
        (file or sys.stdout).write(self.format_help())


def whole(least: int, most: int | None = None) -> Callable[[str], int]:
    """A whole number from `least` to `most`."""
    told = f"at least {least}" if most is None else f"from {least} to {most}"

    def read(word: str) -> int:
        try:
            value = int(word)
        except ValueError:
            raise argparse.ArgumentTypeError(f"`{word}` is no whole number") from None
        if value < least or most is not None and value > most:
            raise argparse.ArgumentTypeError(f"{word} is not {told}")
        return value

    return read


def positive(word: str) -> float:
    """A number above 0."""
    try:
        value = float(word)
    except ValueError:
        raise argparse.ArgumentTypeError(f"`{word}` is no number") from None
    if not (math.isfinite(value) and value > 0):
        raise argparse.ArgumentTypeError(f"{word} is not above 0")
    return value


count, several = whole(0), whole(1)
turns = whole(0, MOST_TURNS)


def numbers(word: str) -> list[int]:
    """Numbers from 1 with a comma between two, as those of starts."""
    return [several(part) for part in word.split(",")]
