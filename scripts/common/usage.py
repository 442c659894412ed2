"""The program's commands, as commands.txt has them: what is not proved counts their arguments, and tells what they write, by that page."""
import os
import sysconfig

# at the top of the checkout; or among the data of an installed package, which pip's --target puts beside it
_PACKAGES = os.path.dirname(os.path.dirname(os.path.dirname(os.path.realpath(__file__))))
_DATA = [os.path.join(base, "share", "nuddrwyn") for base in (_PACKAGES, sysconfig.get_path("data"))]
_TABLES = [os.path.join(place, "commands.txt") for place in (_PACKAGES, *_DATA)]
TABLE = next(filter(os.path.exists, _TABLES), _TABLES[0])


def table() -> dict[str, list[str]]:
    """The arguments of each command, with their marks."""
    with open(TABLE, encoding="utf-8") as file:
        lines = [line.split() for line in file if not line.startswith("#")]
    return {line[0]: line[1:] for line in lines}


def named(arguments: list[str]) -> list[str]:
    """Arguments without their marks."""
    return [word.strip(">=[]") for word in arguments]


def commands() -> dict[str, list[str]]:
    """The commands, each with the arguments that it needs."""
    return {command: named([word for word in arguments if not word.startswith("[")]) for command, arguments in table().items()}


def optional(command: str) -> list[str]:
    """The arguments that a command may have besides."""
    return named([word for word in table().get(command, []) if word.startswith("[")])


def written(command: str) -> list[int]:
    """Where the words of a command name the files that it writes; the command itself is word 0."""
    return [at for at, word in enumerate(table().get(command, []), 1) if word.startswith(">")]


def places_of(command: str) -> list[str]:
    """What the arguments of a command are called, in their order: a file's fault names its place among them."""
    return [word.lower() for word in named(table().get(command, []))]
