"""The worked design and controller, and how a command is asked of the model."""
import os

from checks.fuzz import model, program

FIRST = os.path.join(os.path.dirname(__file__), "..", "..", "..", "examples", "first")


def example(name):
    with open(os.path.join(FIRST, name), "rb") as file:
        return file.read()


DESIGN, POLICY, CONTROLLER = map(example, ("design.toml", "policy.csv", "controller.txt"))


def refusal(of, *words):
    """What a call refuses with, or nothing."""
    try:
        of(*words)
    except model.Refused as refused:
        return refused.args
    return None


def told(words, **files):
    """The status, the line, the output and what was written."""
    said = program.answer(words.split(), lambda name: files.get(name), lambda name: True, model.exact_gains)
    return said.status, said.line.decode(), b"".join(said.out).decode(), {name: data.decode() for name, data in said.written.items()}
