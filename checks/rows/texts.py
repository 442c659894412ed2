"""What rows of the table are made of."""
from .worked_texts import DESIGN

LIMITS = "den = 4\nstage = [[0, 4, 4], [0, -4, 4]]\nfinal = [[4, 1]]\n"
TARGETS = "den = 1\nviolation = 16\ngap = 1\n"
GENERATE = ["generate", "d", "p", "c", "r"]
SOLVE = ["solve", "c", "s"]


def sub(text, *pairs):
    for old, new in pairs:
        assert text.count(old) == 1, (old, text.count(old))
        text = text.replace(old, new)
    return text


def in_second(text):
    """A design of version 2."""
    return sub(text, ("version = 1", "version = 2"))


def violations(*numbers):
    return [f"violation {row} {number} 1099511627776" for row, number in enumerate(numbers, 1)]


def targets(den, violation, gap):
    return TARGETS, f"den = {den}\nviolation = {violation}\ngap = {gap}\n"


def steep(n):
    return sub(DESIGN, (LIMITS, f"den = 1\nstage = [[0, {n}, {n}]]\nfinal = []\n"), targets(1, 1048576, 1))


def limits(den, stage, final=()):
    return LIMITS, f"den = {den}\nstage = {stage}\nfinal = {[*final]}\n"


def costs(den, row_den, weight, stage):
    return "den = 1\nrow_den = 1\ninput = [1]\nstage = [[1, 0, 1]]\n", f"den = {den}\nrow_den = {row_den}\ninput = [{weight}]\nstage = {stage}\n"


def plant_over(stages, den, a, b):
    """More stages, and a plant of one state."""
    return ("stages = 1\n", f"stages = {stages}\n"), ("den = 1\na = [[1]]\nb = [[1]]", f"den = {den}\na = [[{a}]]\nb = [[{b}]]")


def refused(words, files, status, line):
    return words, files, status, "", f"error {status} {line}\n", {}, {}


def written(design, policy, **lines):
    """A design that is accepted, with lines of the report and the controller."""
    return GENERATE, {"d": design, "p": policy}, 0, "", "", {}, lines


def put(words, files, out):
    return words, files, 0, out, "", {}, {}
