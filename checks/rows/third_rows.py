"""Rows of designs of version 3, which ask for controllers of the accelerated machine, and of such controllers: what `generate`, `stay` and `split` make of them, and `serve` and `list` of theirs.

Another program computed the numbers of the first design and of its steps; the others are those of the model in ../fuzz.
"""
from collections.abc import Iterator

from .split_rows import HIGH, LOW, PLANS, SERVE, SPLIT, Row, cells
from .stay_rows import FACES, HELD, HELD_CONTROLLER, STAY, UNDER
from .texts import GENERATE, SOLVE, put, refused, sub, targets, violations, written
from .worked_texts import CONTROLLER, DESIGN, LOW_REPORT, POLICY, REPORT


def third(text: str) -> str:
    """A design of version 3."""
    return sub(text, ("version = 1", "version = 3"))


def fast(controller: str, *changes: tuple[str, str]) -> str:
    """The numbers of a controller as one of version 3, but for these."""
    return sub(controller, ("mpc-controller 1", "mpc-controller 3"), *changes)


BASE, OVER = third(DESIGN), "1099511627776"
# the controller of the whole box, and those of 0 and of 1
WHOLE = fast(CONTROLLER, ("steps 4\n", "steps 3\n"), ("words 6\n", "words 12\nexps 0 1 1\n"))
FAST_LOW = fast(LOW, ("words 6\n", "words 12\nexps 0 1 1\n"))
FAST_HIGH = sub(WHOLE, ("lo 0\n", "lo 1\n"))


def told(report: str, found: list[int], gap: int, undercut: int, *changes: tuple[str, str]) -> str:
    """A report of version 3 beside that of version 1."""
    head = sub(report[: report.index("violation")], ("mpc-report 1", "mpc-report 3"), ("words 6\n", "words 12\n"), *changes)
    return head + "\n".join([*violations(*found), f"gap {gap} {OVER}", f"undercut {undercut} {OVER}", "end", ""])


WHOLE_REPORT = told(REPORT, [5918827566422, *[7873514904690] * 2], 438124412928, 62988119237520, ("steps 4\n", "steps 3\n"))
FAST_LOW_REPORT = told(LOW_REPORT, [3833258311680, *[4932769939456] * 2], 534723428352, 4932769939456)


def made_rows() -> Iterator[tuple[str, Row]]:
    files = {"d": BASE, "p": POLICY}
    yield "version 3: first design", (GENERATE, files, 0, "", "", {"c": WHOLE, "r": WHOLE_REPORT}, {})
    yield "version 3: first controller", put(SOLVE, {"c": WHOLE, "s": "1\n0\n"}, "9216 -4960\n9216 0\n")
    yield "version 3: JSON", ([*GENERATE[:4], "r.json"], files, 0, "", "", {"c": WHOLE, "r.json": '{"bits":"10","cost":"1","gap":"438124412928","margin":"8192","multiplier":"8","step":"1","steps":"3",'
        '"undercut":"62988119237520","version":"3","violation":"7873514904690","violations":["5918827566422","7873514904690","7873514904690"],"width":"26","words":"12"}\n'}, {})
    yield "version 3: finer targets", written(sub(BASE, targets(10, 1, 10)), POLICY, c=["exps 0 1 1", "clamp 65536"], r=["steps 50", "bits 11", "width 29", *violations(67222397973, *[80499519516] * 2)])
    slack = lambda den: (sub(BASE, targets(den, 1, 1048576)), "1,0\n2048,-2047\n")
    yield "version 3: the most steps", written(*slack(65533), r=["multiplier 2048", "steps 65534", "bits 32", "width 78", *violations(8654690, *[10751874] * 2)])
    yield "version 3: too many steps", refused(GENERATE, dict(zip("dp", slack(65535))), 8, "too-many-steps 65535")
    # at the second corner the last row's slack is 2^-16, and the plan costs nearly 2^27
    dear = sub(BASE, ("stage = [[1, 0, 1]]", "stage = [[1, 0, 2147483647]]"), targets(1048576, 1, 1))
    yield "version 3: a wide multiplier", refused(GENERATE, {"d": dear, "p": "1,0\n65536,-49153\n"}, 10, "too-wide multiplier")
    yield "version 3: no margin", refused(GENERATE, {**files, "p": "1,0\n131072,-131071\n"}, 6, "no-margin 2 2 4 524288")
    yield "version 3: 7 states", refused(GENERATE, {**files, "d": sub(BASE, ("states = 1", "states = 7"))}, 5, "text 1 range 2")


def stay_rows() -> Iterator[tuple[str, Row]]:
    held = {"d": third(HELD), "p": POLICY, "f": FACES}
    controller = fast(HELD_CONTROLLER, ("steps 641\n", "steps 50\n"), ("words 7\n", "words 15\nexps 1 1 1 1\n"))
    report = ["mpc-report 3", "steps 50", "bits 12", "width 31", "words 15", *violations(*[75659718684] * 4), f"gap 180409860096 {OVER}", f"undercut 605277749472 {OVER}"]
    yield "version 3: a design that is held", (STAY, held, 0, "", "", {"c": controller}, {"r": report})
    yield "version 3: under disturbances", (UNDER, {**held, "w": "0\n1\n"}, 0, "", "", {"c": controller}, {"r": report})
    for low, high, line in ((-1, 0, "2 -1"), (0, 2, "1 2")):
        yield f"version 3: disturbances from {low} to {high}", refused(UNDER, {**held, "w": f"{low}\n{high}\n"}, 17, f"no-stay {line}")
    yield "version 3: a lower face by the input alone", refused(STAY, {**held, "f": "4,0,0,1,0\n4,0,1,0,0\n"}, 17, "no-stay 2 -1")
    yield "version 3: rows that have less of the input", refused(STAY, {**held, "f": "3,0,0,1,0\n4,0,0,0,1\n"}, 16, "unequal 1 1 4 3")
    # of a violation of 26/100 a face bears what the steps and errors leave
    yield "version 3: a face within its target, of a lesser bound", (STAY, {**held, "d": sub(third(HELD), ("den = 10\nviolation = 1\ngap = 10", "den = 100\nviolation = 26\ngap = 100"))}, 0, "", "", {}, {})


def cell_rows() -> Iterator[tuple[str, Row]]:
    files, both = {"d": BASE, "l": "1,0\n", "p": PLANS}, cells(FAST_LOW, FAST_HIGH)
    yield "split, version 3", (SPLIT, files, 0, "", "", {"c": both, "r": FAST_LOW_REPORT + WHOLE_REPORT}, {})
    yield "split, version 3: none for the first cell", (SPLIT, {**files, "p": "none\n8,-7\n8,-7\n"}, 0, "", "", {"c": cells(FAST_HIGH), "r": WHOLE_REPORT}, {})
    yield "split, version 3: none for the last cell", (SPLIT, {**files, "p": "1,0\n1,0\nnone\n"}, 0, "", "", {"c": cells(FAST_LOW), "r": FAST_LOW_REPORT}, {})
    yield "split, version 3: a cell that is refused", refused(SPLIT, {**files, "p": "1,0\n" * 4}, 18, "cell 2 no-margin 1 3 -3 4")
    far = {**files, "d": sub(BASE, targets(65535, 1, 1048576)), "p": "1,0\n" * 2 + "2048,-2047\n" * 2}
    yield "split, version 3: too many steps", refused(SPLIT, far, 18, "cell 2 too-many-steps 65535")
    served = lambda out, *controllers: put(SERVE, {"c": cells(*controllers), "s": "1\n0\n"}, out)
    yield "serve: cells of version 3", served("9216 -4960\n64 0\n", FAST_LOW, FAST_HIGH)
    yield "serve: cells of both machines", served("4096 -2224\n64 0\n", FAST_LOW, HIGH)
    yield "serve: cells of both machines, the plain one first", served("9216 -4960\n32 0\n", LOW, FAST_HIGH)
    yield "serve: boxes of both machines that meet", served("9216 -4960\n9216 0\n", WHOLE, CONTROLLER)
    yield "serve: a state in no cell of version 3", refused(SERVE, {"c": both, "s": "1\n2\n"}, 12, "outside-box 2 0 1")
    at = lambda line, *controllers: refused(SERVE, {"c": cells(*controllers), "s": "0\n"}, 11, f"controller 1 line {line}")
    for what, row in (("the words of version 1", at(26, LOW, fast(HIGH))), ("no exponents", at(27, LOW, sub(FAST_HIGH, ("exps 0 1 1\n", "")))), ("too many steps", at(24, LOW, sub(FAST_HIGH, ("steps 3", "steps 65535")))),
                      ("the words of version 3 in version 1", at(27, FAST_LOW, sub(HIGH, ("words 6", "words 12"))))):
        yield f"cells, version 3: {what}", row
    # what is summed by weights is the greatest absolute sum
    sums = lambda steps: {"c": cells(LOW, sub(FAST_HIGH, ("steps 3", f"steps {steps}"))), "s": "0\n"}
    yield "cells, version 3: sums that fit", put(SERVE, sums(14), "32 0\n")
    yield "cells, version 3: sums too large", refused(SERVE, sums(1000), 11, "controller 1 unsafe")
    yield "no listing of version 3", refused(["list", "c", "l"], {"c": WHOLE}, 11, "controller 1 line 1")


def rows() -> Iterator[tuple[str, Row]]:
    for some in (made_rows, stay_rows, cell_rows):
        yield from some()
