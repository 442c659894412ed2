"""Rows of boxes in cells: cuts, the cells' policies, what is written of them, texts of cells, and which cell serves a state.

The first are computed by hand, as are the lines at which texts are refused; the texts of more cells are those of the model in ../fuzz.
"""
from collections.abc import Iterator

from ..fuzz import model, program
from .texts import LIMITS, costs, in_second, limits, put, refused, sub, targets
from .worked_texts import CONTROLLER, DESIGN, LOW, LOW_REPORT, POLICY, REPORT

Row = tuple
SPLIT, SERVE = ["split", "d", "l", "p", "c", "r"], ["serve", "c", "s"]
CUTS, PLANS = "1,0\n", "1,0\n1,0\n8,-7\n8,-7\n"
# the controller of 1
HIGH = sub(CONTROLLER, ("lo 0\n", "lo 1\n"))
# the last number of a text of cells that is read, and the last of any other
MOST_CELLS_BYTES, MOST_BYTES = 268435456, 4194304


def cells(*controllers: str, count: int | None = None) -> str:
    return f"mpc-cells {len(controllers) if count is None else count}\n{''.join(controllers)}end\n"


def second(controller: str, exponents: str = "0 1 1") -> str:
    return sub(controller, ("mpc-controller 1", "mpc-controller 2"), ("words 6\n", f"words 6\nexps {exponents}\n"))


# no input moves the state, and no state costs: each cell has the plan 0
STILL = sub(DESIGN, ("a = [[1]]\nb = [[1]]", "a = [[1]]\nb = [[0]]"), costs(1, 1, 1, []), limits(4, [[0, 4, 4], [0, -4, 4]]))


def box(design: str, low: int, high: int) -> str:
    return sub(design, ("lo = [0]\nhi = [1]", f"lo = [{low}]\nhi = [{high}]"))


def still_cell(low: int, high: int) -> str:
    """A controller of the still plant for a small box, which puts `32 0`."""
    return f"mpc-controller 1\nsize 1 1 1 2\nbits 5 0 1 16\nsteps 1\nclamp 128\nwords 5\nlo {low}\nhi {high}\nP 0\nT 0\nW 16 -16\nG 32\nG -32\nE 0\nE 0\nb 32 32\nend\n"


def modelled(files: dict[str, str]) -> Row:
    """What the model writes of a design whose plan has one entry, so that its gains are the nearest whole numbers."""
    said = program.answer(SPLIT, lambda name: files[name].encode() if name in files else None, lambda name: True, model.exact_gains)
    return SPLIT, files, said.status, "", said.line.decode(), {name: data.decode() for name, data in said.written.items()}, {}


def boxes(row: Row, *ends: tuple[str, str]) -> Row:
    """A row whose cells have these boxes, in this order."""
    found = [line for line in row[5]["c"].splitlines() if line.startswith(("lo ", "hi "))]
    assert found == [line for low, high in ends for line in (f"lo {low}", f"hi {high}")], found
    return row


def largest_cell() -> str:
    """The longest controller: of the greatest sizes, with the longest numbers wherever they are only multiplied by 0."""
    row = lambda name, count, number=-(2**127): f"{name}{f' {number}' * count}\n"
    rows = (("lo", 6, 0, 1), ("hi", 6, 0, 1), ("P", 6, -(2**127), 90), ("T", 90, 0, 1), ("W", 372, -(2**127), 90), ("G", 90, -(2**127), 372), ("E", 6, -(2**127), 372), ("b", 372, 0, 1))
    head = "mpc-controller 2\nsize 6 3 30 372\nbits 48 24 40 2\nsteps 1\nclamp 0\nwords 558\n" + row("exps", 372, 40)
    return head + "".join(row(name, count, number) * times for name, count, number, times in rows) + "end\n"


def counted(count: int, low: int = 0) -> str:
    return ",".join(map(str, [count, *range(low, low + count)])) + "\n"


def cut_rows() -> Iterator[tuple[str, Row]]:
    files = {"d": DESIGN, "l": CUTS, "p": PLANS}
    yield "split", (SPLIT, files, 0, "", "", {"c": cells(LOW, HIGH), "r": LOW_REPORT + REPORT}, {})
    yield "split over old files", (SPLIT, {**files, "c": "old cells\n" * 99, "r": "an old report\n" * 99}, 0, "", "", {"c": cells(LOW, HIGH), "r": LOW_REPORT + REPORT}, {})
    yield "split: reports are texts, whatever their name", ([*SPLIT[:5], "r.json"], files, 0, "", "", {"c": cells(LOW, HIGH), "r.json": LOW_REPORT + REPORT}, {})
    yield "split: no cut", (SPLIT, {**files, "l": "0\n", "p": POLICY}, 0, "", "", {"c": cells(CONTROLLER), "r": REPORT}, {})
    for what, cuts in (("spaces and empty lines", "\n 1 , 0 \r\n\r\n"), ("quotes", '"1","0"'), ("leading zeros", "01,00\n"), ("a byte order mark", "\ufeff1,0\n")):
        yield f"split: {what}", (SPLIT, {**files, "l": cuts}, 0, "", "", {"c": cells(LOW, HIGH), "r": LOW_REPORT + REPORT}, {})
    for cuts, fault in (
        ("1,1\n", "number 1 2"), ("1,-1\n", "number 1 2"), ("", "count 0"), ("0\n0\n", "count 2"), ("0\nx,y\n", "count 2"), ("1\n", "fields 1"), ("1,0,0\n", "fields 1"), ("0,0\n", "fields 1"), ("-1\n", "number 1 1"),
        ("64\n", "number 1 1"), ("63\n", "fields 1"), ("x\n", "number 1 1"), (" \n", "number 1 1"), ("1,x\n", "number 1 2"), ("1,\t0\n", "number 1 2"), ("2,0,0\n", "number 1 3"), ("2,0,1\n", "number 1 3"), ("1;0\n", "number 1 1"),
        # the count comes before the fields, and these before the cuts
        ("x,0,0\n", "number 1 1"), ("1,9,0\n", "fields 1"), ("1,9\n0\n", "number 1 2"), ("1,9223372036854775808\n", "number 1 2"),
    ):
        yield f"cuts {cuts!r}", refused(SPLIT, {**files, "l": cuts}, 5, f"text 2 {fault}")
    for what, cuts, fault in (("two million fields", "63" + ",0" * 2000000, "fields 1"), ("two million records", "0\n" * 2000000, "count 2000000"), ("four million digits", "0" * 4000000, "number 1 1"),
                              ("four million empty lines", "\n" * MOST_BYTES, "count 0"), ("nothing but quotes", '"' * 4000000, "number 1 1"), ("a zero byte", "1,0\0\n", "number 1 2")):
        yield f"cuts: {what}", refused(SPLIT, {**files, "l": cuts}, 5, f"text 2 {fault}")
    yield "split: a cell that is refused", refused(SPLIT, {**files, "p": "1,0\n" * 4}, 18, "cell 2 no-margin 1 3 -3 4")
    yield "split: old files are left where a cell is refused", refused(SPLIT, {**files, "p": "1,0\n" * 4, "c": "old", "r": "old"}, 18, "cell 2 no-margin 1 3 -3 4")
    yield "split: two cells that are refused", refused(SPLIT, {**files, "p": "1,1\n1,1\n1,0\n1,0\n"}, 18, "cell 1 no-margin 1 1 0 4")
    # the first cell's multiplier is 1, so that it takes 2^20 steps
    yield "split: too many steps", refused(SPLIT, {**files, "d": sub(DESIGN, targets(131072, 1, 131072))}, 18, "cell 2 too-many-steps 8388608")
    yield "split: too fine", refused(SPLIT, {**files, "d": sub(DESIGN, targets(1048576, 16777216, 1)), "p": "1,0\n1,0\n65536,-65535\n65536,-65535\n"}, 18, "cell 2 too-fine 151000321")
    steep = sub(DESIGN, (LIMITS, "den = 1\nstage = [[0, 1500000, 1500000]]\nfinal = []\n"), targets(1, 1048576, 1))
    yield "split: steep rows", refused(SPLIT, {**files, "d": steep, "p": "1,0\n" * 4}, 18, "cell 1 curvature")
    large = sub(DESIGN, ("stages = 1\n", "stages = 20\n"), ("a = [[1]]", "a = [[2147483647]]"))
    yield "split: a large plant", refused(SPLIT, {**files, "d": large, "p": ("1" + ",0" * 20 + "\n") * 4}, 18, "cell 1 too-wide prediction")
    for fault, policies in (("count 0", ""), ("count 2", POLICY), ("count 5", PLANS + "1,0\n"), ("fields 4", PLANS[:-5] + "8\n"), ("number 3 1", "1,0\n1,0\n0,-7\n8,-7\n"), ("number 4 2", PLANS[:-3] + "x\n"),
                            ("number 5 1", PLANS + "x,0\n"), ("number 1 1", "1099511627777,0\n")):
        yield f"the cells' policies: {fault}", refused(SPLIT, {**files, "p": policies}, 5, f"text 3 {fault}")
    # a cell without a controller has one record
    bare = {**files, "p": "none\n8,-7\n8,-7\n"}
    yield "split: none for the first cell", (SPLIT, bare, 0, "", "", {"c": cells(HIGH), "r": REPORT}, {})
    for what, policies in (("the last cell", "1,0\n1,0\nnone\n"), ("in quotes", '1,0\n1,0\n\n"none"\r\n')):
        yield f"split: none for {what}", (SPLIT, {**files, "p": policies}, 0, "", "", {"c": cells(LOW), "r": LOW_REPORT}, {})
    yield "split: a cell is refused behind one of none", refused(SPLIT, {**files, "p": "none\n1,0\n1,0\n"}, 18, "cell 2 no-margin 1 3 -3 4")
    for fault, policies in (
        ("range 0", "none\nnone\n"), ("count 1", "none\n"), ("count 3", "1,0\n1,0\n8,-7\n"), ("count 2", "none\n8,-7\n"), ("count 4", "none\n8,-7\n8,-7\n8,-7\n"), ("fields 2", "1,0\nnone\n8,-7\n8,-7\n"),
        ("fields 3", "none\nnone\nnone\n"), ("fields 4", "none\n8,-7\n8,-7\nnone\n"), ("number 2 2", "none\n8,x\nx\n"), ("fields 1", " none\n8,-7\n8,-7\n"), ("fields 1", "None\n8,-7\n8,-7\n"), ("number 1 1", "none,0\n8,-7\n8,-7\n"),
    ):
        yield f"the cells' policies: {policies!r}", refused(SPLIT, {**files, "p": policies}, 5, f"text 3 {fault}")
    yield "serve: a state of a cell without a controller", refused(SERVE, {"c": cells(HIGH), "s": "1\n0\n"}, 12, "outside-box 2 0 1")


def many_rows() -> Iterator[tuple[str, Row]]:
    coast = lambda count: "1,0\n" * (2 * count)
    still = lambda low, high, cuts, count: {"d": box(STILL, low, high), "l": cuts, "p": coast(count)}
    yield "split: 64 cells of one state each", boxes(modelled(still(0, 63, counted(63), 64)), *((f"{v}", f"{v}") for v in range(64)))
    yield "split: 63 cuts and no room for the last", refused(SPLIT, still(0, 62, counted(63), 64), 5, "text 2 number 1 64")
    yield "split: 64 cuts", refused(SPLIT, still(0, 99, counted(64), 65), 5, "text 2 number 1 1")
    for what, low, high, cuts, parts in (
        ("at lo and at hi - 1", -5, 5, "2,-5,4\n", [(-5, -5), (-4, 4), (5, 5)]), ("at lo alone", -5, 5, "1,-5\n", [(-5, -5), (-4, 5)]), ("at hi - 1 alone", -5, 5, "1,4\n", [(-5, 4), (5, 5)]),
        ("of two states", 7, 8, "1,7\n", [(7, 7), (8, 8)]), ("at both ends of all numbers", -(2**31) + 1, 2**31 - 1, f"2,{-(2**31) + 1},{2**31 - 2}\n", [(-(2**31) + 1,) * 2, (-(2**31) + 2, 2**31 - 2), (2**31 - 1,) * 2]),
    ):
        yield f"split: cuts {what}", boxes(modelled(still(low, high, cuts, len(parts))), *((f"{a}", f"{b}") for a, b in parts))
    for cuts, fault in (("1,-6\n", "number 1 2"), ("1,5\n", "number 1 2"), ("2,-5,5\n", "number 1 3"), ("2,4,-5\n", "number 1 3"), ("1,6\n", "number 1 2")):
        yield f"cuts from -5 to 5: {cuts!r}", refused(SPLIT, still(-5, 5, cuts, 2), 5, f"text 2 {fault}")
    yield "split: a box of one state has no cut", refused(SPLIT, still(3, 3, "1,3\n", 2), 5, "text 2 number 1 2")
    plane = sub(DESIGN, ("states = 1", "states = 2"), ("a = [[1]]\nb = [[1]]", "a = [[1, 0], [0, 1]]\nb = [[0], [0]]"), costs(1, 1, 1, []), limits(4, [[0, 0, 4, 4], [0, 0, -4, 4]]), (
        "lo = [0]\nhi = [1]", "lo = [0, 0]\nhi = [70, 70]"))
    both = lambda one, other, count: {"d": plane, "l": counted(one) + counted(other), "p": "1,0\n" * (4 * count)}
    for one, other in ((7, 7), (15, 3), (0, 63), (63, 0), (1, 31)):
        yield f"split: {one} and {other} cuts", (SPLIT, both(one, other, 64), 0, "", "", {}, {"c": ["mpc-cells 64", f"lo {one} {other}", "hi 70 70"]})
    for one, other in ((12, 4), (4, 12), (63, 1), (63, 63)):
        yield f"split: {one} and {other} cuts", refused(SPLIT, both(one, other, 1), 5, "text 2 range 0")
    yield "split: too many cells, and no policy", refused(SPLIT, {**both(12, 4, 1), "p": ""}, 5, "text 2 range 0")
    yield "split: three records before too many cells", refused(SPLIT, {**both(12, 4, 1), "l": counted(12) + counted(4) + "x\n"}, 5, "text 2 count 3")
    yield "split: one record for two coordinates", refused(SPLIT, {**both(1, 1, 1), "l": "0\n"}, 5, "text 2 count 1")
    yield "split: a bad second record", refused(SPLIT, {**both(1, 1, 1), "l": "0\n1,70\n"}, 5, "text 2 number 2 2")
    yield "split: a bad first record before the count", refused(SPLIT, {**both(1, 1, 1), "l": "1,70\n"}, 5, "text 2 number 1 2")
    # a box in two by two cells, one of them without a controller: its states alone are refused
    row = boxes(modelled({**both(1, 1, 4), "p": "1,0\n" * 4 + "none\n" + "1,0\n" * 8}), ("0 0", "0 0"), ("0 1", "0 70"), ("1 1", "70 70"))
    yield "split: two by two cells, one without a controller", row
    held = {"c": row[5]["c"], "s": "0,0\n0,5\n7,9\n"}
    said = program.answer(SERVE, lambda name: held[name].encode(), lambda name: True, model.exact_gains)
    yield "serve: states of the three others", put(SERVE, held, b"".join(said.out).decode())
    yield "serve: a state of the one without", refused(SERVE, {**held, "s": "0,0\n0,5\n7,9\n7,0\n"}, 12, "outside-box 4 0 1")
    # the first coordinate runs fastest
    found = [(f"{x} {y}", f"{u} {v}") for y, v in ((0, 4), (5, 70)) for x, u in ((0, 1), (2, 8), (9, 70))]
    yield "split: the order of cells", boxes(modelled({**both(1, 1, 6), "l": "2,1,8\n1,4\n"}), *found)
    files = {"d": in_second(DESIGN), "l": CUTS, "p": PLANS}
    row = modelled(files)
    assert row[5]["c"] == cells(second(LOW), second(HIGH))
    yield "split, version 2", row


def order_rows() -> Iterator[tuple[str, Row]]:
    files = {"d": DESIGN, "l": CUTS, "p": PLANS}
    for words in ("split d l p c c", "split d l p l r", "split d l p c l", "split d l p d r", "split d l p c d", "split d l p p r", "split d l p c p", "split d l p c", "split d l p c r x", "split", "split c"):
        yield f"usage: {words}", refused(words.split(), files, 2, "usage")
    for at, name in ((1, "d"), (2, "l"), (3, "p")):
        yield f"split: no {name}", refused(SPLIT, {key: text for key, text in files.items() if key != name}, 3, f"read-fault {at}")
        yield f"split: a long {name}", refused(SPLIT, {**files, name: "\n" * (MOST_BYTES + 1)}, 13, f"long {at}")
    yield "split: the design before the cuts", refused(SPLIT, {**files, "d": "x", "l": "x"}, 5, "text 1 not-toml")
    yield "split: the cuts before the policies", refused(SPLIT, {**files, "l": "x", "p": "x"}, 5, "text 2 number 1 1")
    yield "split: the cuts before the policies are read", refused(SPLIT, {"d": DESIGN, "l": "x"}, 5, "text 2 number 1 1")
    yield "split: the policies before a cell", refused(SPLIT, {**files, "p": "1,0\n1,0\n1,0\nx\n"}, 5, "text 3 fields 4")
    # cuts and policies may be of one file, which is neither's text here
    yield "split: one file for cuts and policies", refused(["split", "d", "l", "l", "c", "r"], files, 5, "text 3 count 1")
    for name in ("no/c", ".", ""):
        yield f"split: cells to {name!r}", refused(["split", "d", "l", "p", name, "r"], files, 4, "write-fault 4")
        yield f"split: reports to {name!r}", (["split", "d", "l", "p", "c", name], files, 4, "", "error 4 write-fault 5\n", {"c": cells(LOW, HIGH)}, {})
    read = {"c": cells(LOW, HIGH), "s": "0\n"}
    for words in ("serve c", "serve c s s", "serve"):
        yield f"usage: {words}", refused(words.split(), read, 2, "usage")
    for at, name in ((1, "c"), (2, "s")):
        yield f"serve: no {name}", refused(SERVE, {key: text for key, text in read.items() if key != name}, 3, f"read-fault {at}")
    yield "serve: long states", refused(SERVE, {**read, "s": "\n" * (MOST_BYTES + 1)}, 13, "long 2")
    # a text of cells may be longer than any other
    yield "serve: cells longer than other texts", refused(SERVE, {**read, "c": cells(LOW, HIGH) + "\n" * MOST_BYTES}, 11, "controller 1 line 41")
    yield "serve: the longest cells", refused(SERVE, {**read, "c": "\n" * MOST_CELLS_BYTES}, 11, "controller 1 line 1")
    yield "serve: long cells", refused(SERVE, {**read, "c": "\n" * (MOST_CELLS_BYTES + 1)}, 13, "long 1")
    # about 184 megabytes
    largest = cells(*[largest_cell()] * 64)
    yield "serve: the longest text of cells", put(SERVE, {"c": largest, "s": "0,0,0,0,0,0\n"}, f"{2**48}{' 0' * 90}\n")
    yield "serve: the longest text of cells, without its end", refused(SERVE, {"c": largest[:-4], "s": "0,0,0,0,0,0\n"}, 11, f"controller 1 line {largest.count(chr(10))}")
    yield "serve: the cells before the states", refused(SERVE, {"c": CONTROLLER}, 11, "controller 1 line 1")
    yield "serve: the states' text before their boxes", refused(SERVE, {**read, "s": "7\nx\n"}, 5, "text 2 number 2 1")
    for fault, states in (("fields 1", "1,1"), ("number 2 1", "1\nx\n"), ("number 1 1", "\t1")):
        yield f"serve: states, {fault}", refused(SERVE, {**read, "s": states}, 5, f"text 2 {fault}")


def text_rows() -> Iterator[tuple[str, Row]]:
    at = lambda line, text: refused(SERVE, {"c": text, "s": "0\n"}, 11, f"controller 1 line {line}")
    both = cells(LOW, HIGH)
    for what, line, text in (
        ("no byte", 1, ""), ("a controller", 1, CONTROLLER), ("no cell", 1, cells()), ("65 cells", 1, cells(*[LOW] * 65)), ("a zero before their number", 1, both.replace("cells 2", "cells 02")),
        ("no number", 1, both.replace("cells 2", "cells")), ("two numbers", 1, both.replace("cells 2", "cells 2 2")), ("a negative number", 1, both.replace("cells 2", "cells -2")), ("a carriage return", 1, both.replace("\n", "\r\n")),
        ("no last end", 40, both[:-4]), ("no last line feed", 40, both[:-1]), ("an empty line behind", 41, both + "\n"), ("a byte behind", 41, both + "x"), ("another end", 41, both + "end\n"),
        ("one more than it says", 21, cells(LOW, HIGH, count=1)), ("one less than it says", 40, cells(LOW, HIGH, count=3)), ("cells in cells", 2, cells(cells(LOW))), ("no end of the first", 20, cells(LOW[:-4], HIGH)),
        ("other states", 22, cells(LOW, sub(HIGH, ("size 1 1 1 3", "size 2 1 1 3")))), ("other inputs", 22, cells(LOW, sub(HIGH, ("size 1 1 1 3", "size 1 2 1 3")))),
        ("other stages", 22, cells(LOW, sub(HIGH, ("size 1 1 1 3", "size 1 1 2 3")))), ("another grid", 23, cells(LOW, sub(HIGH, ("bits 10 0", "bits 10 1")))),
        ("other rows, and words for the first's", 26, cells(LOW, sub(HIGH, ("size 1 1 1 3", "size 1 1 1 2")))), ("a third of another grid", 42, cells(LOW, HIGH, sub(HIGH, ("bits 10 0", "bits 10 1")))),
        ("a box upside down", 28, cells(LOW, sub(HIGH, ("lo 1\nhi 1", "lo 2\nhi 1")))), ("exponents of version 1", 27, cells(LOW, sub(HIGH, ("words 6\n", "words 6\nexps 0 1 1\n")))),
        ("an exponent above the greatest", 27, cells(LOW, second(HIGH, "0 1 2"))), ("version 4", 21, cells(LOW, sub(HIGH, ("mpc-controller 1", "mpc-controller 4")))),
        ("a line in the first before one in the second", 4, cells(sub(LOW, ("bits 5 0", "bits 5 6")), sub(HIGH, ("size 1", "size 9")))),
    ):
        yield f"cells: {what}", at(line, text)
    six = "mpc-controller 2\nsize 6 1 1 1\nbits 0 0 1 16\nsteps 2\nclamp 9\nwords 9\nexps 0\nlo 0 0 0 0 0 0\nhi 1 2 3 4 5 6\nP 1 2 3 4 5 6\nT 0\nW -1\nG -1\nE 1 1 1 1 1 1\nb 1\nend\n"
    yield "serve: cells of six states", put(SERVE, {"c": cells(six, six), "s": "1,2,3,4,5,6\n0,0,0,0,0,1\n"}, "2 -178\n2 -8\n")
    # where the first cell has more states or stages than version 1 has, no later one is of it
    yield "cells: version 1 after six states", at(18, cells(six, CONTROLLER))
    yield "cells: six states after one", at(22, cells(CONTROLLER, six))
    rows = "".join(f"G {' '.join(['0'] * 21)}\nE 0\n" for _ in range(1))
    long = f"mpc-controller 2\nsize 1 1 21 1\nbits 0 0 0 16\nsteps 1\nclamp 0\nwords 44\nexps 0\nlo 0\nhi 1\n{'P 0' + chr(10)}" + "P 0\n" * 20 + f"T {' '.join(['0'] * 21)}\n" + "W 0\n" * 21 + rows + "b 0\nend\n"
    yield "serve: cells of 21 stages", put(SERVE, {"c": cells(long), "s": "1\n"}, "1" + " 0" * 21 + "\n")
    yield "cells: version 1 after 21 stages", at(2 + long.count("\n"), cells(long, CONTROLLER))
    wide = sub(HIGH, ("W 256 -256", "W 512 -256"))
    for what, text in (("the first of three", cells(wide, LOW, HIGH)), ("the second of three", cells(LOW, wide, HIGH)), ("the last of three", cells(LOW, HIGH, wide)), ("the last of three, of version 2", cells(LOW, HIGH, second(wide)))):
        yield f"cells: gains too large in {what}", refused(SERVE, {"c": text, "s": "x"}, 11, "controller 1 unsafe")
    yield "cells: a line behind gains that are too large", at(40, cells(wide, HIGH)[:-1])


def serve_rows() -> Iterator[tuple[str, Row]]:
    served = lambda text, states, out: put(SERVE, {"c": text, "s": states}, out)
    both = cells(LOW, HIGH)
    yield "serve", served(both, "0\n1\n", "32 0\n4096 -2224\n")
    yield "serve: the second cell, and then the first", served(both, "1\r\n0", "4096 -2224\n32 0\n")
    yield "serve: no states", served(both, "", "")
    yield "serve: one cell", served(cells(CONTROLLER), "0\n1\n", "4096 0\n4096 -2224\n")
    yield "serve: 64 cells", served(cells(*(still_cell(v, v) for v in range(64))), "63\n0\n", "32 0\n32 0\n")
    yield "serve: cells in another order", served(cells(HIGH, LOW), "0\n1\n", "32 0\n4096 -2224\n")
    # the first that holds a state serves it
    yield "serve: boxes that meet", served(cells(CONTROLLER, LOW), "0\n1\n", "4096 0\n4096 -2224\n")
    yield "serve: boxes that meet, the other first", served(cells(LOW, CONTROLLER), "0\n1\n", "32 0\n4096 -2224\n")
    yield "serve: the same box twice", served(cells(sub(CONTROLLER, ("steps 4", "steps 2")), CONTROLLER), "1\n", "2048 -1056\n")
    yield "serve: cells of both versions", served(cells(LOW, second(HIGH, "1 1 0")), "0\n1\n", "32 0\n4096 -2372\n")
    yield "serve: cells of both versions, the second first", served(cells(second(HIGH), LOW), "1\n0\n", "4096 -2224\n32 0\n")
    yield "serve: other rows and bits", served(cells(LOW, still_cell(1, 7), HIGH), "0\n7\n1\n", "32 0\n32 0\n32 0\n")
    outside = lambda text, states, entry, coordinate: refused(SERVE, {"c": text, "s": states}, 12, f"outside-box {entry} 0 {coordinate}")
    yield "serve: a state in no cell", outside(both, "2\n", 1, 1)
    yield "serve: a state between cells", outside(cells(LOW, sub(HIGH, ("lo 1\nhi 1", "lo 2\nhi 2"))), "1\n", 1, 1)
    yield "serve: no line before the last state is tested", outside(both, "0\n1\n-1\n9\n", 3, 1)
    cell = lambda low, high: "mpc-controller 1\nsize 2 1 1 1\nbits 0 0 0 20\nsteps 1\nclamp 0\nwords 5\n" \
        f"lo {low[0]} {low[1]}\nhi {high[0]} {high[1]}\nP 1 1\nT 0\nW 0\nG 0\nE 0 0\nb 0\nend\n"
    two = cells(cell((0, 0), (1, 1)), cell((2, 3), (3, 4)))
    yield "serve: cells of two coordinates", served(two, "1,1\n3,4\n2,3\n", "1 -2\n1 -7\n1 -5\n")
    # the first coordinate outside the first cell is told, though the second cell holds that one
    for state, coordinate in (("3,1", 1), ("1,3", 2), ("3,0", 1), ("0,4", 2), ("4,4", 1), ("0,9", 2), ("2,2", 1), ("-1,3", 1)):
        yield f"serve: {state} in no cell", outside(two, f"0,0\n{state}\n", 2, coordinate)


def full_rows() -> Iterator[tuple[str, Row, str | None]]:
    """As those of the table: what is written to a full device."""
    files = {"d": DESIGN, "l": CUTS, "p": PLANS}
    yield "cells to a full device", (["split", "d", "l", "p", "/dev/full", "r"], files, 4, "", "error 4 write-fault 4\n", {}, {}), None
    yield "reports of cells to a full device", (["split", "d", "l", "p", "c", "/dev/full"], files, 4, "", "error 4 write-fault 5\n", {"c": cells(LOW, HIGH)}, {}), None
    yield "the output of serve to a full device", (SERVE, {"c": cells(LOW, HIGH), "s": "0\n"}, 4, None, "error 4 write-fault 0\n", {}, {}), "/dev/full"


def rows() -> Iterator[tuple[str, Row]]:
    for some in (cut_rows, many_rows, order_rows, text_rows, serve_rows):
        yield from some()
