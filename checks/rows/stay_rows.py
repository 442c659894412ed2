"""Rows of designs whose box no closed loop leaves, by faces, and of loops under disturbances.

The first are computed by hand; the numbers of the others are those of the model in ../fuzz.
"""
import glob
import os

from .texts import costs, in_second, limits, plant_over, put, refused, sub, targets, violations
from .worked_texts import CONTROLLER, DESIGN, POLICY

EXAMPLES = os.path.join(os.path.dirname(os.path.abspath(__file__)), "..", "..", "examples")
STAY, UNDER = ["stay", "d", "p", "c", "r", "f"], ["stay", "d", "p", "c", "r", "f", "w"]
# x+ = x + u from 0 to 1, and one stage, so that the final rows are those on the next state
HELD = sub(DESIGN, targets(10, 1, 10), ("final = [[4, 1]]", "final = [[4, 1], [-4, 1]]"))
FACES = "4,0,0,1,0\n4,0,0,0,1\n"
HELD_CONTROLLER = """mpc-controller 1
size 1 1 1 4
bits 12 0 1 31
steps 641
clamp 131072
words 7
lo 0
hi 1
P 2048
T 0
W 1024 -1024 1024 -1024
G 4096
G -4096
G 4096
G -4096
E 0
E 0
E 4096
E -4096
b 4096 4096 1024 1024
end
"""
MOST = 2**31 - 1


def stays(design, policy, faces, shifts=None, **lines):
    """What a design is accepted with, with lines of its files."""
    files = {"d": design, "p": policy, "f": faces}
    return (STAY, files, 0, "", "", {}, lines) if shifts is None else (UNDER, {**files, "w": shifts}, 0, "", "", {}, lines)


def left(design, policy, faces, line, shifts=None):
    """What it is refused with."""
    files = {"d": design, "p": policy, "f": faces}
    status = int(line.split()[0])
    words = " ".join(line.split()[1:])
    return refused(STAY, files, status, words) if shifts is None else refused(UNDER, {**files, "w": shifts}, status, words)


def face_rows():
    report = ["steps 641", "bits 12", "width 31", "violation 77438459892 1099511627776", "gap 180389150720 1099511627776", "undercut 619507679136 1099511627776"]
    whole = "\n".join(["mpc-report 1\nmargin 8192 65536\ncost 1\nmultiplier 8\nstep 1", *report[:3], "words 7", *report[3:], "end\n"])
    yield "stay: a design that is held", (STAY, {"d": HELD, "p": POLICY, "f": FACES}, 0, "", "", {"c": HELD_CONTROLLER, "r": whole}, {})
    yield "stay over old files", (STAY, {"d": HELD, "p": POLICY, "f": FACES, "c": "an old controller\n" * 99, "r": "an old report\n"}, 0, "", "", {"c": HELD_CONTROLLER, "r": whole}, {})
    yield "stay: JSON", (["stay", "d", "p", "c", "r.json", "f"], {"d": HELD, "p": POLICY, "f": FACES}, 0, "", "", {
        "c": HELD_CONTROLLER, "r.json": '{"bits":"12","cost":"1","gap":"180389150720","margin":"8192","multiplier":"8","step":"1","steps":"641","undercut":"619507679136","version":"1",'
        '"violation":"77438459892","width":"31","words":"7"}\n'}, {})
    yield "stay: a lower face by the input alone", left(HELD, POLICY, "4,0,0,1,0\n4,0,1,0,0\n", "17 no-stay 2 -1")
    old = {"d": HELD, "p": POLICY, "c": "an old controller\n", "r": "an old report\n"}
    yield "stay: old files are left where a face is refused", refused(STAY, {**old, "f": "4,0,0,1,0\n4,0,1,0,0\n"}, 17, "no-stay 2 -1")
    yield "stay: old files are left where the inputs are unequal", refused(STAY, {**old, "f": "3,0,0,1,0\n4,0,0,0,1\n"}, 16, "unequal 1 1 4 3")
    yield "stay: rows that have less of the input", left(HELD, POLICY, "3,0,0,1,0\n4,0,0,0,1\n", "16 unequal 1 1 4 3")
    yield "stay: a lower face with the upper one's row", left(HELD, POLICY, "4,0,0,1,0\n4,0,0,1,0\n", "16 unequal 2 1 4 -4")
    yield "stay: no-stay of a face before unequal of the next", left(HELD, POLICY, "4,1,0,0,0\n3,0,0,0,1\n", "17 no-stay 1 2")
    yield "stay: unequal of a face before no-stay of the next", left(HELD, POLICY, "3,0,0,1,0\n4,0,1,0,0\n", "16 unequal 1 1 4 3")
    # a row and its opposite: how far both let the input go is between them
    yield "stay: weights beyond need", stays(HELD, POLICY, "40,1,1,10,0\n40,0,0,0,10\n", r=report)
    yield "stay: weights further beyond need", stays(HELD, POLICY, "40,4,4,10,0\n40,0,0,0,10\n", r=report)
    yield "stay: weights too far beyond need", left(HELD, POLICY, "40,6,6,10,0\n40,0,0,0,10\n", "17 no-stay 1 2")
    yield "stay: weights far beyond need", left(HELD, POLICY, "4,1,1,1,0\n4,0,0,0,1\n", "17 no-stay 1 3")
    # x+ = x/2 - 3u/4: 3/2 + 3/4 of the upper end, and what is left over of the state counts with its sign
    moved = sub(DESIGN, ("den = 1\na = [[1]]\nb = [[1]]", "den = 4\na = [[2]]\nb = [[-3]]"), limits(4, [[0, 4, 4], [0, -4, 4]]), ("lo = [0]\nhi = [1]", "lo = [-2]\nhi = [3]"), targets(10, 1, 10))
    yield "stay: a state that the rows leave over", stays(moved, "1,0\n1,0\n", "16,0,3\n16,3,0\n", r=["steps 241", "bits 10"])
    yield "stay: a state left over, and weights beyond need", stays(moved, "1,0\n1,0\n", "16,1,4\n16,4,1\n", r=["steps 241", "bits 10"])
    yield "stay: a state left over, and too much weight", left(moved, "1,0\n1,0\n", "16,0,3\n16,6,3\n", "17 no-stay 2 -3")
    for low, high, line in ((-2, 0, "17 no-stay 1 1"), (0, 3, "17 no-stay 2 -1")):
        box = ("lo = [-2]\nhi = [3]", f"lo = [{low}]\nhi = [{high}]")
        yield f"stay: a state left over, from {low} to {high}", left(sub(moved, box), "1,0\n1,0\n", "16,0,3\n16,3,0\n", line)
    # no input moves x+ = 3x/2, and no row counts: a tie is rounded upward at both ends
    tied = lambda low, high: sub(HELD, ("den = 1\na = [[1]]\nb = [[1]]", "den = 2\na = [[3]]\nb = [[0]]"), ("final = [[4, 1], [-4, 1]]", "final = []"), (
        "lo = [0]\nhi = [1]", f"lo = [{low}]\nhi = [{high}]"))
    yield "stay: a tie at the lower end", stays(tied(-1, 0), "1,0\n1,0\n", "1,0,0\n1,0,0\n", r=["cost 3", "steps 241"])
    yield "stay: a tie at the upper end", left(tied(0, 1), "1,0\n1,0\n", "1,0,0\n1,0,0\n", "17 no-stay 1 2")
    # with one stage a stage row without an input is none on the next state, with two it is, and the final rows are none
    stage = ("[0, -4, 4]]", "[0, -4, 4], [4, 0, 5]]")
    yield "stay: one stage, a stage row without an input", stays(sub(HELD, stage), POLICY, "4,0,0,0,1,0\n4,0,0,0,0,1\n", r=["words 8"])
    yield "stay: one stage, as if that row were one on the next state", left(sub(HELD, stage), POLICY, "4,0,0,0,1\n4,0,0,0,1\n", "5 text 5 fields 1")
    two = sub(DESIGN, ("stages = 1\n", "stages = 2\n"), limits(100, [[0, 100, 100], [0, -100, 100], [100, 0, 135], [-100, 0, 35]], [[100, 142]]), targets(10, 1, 10))
    coast = "1,0,0\n8,-7,0\n"
    yield "stay: two stages", stays(two, coast, "100,0,0,0,0,1,0\n100,0,0,0,0,0,1\n", r=["steps 641"])
    yield "stay: two stages, a row at the first stage for one at the next", left(two, coast, "100,1,0,0,0,0,0\n100,0,0,0,0,0,1\n", "17 no-stay 1 2")
    yield "stay: two stages, as if the final row were one on the next state", left(two, coast, "100,0,0,0,0,1,0,0\n100,0,0,0,0,0,1,0\n", "5 text 5 fields 1")
    # two states and two inputs: each input must be equal, and the first that isn't is told
    crossed = sub(DESIGN, ("states = 1\ninputs = 1", "states = 2\ninputs = 2"), ("den = 1\na = [[1]]\nb = [[1]]", "den = 4\na = [[1, 1], [0, 2]]\nb = [[4, 2], [0, -4]]"), (
        "den = 1\nrow_den = 1\ninput = [1]\nstage = [[1, 0, 1]]\n", "den = 4\nrow_den = 1\ninput = [4, 4]\nstage = []\n"), limits(4, [
            [0, 0, 4, 0, 4], [0, 0, -4, 0, 4], [0, 0, 0, 4, 2], [0, 0, 0, -4, 2]]), ("lo = [0]\nhi = [1]", "lo = [-4, -2]\nhi = [4, 2]"), ("grid = 0", "grid = 1"), targets(10, 1, 10))
    yield "stay: two states and two inputs", stays(crossed, "1,0,0\n" * 4, "16,4,0,2,0\n16,0,4,0,2\n16,0,0,0,4\n16,0,0,4,0\n", r=["cost 0"])
    yield "stay: the second input of the third face", left(crossed, "1,0,0\n" * 4, "16,4,0,2,0\n16,0,4,0,2\n16,0,0,4,0\n16,0,0,4,0\n", "16 unequal 3 2 64 -64")
    yield "stay: both inputs of the second face", left(crossed, "1,0,0\n" * 4, "16,4,0,2,0\n16,4,0,0,0\n16,0,0,4,0\n16,0,0,4,0\n", "16 unequal 2 1 64 -64")
    great = sub(DESIGN, targets(10, 1, 10), limits(4, [[0, 4, 4], [0, -4, 4]], [[1, 1], [-1, 1]]), ("lo = [0]\nhi = [1]", "lo = [-6]\nhi = [6]"), ("grid = 0", "grid = 2"))
    yield "stay: the greatest factor and weights", stays(great, "4,3\n4,-3\n", f"{MOST},0,0,{MOST},0\n{MOST},0,0,0,{MOST}\n",
                                                         r=["margin 4096 65536", "multiplier 32", "steps 2561", "bits 14"])
    yield "stay: the greatest weights, beyond need", left(great, "4,3\n4,-3\n", f"{MOST},0,0,{MOST},0\n{MOST},{MOST},{MOST},0,{MOST}\n", "17 no-stay 2 -40")
    for fault, faces in (("number 1 1", f"{MOST + 1},0,0,1,0\n" + FACES), ("number 1 1", "0,0,0,1,0\n"), ("number 2 5", "4,0,0,1,0\n4,0,0,0,-1\n"), ("number 2 3", f"4,0,0,1,0\n4,0,{MOST + 1},0,1\n"),
                         ("number 1 2", "4,x,0,1,0\n4,0\n"), ("fields 2", "4,0,0,1,0\n4,0,0,0,1,0\n"), ("fields 1", "4\n"), ("count 0", ""), ("count 1", "4,0,0,1,0\n"), ("count 3", FACES + "4,0,0,0,1\n")):
        yield f"faces: {fault}", left(HELD, POLICY, faces, f"5 text 5 {fault}")


def exponent_rows():
    """A row may be exceeded by what its own exponent lets it."""
    faces = "100,0,0,0,1,0\n100,0,0,0,0,1\n"
    def slopes(bound, steep):
        return sub(DESIGN, targets(10, 1, 10), limits(100, [[0, 100, 100], [0, -100, 100], [0, steep, 9 * steep]], [[100, 100 + bound], [-100, bound]]))

    # exponents 2 2 6 2 2
    yield "stay, version 1: a steep row", left(slopes(43, 800), POLICY, faces, "17 no-stay 1 2")
    yield "stay, version 2: a steep row", stays(in_second(slopes(43, 800)), POLICY, faces, c=["exps 2 2 6 2 2"], r=["mpc-report 2", *violations(46988204676, 46988204676, 72756750222)])
    # exponents 1 2 4 3 3
    yield "stay, version 1: a less steep row", left(slopes(41, 400), POLICY, faces, "17 no-stay 1 2")
    yield "stay, version 2: a less steep row", stays(in_second(slopes(41, 400)), POLICY, faces, c=["exps 1 2 4 3 3"], r=violations(55748021977, 59183324857, 79795142132))
    # with the exponent of the first or the second row it would be accepted
    yield "stay, version 2: a bound nearer to the end", left(in_second(slopes(42, 400)), POLICY, faces, "17 no-stay 1 2")
    # over two stages the row at the first one has exponent 0, and the same row at the next one has 1
    two = lambda bound: in_second(sub(DESIGN, ("stages = 1\n", "stages = 2\n"), limits(100, [[0, 100, 100], [0, -100, 100], [100, 0, 100 + bound], [-100, 0, 42]]), targets(10, 1, 10)))
    faces = "100,0,0,0,0,1,0\n100,0,0,0,0,0,1\n"
    yield "stay, version 2: two stages", stays(two(42), "1,0,0\n8,-7,0\n", faces, c=["exps 1 1 0 0 1 1 1 1"], r=["steps 641", "bits 15"])
    yield "stay, version 2: two stages, a bound nearer to the end", left(two(43), "1,0,0\n8,-7,0\n", faces, "17 no-stay 1 2")
    fine = sub(DESIGN, *plant_over(2, 1048576, 1048576, 1048576), limits(131072, [[0, 131072, 131072], [0, -131072, 131072], [131072, 0, 163840], [-131072, 0, 32768]]), targets(10, 1, 10))
    faces = "131072,0,0,0,0,1,0\n131072,0,0,0,0,0,1\n"
    yield "stay, fine", stays(fine, "1,0,0\n8,-7,0\n", faces, r=["steps 641", "bits 16", "violation 59991970036 1099511627776"])
    # its excess is 83619742964 over 2^40, so it goes to 1 + bound / 131072 + 0.07605..
    for bound, line in ((55567, None), (55568, "17 no-stay 1 2")):
        text = sub(fine, ("163840", f"{131072 + bound}"))
        yield f"stay, fine: a bound of {bound}", left(text, "1,0,0\n8,-7,0\n", faces, line) if line else stays(text, "1,0,0\n8,-7,0\n", faces, r=["steps 641"])


def size_rows():
    """The quantity is 2^126 with the first number, and 1 more with the second; where it is within the limit, it is the input of the third face that isn't equal."""
    for at, answer in ((109054464, "16 unequal 3 1 0 109054464"), (109054465, "10 too-wide stay")):
        wide = sub(DESIGN, ("states = 1", "states = 2"), ("den = 1\na = [[1]]\nb = [[1]]", f"den = 1\na = [[0, 0], [234833526, 0]]\nb = [[0], [{at}]]"), costs(1, 1, 1, []), limits(1, [
            [16777241, 0, 0, 1], [0, 0, 0, 751327631]]), ("lo = [0]\nhi = [1]", f"lo = [0, 0]\nhi = [0, {2**30}]"), targets(1, MOST, MOST))
        yield f"stay: a size of 2^126{' and 1' if at % 2 else ''}", left(wide, "1,0\n" * 4, "1,0,0\n1,0,0\n1,2147480370,1\n1,0,0\n", answer)
    # the size of a later face comes before an unequal of the first
    yield "stay: the size of the last face, and unequal inputs of the first", left(wide, "1,0\n" * 4, "1,1,0\n1,0,0\n1,0,0\n1,2147480370,1\n", "10 too-wide stay")


def shift_rows():
    for shifts in ("0\n1\n", "0\n0\n", "-0\n 01 \n"):
        yield f"stay: disturbances {shifts!r}", stays(HELD, POLICY, FACES, shifts, r=["steps 641", "bits 12"])
    for shifts, line in (("-1\n0\n", "17 no-stay 2 -1"), ("0\n2\n", "17 no-stay 1 2"), (f"0\n{MOST}\n", f"17 no-stay 1 {MOST}"), (f"{-MOST}\n{-MOST}\n", f"17 no-stay 2 {-MOST}"),
                         (f"0\n{MOST + 1}\n", "5 text 6 number 2 1"), (f"{-MOST - 1}\n0\n", "5 text 6 number 1 1"), ("1\n0\n", "5 text 6 number 2 1"), ("0\n", "5 text 6 count 1"), ("", "5 text 6 count 0"),
                         ("0\n0\n0\n", "5 text 6 count 3"), ("0\n1\n-5\n", "5 text 6 count 3"), (f"0\n1\n{MOST + 1}\n", "5 text 6 number 3 1"), ("0\n1\nx\n", "5 text 6 number 3 1"),
                         ("0\n1,1\n", "5 text 6 fields 2"), ("0,0\n1\n", "5 text 6 fields 1"), ("0\nx\n0,0\n", "5 text 6 number 2 1")):
        yield f"stay: disturbances {shifts[:40]!r}", left(HELD, POLICY, FACES, line, shifts)
    # the order in which texts are read, and that they come before the margin
    coarse, both = "1,0\n131072,-131071\n", {"d": HELD, "p": POLICY, "f": FACES, "w": "0\n0\n"}
    yield "stay: texts before the margin", left(HELD, coarse, FACES, "5 text 6 count 1", "0\n")
    yield "stay: the faces' text before that of the disturbances", left(HELD, coarse, "", "5 text 5 count 0", "0\n")
    yield "stay: the policy's text before that of the faces", left(HELD, "1,0\n", "", "5 text 2 count 1", "0\n")
    yield "stay: the margin before a face", refused(UNDER, {**both, "p": coarse, "f": "3,0,0,1,0\n4,0,0,0,1\n"}, 6, "no-margin 2 2 4 524288")
    yield "stay: the steps before a face", refused(UNDER, {**both, "d": sub(HELD, ("den = 10\nviolation = 1\ngap = 10", "den = 131072\nviolation = 1\ngap = 131072")), "f": "3,0,0,1,0\n4,0,0,0,1\n"}, 8,
                                                   "too-many-steps 8388608")
    for at, name in ((1, "d"), (2, "p"), (5, "f"), (6, "w")):
        lacking = {**both, name: None}
        yield f"stay: no {name}", refused(UNDER, {key: text for key, text in lacking.items() if text is not None}, 3, f"read-fault {at}")
    for at, name in ((5, "f"), (6, "w")):
        yield f"stay: a long {name}", refused(UNDER, {**both, name: "\n" * 4194305}, 13, f"long {at}")
    for words in ("stay d p c r", "stay d p c r f w x", "stay", "stay d p c c f", "stay d p d r f", "stay d p f r f", "stay d p c w f w", "stay d p c f f", "stay d p c r f c", "stay d p p r f"):
        yield f"usage: {words}", refused(words.split(), both, 2, "usage")
    yield "stay: one text for both faces and disturbances", refused(["stay", "d", "p", "c", "r", "f", "f"], both, 5, "text 6 fields 1")


def loop_rows():
    loop = lambda turns, shifts, **files: (["loop", "d", "c", "s", turns, "v"], {"d": DESIGN, "c": CONTROLLER, "s": "0", "v": shifts, **files})
    yield "a loop under disturbances", put(*loop("2", "1\n0\n"), "1 1 0 4096 0\n1 2 1 4096 -2224\n")
    yield "a loop whose disturbance leaves the box", (*loop("2", "2\n0\n"), 12, "1 1 0 4096 0\n", "error 12 outside-box 1 2 1\n", {}, {})
    yield "a loop whose disturbance leaves the box below", (*loop("3", "0\n-1\n0\n"), 12, "1 1 0 4096 0\n1 2 0 4096 0\n", "error 12 outside-box 1 3 1\n", {}, {})
    # after the last turn no state is tested
    for shift in (MOST, -MOST):
        yield f"a loop whose last disturbance is {shift}", put(*loop("1", f"{shift}\n"), "1 1 0 4096 0\n")
        yield f"a loop whose first disturbance is {shift}", (*loop("2", f"{shift}\n0\n"), 12, "1 1 0 4096 0\n", "error 12 outside-box 1 2 1\n", {}, {})
    for turns, shifts, fault in (("2", "0\n", "count 1"), ("2", "0\n0\n0\n", "count 3"), ("0", "0\n", "count 1"), ("1", "", "count 0"), ("1", f"{MOST + 1}\n", "number 1 1"), ("1", f"{-MOST - 1}\n", "number 1 1"),
                                 ("2", "0\n0,0\n", "fields 2"), ("1", "0\nx\n", "number 2 1"), ("1", "0\n0,0\n", "fields 2")):
        yield f"a loop of {turns} turns under {shifts!r}", refused(*loop(turns, shifts), 5, f"text 5 {fault}")
    for shifts in ("", "\n"):
        yield f"a loop of no turn under {shifts!r}", put(*loop("0", shifts), "")
        yield f"a loop of no turn from outside under {shifts!r}", put(*loop("0", shifts, s="7"), "")
    # each record of the states begins with the first disturbance
    yield "a loop of two records under disturbances", put(*loop("2", "1\n0\n", s="0\n1\n0\n"), "1 1 0 4096 0\n1 2 1 4096 -2224\n2 1 1 4096 -2224\n2 2 1 4096 -2224\n3 1 0 4096 0\n3 2 1 4096 -2224\n")
    yield "a loop whose second record leaves the box", (*loop("2", "1\n0\n", s="0\n1\n", d=sub(DESIGN, ("b = [[1]]", "b = [[0]]"))), 12, "1 1 0 4096 0\n1 2 1 4096 -2224\n2 1 1 4096 -2224\n",
                                                        "error 12 outside-box 2 2 1\n", {}, {})
    # the shift comes after the rounding: of 1/2 it is 1 and not 0
    yield "a loop whose state is a tie, under disturbances", put(*loop("2", "-1\n0\n", s="1", d=sub(DESIGN, ("den = 1\na = [[1]]\nb = [[1]]", "den = 2\na = [[1]]\nb = [[0]]"))), "1 1 1 4096 -2224\n1 2 0 4096 0\n")
    files = loop("1", "0\n")[1]
    for at, name in ((1, "d"), (2, "c"), (3, "s"), (5, "v")):
        yield f"a loop without {name}", refused(loop("1", "")[0], {key: text for key, text in files.items() if key != name}, 3, f"read-fault {at}")
    yield "a loop under long disturbances", refused(*loop("1", "\n" * 4194305), 13, "long 5")
    yield "a loop whose states' text comes before that of the disturbances", refused(*loop("1", "x", s="y"), 5, "text 3 number 1 1")
    far = "mpc-controller 1\nsize 1 1 1 1\nbits 0 0 0 128\nsteps 1\nclamp 0\nwords 4\nlo 0\nhi 1\nP 0\nT 42535295865117307932921825928971026431\nW 0\nG 0\nE 0\nb 0\nend\n"
    wide = sub(DESIGN, ("den = 1\na = [[1]]\nb = [[1]]", "den = 3\na = [[0]]\nb = [[1]]"))
    yield "turn above its limit, under disturbances", refused(*loop("0", "", d=wide, c=far), 10, "too-wide turn")
    yield "the disturbances' text before turn", refused(*loop("0", "0\n", d=wide, c=far), 5, "text 5 count 1")
    yield "turn above its limit, no record, under disturbances", put(*loop("1", "0\n", d=wide, c=far, s=""), "")
    for words in ("loop d c s 1 v v", "loop d c s 01 v", "loop d c s 1000001 v"):
        yield f"usage: {words}", refused(words.split(), files, 2, "usage")


def example_rows():
    """The examples whose folder has faces, under its disturbances."""
    for folder in sorted(map(os.path.dirname, glob.glob(os.path.join(EXAMPLES, "**", "faces.csv"), recursive=True))):
        texts = []
        for name in ("design.toml", "policy.csv", "faces.csv", "disturbances.csv"):
            with open(os.path.join(folder, name), newline="") as file:
                texts.append(file.read())
        yield f"stay: {os.path.relpath(folder, EXAMPLES)}", stays(*texts, r=["end"])


def rows():
    for some in (face_rows, exponent_rows, size_rows, shift_rows, loop_rows, example_rows):
        yield from some()
