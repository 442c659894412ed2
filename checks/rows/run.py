"""Runs worked examples whose answers were computed by hand, as commands over files, and compares the status, both outputs and every file.

    python3 -m checks.rows.run PROGRAM [--valgrind] [--only COMMAND] [--limits]

With --only these are the rows of one command alone, as for a program that has no other: a row whose words are of another is asked, too, and must be refused as no
command's; and a design of version 3 as none of its. With --valgrind each runs under valgrind's memory checker, which must have nothing to report: no invalid read or write, no branch on
what was never written, no block that is lost. With --limits also those at the limits. The rows of fine designs, whose exact numbers pass 2^126, of fine corners, of other faces than the worked ones and of
the examples' listings have the numbers of the model in ../fuzz.
"""
import contextlib
import itertools
import os
import subprocess
import sys
import tempfile

from ..fuzz.command_table import OUTPUTS
from . import c_rows, lean_rows, limit_rows, listing_rows, settle_rows, split_rows, stay_rows, third_rows
from .texts import GENERATE, LIMITS, SOLVE, costs, in_second, limits, plant_over, put, refused, steep, sub, targets, violations, written
from .worked_texts import AXIS, AXIS_POLICY, CONTROLLER, DESIGN, JSON, LISTING, POLICY, REPORT

PROGRAM = os.path.abspath(sys.argv[1])
VALGRIND = "--valgrind" in sys.argv[2:]
AT_LIMITS = "--limits" in sys.argv[2:]
ONLY = sys.argv[sys.argv.index("--only") + 1] if "--only" in sys.argv[2:-1] else None


def rows():
    """The name, and then the words, the files, the status, both outputs, whole files that are left, and lines of such files."""
    base = {"d": DESIGN, "p": POLICY}
    yield "first design", (GENERATE, base, 0, "", "", {"c": CONTROLLER, "r": REPORT}, {})
    yield "first design, JSON", (["generate", "d", "p", "c", "r.json"], base, 0, "", "", {"c": CONTROLLER, "r.json": JSON}, {})
    yield "first controller at 1", put(SOLVE, {"c": CONTROLLER, "s": "1"}, "4096 -2224\n")
    yield "first controller at 0", put(SOLVE, {"c": CONTROLLER, "s": "0\n"}, "4096 0\n")
    yield "both states", put(SOLVE, {"c": CONTROLLER, "s": "1\r\n0\r\n"}, "4096 -2224\n4096 0\n")
    yield "no states", put(SOLVE, {"c": CONTROLLER, "s": ""}, "")
    yield "finer targets", written(sub(DESIGN, targets(10, 1, 10)), POLICY, c=["clamp 65536"], r=[
        "steps 641", "bits 11", "width 28", "violation 82270494708 1099511627776", "gap 219045429248 1099511627776"])
    yield "least slack", written(DESIGN, "1,0\n65536,-65535\n", r=["margin 1 65536", "cost 1", "multiplier 65536", "steps 32768", "bits 36"])
    yield "half that slack", refused(GENERATE, {"d": DESIGN, "p": "1,0\n131072,-131071\n"}, 6, "no-margin 2 2 4 524288")
    yield "a box of one point", (GENERATE, {"d": sub(DESIGN, ("lo = [0]", "lo = [1]")), "p": "8,-7\n8,-7\n"}, 0, "", "",
                                 {"c": sub(CONTROLLER, ("lo 0\n", "lo 1\n")), "r": REPORT}, {})
    yield "no cost", written(sub(DESIGN, ("hi = [1]", "hi = [0]")), "1,0\n1,0\n", c=["P 16", "T 0", "W 8 -8 8", "clamp 128"], r=[
        "margin 16384 65536", "multiplier 1", "steps 1", "bits 5", "width 13", "violation 4922032521216 1099511627776", "gap 523986010112 1099511627776"])
    yield "a row that no input moves", written(sub(DESIGN, ("[0, -4, 4]]", "[0, -4, 4], [4, 0, 5]]")), POLICY, r=["margin 8192 65536", "steps 4", "bits 10"])
    yield "a row that no corner keeps", refused(GENERATE, {"d": sub(DESIGN, ("[0, -4, 4]]", "[0, -4, 4], [4, 0, 4]]")), "p": POLICY}, 6, "no-margin 2 3 0 32")
    yield "the most steps", written(sub(DESIGN, targets(65536, 1, 65536)), POLICY, r=["steps 4194304", "bits 24", "width 54"])
    yield "too many steps", refused(GENERATE, {"d": sub(DESIGN, targets(131072, 1, 131072)), "p": POLICY}, 8, "too-many-steps 8388608")
    yield "the steepest rows", written(steep(1400000), "1,0\n1,0\n", r=["step 40", "multiplier 1", "steps 4194304", "bits 21", "width 103"])
    yield "steeper rows", refused(GENERATE, {"d": steep(1500000), "p": "1,0\n1,0\n"}, 7, "curvature")
    yield "a certificate", written(sub(DESIGN, ("stages = 1\n", "stages = 2\n"), ("a = [[1]]", "a = [[2]]"), ("stage = [[1, 0, 1]]", "stage = []"), ("final = []", "final = [[1, 0, 100]]"), (
        LIMITS, "den = 1\nstage = [[0, 1, 1], [0, 1, 2], [0, -1, 1]]\nfinal = []\n"), targets(1, 16, 16)), "1,0,0\n1,0,0\n", r=[
        "margin 65536 65536", "cost 1600", "multiplier 1600", "step 2", "steps 1600", "bits 24", "gap 7268221007146 1099511627776"])
    yield "one axis of a satellite", written(AXIS, AXIS_POLICY, r=[
        "margin 65536 65536", "cost 159", "multiplier 159", "step 1", "steps 20352", "bits 28", "words 46", "violation 34845909021 1099511627776",
        "gap 77301133813 1099511627776", "undercut 5540499534339 1099511627776"])
    yield "too fine", refused(GENERATE, {"d": sub(DESIGN, targets(1048576, 16777216, 1)), "p": "1,0\n65536,-65535\n"}, 9, "too-fine 151000321")
    yield "a large plant", refused(GENERATE, {"d": sub(DESIGN, ("stages = 1\n", "stages = 20\n"), ("a = [[1]]", "a = [[2147483647]]")), "p": ("1" + ",0" * 20 + "\n") * 2},
                                   10, "too-wide prediction")
    for line, old, new in ((19, "end\n", ""), (2, "size 1 1", "size 1  1"), (10, "T 0", "T -0"), (4, "steps 4", "steps 04"), (20, "end\n", "end\nx"), (6, "words 6", "words 7"),
                           (1, "mpc-controller 1", "mpc-controller 1\r"), (5, "clamp 32768", "clamp 85070591730234615865843651857942052865")):
        yield f"controller: {new or 'no end'}", refused(SOLVE, {"c": sub(CONTROLLER, (old, new)), "s": "1"}, 11, f"controller 1 line {line}")
    yield "gains too large", refused(SOLVE, {"c": sub(CONTROLLER, ("W 256 -256", "W 512 -256")), "s": "1"}, 11, "controller 1 unsafe")
    yield "an outside state", refused(SOLVE, {"c": CONTROLLER, "s": "1\n2\n"}, 12, "outside-box 2 0 1")
    yield "no controller", refused(SOLVE, {"s": "1"}, 3, "read-fault 1")
    yield "no states file", refused(SOLVE, {"c": CONTROLLER}, 3, "read-fault 2")
    yield "no design", refused(GENERATE, {"p": POLICY}, 3, "read-fault 1")
    yield "no policy file", refused(GENERATE, {"d": DESIGN}, 3, "read-fault 2")
    yield "a long design", refused(GENERATE, {"d": DESIGN + "#" * (4194305 - len(DESIGN)), "p": POLICY}, 13, "long 1")
    yield "the longest design", (GENERATE, {"d": DESIGN + "#" * (4194304 - len(DESIGN)), "p": POLICY}, 0, "", "", {"c": CONTROLLER, "r": REPORT}, {})
    yield "long states", refused(SOLVE, {"c": CONTROLLER, "s": "\n" * 4194305}, 13, "long 2")
    for fault, design in (("not-toml", "x ="), ("key 13", sub(DESIGN, ("[limits]\nden = 4\n", "[limits]\n"))), ("key 0", "note = 1\n" + DESIGN), ("shape 6", sub(DESIGN, ("a = [[1]]", "a = [[1, 2]]"))),
                          ("shape 21", sub(DESIGN, ("gap = 1", "gap = 1.0"))), ("range 10", sub(DESIGN, ("input = [1]", "input = [0]"))), ("range 18", sub(DESIGN, ("lo = [0]", "lo = [2]"))),
                          ("range 2", sub(DESIGN, ("states = 1", "states = 5"))), ("not-toml", sub(DESIGN, ("states = 1", "states = 9223372036854775808")))):
        yield f"design: {fault}", refused(GENERATE, {"d": design, "p": POLICY}, 5, f"text 1 {fault}")
    for fault, policy in (("fields 2", "1,0\n8\n"), ("number 2 2", "1,0\n8,x\n"), ("number 1 1", "0,0\n8,-7\n"), ("count 3", POLICY + "8,-7\n"), ("count 0", "")):
        yield f"policy: {fault}", refused(GENERATE, {"d": DESIGN, "p": policy}, 5, f"text 2 {fault}")
    for policy in ("1,0\n8,-07\n", "1,0\n8, -7\n", "\r\n\n1,0\r\n\r\n8,-7"):
        yield f"policy {policy!r}", (GENERATE, {"d": DESIGN, "p": policy}, 0, "", "", {"c": CONTROLLER, "r": REPORT}, {})
    loop, files = ["loop", "d", "c", "s"], {"d": DESIGN, "c": CONTROLLER, "s": "1"}
    for turns, out in (("0", ""), ("1", "1 1 1 4096 -2224\n"), ("3", "1 1 1 4096 -2224\n1 2 0 4096 0\n1 3 0 4096 0\n")):
        yield f"loop of {turns} turns", put([*loop, turns], files, out)
    yield "a loop that leaves the box", ([*loop, "5"], {**files, "d": sub(DESIGN, ("a = [[1]]", "a = [[3]]"))}, 12, "1 1 1 4096 -2224\n", "error 12 outside-box 1 2 1\n", {}, {})
    plant = lambda den, a, b: sub(DESIGN, ("den = 1\na = [[1]]\nb = [[1]]", f"den = {den}\na = [[{a}]]\nb = [[{b}]]"))
    for what, design, out in (("a tie, upward", plant(2, 1, 0), "1 1 1 4096 -2224\n1 2 1 4096 -2224\n"), ("a tie below 0, upward", plant(2, -1, 0), "1 1 1 4096 -2224\n1 2 0 4096 0\n"),
                              ("a state rounded from below 0", plant(1, 1, 2), "1 1 1 4096 -2224\n1 2 0 4096 0\n")):
        yield f"the next state: {what}", put([*loop, "2"], {**files, "d": design}, out)
    second = sub(DESIGN, ("states = 1", "states = 2"), ("a = [[1]]\nb = [[1]]", "a = [[1, 0], [0, 2]]\nb = [[1], [0]]"), ("stage = [[1, 0, 1]]", "stage = [[1, 0, 0, 1]]"), (
        LIMITS, "den = 4\nstage = [[0, 0, 4, 4], [0, 0, -4, 4]]\nfinal = [[4, 0, 1]]\n"), ("lo = [0]\nhi = [1]", "lo = [0, 0]\nhi = [1, 3]"))
    looking_at_one = sub(CONTROLLER, ("size 1 1 1 3", "size 2 1 1 3"), ("words 6", "words 7"), ("lo 0\nhi 1\nP 512\n", "lo 0 0\nhi 1 3\nP 512 0\n"), ("E 0\nE 0\nE 1024\n", "E 0 0\nE 0 0\nE 1024 0\n"))
    for what, state, tail, out in (("from a state of the box", "1,1", "1 3 2", "1 1 1 1 4096 -2224\n1 2 0 2 4096 0\n"), ("at its start", "0,4", "1 1 2", ""), ("both at its start", "2,4", "1 1 1", "")):
        yield f"a coordinate leaves {what}", ([*loop, "9"], {"d": second, "c": looking_at_one, "s": state}, 12, out, f"error 12 outside-box {tail}\n", {}, {})
    far = "mpc-controller 1\nsize 1 1 1 1\nbits 0 0 0 128\nsteps 1\nclamp 0\nwords 4\nlo 0\nhi 1\nP 0\nT 42535295865117307932921825928971026431\nW 0\nG 0\nE 0\nb 0\nend\n"
    yield "turn at its limit", put([*loop, "1"], {"d": plant(2, 0, 1), "c": far, "s": "0"}, "1 1 0 1 -42535295865117307932921825928971026431\n")
    for state, turns in (("0", "1"), ("2", "1"), ("0", "0")):
        yield f"turn above its limit, {turns} turns from {state}", refused([*loop, turns], {"d": plant(3, 0, 1), "c": far, "s": state}, 10, "too-wide turn")
    yield "turn above its limit, no record", put([*loop, "1"], {"d": plant(3, 0, 1), "c": far, "s": ""}, "")
    yield "a loop of two sizes", refused([*loop, "1"], {**files, "d": AXIS}, 14, "mismatch states 2 1")
    for words in ([], ["solve", "c"], ["generate", "d", "p", "c", "c"], ["generate", "d", "p", "d", "r"], [*loop, "01"], [*loop, "1000001"], ["demo", "-1"], ["demo", "4294967296"], ["frob"]):
        yield f"usage: {words}", refused(words, {**base, **files}, 2, "usage")
    yield "made design", (["demo", "7"], {}, 0, None, "", {}, {"": [
        "mpc-report 1", "margin 16384 65536", "cost 63", "multiplier 252", "step 1", "steps 8064", "bits 31", "words 78", "end"]})


def version_rows():
    """Controllers with an exponent for each row; the sums are an independent model's."""
    second = lambda exponents, *changes: sub(CONTROLLER, ("mpc-controller 1", "mpc-controller 2"), ("words 6\n", f"words 6\nexps {exponents}\n"), *changes)
    for exponents, out in (("1 1 1", "4096 -2224\n"), ("0 1 1", "4096 -2224\n"), ("1 0 1", "4096 -2224\n"), ("1 1 0", "4096 -2372\n"), ("0 0 0", "4096 -2372\n")):
        yield f"version 2: exponents {exponents}", put(SOLVE, {"c": second(exponents), "s": "1"}, out)
    yield "version 2: a clamp that a row's power doesn't divide", put(SOLVE, {"c": second("1 1 0", ("clamp 32768", "clamp 255")), "s": "1"}, "4096 -2141\n")
    for exponents in ("0 1 2", "0 1", "0 1 1 1", "0 1 -1", "0 1 01", ""):
        yield f"version 2: exponents {exponents!r}", refused(SOLVE, {"c": second(exponents), "s": "1"}, 11, "controller 1 line 7")
    yield "version 2: none", refused(SOLVE, {"c": sub(CONTROLLER, ("mpc-controller 1", "mpc-controller 2")), "s": "1"}, 11, "controller 1 line 7")
    yield "version 1: exponents", refused(SOLVE, {"c": sub(CONTROLLER, ("words 6\n", "words 6\nexps 1 1 1\n")), "s": "1"}, 11, "controller 1 line 7")
    yield "version 2: exponents after the box", refused(SOLVE, {"c": sub(CONTROLLER, ("mpc-controller 1", "mpc-controller 2"), ("hi 1\n", "hi 1\nexps 1 1 1\n")), "s": "1"}, 11, "controller 1 line 7")
    yield "version 3: the words of version 1", refused(SOLVE, {"c": sub(CONTROLLER, ("mpc-controller 1", "mpc-controller 3")), "s": "1"}, 11, "controller 1 line 6")
    yield "version 4", refused(SOLVE, {"c": sub(CONTROLLER, ("mpc-controller 1", "mpc-controller 4")), "s": "1"}, 11, "controller 1 line 1")
    yield "version 2: a width that its sums pass", refused(SOLVE, {"c": second("1 1 0", ("bits 10 0 1 26", "bits 10 0 1 25")), "s": "1"}, 11, "controller 1 unsafe")
    for version, size, line in ((1, "5 1 1 3", 2), (1, "1 1 21 3", 2), (1, "1 1 1 253", 2), (2, "6 1 1 3", 6), (2, "1 1 30 3", 6), (2, "1 1 1 372", 6), (2, "7 1 1 3", 2), (2, "1 1 31 3", 2),
                                (2, "1 1 1 373", 2)):
        text = sub(CONTROLLER, ("mpc-controller 1", f"mpc-controller {version}"), ("size 1 1 1 3", f"size {size}"))
        yield f"version {version}: size {size}", refused(SOLVE, {"c": text, "s": "1"}, 11, f"controller 1 line {line}")
    six = "mpc-controller 2\nsize 6 1 1 1\nbits 0 0 1 16\nsteps 2\nclamp 9\nwords 9\nexps 0\nlo 0 0 0 0 0 0\nhi 1 2 3 4 5 6\nP 1 2 3 4 5 6\nT 0\nW -1\nG -1\nE 1 1 1 1 1 1\nb 1\nend\n"
    yield "version 2: six states", put(SOLVE, {"c": six, "s": "1,2,3,4,5,6\n0,0,0,0,0,1\n"}, "2 -178\n2 -8\n")
    yield "version 2: a loop", put(["loop", "d", "c", "s", "2"], {"d": DESIGN, "c": second("1 1 0"), "s": "1"}, "1 1 1 4096 -2372\n1 2 0 4096 0\n")


def second_rows():
    """Rows of designs of version 2, as those above: the exponents of the rows by hand where the plan has one entry or no stage moves another, the bounds by the model."""
    base, rolled = in_second(DESIGN), sub(CONTROLLER, ("mpc-controller 1", "mpc-controller 2"), ("words 6\n", "words 6\nexps 0 1 1\n"))
    bounds = violations(6651831648256, 8850854903808, 8850854903808)
    report = sub(REPORT, ("mpc-report 1", "mpc-report 2"), ("violation 8850854903808 1099511627776", "\n".join(bounds)))
    told = sub(JSON, ('"version":"1"', '"version":"2"'), ('"violation":"8850854903808"', '"violation":"8850854903808","violations":["6651831648256","8850854903808","8850854903808"]'))
    yield "version 2: first design", (GENERATE, {"d": base, "p": POLICY}, 0, "", "", {"c": rolled, "r": report}, {})
    yield "version 2: first design, JSON", (["generate", "d", "p", "c", "r.json"], {"d": base, "p": POLICY}, 0, "", "", {"c": rolled, "r.json": told}, {})
    yield "version 2: a box of one point", (GENERATE, {"d": sub(base, ("lo = [0]", "lo = [1]")), "p": "8,-7\n8,-7\n"}, 0, "", "", {"c": sub(rolled, ("lo 0\n", "lo 1\n")), "r": report}, {})
    yield "version 2: finer targets", written(sub(base, targets(10, 1, 10)), POLICY, c=["exps 0 1 1", "clamp 65536"], r=[
        "mpc-report 2", "steps 641", "bits 11", "width 28", *violations(68548040695, 82270494708, 82270494708), "gap 219045429248 1099511627776", "undercut 658163957664 1099511627776"])
    # 2^8 * 32 is 3822 above the squares, 4370: there is no room for 4096 more, there is for 256 + 512 + 1024, and then for 15 times 16, 1 and 1: 4 is the most
    flat = sub(base, limits(4, [[0, 64, 64], [0, -16, 64], [0, 4, 64], [0, 1, 64]], [[1, 9]]), targets(1, 1024, 1))
    found = [563293685022720, 317003080400896, *[299410894356480] * 3]
    yield "version 2: rows of several slopes", written(flat, "1,0\n1,0\n", c=["bits 8 0 8 29", "clamp 131072", "exps 8 5 4 4 4"], r=[
        "step 8", "steps 1", "words 8", *violations(*found), "gap 343731601408 1099511627776", "undercut 563293685022720 1099511627776"])
    listed = ",".join(f'"{number}"' for number in found)
    yield "version 2: rows of several slopes, JSON", (["generate", "d", "p", "c", ".json"], {"d": flat, "p": "1,0\n1,0\n"}, 0, "", "", {
        ".json": '{"bits":"8","cost":"1","gap":"343731601408","margin":"131072","multiplier":"1","step":"8","steps":"1","undercut":"563293685022720","version":"2",'
        f'"violation":"563293685022720","violations":[{listed}],"width":"29","words":"8"}}\n'}, {"c": ["exps 8 5 4 4 4"]})
    yield "version 2: the steepest rows", written(in_second(steep(1400000)), "1,0\n1,0\n", c=["exps 40"], r=["step 40", *violations(576461119307644930)])
    yield "version 2: steeper rows", refused(GENERATE, {"d": in_second(steep(1500000)), "p": "1,0\n1,0\n"}, 7, "curvature")
    yield "version 2: too many steps", refused(GENERATE, {"d": sub(base, targets(131072, 1, 131072)), "p": POLICY}, 8, "too-many-steps 8388608")
    yield "version 2: a certificate", written(sub(base, ("stages = 1\n", "stages = 2\n"), ("a = [[1]]", "a = [[2]]"), ("stage = [[1, 0, 1]]", "stage = []"), ("final = []", "final = [[1, 0, 100]]"), (
        LIMITS, "den = 1\nstage = [[0, 1, 1], [0, 1, 2], [0, -1, 1]]\nfinal = []\n"), targets(1, 16, 16)), "1,0,0\n1,0,0\n", c=["exps 0 1 2 2 2 2"], r=[
        "step 2", "steps 1600", "bits 24", *violations(5502100777010, 6601612404786, *[8800635660338] * 4), "gap 7268221007146 1099511627776"])
    # beside the report of version 1: (2^0 + 2^1) 2^40 R / K in place of 2^42 R / K
    yield "version 2: one axis of a satellite", written(in_second(AXIS), AXIS_POLICY, c=["exps 1 1 0 0 0 0" + 28 * " 1"], r=[
        "step 1", "steps 20352", "bits 28", *violations(*[34845909021] * 2, *[26255974429] * 4, *[34845909021] * 28), "gap 77301133813 1099511627776", "undercut 5540499534339 1099511627776"])
    unit = lambda *at: [int(i in at) for i in range(6)]
    six = sub(base, ("states = 1", "states = 6"), ("a = [[1]]\nb = [[1]]", f"a = {[unit(i) for i in range(6)]}\nb = [[1], [2], [0], [1], [0], [-1]]"), costs(1, 1, 1, [[*unit(0, 3), 0, 1]]), limits(
        4, [[*unit(), 4, 16], [*unit(), -1, 16]], [[*unit(0, 1), 16], [0, 0, 0, 0, 2, 8, 64]]), ("lo = [0]\nhi = [1]", f"lo = {unit()}\nhi = {[1] * 6}"))
    yield "version 2: six states", written(six, 64 * "1,0\n", c=["size 6 1 1 4", "exps 0 0 0 1", "P 102 0 0 102 0 0", "W 26 -6 19 -51", "E 0 0 0 0 128 512"], r=[
        "margin 229376 65536", "cost 4", "multiplier 2", "step 1", "steps 1", "bits 8", "words 12", *violations(*[6821498585088] * 3, 9020521840640), "gap 448857636864 1099511627776"])
    yield "version 2: 63 corners of six states", refused(GENERATE, {"d": six, "p": 63 * "1,0\n"}, 5, "text 2 count 63")
    yield "version 1: six states", refused(GENERATE, {"d": sub(six, ("version = 2", "version = 1")), "p": 64 * "1,0\n"}, 5, "text 1 range 2")
    # no input moves the state, so each stage is by itself, and the final rows cost nothing
    most = sub(base, ("stages = 1\n", "stages = 30\n"), ("b = [[1]]", "b = [[0]]"), costs(1, 1, 3, []), limits(4, 3 * [[0, 8, 8], [0, -4, 8], [0, 2, 8], [0, 1, 8]], 12 * [[4, 5]]))
    yield "version 2: the most stages and rows", written(most, 2 * ("1" + 30 * ",0" + "\n"), c=["size 1 1 30 372", "exps" + 30 * " 2 1 1 1 3 3 3 2 3 3 3 2" + 12 * " 0"], r=[
        "step 3", "steps 2", "bits 21", "words 433", *violations(6621254127165, 5521742499389), "violation 372 4971986685501 1099511627776"])
    # with this bound and the next one `curvature` is below and above 2^126 where the rows count 16 times
    wide = ("den = 1\na = [[1]]\nb = [[1]]", "den = 1048576\na = [[1048576]]\nb = [[1048576]]")
    for bound, exponents, found in ((1431655763, "3 2 2", (9622874226688, *[7423850971136] * 2)), (1431655764, "3 3 3", [9622874226688] * 3)):
        yield f"version 2: room for lower exponents, a bound of {bound}", written(sub(base, wide, costs(1, 256, 1, []), limits(1, [[0, 2, bound], [0, 1, 4], [0, -1, 4]])), "1,0\n1,0\n", c=[
            f"exps {exponents}"], r=["step 3", "steps 2", "bits 5", *violations(*found), "undercut 9622874226688 1099511627776"])
    # and of enclosures `rows`
    for bound, exponents, flatter in ((524285, "3 1 3 1", 5669491048448), (524286, "3 3 3 3", 8968025931776)):
        half = plant_over(2, 1048576, 524288, 524288)
        yield f"version 2, fine: room for lower exponents, a bound of {bound}", written(sub(base, *half, costs(1, 1024, 1, []), limits(1, [[0, 2, bound], [0, 1, 4]])), 2 * "1,0,0\n", c=[
            f"exps {exponents}"], r=["step 3", "steps 2", "bits 8", *violations(*2 * (8968025931776, flatter)), "gap 171932909568 1099511627776"])
    for controller in (rolled, CONTROLLER):
        yield f"a loop with a design of version 2 and {controller[:16]}", put(["loop", "d", "c", "s", "2"], {"d": base, "c": controller, "s": "1"}, "1 1 1 4096 -2224\n1 2 0 4096 0\n")
    yield "a loop of six states and one", refused(["loop", "d", "c", "s", "1"], {"d": six, "c": CONTROLLER, "s": "1"}, 14, "mismatch states 6 1")
    lasts = lambda version, stages: sub(DESIGN, ("version = 1", f"version = {version}"), ("stages = 1\n", f"stages = {stages}\n"))
    has = lambda version, states: sub(DESIGN, ("version = 1", f"version = {version}"), ("states = 1", f"states = {states}"))
    for what, design, fault in (
        ("version 0", has(0, 1), "1 range 1"), ("version 4", has(4, 9), "1 range 1"), ("version 2.0", has("2.0", 1), "1 shape 1"), ("version 2 as a word", has('"2"', 1), "1 shape 1"),
        ("5 states, version 1", has(1, 5), "1 range 2"), ("5 states, version 2", has(2, 5), "1 shape 6"), ("7 states, version 2", has(2, 7), "1 range 2"), ("no state, version 2", has(2, 0), "1 range 2"),
        # the policy is no longer of the design's size
        ("21 stages, version 1", lasts(1, 21), "1 range 4"), ("21 stages, version 2", lasts(2, 21), "2 fields 1"), ("30 stages, version 2", lasts(2, 30), "2 fields 1"),
        ("31 stages, version 2", lasts(2, 31), "1 range 4"), ("4 inputs, version 2", sub(base, ("inputs = 1", "inputs = 4")), "1 range 3"),
    ):
        yield f"design: {what}", refused(GENERATE, {"d": design, "p": POLICY}, 5, f"text {fault}")


def fine_rows():
    """Rows of fine designs, as those above."""
    coast = lambda stages, corners=2: ("1" + ",0" * stages + "\n") * corners
    whole, half, at_zero = plant_over(2, 1048576, 1048576, 1048576), plant_over(2, 1048576, 524288, 524288), ("hi = [1]", "hi = [0]")
    two_stages = lambda *changes: sub(DESIGN, *whole, limits(131072, [[0, 131072, 131072], [0, -131072, 131072]], [[131072, 32768]]), *changes)
    yield "fine: two stages", written(two_stages(), "1,0,0\n8,-7,0\n", r=[
        "margin 8192 65536", "cost 1", "multiplier 8", "step 1", "steps 4", "bits 14", "words 10", "violation 8808861011968 1099511627776", "gap 102143918080 1099511627776"])
    yield "fine: too many steps", refused(GENERATE, {"d": two_stages(targets(131072, 1, 131072)), "p": "1,0,0\n8,-7,0\n"}, 8, "too-many-steps 8388608")
    yield "fine: too fine", refused(GENERATE, {"d": two_stages(targets(1048576, 16777216, 1)), "p": "1,0,0\n65536,-65535,0\n"}, 9, "too-fine 2013294081")
    # with the first bound the exact `curvature` is 2^126; the gap tells the class
    for what, bound, gap in (("at", 1048576, 275951648768), ("above", 1048577, 277025390592)):
        design = sub(DESIGN, *half, costs(1, 1, 1, []), limits(1048576, [[0, 0, 1048576], [0, 0, bound]]))
        yield f"exact numbers {what} their limit", written(design, coast(2), c=["G 0 0", "b 64 64 64 64"], r=["steps 1", "bits 6", f"gap {gap} 1099511627776"])
    axis = sub(AXIS, ("den = 8\na = [[8, 4], [0, 8]]\nb = [[1], [4]]", "den = 1000\na = [[1000, 500], [0, 1000]]\nb = [[128], [333]]"), (AXIS[AXIS.index("[limits]") : AXIS.index(
        "[box]")], "[limits]\nden = 1000\nstage = [[0, 0, 1000, 4000], [0, 0, -1000, 4000], [1000, 0, 0, 8000], [-1000, 0, 0, 8000], [0, 1000, 0, 2000], [0, -1000, 0, 2000]]\n"
        "final = [[1000, 0, 8000], [-1000, 0, 8000], [0, 1000, 2000], [0, -1000, 2000]]\n"))
    yield "fine: one axis of a satellite", written(axis, AXIS_POLICY, r=[
        "margin 65536 65536", "cost 159", "multiplier 159", "step 2", "steps 40704", "bits 29", "words 46", "violation 34594656008 1099511627776", "gap 37351904745 1099511627776",
        "undercut 5500550305272 1099511627776"])
    # the input weights' curvature, which is to cover the squares of the rows, is 2^128 at step 0
    yield "fine: a wide comparison of squares", written(sub(DESIGN, *plant_over(3, 262144, 131072, 131072), costs(256, 1, 256, [[1, 0, 256]]), limits(1048576, [[0, 1, 1048576]])), coast(3), r=[
        "margin 65536 65536", "cost 1", "multiplier 1", "step 0", "steps 1", "bits 7", "width 16", "words 10", "violation 2383841067008 1099511627776", "gap 184817811456 1099511627776"])
    yield "fine: the steepest rows", written(sub(DESIGN, *half, limits(1, [[0, 1048576, 1048576]]), targets(1, 1048576, 1)), coast(2), c=["clamp 73786976294838206464"], r=[
        "margin 68719476736 65536", "multiplier 1", "step 40", "steps 4194304", "bits 25", "gap 121580945409 1099511627776"])
    yield "fine: steeper rows", refused(GENERATE, {"d": sub(DESIGN, *half, limits(1, [[0, 1500000, 1]])), "p": coast(2)}, 7, "curvature")
    # of any bits from 42 on the clamp would pass 2^126
    clamped = sub(DESIGN, ("states = 1", "states = 2"), ("stages = 1\n", "stages = 2\n"), ("den = 1\na = [[1]]\nb = [[1]]", "den = 2048\na = [[2048, 0], [0, 1024]]\nb = [[0], [1024]]"), costs(
        1, 32, 1, [[32, 0, 0, 134217728]]), limits(1, [[1, 0, 1048576, 1]]), ("grid = 0\nlo = [0]\nhi = [1]", "grid = 16\nlo = [65535, 0]\nhi = [65535, 0]"), targets(1, 2147483647, 1))
    yield "fine: a clamp above the limit", refused(GENERATE, {"d": clamped, "p": coast(2, 4)}, 8, "too-many-steps 36027697658330625")
    for quantity, stages, changes in (
        ("prediction", 2, [*plant_over(2, 1, 2147483646, 1), costs(1, 1, 1, []), limits(1, [[0, 1, 1]])]),
        # its floor would be 2^101 * 2147483647
        ("hessian", 1, [*plant_over(1, 1048576, 1048576, 1048576), costs(1, 1048576, 2147483647, []), limits(1048576, [[0, 1048576, 1048576]])]),
        # by its radii alone
        ("hessian", 2, [*plant_over(2, 999999, 999999, 499999), costs(1, 1024, 1, [[1024, 0, 262144]]), limits(4, [[0, 16, 1]])]),
        ("rows", 3, [*plant_over(3, 65536, 32768, 1), costs(1, 1, 1, []), limits(8192, [[1, 8192000, 2]])]),
        ("curvature", 2, [*plant_over(2, 2048, 682, 2048), costs(8192, 1024, 1, []), limits(128, [[0, 128000, 128]])]),
        ("error", 3, [*plant_over(3, 32768, 10922, 1), costs(1, 1, 1, [[1, 16384, 1]]), limits(2048, [[1, 1, 2]]), targets(1, 1048576, 1)]),
        ("descent", 3, [*plant_over(3, 8192, 8192, 8192), costs(1, 1, 1, [[1, 0, 134217728]]), limits(512, [[0, 1, 512]])]),
        ("width", 3, [*plant_over(3, 1000, 500, 1000), costs(262144, 1, 1, []), limits(256, [[0, 256000, 256]]), targets(1, 1048576, 1)]),
    ):
        yield f"fine: {quantity} over {stages} stages", refused(GENERATE, {"d": sub(DESIGN, *changes, at_zero), "p": coast(stages)}, 10, f"too-wide {quantity}")


def corner_rows():
    """Rows of designs with a policy whose exact corners pass the limit, as those above."""
    grid = lambda bits, low, high: ("grid = 0\nlo = [0]\nhi = [1]", f"grid = {bits}\nlo = [{low * 2**bits}]\nhi = [{high * 2**bits}]")
    plant = lambda den, a, b: plant_over(1, den, a, b)[1]
    plans = lambda den, *numerators: "".join(f"{den},{','.join(map(str, it))}\n" for it in numerators)
    finest, q = sub(DESIGN, grid(24, 0, 1)), 2**40
    yield "fine corners: the finest grid", written(finest, plans(q, [0], [-7 * 2**37]), r=[
        "margin 8192 65536", "cost 1", "multiplier 8", "step 1", "steps 4", "bits 24", "words 6", "violation 8796096364545 1099511627776", "gap 26738689 1099511627776"])
    yield "fine corners: the least slack", written(finest, plans(q, [0], [-3 * 2**38 - 2**24]), r=["margin 1 65536", "cost 1", "multiplier 65536", "steps 32768"])
    yield "fine corners: a quarter of that slack", refused(GENERATE, {"d": finest, "p": plans(q, [0], [-3 * 2**38 - 2**22])}, 6, f"no-margin 2 3 {2**24} {2**42}")
    yield "fine corners: a limit that is exceeded", refused(GENERATE, {"d": finest, "p": plans(q, [1], [1])}, 6, f"no-margin 2 3 {-3 * 2**40 - 4} {2**42}")
    # the second plan is 2^-41 below -7/2, and keeps a slack of more than 1/8; with its radius that is not seen. Both plans go further than the box
    quarter = sub(finest, plant(4, 4, 1), limits(4, [[0, 4, 16], [0, -4, 16]], [[4, 1]]))
    yield "fine corners: long numerators", written(quarter, plans(q - 1, [-(2**41)], [-7 * 2**39 + 3]), r=["margin 8191 65536", "cost 13", "multiplier 105"])
    axis = sub(AXIS, ("stages = 5", "stages = 10"), ("den = 8\na = [[8, 4], [0, 8]]\nb = [[1], [4]]", "den = 65536\na = [[65536, 32768], [0, 65536]]\nb = [[8192], [32768]]"), (
        "[1, 0, 0, 8], [-1, 0, 0, 8]", "[1, 0, 0, 16], [-1, 0, 0, 16]"), ("final = [[1, 0, 8], [-1, 0, 8]", "final = [[1, 0, 16], [-1, 0, 16]"))
    yield "fine corners: ten stages of a satellite's axis", written(axis, plans(1, *[[0] * 10] * 4), r=[
        "margin 65536 65536", "cost 487", "multiplier 487", "step 1", "steps 62336", "bits 36", "words 86", "violation 34384489473 1099511627776",
        "gap 12053787758 1099511627776", "undercut 16745246373351 1099511627776"])
    # 2/3 and 1/3, of which the first has the midpoint above and the second below, add up to 1 with a radius of 2
    thirds = lambda bits, bound: sub(DESIGN, ("states = 1", "states = 2"), ("den = 1\na = [[1]]\nb = [[1]]", "den = 3\na = [[1, 1], [1, 0]]\nb = [[0], [0]]"), costs(1, 1, 1, [
        [1, 1, 0, 1]]), limits(65536, [[0, 0, 65536, 262144]], [[65536, 65536, bound]]), ("grid = 0\nlo = [0]\nhi = [1]", f"grid = {bits}\nlo = [{2**bits}, {2**bits}]\nhi = [{2**bits}, {2**bits}]"))
    still = lambda den: plans(den, *[[0]] * 4)
    yield "exact corners: whole slack and cost", written(thirds(0, 131072), still(1), r=["margin 65536 65536", "cost 1", "multiplier 1"])
    yield "fine corners: whole slack and cost", written(thirds(24, 131072), still(q), r=["margin 65535 65536", "cost 2", "multiplier 3"])
    # 9 / 3^2 + 4 is 5
    aimed = sub(DESIGN, plant(1, 1, 0), grid(24, 1, 1), costs(1, 2, 9, [[2, 4, 4]]), limits(1, [[0, 1, 1]]))
    yield "fine corners: a whole cost of a target and an input", written(aimed, plans(3 * 2**38, [2**38], [2**38]), r=["cost 6", "multiplier 10"])
    yield "exact corners: a slack of 2^-16", written(thirds(0, 65537), still(1), r=["margin 1 65536", "cost 1", "multiplier 65536"])
    yield "fine corners: a slack of 2^-16", refused(GENERATE, {"d": thirds(24, 65537), "p": still(q)}, 6, f"no-margin 1 2 {2**40 - 2**17} {2**56}")
    # -1/3 over 2^40 is near -366503875925, an odd number, which is halved
    halved = sub(finest, plant(2, 0, 1), limits(1, [[0, 1, 1]], [[-1, 0]]))
    yield "fine corners: a tie, upward", refused(GENERATE, {"d": halved, "p": plans(3 * 2**38, [-(2**38)], [-(2**38)])}, 6, f"no-margin 1 2 {-183251937962 - 2} {2**40}")
    # with the first plan's denominator the exact `corner_cost` is 2^126; the slack's denominator tells the class
    for what, den, over in (("at", 2**37, 2**63), ("above", 2**37 + 1, 2**42)):
        design, policy = sub(finest, costs(1, 1, 3, [])), plans(den, [0], [0])
        yield f"exact corners {what} their limit", refused(GENERATE, {"d": design, "p": policy}, 6, f"no-margin 2 3 {-3 * over // 4} {over}")
    # the quantity is 2^126 with the second number, and each constant of the reach counts
    held = sub(DESIGN, plant(3, 4, 0), grid(1, 0, 0), costs(1, 1, 2, [[2**21, 0, 1]]), limits(1, [[0, 1, 4], [0, -1, 4]]))
    yield "fine corners: corner_cost at its limit", written(held, plans(q, [3 * 2**39 - 5], [0]), r=["margin 163840 65536", "cost 5", "multiplier 2"])
    yield "fine corners: corner_cost above its limit", refused(GENERATE, {"d": held, "p": plans(q, [0], [-3 * 2**39 + 4])}, 10, "too-wide corner_cost")
    wide = lambda side: sub(DESIGN, plant(3, 0, 0), grid(1, -side, side), costs(1, 1, 2, [[8, 0, 1]]), limits(1, [[0, 1, 4], [0, -1, 4]]))
    yield "fine corners: corner_cost of the box at its limit", written(wide(2**19 - 1), plans(q, [0], [0]), r=["margin 262144 65536", "cost 0", "multiplier 1"])
    yield "fine corners: corner_cost of the box above its limit", refused(GENERATE, {"d": wide(2**19), "p": plans(q, [0], [0])}, 10, "too-wide corner_cost")
    # where one of the other two is within its limit by little, `corner_cost` isn't
    grown = sub(DESIGN, plant(1, 2**30 - 1, 1), grid(0, 0, 0), limits(2**20, [[0, 0, 1]]))
    for what, far, quantity in (("at", 2**59 - 3, "corner_cost"), ("above", 2**59 - 2, "corner_slack")):
        yield f"fine corners: corner_slack {what} its limit", refused(GENERATE, {"d": grown, "p": plans(q, [far], [0])}, 10, f"too-wide {quantity}")
    grown = sub(DESIGN, plant(1, 2**31 - 1, 1), grid(24, 0, 0), limits(1, [[0, 0, 1]]))
    for what, far, quantity in (("at", 2**24 - 1, "corner_cost"), ("above", 2**24, "corner_slack")):
        yield f"fine corners: a state before it is divided, {what} the limit", refused(GENERATE, {"d": grown, "p": plans(1, [far], [0])}, 10, f"too-wide {quantity}")
    for what, a, quantity in (("at", 2**30 - 2, "corner_cost"), ("above", 2**30 - 1, "prediction")):
        grown = sub(DESIGN, *plant_over(2, 4, a, 1), grid(0, 0, 0), limits(1, [[0, 0, 1]]))
        yield f"fine corners: prediction {what} its limit", refused(GENERATE, {"d": grown, "p": plans(8, [0, 0], [0, 0])}, 10, f"too-wide {quantity}")


def full_rows():
    """The name, the row, and the file that the output goes to, if any: what is written or printed to a full device fails after it was opened."""
    made, read = {"d": DESIGN, "p": POLICY}, {"d": DESIGN, "c": CONTROLLER, "s": "1\n", "v": "0\n", "l": LISTING}
    yield "a controller to a full device", (["generate", "d", "p", "/dev/full", "r"], made, 4, "", "error 4 write-fault 3\n", {}, {}), None
    yield "a report to a full device", (["generate", "d", "p", "c", "/dev/full"], made, 4, "", "error 4 write-fault 4\n", {"c": CONTROLLER}, {}), None
    held = {"d": stay_rows.HELD, "p": POLICY, "f": stay_rows.FACES}
    for at, words in ((3, ["stay", "d", "p", "/dev/full", "r", "f"]), (4, ["stay", "d", "p", "c", "/dev/full", "f"])):
        yield f"stay to a full device at {at}", (words, held, 4, "", f"error 4 write-fault {at}\n", {} if at == 3 else {"c": stay_rows.HELD_CONTROLLER}, {}), None
    yield "a listing to a full device", (["list", "c", "/dev/full"], read, 4, "", "error 4 write-fault 2\n", {}, {}), None
    for words in (SOLVE, ["loop", "d", "c", "s", "1"], ["loop", "d", "c", "s", "1", "v"], ["demo", "7"], ["play", "l", "s"]):
        yield f"the output of {words[0]} to a full device", (words, read, 4, None, "error 4 write-fault 0\n", {}, {}), "/dev/full"


def wrong(words, files, status, out, line, whole, lines, output=None):
    """What isn't as it must be."""
    with tempfile.TemporaryDirectory() as folder:
        for name, text in files.items():
            with open(os.path.join(folder, name), "w", newline="") as file:
                file.write(text)
        under, log = [], folder + ".valgrind"
        if VALGRIND:
            under = ["valgrind", "-q", f"--log-file={log}", "--leak-check=full", "--errors-for-leak-kinds=definite", "--track-origins=yes"]
        with open(output, "wb") if output else contextlib.nullcontext(subprocess.PIPE) as to:
            ran = subprocess.run([*under, PROGRAM, *words], cwd=folder, stdin=subprocess.DEVNULL, stdout=to, stderr=subprocess.PIPE, text=True)
        printed = ran.stdout or ""
        left = {}
        for name in os.listdir(folder):
            with open(os.path.join(folder, name), newline="") as file:
                left[name] = file.read()
    found = []
    if VALGRIND:
        with open(log) as file:
            told = file.read()
        os.remove(log)
        if told:
            found.append(f"valgrind reports {told[:2000]}")
    if ran.returncode != status:
        found.append(f"status {ran.returncode}, not {status}")
    if ran.stderr != line:
        found.append(f"line {ran.stderr!r}, not {line!r}")
    if out is not None and printed != out:
        found.append(f"output {printed[:300]!r}, not {out!r}")
    texts = {**left, "": printed}
    missing = {name: [it for it in some if it not in texts.get(name, "").split("\n")] for name, some in lines.items()}
    found += [f"{name or 'output'} lacks {some}" for name, some in missing.items() if some]
    wanted = {**files, **whole}
    outputs = OUTPUTS.get("".join(words[:1]), ()) if status == 0 else ()
    wanted |= {words[at]: left.get(words[at]) for at in outputs if words[at] not in wanted}
    found += [f"file {name} {str(left.get(name))[:300]!r}" for name in {*wanted, *left} if wanted.get(name) != left.get(name)]
    return found


def main():
    failed = count = 0
    own = itertools.chain(rows(), fine_rows(), corner_rows(), version_rows(), second_rows(), lean_rows.rows(), stay_rows.rows(), settle_rows.rows(), listing_rows.rows(), split_rows.rows(),
                          third_rows.rows(), c_rows.rows(), limit_rows.rows() if AT_LIMITS else ())
    for name, row, output in itertools.chain(((name, row, None) for name, row in own), full_rows(), split_rows.full_rows()):
        words, files = row[0], row[1]
        if ONLY and words[:1] != [ONLY]:
            # (another command's words, which this program hasn't)
            name, row, output = f"{name}, of another command", (words, files, 2, "", "error 2 usage\n", {}, {}), None
        elif ONLY and files.get("d", "").startswith("version = 3\n"):
            row = refused(words, files, 5, "text 1 range 1")
        count += 1
        found = wrong(*row, output=output)
        if found:
            failed += 1
            print(f"{name}: {'; '.join(found)}")
    print(f"{count - failed} rows as they must be{', with no report of valgrind' if VALGRIND else ''}, {failed} not")
    sys.exit(failed > 0)


main()
