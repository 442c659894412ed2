"""Rows of lean controllers, and of those of a box that no loop leaves.

Another program computed the accepted ones; the model in ../fuzz those with faces, and where steps, multiplier and excess pass their limits.
"""
from .stay_rows import FACES, HELD
from .texts import LIMITS, SOLVE, in_second, limits, put, refused, sub, targets, violations
from .worked_texts import DESIGN, LEAN_CONTROLLER, LEAN_JSON, LEAN_REPORT, POLICY, REFERENCE

LEAN = ["lean", "d", "p", "q", "c", "r"]


def rows():
    """As those of the table."""
    tight = sub(DESIGN, targets(10, 1, 10))

    def leanly(design, policy, reference, *numbers, c=()):
        """A report's numbers: excess, R, K, f, width, violation, gap and undercut."""
        excess, bound, steps, bits, width, *bounds = numbers
        lines = [f"excess {excess} 65536", f"multiplier {bound}", f"steps {steps}", f"bits {bits}", f"width {width}"]
        lines += [f"{name} {value} 1099511627776" for name, value in zip(("violation", "gap", "undercut"), bounds)]
        return LEAN, {"d": design, "p": policy, "q": reference}, 0, "", "", {}, {"r": lines, "c": list(c)}

    def no(status, line, design=DESIGN, policy=POLICY, reference=REFERENCE, words=LEAN):
        return refused(words, {"d": design, "p": policy, "q": reference}, status, line)

    base = {"d": DESIGN, "p": POLICY, "q": REFERENCE}
    yield "lean", (LEAN, base, 0, "", "", {"c": LEAN_CONTROLLER, "r": LEAN_REPORT}, {})
    yield "lean, JSON", (["lean", "d", "p", "q", "c", "r.json"], base, 0, "", "", {"c": LEAN_CONTROLLER, "r.json": LEAN_JSON}, {})
    yield "lean: its plans", put(SOLVE, {"c": LEAN_CONTROLLER, "s": "1\n0\n"}, "64 -32\n64 0\n")
    yield "lean: finer targets", leanly(tight, POLICY, REFERENCE, 18432, 2, 86, 13, 30, 107726302604, 6442582016, 219902325554, c=["clamp 65536"])
    yield "lean: a reference on the other side", leanly(tight, POLICY, "1,0\n1,-1\n", 51200, 4, 171, 14, 33, 107522022222, 8858402816, 439804651108)
    yield "lean: a rounded reference", leanly(tight, POLICY, "1,0\n4,-3\n", 26624, 2, 86, 13, 30, 107726302604, 6442582016, 219902325554)
    yield "lean: a far reference", leanly(tight, POLICY, "1,5\n1,-7\n", 5556224, 377, 16086, 21, 54, 106961319180, 337992744962)
    yield "lean: the policy as reference", leanly(DESIGN, POLICY, POLICY, 36864, 1, 1, 6, 16, 11150808842240, 311385128960, 17592186044416)
    fine = sub(DESIGN, ("stages = 1\n", "stages = 2\n"), ("den = 1\na = [[1]]\nb = [[1]]", "den = 1048576\na = [[1048576]]\nb = [[1048576]]"),
               limits(131072, [[0, 131072, 131072], [0, -131072, 131072]], [[131072, 32768]]))
    plans, references = "1,0,0\n8,-7,0\n", "1,0,0\n5,-3,-1\n"
    yield "lean: a fine design", leanly(fine, plans, references, 12903, 1, 1, 8, 20, 11111684374528, 233136193536, 17592186044416, c=["clamp 1024"])
    rounded = sub(fine, ("a = [[1048576]]\nb = [[1048576]]", "a = [[1048577]]\nb = [[1048573]]"))
    yield "lean: a fine design that is rounded", leanly(rounded, plans, references, 12904, 1, 1, 8, 20, 11108815470593, 227398385665)
    second = sub(DESIGN, ("version = 1", "version = 2"), targets(1, 1, 1))
    yield "lean: version 2", (LEAN, base | {"d": second}, 0, "", "", {}, {"c": ["exps 0 1 1", "clamp 2048"], "r": [
        "mpc-report 2", "multiplier 1", "steps 5", "bits 9", "width 22", "violation 1 789002269492 1099511627776", "violation 2 1008904595047 1099511627776",
        "violation 3 1008904595047 1099511627776", "gap 38688260096 1099511627776", "undercut 1099511627776 1099511627776"]})
    pushed = sub(DESIGN, ("a = [[1]]\nb = [[1]]", "a = [[0]]\nb = [[0]]"), ("stage = [[1, 0, 1]]", "stage = []"), limits(10, [[0, -10, -39]]), ("hi = [1]", "hi = [0]"))
    yield "lean: a plan that breaks a limit by less than its target", leanly(
        pushed, "100,391\n100,391\n", "1,0\n1,0\n", 1001921, 1, 1, 3, 10, 10187662426112, 584115552256, 17592186044416, c=["P 0", "T 0", "clamp 16"])
    yield "lean: references too few", no(5, "text 3 count 1", reference="1,0\n")
    yield "lean: a reference over 0", no(5, "text 3 number 2 1", reference="1,0\n0,1\n")
    yield "lean: no references", refused(LEAN, {"d": DESIGN, "p": POLICY}, 3, "read-fault 3")
    yield "lean: the policy before the references", no(5, "text 2 count 1", policy="1,0\n", reference="1,0\n")
    for reference in (REFERENCE, "1,0\n1,-999999999999999\n"):
        yield f"lean: no margin, whatever the references {reference!r}", no(6, "no-margin 2 2 4 524288", policy="1,0\n131072,-131071\n", reference=reference)
    steepest = sub(DESIGN, (LIMITS, "den = 1\nstage = [[0, 2147483647, 2147483647]]\nfinal = []\n"))
    yield "lean: curvature before the excess", no(7, "curvature", design=steepest, policy="1,0\n1,0\n", reference="1,0\n1,-999999999999999\n")
    yield "lean: excess", no(10, "too-wide excess", reference="1,0\n1,-999999999999999\n")
    for line, far in (("too-many-steps 4221483", 106), ("too-many-steps 750599716593024", 1406784), ("too-wide multiplier", 1406785), ("too-wide multiplier", 4194304), ("too-wide excess", 4194305)):
        yield f"lean: a reference of {-far}", no(8 if "steps" in line else 10, line, design=tight, reference=f"1,0\n1,{-far}\n")
    yield "lean: nearly too many steps", leanly(tight, POLICY, "1,0\n1,-105\n", 1431357440, 97075, 4141867, 37, 94, 106516932199, 339258486601, 10673509126577275)
    for words in (["lean", "d", "p", "q", "c", "c"], ["lean", "d", "p", "q", "q", "r"], ["lean", "d", "p", "q", "c", "d"], ["lean", "d", "p", "c", "r"], [*LEAN, "r"]):
        yield f"lean: {' '.join(words)}", no(2, "usage", words=words)
    yield "lean: one file for policy and references", (["lean", "d", "p", "p", "c", "r"], {"d": DESIGN, "p": POLICY}, 0, "", "", {}, {"r": ["excess 36864 65536"]})
    yield "lean: a controller that can't be written", no(4, "write-fault 4", words=["lean", "d", "p", "q", "no/c", "r"])
    yield "lean: a report that can't be written", (["lean", "d", "p", "q", "c", "no/r"], base, 4, "", "error 4 write-fault 5\n", {"c": LEAN_CONTROLLER}, {})
    yield from face_rows()


def face_rows():
    """With faces, and with a box of disturbances."""
    held = {"d": HELD, "p": POLICY, "q": REFERENCE, "f": FACES}
    report = ["excess 18432 65536", "multiplier 2", "steps 86", "bits 14", "undercut 219902325554 1099511627776"]

    def stays(lines, shifts=None, words=LEAN, **files):
        more = files if shifts is None else files | {"w": shifts}
        return [*words, "f", *([] if shifts is None else ["w"])], held | more, 0, "", "", {}, lines

    def left(line, shifts=None, **files):
        words, given, *_ = stays({}, shifts, **files)
        return refused(words, given, int(line.split()[0]), " ".join(line.split()[1:]))

    yield "lean, faces: a design that is held", stays({"r": report, "c": ["bits 14 0 1 33", "steps 86"]})
    yield "lean, faces: under disturbances", stays({"r": report}, "0\n1\n")
    yield "lean, faces: JSON", ([*LEAN[:5], "r.json", "f"], held, 0, "", "", {}, {"c": ["steps 86"]})
    yield "lean, faces: a lower face by the input alone", left("17 no-stay 2 -1", f="4,0,0,1,0\n4,0,1,0,0\n")
    yield "lean, faces: rows that have less of the input", left("16 unequal 1 1 4 3", f="3,0,0,1,0\n4,0,0,0,1\n")
    yield "lean, faces: no-stay of a face before unequal of the next", left("17 no-stay 1 2", f="4,1,0,0,0\n3,0,0,0,1\n")
    yield "lean, faces: none", left("5 text 6 count 0", f="")
    yield "lean, faces: too few weights", left("5 text 6 fields 1", f="4,0,0,1\n")
    for low, high, line in (("-1", "0", "17 no-stay 2 -1"), ("0", "2", "17 no-stay 1 2"), ("0", "-1", "5 text 7 number 2 1")):
        yield f"lean, faces: disturbances from {low} to {high}", left(line, f"{low}\n{high}\n")
    yield "lean, faces: one record of disturbances", left("5 text 7 count 1", "0\n")
    yield "lean, faces: the references before the faces", left("5 text 3 count 1", q="1,0\n", f="")
    yield "lean, faces: the faces before the excess", left("5 text 6 count 0", q="1,0\n1,-999999999999999\n", f="")
    yield "lean, faces: the disturbances before the excess", left("5 text 7 count 1", "0\n", q="1,0\n1,-999999999999999\n")
    yield "lean, faces: the excess before what the faces hold", left("10 too-wide excess", q="1,0\n1,-999999999999999\n", f="3,0,0,1,0\n4,0,0,0,1\n")
    # a lean controller may exceed a row by all of its target, and one of `generate` by what its steps and errors leave
    wide = lambda violation: sub(DESIGN, targets(100, violation, 100), ("final = [[4, 1]]", "final = [[4, 1], [-4, 1]]"))
    yield "lean, faces: a violation of 24/100", stays({"r": ["multiplier 1"]}, d=wide(24))
    yield "lean, faces: a violation of 26/100, whose bound is above a quarter", left("17 no-stay 2 -1", d=wide(26))
    yield "stay: a violation of 26/100", (["stay", "d", "p", "c", "r", "f"], held | {"d": wide(26)}, 0, "", "", {}, {})
    # each row has a bound of its own: exponents 1 2 4 3 3
    slopes = lambda bound: sub(DESIGN, targets(10, 1, 10), limits(100, [[0, 100, 100], [0, -100, 100], [0, 400, 3600]], [[100, 100 + bound], [-100, bound]]))
    sloped = "100,0,0,0,1,0\n100,0,0,0,0,1\n"
    yield "lean, faces, version 1: a less steep row", left("17 no-stay 1 2", d=slopes(42), f=sloped)
    yield "lean, faces, version 2: a less steep row", stays(
        {"c": ["exps 1 2 4 3 3"], "r": ["steps 683", "bits 15", *violations(62505409229, 68944715980, 107580556488, 81823329483, 81823329483)]}, d=in_second(slopes(42)), f=sloped)
    yield "lean, faces, version 2: a bound nearer to the end", left("17 no-stay 1 2", d=in_second(slopes(43)), f=sloped)
    for words in ([*LEAN, "c"], [*LEAN, "r"], [*LEAN, "f", "r"], [*LEAN, "f", "w", "w"]):
        yield f"lean, faces: {' '.join(words)}", refused(words, held | {"w": "0\n1\n"}, 2, "usage")
    yield "lean, faces: one file for references, faces and disturbances", refused(["lean", "d", "p", "q", "c", "r", "q", "q"], held, 5, "text 6 fields 1")
    yield "lean, faces: no faces", refused([*LEAN, "no"], held, 3, "read-fault 6")
    yield "lean, faces: no disturbances", refused([*LEAN, "f", "no"], held, 3, "read-fault 7")
    yield "lean, faces: a controller that can't be written", refused(["lean", "d", "p", "q", "no/c", "r", "f"], held, 4, "write-fault 4")
    old = {"c": "an old controller\n", "r": "an old report\n"}
    yield "lean, faces: old files are left where a face is refused", left("17 no-stay 2 -1", f="4,0,0,1,0\n4,0,1,0,0\n", **old)
