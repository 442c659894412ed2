"""Rows of certificates that loops settle: of one state by hand, of two states with the numbers of a model in whole numbers."""
from .texts import put, refused, sub
from .worked_texts import AXIS, DESIGN

SETTLE, UNDER = ["settle", "d", "c", "f"], ["settle", "d", "c", "f", "w"]
# x+ = x + u, of 40 over 2^4 to both sides, and u = -x/2 between -1 and 1
WIDE = sub(DESIGN, ("grid = 0\nlo = [0]\nhi = [1]", "grid = 4\nlo = [-40]\nhi = [40]"))
HALF = """mpc-controller 1
size 1 1 1 2
bits 11 4 1 40
steps 9
clamp 65536
words 5
lo -40
hi 40
P 1024
T 0
W 512 -512
G 2048
G -2048
E 0
E 0
b 2048 2048
end
"""
# version 2, an offset, a row on the state and a box that is not symmetric
SKEW = """mpc-controller 2
size 2 1 1 3
bits 8 4 2 40
steps 7
clamp 5000
words 7
exps 1 0 2
lo -64 -20
hi 48 16
P 192 384
T 5
W 64 -64 0
G 256
G -256
G 64
E 0 0
E 0 0
E 256 -128
b 1024 1024 2304
end
"""
HELD = "5,-31,32\n0,-31,32\n1,-2,2\n"


def files(certificate, shifts=None, design=WIDE, controller=HALF):
    base = {"d": design, "c": controller, "f": certificate}
    return (SETTLE, base) if shifts is None else (UNDER, {**base, "w": shifts})


def settled(out, *certificate, **others):
    return put(*files(*certificate, **others), out)


def left(line, *certificate, **others):
    return refused(*files(*certificate, **others), int(line.split()[0]), " ".join(line.split()[1:]))


def rows_of_one():
    yield "settle: the whole of the box where no multiplier moves", settled("turn 5\nstate 1 -2 2\n", HELD)
    yield "settle: a turn more for half the box", settled("turn 6\nstate 1 -1 1\n", "6,-31,31\n0,-31,32\n1,-1,1\n")
    yield "settle: a box that is kept from the first turn", settled("turn 0\nstate 1 -2 2\n", "0,-2,2\n0,-31,32\n1,-2,2\n")
    yield "settle: rest at one point, which rounding leaves", left("24 unsettled 5 1 1", "5,-31,32\n0,-31,32\n1,0,0\n")
    yield "settle: a multiplier moves at the lower end", left("23 moves 1 4194304 4194304", "5,-32,32\n0,-32,32\n1,-2,2\n")
    yield "settle: a multiplier moves at the upper end", left("23 moves 2 268435456 4194304", "5,-31,33\n0,-31,33\n1,-2,2\n")
    yield "settle: a start beyond the box where none moves", left("24 unsettled 0 1 33", "5,-31,33\n0,-31,32\n1,-2,2\n")
    yield "settle: the start's upper end before its lower", left("24 unsettled 0 1 40", "5,-40,40\n0,-31,32\n1,-2,2\n")
    yield "settle: rest beyond the box where none moves", left("25 no-return 0 1 -40", "3,-31,32\n0,-31,32\n1,-40,5\n")
    yield "settle: more than the most turns", left("5 text 3 range 1", "4097,-31,32\n0,-31,32\n1,-2,2\n")
    yield "settle: a start box without a state", left("5 text 3 range 1", "5,32,31\n0,-31,32\n1,-2,2\n")
    yield "settle: a start box of one state", settled("turn 5\nstate 1 -2 2\n", "5,31,31\n0,-31,32\n1,-2,2\n")
    yield "settle: the most turns", settled("turn 4096\nstate 1 -2 2\n", "4096,-31,32\n0,-31,32\n4096,-2,2\n")
    yield "settle: more than the most turns to the rows of the cost", left("5 text 3 range 2", "5,-31,32\n4097,-31,32\n1,-2,2\n")
    yield "settle: the row of the cost after three turns", settled("turn 5\nstate 1 -2 2\ncost 1 3 -4 4\n", "5,-31,32\n3,-31,32\n1,-2,2\n")
    yield "settle: the row of the cost under disturbances", settled("turn 6\nstate 1 -4 4\ncost 1 4 -4 4\n", "6,-31,32\n4,-31,32\n1,-4,4\n", "-1\n1\n")
    yield "settle: a box beyond the controller's", left("5 text 3 range 2", "5,-31,32\n0,-31,41\n1,-2,2\n")
    yield "settle: no turn to return", left("5 text 3 range 3", "5,-31,32\n0,-31,32\n0,-2,2\n")
    yield "settle: the first record out of its range", left("5 text 3 range 1", "-1,-31,32\n1,-31,32\n0,-2,2\n")
    yield "settle: a number too few", left("5 text 3 fields 2", "5,-31,32\n0,-31\n1,-2\n")
    yield "settle: no number", left("5 text 3 number 2 3", "5,-31,32\n0,-31,x\n1,-2,2\n")
    yield "settle: two records", left("5 text 3 count 2", "9999,-31,32\n0,-31,32\n")
    yield "settle: another design's controller", left("14 mismatch states 2 1", HELD, design=AXIS)
    yield "settle: mismatch before the certificate", left("14 mismatch states 2 1", "", design=AXIS)
    yield "settle: no controller's text", left("11 controller 2 line 1", HELD, controller="x")
    yield "settle: a long certificate", left("13 long 3", "\n" * 4194305)
    yield "settle: a loop that grows past the limit", left("10 too-wide settle", "400,-31,32\n0,-31,32\n1,-2,2\n", design=sub(WIDE, ("a = [[1]]", "a = [[2]]")))
    yield "settle: too wide before a multiplier that moves", left("10 too-wide settle", "400,-31,32\n0,-40,40\n1,-2,2\n", design=sub(WIDE, ("a = [[1]]", "a = [[2]]")))
    yield "settle: no certificate", refused(SETTLE, {"d": WIDE, "c": HALF}, 3, "read-fault 3")
    yield "settle: no disturbances", refused(UNDER, {"d": WIDE, "c": HALF, "f": HELD}, 3, "read-fault 4")
    yield "settle under disturbances", settled("turn 6\nstate 1 -4 4\n", "6,-31,32\n0,-31,32\n1,-4,4\n", "-1\n1\n")
    yield "settle under disturbances that are none", settled("turn 5\nstate 1 -2 2\n", HELD, "0\n0\n")
    yield "settle: too small a box under disturbances", left("24 unsettled 5 1 3", HELD, "-1\n1\n")
    yield "settle: no range of disturbances", left("5 text 4 number 2 1", HELD, "1\n0\n")


def rows_of_two():
    two = {"design": AXIS, "controller": SKEW}
    start, still = "-24,-6,20,6", "0,-48,-16,40,14"
    yield "settle: back after three turns", settled("turn 9\nstate 1 -9 7\nstate 2 -6 6\n", f"9,{start}\n{still}\n3,-8,-6,6,6\n", **two)
    yield "settle: back after four turns", settled("turn 12\nstate 1 -7 5\nstate 2 -4 4\n", f"12,{start}\n{still}\n4,-6,-4,4,4\n", **two)
    yield "settle: not back after one turn", left("25 no-return 1 1 7", f"8,{start}\n{still}\n1,-6,-6,6,6\n", **two)
    yield "settle: not back after two turns", left("25 no-return 2 1 5", f"12,{start}\n{still}\n2,-6,-4,4,4\n", **two)
    yield "settle: not there after six turns", left("24 unsettled 6 1 5", f"6,{start}\n{still}\n4,-6,-4,4,4\n", **two)
    yield "settle: a box of two states where one moves", left("23 moves 1 14417920 65536", f"9,{start}\n0,-64,-20,40,16\n3,-8,-6,6,6\n", **two)
    yield "settle: not back under disturbances", left("25 no-return 4 1 9", f"12,{start}\n{still}\n4,-12,-8,8,8\n", "-1,-1\n1,0\n", **two)
    yield "settle: not there under disturbances", left("24 unsettled 12 1 6", f"12,{start}\n{still}\n4,-6,-4,4,4\n", "-1,-1\n1,0\n", **two)


def rows():
    yield from rows_of_one()
    yield from rows_of_two()
