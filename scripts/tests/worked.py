"""Worked designs whose numbers were computed by hand or by another program, and a place to put files."""
import os
import sys
import tempfile

from checks.rows import worked_texts

HERE = os.path.dirname(__file__)
TOP = os.path.dirname(os.path.dirname(HERE))
EXAMPLES = os.path.join(TOP, "examples")
FIRST, FIRST_POLICY, FIRST_CONTROLLER, FIRST_REPORT = worked_texts.DESIGN, worked_texts.POLICY, worked_texts.CONTROLLER, worked_texts.REPORT
FIRST_LISTING, FIRST_REFERENCE = worked_texts.LISTING, worked_texts.REFERENCE
FIRST_LEAN_CONTROLLER, FIRST_LEAN_REPORT, FIRST_LEAN_JSON = worked_texts.LEAN_CONTROLLER, worked_texts.LEAN_REPORT, worked_texts.LEAN_JSON
AXIS, AXIS_POLICY = worked_texts.AXIS, worked_texts.AXIS_POLICY
# the first design with a violation target of 1/10: lean R 2, K 86
FIRST_TIGHT = FIRST.replace("den = 1\nviolation = 16\ngap = 1\n", "den = 10\nviolation = 1\ngap = 10\n")
# the first design as one of version 2: the exponent of its first row is lowered from 1 to 0
SECOND = FIRST.replace("version = 1", "version = 2")
SECOND_CONTROLLER = FIRST_CONTROLLER.replace("mpc-controller 1", "mpc-controller 2").replace("words 6\n", "words 6\nexps 0 1 1\n")
SECOND_REPORT = FIRST_REPORT.replace("mpc-report 1", "mpc-report 2").replace(
    "violation 8850854903808 1099511627776\n",
    "violation 1 6651831648256 1099511627776\nviolation 2 8850854903808 1099511627776\nviolation 3 8850854903808 1099511627776\n",
)
SECOND_JSON = (
    '{"bits":"10","cost":"1","gap":"438095052800","margin":"8192","multiplier":"8","step":"1","steps":"4","undercut":"70806839230464","version":"2",'
    '"violation":"8850854903808","violations":["6651831648256","8850854903808","8850854903808"],"width":"26","words":"6"}\n'
)
# six states that stand where they are, and three inputs
SIX = f"""# state 1: first, 1 is 2 m
# state 4: fourth, 1 is 3 m/s
# input 3: last, 1 is 4 N
version = 2
states = 6
inputs = 3
stages = 2
plant = {{ den = 1, a = {[[int(i == j) for j in range(6)] for i in range(6)]}, b = {[[0, 0, 0]] * 6} }}
cost = {{ den = 1, row_den = 1, input = [1, 1, 1], stage = [], final = [] }}
limits = {{ den = 1, stage = [[0, 0, 0, 0, 0, 0, 0, 0, 1, 1]], final = [] }}
box = {{ grid = 0, lo = {[0] * 6}, hi = {[1] * 6} }}
targets = {{ den = 1, violation = 16, gap = 1 }}
"""
# an axis over ten stages with denominators of 2^16, whose `prediction` passes the limit
FINE_AXIS = AXIS.replace("stages = 5", "stages = 10").replace(
    "den = 8\na = [[8, 4], [0, 8]]\nb = [[1], [4]]", "den = 65536\na = [[65536, 32768], [0, 65536]]\nb = [[8192], [32768]]"
)
FINE_AXIS_POLICY = "1" + ",0" * 10 + "\n"
# and with room for ten stages of coasting: margin 1, cost 487, R 487, step 1, K 62336, f 36
ROOMY_FINE_AXIS = FINE_AXIS.replace("0, 0, 8]", "0, 0, 16]").replace("0, 8]", "0, 16]")
# the axis over 1000 with its limits over 1000, whose exact condensed numbers pass the limit, and which has a controller in enclosures
LIMITS_OVER_1000 = """den = 1000
stage = [[0, 0, 1000, 4000], [0, 0, -1000, 4000], [1000, 0, 0, 8000], [-1000, 0, 0, 8000], [0, 1000, 0, 2000], [0, -1000, 0, 2000]]
final = [[1000, 0, 8000], [-1000, 0, 8000], [0, 1000, 2000], [0, -1000, 2000]]
"""
AXIS_OVER_1000 = AXIS.replace("den = 8\na = [[8, 4], [0, 8]]\nb = [[1], [4]]", "den = 1000\na = [[1000, 500], [0, 1000]]\nb = [[128], [333]]").replace(
    AXIS[AXIS.index("[limits]") : AXIS.index("[box]")], "[limits]\n" + LIMITS_OVER_1000
)
# the first design over two stages, with 1048576 written over itself: whole enclosures, each of radius 0
LONG = (
    FIRST.replace("stages = 1", "stages = 2")
    .replace("[plant]\nden = 1\na = [[1]]\nb = [[1]]", "[plant]\nden = 1048576\na = [[1048576]]\nb = [[1048576]]")
    .replace(
        "den = 4\nstage = [[0, 4, 4], [0, -4, 4]]\nfinal = [[4, 1]]",
        "den = 131072\nstage = [[0, 131072, 131072], [0, -131072, 131072]]\nfinal = [[131072, 32768]]",
    )
)
LONG_POLICY = "1,0,0\n8,-7,0\n"
LONG_REFERENCE = "1,0,0\n5,-3,-1\n"
# the first design over two stages with a growth of 2^29 in each: the corners are within the limit, the exact `rows` are not, and `prediction` of enclosures is not
STEEP = FIRST.replace("stages = 1", "stages = 2").replace("a = [[1]]", "a = [[536870912]]").replace("hi = [1]", "hi = [0]")
STEEP_POLICY = "1,0,0\n" * 2
# over three stages the corners aren't within the limit, either, and nor is the enclosures' `prediction`
STEEPER = STEEP.replace("stages = 2", "stages = 3")
STEEPER_POLICY = "1,0,0,0\n" * 2
# the first design with a plan that goes so far that its cost is too wide
FAR = FIRST.replace("row_den = 1", "row_den = 1048576").replace("grid = 0", "grid = 24")
FAR_POLICY = "1,0\n1,-5000000\n"
# a state of 1, 1 that goes to 2/3, 1/3, whose sum is to be at most 1, over the finest grid: each is rounded, and the sum of both has a radius of 2
THIRDS = (
    FIRST.replace("states = 1", "states = 2")
    .replace("den = 1\na = [[1]]\nb = [[1]]", "den = 3\na = [[1, 1], [1, 0]]\nb = [[0], [0]]")
    .replace("stage = [[1, 0, 1]]", "stage = [[1, 1, 0, 1]]")
    .replace("den = 4\nstage = [[0, 4, 4], [0, -4, 4]]\nfinal = [[4, 1]]", "den = 1\nstage = [[0, 0, 1, 4]]\nfinal = [[1, 1, 1]]")
    .replace("grid = 0\nlo = [0]\nhi = [1]", "grid = 24\nlo = [16777216, 16777216]\nhi = [16777216, 16777216]")
)
THIRDS_POLICY = "1099511627776,0\n" * 4
# over two stages, with a bound that leaves room for rows that count 16 times: 524286 doesn't, by `rows` of the enclosures
ROOMY = (
    SECOND.replace("stages = 1", "stages = 2")
    .replace("[plant]\nden = 1\na = [[1]]\nb = [[1]]", "[plant]\nden = 1048576\na = [[524288]]\nb = [[524288]]")
    .replace("row_den = 1\ninput = [1]\nstage = [[1, 0, 1]]", "row_den = 1024\ninput = [1]\nstage = []")
    .replace("den = 4\nstage = [[0, 4, 4], [0, -4, 4]]\nfinal = [[4, 1]]", "den = 1\nstage = [[0, 2, 524285], [0, 1, 4]]\nfinal = []")
)
ROOMY_POLICY = "1,0,0\n" * 2
# x+ = (2 x - u) / 3 over two stages, with each kind of row
THIRD = """version = 1
states = 1
inputs = 1
stages = 2
[plant]
den = 3
a = [[2]]
b = [[-1]]
[cost]
den = 2
row_den = 5
input = [3]
stage = [[4, 7, 6]]
final = [[-2, 1, 9]]
[limits]
den = 4
stage = [[1, -3, 5]]
final = [[7, 2]]
[box]
grid = 0
lo = [0]
hi = [1]
[targets]
den = 1
violation = 16
gap = 16
"""
# and with two states and two inputs
CROSSED = """version = 1
states = 2
inputs = 2
stages = 2
[plant]
den = 3
a = [[2, 1], [0, -4]]
b = [[1, 0], [2, -5]]
[cost]
den = 2
row_den = 5
input = [3, 2]
stage = [[4, -1, 7, 6]]
final = [[-2, 3, 1, 9]]
[limits]
den = 4
stage = [[1, 2, -3, 8, 5]]
final = [[7, 0, 2]]
[box]
grid = 0
lo = [0, 0]
hi = [1, 1]
[targets]
den = 1
violation = 16
gap = 16
"""
CORNERS_OF_THIRD = "3,1,-2\n7,5,0\n"
CORNERS_OF_CROSSED = "3,1,-2,4,0\n7,5,0,-1,2\n9,1,1,1,1\n11,3,-3,2,-2\n"


def as_command(name: str) -> list[str]:
    """The words before those of a command of scripts/: it is run from anywhere, by the Python that runs the tests."""
    return ["env", f"PYTHONPATH={TOP}", sys.executable, "-P", "-m", f"scripts.{name}"]


def folder_with(case, **files):
    """A folder with these files, which goes with the test case; name -> path."""
    held = tempfile.TemporaryDirectory()
    case.addCleanup(held.cleanup)
    paths = {}
    for name, text in files.items():
        paths[name] = os.path.join(held.name, name)
        with open(paths[name], "wb") as file:
            file.write(text if isinstance(text, bytes) else text.encode())
    return held.name, paths
