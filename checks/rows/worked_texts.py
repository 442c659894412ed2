"""The texts of worked designs, whose numbers were computed by hand or by another program.

Those that tests in Rattle read, too, stand there, in `trials_worked`.
"""
import os
import re

TOP = os.path.dirname(os.path.dirname(os.path.dirname(os.path.abspath(__file__))))


def shared():
    """The constants of `trials_worked`."""
    with open(os.path.join(TOP, "crates", "trials_worked", "src", "texts.rt"), encoding="utf-8") as file:
        found = re.findall(r'^pub const (\w+): &str = "([^"]*)";$', file.read(), re.MULTILINE)
    return {name: text.replace(r"\n", "\n") for name, text in found}


SHARED = shared()
# x+ = x + u from 0 to 1: least slack 1/8, greatest cost 50/64, R 8, K 4
DESIGN, POLICY, CONTROLLER, REPORT = (SHARED[name] for name in ("DESIGN", "POLICY", "CONTROLLER", "REPORT"))
JSON = (
    '{"bits":"10","cost":"1","gap":"438095052800","margin":"8192","multiplier":"8","step":"1","steps":"4","undercut":"70806839230464","version":"1",'
    '"violation":"8850854903808","width":"26","words":"6"}\n'
)
# its step as a listing, by checks/fuzz/program.py
LISTING = SHARED["LISTING"]
# and as a lean controller, with the best plans without limits as references: excess 18/64, R 1, K 1
REFERENCE = "1,0\n2,-1\n"
LEAN_CONTROLLER = SHARED["LEAN_CONTROLLER"]
LEAN_REPORT = """mpc-report 1
margin 8192 65536
excess 18432 65536
multiplier 1
step 1
steps 1
bits 6
width 16
words 6
violation 11150808842240 1099511627776
gap 311385128960 1099511627776
undercut 17592186044416 1099511627776
end
"""
LEAN_JSON = (
    '{"bits":"6","excess":"18432","gap":"311385128960","margin":"8192","multiplier":"1","step":"1","steps":"1","undercut":"17592186044416","version":"1",'
    '"violation":"11150808842240","width":"16","words":"6"}\n'
)
# the controller of its state 0 alone, and the report
LOW, LOW_REPORT = SHARED["LOW"], SHARED["LOW_REPORT"]
# an axis that coasts: margin 1, cost 158.75, R 159, step 1, K 20352, f 28, where the stated errors cost 699629521553 over 2^40
AXIS = SHARED["SATELLITE"].replace("den = 1\nviolation = 16\ngap = 1\n", "den = 16\nviolation = 1\ngap = 16\n")
AXIS_POLICY = "1,0,0,0,0,0\n" * 4
