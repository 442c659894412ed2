"""Writes a fallback beside the C of a controller, for states outside its box: the first inputs of the nearest state of the box. Nothing is promised of them.

    ./mpc nearest CONTROLLER NAME FOLDER

NAME is that of `./mpc c CONTROLLER NAME SOURCE HEADER`, whose NAME_solve refuses a state outside the box. In FOLDER stand then NAME_nearest.h and NAME_nearest.c:

    int NAME_nearest_inputs(state, inputs)     how many coordinates of the state lie outside the box, and the averaged first inputs over 2^BITS, each such coordinate taken at the end that it passed

Where it answers 0 they are those of NAME_first_inputs, with what is promised. Else **the promise doesn't hold**: they keep the limits on inputs alone, and say nothing of the plant's own state. Count
these answers. It needs NAME.h and NAME.c, has no heap, and holds all sums on the stack.
"""
import os

from .c_source import MARK, check_name, commented, read, write_all
from .common import files
from .common.arguments import Parser
from .common.libraries import Refusal, run
from .common.straight_costs import is_written
from .common.strict_texts import safe_controller
from .common.texts import Controller

HEADER = """/* A fallback beside the controller of {path}, {mark} by ./mpc nearest. Tested, not proved. */
#ifndef {name}_nearest_H
#define {name}_nearest_H

#include "{name}.h"

#ifdef __cplusplus
extern "C" {{
#endif

/* From any state over 2^GRID: how many of its coordinates lie outside the box, and the averaged first inputs over 2^BITS from the nearest state of the box, coordinate by coordinate.
   0: the inputs of {name}_solve and {name}_first_inputs, with what is promised of them. Else THE PROMISE DOESN'T HOLD: limits on inputs alone are kept as promised, and nothing is said of the state. */
int {name}_nearest_inputs(const int32_t state[{states}], int64_t inputs[{inputs}]);

#ifdef __cplusplus
}}
#endif

#endif
"""

SOURCE = """/* A fallback beside the controller of {path}, {mark} by ./mpc nearest. Tested, not proved. */
#include "{name}_nearest.h"

static const int32_t lowest[{states}] = {{ {low} }};
static const int32_t highest[{states}] = {{ {high} }};

int {name}_nearest_inputs(const int32_t state[{states}], int64_t inputs[{inputs}])
{{
    int32_t nearest[{states}];
    int64_t sums[{entries}];
    int outside = 0;
    for (int i = 0; i < {states}; i++) {{
        nearest[i] = state[i] < lowest[i] ? lowest[i] : state[i] > highest[i] ? highest[i] : state[i];
        outside += nearest[i] != state[i];
    }}
    (void){name}_solve(nearest, sums);
    {name}_first_inputs(sums, inputs);
    return outside;
}}
"""


def texts_of(name: str, path: str, controller: Controller) -> tuple[str, str]:
    """Header and source."""
    c = controller
    if not is_written(c):
        raise Refusal(f"{path}: a controller that `./mpc c` writes is expected (docs/C.md), and this one has {c.width} bits")
    words = {"mark": MARK, "name": name, "path": commented(os.path.basename(path)), "states": c.states, "inputs": c.inputs, "entries": c.entries}
    ends = {"low": ", ".join(map(literal, c.lo)), "high": ", ".join(map(literal, c.hi))}
    return HEADER.format(**words), SOURCE.format(**words, **ends)


def literal(value: int) -> str:
    """A number that C reads as it is: none here is as low as -2^31."""
    return f"INT32_C({value})" if value >= 0 else f"-INT32_C({-value})"


def main() -> int:
    parser = Parser(__doc__)
    parser.add_argument("controller", metavar="CONTROLLER")
    parser.add_argument("name", metavar="NAME")
    parser.add_argument("folder", metavar="FOLDER")
    given = parser.parse_args()
    check_name(given.name)
    if not os.path.isdir(given.folder):
        raise Refusal(f"{given.folder}: there is no such folder")
    header, source = (os.path.join(given.folder, f"{given.name}_nearest{end}") for end in (".h", ".c"))
    files.keep_apart({"CONTROLLER": given.controller}, {"NAME_nearest.h": header, "NAME_nearest.c": source})
    text = files.read_bytes(given.controller).decode("latin-1")
    controller = read({"controller": (given.controller, text)}, "controller", safe_controller)
    write_all(dict(zip((header, source), texts_of(given.name, given.controller, controller))))
    return 0


if __name__ == "__main__":
    run(main)
