"""Every refusal has words: one case a line that the program can print."""
import os
import pty
import re
import shlex
import shutil
import subprocess
import sys
import unittest

from scripts import refusals
from scripts.common import usage

from .worked import (
    AXIS,
    AXIS_POLICY,
    FAR,
    FAR_POLICY,
    FINE_AXIS_POLICY,
    FIRST,
    FIRST_CONTROLLER,
    FIRST_LISTING,
    FIRST_POLICY,
    FIRST_REFERENCE,
    LONG,
    LONG_POLICY,
    ROOMY_FINE_AXIS,
    SECOND,
    SECOND_CONTROLLER,
    STEEP,
    STEEP_POLICY,
    STEEPER,
    STEEPER_POLICY,
    THIRDS,
    THIRDS_POLICY,
    TOP,
    as_command,
    folder_with,
)

NAMED = "# state 1: angle, 1 is 2 deg\n# state 2: rate, 1 is 1 deg/s\n# stage row 3: angle above, 1 is 2 deg\n"


class Explained(unittest.TestCase):
    def words(self, line, *words, **files):
        """The explanation of a line, where the words that name a file of this case become its path."""
        _, paths = folder_with(self, **files)
        status = int(line.split()[1])
        return refusals.explanation(status, line, [paths.get(word, word) for word in words])

    def generate(self, line, design=FIRST, policy=FIRST_POLICY):
        return self.words(line, "generate", "d", "p", "c", "r", d=design, p=policy)

    def lean(self, line, design=FIRST, policy=FIRST_POLICY, reference=FIRST_REFERENCE):
        return self.words(line, "lean", "d", "p", "q", "c", "r", d=design, p=policy, q=reference)

    def solve(self, line, controller=FIRST_CONTROLLER, states="1\n"):
        return self.words(line, "solve", "c", "s", c=controller, s=states)

    def test_memory(self):
        self.assertIn("memory", self.words("error 1 memory", "demo", "7"))

    def test_no_command(self):
        self.assertIn("A command is needed", self.words("error 2 usage"))

    def test_unknown_command(self):
        self.assertIn("`frob` is no command", self.words("error 2 usage", "frob"))

    def test_too_few_arguments(self):
        self.assertIn("takes 2 arguments, CONTROLLER STATES, and 1 were given", self.words("error 2 usage", "solve", "c"))

    def test_same_name_twice(self):
        self.assertIn("The report file c is the controller file c: each of the four needs a file of its own", self.words("error 2 usage", "generate", "d", "p", "c", "c"))
        self.assertIn("The controller file q is the reference file q: each of the five needs a file of its own", self.words("error 2 usage", "lean", "d", "p", "q", "q", "r"))
        self.assertIn(
            "`lean` takes 5, 6 or 7 arguments, DESIGN POLICY REFERENCE CONTROLLER REPORT [FACES] [DISTURBANCES], and 4 were given", self.words("error 2 usage", "lean", "d", "p", "c", "r"))
        self.assertIn("The report file r is the disturbances file r: each of the files needs a file of its own", self.words("error 2 usage", "lean", "d", "p", "q", "c", "r", "f", "r"))

    def test_turns_with_a_leading_zero(self):
        self.assertIn("`01` are no number from 0 to 1000000", self.words("error 2 usage", "loop", "d", "c", "s", "01"))

    def test_demo_number_too_large(self):
        self.assertIn("`4294967296` is no number", self.words("error 2 usage", "demo", "4294967296"))

    def test_file_not_there(self):
        self.assertIn(
            "the policy file nowhere could not be read: there is no such file",
            self.words("error 3 read-fault 2", "generate", "d", "nowhere", "c", "r", d=FIRST),
        )

    def test_file_is_a_folder(self):
        self.assertIn("it is a folder", self.words("error 3 read-fault 1", "solve", TOP, "s"))

    def test_report_not_written(self):
        told = self.words("error 4 write-fault 4", "generate", "d", "p", "c", "/nowhere/r", d=FIRST, p=FIRST_POLICY)
        self.assertIn("there is no folder /nowhere", told)
        self.assertIn("The controller file stands whole", told)

    def test_output_closed(self):
        self.assertIn("standard output could not be written", self.words("error 4 write-fault 0", "solve", "c", "s"))

    def test_no_toml(self):
        self.assertIn("line 2", self.generate("error 5 text 1 not-toml", "version = 1\nx = = 3\n"))

    def test_no_utf8(self):
        self.assertIn("no UTF-8", self.generate("error 5 text 1 not-toml", b"\xff\xff"))

    def test_integer_beyond_64_bits(self):
        self.assertIn("outside 64 bits", self.generate("error 5 text 1 not-toml", FIRST.replace("states = 1", "states = 9223372036854775808")))

    def test_key_missing(self):
        self.assertIn("lacks `limits.den`", self.generate("error 5 text 1 key 13", FIRST.replace("[limits]\nden = 4", "[limits]")))

    def test_further_key(self):
        self.assertIn("the key `note`", self.generate("error 5 text 1 key 0", "note = 1\n" + FIRST))

    def test_shape_of_b(self):
        self.assertIn("`plant.b` of", self.generate("error 5 text 1 shape 7", AXIS))
        self.assertIn("2 lists of 1 integers", self.generate("error 5 text 1 shape 7", AXIS))

    def test_shape_of_limits(self):
        self.assertIn("4 (states, inputs and a bound)", self.generate("error 5 text 1 shape 14", AXIS))

    def test_ranges_of_versions(self):
        told = self.generate("error 5 text 1 range 2", FIRST.replace("states = 1", "states = 5"))
        self.assertIn("`states` in the design file", told)
        self.assertIn("1 to 4, from version 2 on up to 6", told)
        self.assertIn("1 to 20, from version 2 on up to 30", self.generate("error 5 text 1 range 4", SECOND.replace("stages = 1", "stages = 31")))
        self.assertIn("out of its range: 1 to 3.", self.generate("error 5 text 1 range 1", FIRST.replace("version = 1", "version = 4")))

    def test_policy_count_of_six_states(self):
        six = SECOND.replace("states = 1", "states = 6")
        self.assertIn("has 63 records, and the design has 64 corners", self.generate("error 5 text 2 count 63", six, 63 * "1,0\n"))

    def test_range(self):
        self.assertIn("`cost.input`", self.generate("error 5 text 1 range 10", FIRST.replace("input = [1]", "input = [0]")))

    def test_every_place_has_words(self):
        for place in range(1, 22):
            for fault in ("key", "shape", "range"):
                self.assertIn(f"`{refusals.PLACES[place - 1][0]}`", self.generate(f"error 5 text 1 {fault} {place}"))

    def test_policy_fields(self):
        told = self.generate("error 5 text 2 fields 2", policy="1,0\n8\n")
        self.assertIn("Record 2", told)
        self.assertIn("has 1 fields: a record holds 2 numbers", told)

    def test_policy_number(self):
        self.assertIn("`x`, is no number", self.generate("error 5 text 2 number 2 2", policy="1,0\n8,x\n"))

    def test_policy_denominator(self):
        self.assertIn("a denominator is 1 to 1099511627776", self.generate("error 5 text 2 number 1 1", policy="0,0\n8,-7\n"))

    def test_policy_count(self):
        self.assertIn("has 3 records, and the design has 2 corners", self.generate("error 5 text 2 count 3", policy="1,0\n8,-7\n8,-7\n"))

    def test_empty_policy(self):
        self.assertIn("has 0 records", self.generate("error 5 text 2 count 0", policy=""))

    def test_states_fields(self):
        self.assertIn("one number a state", self.solve("error 5 text 2 fields 1", states="1,1\n"))

    def test_no_margin_by_names(self):
        told = self.generate("error 6 no-margin 2 15 4 524288", NAMED + AXIS, AXIS_POLICY)
        self.assertIn("corner 2 (angle high, rate low)", told)
        self.assertIn("stage row 3 (angle above) at stage 2: slack 4/524288 = 0.0000076, at least 0.0000153", told)

    def test_no_margin_without_names(self):
        self.assertIn("corner 2 (x1 high, x2 low)", self.generate("error 6 no-margin 2 15 -1 4", AXIS, AXIS_POLICY))

    def test_no_margin_in_a_final_row(self):
        self.assertIn("final row 4 at stage 5", self.generate("error 6 no-margin 1 34 0 1", AXIS, AXIS_POLICY))

    def test_no_margin_of_corners_in_enclosures(self):
        # 2/3 + 1/3 of the bound of 1, which the enclosures miss by 2 / 2^40
        told = self.generate("error 6 no-margin 1 2 -2 1099511627776", THIRDS, THIRDS_POLICY)
        self.assertIn("slack -2/1099511627776 = -0.0000000, of the corners' enclosures, at least", told)
        self.assertIn("The plan touches the limit", told)

    def test_state_row_at_stage_0(self):
        self.assertIn("at stage 0 that is the corner itself", self.generate("error 6 no-margin 2 3 0 32", AXIS, AXIS_POLICY))

    def test_curvature(self):
        self.assertIn("too steep", self.generate("error 7 curvature"))

    def test_too_many_steps(self):
        told = self.generate("error 8 too-many-steps 8388608")
        self.assertIn("K = 8388608", told)
        self.assertIn("at least 32", told)

    def test_reference_plans(self):
        self.assertIn("has 1 records, and the design has 2 corners", self.lean("error 5 text 3 count 1", reference="1,0\n"))
        told = self.lean("error 5 text 3 number 2 1", reference="1,0\n0,1\n")
        self.assertIn("Field 1 of record 2 in the reference file", told)
        self.assertIn("`0`, is no number that may stand there: a denominator is 1 to 1099511627776", told)
        self.assertIn("a record holds 2 numbers, a denominator and 1 times 1 inputs", self.lean("error 5 text 3 fields 1", reference="1\n1,0\n"))
        self.assertIn("the report file", self.lean("error 4 write-fault 5"))
        self.assertIn("At corner 2 (x1 high) the policy's plan", self.lean("error 6 no-margin 2 2 4 524288"))

    def test_steps_of_a_lean_controller(self):
        told = self.lean("error 8 too-many-steps 8388608")
        self.assertIn("K = 2^(s+1) R over 15/16 of the target", told)
        self.assertIn("or a policy with a smaller excess, as ./mpc policy --lean finds it", told)

    def test_steps_of_the_accelerated_machine(self):
        told = self.lean("error 8 too-many-steps 131070", FIRST.replace("version = 1", "version = 3"))
        self.assertIn("K = 131070 steps, and at most 65534 are accepted. K (K + 3) = 2^(s+3) R over 15/16 of the target", told)
        self.assertIn("at least 64", told)
        made = self.generate("error 8 too-many-steps 131070", FIRST.replace("version = 1", "version = 3"))
        self.assertIn("K (K + 3) = 2^(s+4) R / target", made)
        self.assertIn("or a policy with a larger margin or a smaller cost", made)

    def test_sizes_of_a_lean_controller(self):
        self.assertIn("passes 2^126 (it is 2^181.7)", self.lean("error 10 too-wide excess", reference="1,0\n1,-999999999999999\n"))
        self.assertIn("(it is 2^79.2)", self.lean("error 10 too-wide excess"))
        self.assertIn("(it is 2^82.0)", self.lean("error 10 too-wide multiplier"))
        self.assertIn("(it is 2^127.0)", self.lean("error 10 too-wide prediction", STEEP, STEEP_POLICY, STEEP_POLICY))

    def test_too_fine(self):
        self.assertIn("more than 48 fraction bits", self.generate("error 9 too-fine 151000321"))

    def test_every_quantity_has_words(self):
        for name in ("prediction", "corner_slack", "corner_cost", "excess", "multiplier", "hessian", "rows", "curvature", "error", "descent", "width", "turn"):
            self.assertIn(f"`{name}`, {refusals.QUANTITIES[name][0]}, passes 2^126", self.generate(f"error 10 too-wide {name}"))

    def test_size_of_the_corners(self):
        told = self.generate("error 10 too-wide prediction", STEEPER, STEEPER_POLICY)
        self.assertIn("`prediction`, the plant's growth over the horizon with 40 fraction bits, passes 2^126 (it is 2^156.0)", told)
        self.assertIn("(it is 2^168.1)", self.generate("error 10 too-wide corner_cost", FAR, FAR_POLICY))

    def test_size_of_the_enclosures(self):
        told = self.generate("error 10 too-wide prediction", STEEP, STEEP_POLICY)
        self.assertIn("`prediction`, the plant's growth over the horizon with 40 fraction bits, passes 2^126 (it is 2^127.0)", told)
        self.assertIn("denominators so short that exact numbers fit", told)
        self.assertIn("(it is 2^90.3)", self.generate("error 10 too-wide hessian", LONG, LONG_POLICY))
        self.assertIn("(it is 2^107.0)", self.generate("error 10 too-wide hessian", ROOMY_FINE_AXIS, FINE_AXIS_POLICY * 4))

    def test_controller_line(self):
        told = self.solve("error 11 controller 1 line 10", FIRST_CONTROLLER.replace("T 0", "T -0"))
        self.assertIn("line 10 (`T -0`)", told)
        self.assertIn("`T` and 1 numbers", told)

    def test_controller_line_of_version_2(self):
        told = self.solve("error 11 controller 1 line 7", SECOND_CONTROLLER.replace("exps 0 1 1", "exps 0 1 2"))
        self.assertIn("line 7 (`exps 0 1 2`) should be `exps` and a number from 0 to s for each row", told)
        third = SECOND_CONTROLLER.replace("mpc-controller 2", "mpc-controller 3")
        self.assertIn("line 6 (`words 6`) should be `words` and n + 3 m + 2 p N", self.solve("error 11 controller 1 line 6", third))
        self.assertIn("line 1 (`mpc-controller 3`) should be `mpc-controller 1`", self.words("error 11 controller 1 line 1", "list", "c", "l", c=third))
        self.assertIn("`lo` and a number for each state", self.solve("error 11 controller 1 line 8", SECOND_CONTROLLER))

    def test_controller_cut_short(self):
        self.assertIn("line 19", self.solve("error 11 controller 1 line 19", FIRST_CONTROLLER[:-4]))

    def test_controller_with_more(self):
        self.assertIn("nothing follows `end`", self.solve("error 11 controller 1 line 20", FIRST_CONTROLLER + "x"))

    def test_controller_unsafe(self):
        self.assertIn("could leave the width", self.solve("error 11 controller 1 unsafe"))

    def test_outside_box(self):
        told = self.solve("error 12 outside-box 2 0 1", states="1\n2\n")
        self.assertIn("coordinate x1 (2, and the box is 0 to 1)", told)
        self.assertIn("steps of 1/1", told)

    def test_loop_left_the_box(self):
        told = self.words("error 12 outside-box 2 5 1", "loop", "d", "c", "s", "9", d=NAMED + AXIS, c=FIRST_CONTROLLER, s="1\n")
        self.assertIn("left the box before turn 5, in coordinate angle", told)

    def test_disturbances_of_a_loop(self):
        loop = lambda line, v: self.words(line, "loop", "d", "c", "s", "2", "v", d=FIRST, c=FIRST_CONTROLLER, s="1\n", v=v)
        self.assertRegex(loop("error 5 text 5 count 1", "0\n"), "^the disturbances file .*v has 1 records, and 2 are needed: one for each turn")
        told = loop("error 5 text 5 number 2 1", "0\n2147483648\n")
        self.assertIn("`2147483648`", told)
        self.assertNotIn("second record", told)
        self.assertIn("has 2 fields: a record holds 1 numbers", loop("error 5 text 5 fields 1", "0,0\n0\n"))
        self.assertRegex(loop("error 3 read-fault 5", "0\n"), "^the disturbances file .*v could not be read")

    def test_long(self):
        self.assertIn("longer than 4194304 bytes", self.generate("error 13 long 1"))

    def test_mismatch(self):
        told = self.words("error 14 mismatch states 2 1", "loop", "d", "c", "s", "1", d=AXIS, c=FIRST_CONTROLLER, s="1")
        self.assertIn("its states are 1, and the design's are 2", told)

    def play(self, line, listing, states="1\n"):
        return self.words(line, "play", "l", "s", l=listing, s=states)

    def test_listing_line(self):
        self.assertIn("line 2 (`word 1`) should be `word` and the bits of a word", self.play("error 20 listing 1 2", FIRST_LISTING.replace("word 26", "word 1")))
        self.assertIn("line 46 (`addm 6`) should be an instruction", self.play("error 20 listing 1 46", FIRST_LISTING.replace("addm 4", "addm 6")))
        self.assertIn("line 48 should be `end`", self.play("error 20 listing 1 48", FIRST_LISTING.removesuffix("end\n")))
        self.assertIn("nothing follows `end`", self.play("error 20 listing 1 49", FIRST_LISTING + "x"))

    def test_trap(self):
        narrow = FIRST_LISTING.replace("word 26", "word 20")
        self.assertIn("in repetition 1 at instruction 2 (`mac 0 512 0`)", self.play("error 21 trap 1 1 2", narrow))
        self.assertIn("State 1, shifted up", self.play("error 21 trap 1 0 0", narrow))

    def test_state_outside_the_box_of_a_listing(self):
        self.assertIn("outside the listing's box in coordinate x1 (2, and the box is 0 to 1)", self.play("error 12 outside-box 1 0 1", FIRST_LISTING, "2\n"))

    def test_listing_over_the_controller(self):
        self.assertIn("The listing file c is the controller file c", self.words("error 2 usage", "list", "c", "c"))
        self.assertIn("Nothing stands in it", self.words("error 4 write-fault 2", "list", "c", "/nowhere/l"))

    def split(self, line, cuts="1,0\n", policies=2 * "1,0\n" + 2 * "8,-7\n", design=FIRST):
        return self.words(line, "split", "d", "l", "p", "c", "r", d=design, l=cuts, p=policies)

    def test_cuts(self):
        self.assertIn("Field 2 of record 1 in the cuts file", self.split("error 5 text 2 number 1 2", "1,1\n"))
        self.assertIn("`1`, is no number that may stand there: a cut from 0 to 0, since cuts rise and the box ends at 1", self.split("error 5 text 2 number 1 2", "1,1\n"))
        self.assertIn("there is no room for a cut", self.split("error 5 text 2 number 1 3", "2,0,0\n"))
        self.assertIn("`64`, is no number that may stand there: the number of cuts is 0 to 63", self.split("error 5 text 2 number 1 1", "64\n"))
        self.assertIn("has 3 fields: a record holds how many cuts its coordinate has, and then so many cuts", self.split("error 5 text 2 fields 1", "1,0,0\n"))
        self.assertIn("has 2 records, and the design has 1 states: one record for each", self.split("error 5 text 2 count 2", "0\n0\n"))
        self.assertIn("make 72 cells, and at most 64 are served", self.split("error 5 text 2 range 0", "8,0,1,2,3,4,5,6,7\n7,0,1,2,3,4,5,6\n", design=AXIS))

    def test_policies_of_cells(self):
        self.assertIn("has 2 records, and 4 are needed: a plan for each corner of each cell", self.split("error 5 text 3 count 2", policies=FIRST_POLICY))
        self.assertIn("has 2 records, and 3 are needed: a plan for each corner of each cell", self.split("error 5 text 3 count 2", policies="none\n8,-7\n"))
        self.assertIn("has `none` for every cell", self.split("error 5 text 3 range 0", policies="none\nnone\n"))
        self.assertIn("a record holds 2 numbers, a denominator", self.split("error 5 text 3 fields 1", policies="1\n"))
        self.assertIn("a denominator is 1 to 1099511627776", self.split("error 5 text 3 number 1 1", policies="0,0\n"))

    def test_cell_that_is_refused(self):
        told = self.split("error 18 cell 2 no-margin 1 3 -3 4", policies=4 * "1,0\n")
        self.assertIn("Cell 2 (x1 1 to 1, over 2^grid) has no controller, with its policy: At corner 1 (x1 low) the policy's plan leaves too little room in final row 1 at stage 1: slack -3/4", told)
        behind = self.split("error 18 cell 2 no-margin 1 3 -3 4", policies="none\n" + 2 * "1,0\n")
        self.assertIn("Cell 2 (x1 1 to 1, over 2^grid) has no controller, with its policy: At corner 1 (x1 low) the policy's plan leaves too little room in final row 1 at stage 1: slack -3/4", behind)
        self.assertIn("K = 8388608", self.split("error 18 cell 2 too-many-steps 8388608"))
        self.assertIn("too steep", self.split("error 18 cell 1 curvature"))
        self.assertIn("Cell 1 (x1 0 to 0, over 2^grid) has no controller, with its policy: `error`, the sum of the rounding errors, passes 2^126 (it is 2^", self.split("error 18 cell 1 too-wide error"))
        # where the files can't be read
        self.assertIn("Cell 7 has no controller, with its policy: At corner 1 the policy's plan", self.split("error 18 cell 7 no-margin 1 1 0 1"))

    def test_files_of_split(self):
        self.assertIn("The cells file l is the cuts file l: each of the five needs a file of its own", self.words("error 2 usage", "split", "d", "l", "p", "l", "r"))
        self.assertIn("The report file c is the cells file c", self.words("error 2 usage", "split", "d", "l", "p", "c", "c"))
        self.assertIn("`split` takes 5 arguments, DESIGN CUTS POLICIES CELLS REPORT, and 2 were given", self.words("error 2 usage", "split", "d", "l"))
        told = self.words("error 4 write-fault 5", "split", "d", "l", "p", "c", "/nowhere/r", d=FIRST)
        self.assertIn("there is no folder /nowhere. The cells file stands whole.", told)

    def serve(self, line, text, states="1\n"):
        return self.words(line, "serve", "c", "s", c=text, s=states)

    def test_cells(self):
        two = f"mpc-cells 2\n{FIRST_CONTROLLER}{FIRST_CONTROLLER}end\n"
        self.assertIn("is no text of cells: line 1 (`mpc-cells 65`) should be `mpc-cells` and the number of cells", self.serve("error 11 controller 1 line 1", two.replace("cells 2", "cells 65")))
        self.assertIn("line 11 (`T -0`) should be `T` and 1 number", self.serve("error 11 controller 1 line 11", two.replace("T 0", "T -0", 1)))
        second = two.replace("T 0", "T 1", 1).replace("T 0", "T -0").replace("T 1", "T 0")
        self.assertIn("line 30 (`T -0`) should be `T` and 1 number", self.serve("error 11 controller 1 line 30", second))
        words = f"mpc-cells 2\n{FIRST_CONTROLLER}{FIRST_CONTROLLER.replace('mpc-controller 1', 'mpc-controller 3')}end\n"
        self.assertIn("line 26 (`words 6`) should be `words` and n + 3 m + 2 p N", self.serve("error 11 controller 1 line 26", words))
        self.assertIn("line 20 should be `end`", self.serve("error 11 controller 1 line 20", f"mpc-cells 1\n{FIRST_CONTROLLER[:-4]}"))
        self.assertIn("line 21 (`mpc-controller 1`) should be `end`", self.serve("error 11 controller 1 line 21", two.replace("cells 2", "cells 1")))
        self.assertIn("line 22 (`size 2 1 1 3`) should be `size`, n, p and N of the first cell, and m", self.serve("error 11 controller 1 line 22", "size 2 1 1 3".join(two.rsplit("size 1 1 1 3", 1))))
        self.assertIn("nothing follows the last `end`", self.serve("error 11 controller 1 line 41", two + "x"))
        self.assertIn("so none is run", self.serve("error 11 controller 1 unsafe", two))
        self.assertIn("longer than 268435456 bytes", self.serve("error 13 long 1", two))
        told = self.serve("error 12 outside-box 1 0 1", two, "7\n")
        self.assertIn("is in no cell of", told)
        self.assertIn("outside the first one's box in coordinate x1 (7, and it is 0 to 1)", told)

    def test_program(self):
        """Of `c`: what its name and its files are, and the width of the controller."""
        self.assertIn("`Motor` is no name of a program", refusals.explanation(2, "error 2 usage", ["c", "k", "Motor", "t", "h"]))
        self.assertIn("The header file t is the source file t", refusals.explanation(2, "error 2 usage", ["c", "k", "motor", "t", "t"]))
        self.assertIn("is of a controller of 78 bits", refusals.explanation(22, "error 22 too-wide-c 78", ["c", "k", "motor", "t", "h"]))
        self.assertIn("The source file stands whole", refusals.explanation(4, "error 4 write-fault 4", ["c", "k", "motor", "t", "h"]))

    def test_settling(self):
        words = ["settle", "d", "c", "z"]
        self.assertIn("that of row 2 of the controller may: 7 isn't below 5", refusals.explanation(23, "error 23 moves 2 7 5", words))
        self.assertIn("Record 3 of the certificate file z can't stand there: it needs turns from 1 to 4096", refusals.explanation(5, "error 5 text 3 range 3", words))
        self.assertIn("certificate file z has 2 records, and needs 3", refusals.explanation(5, "error 5 text 3 count 2", words))
        self.assertIn("After turn 3 a loop from the start box of the certificate file z may be as far as at -9 over 2^grid in x1", refusals.explanation(24, "error 24 unsettled 3 1 -9", words))
        self.assertIn("the box of rest itself", refusals.explanation(25, "error 25 no-return 3 1 -9", words))

    def test_no_line(self):
        self.assertEqual(refusals.explanation(12, "", ["solve", "c", "s"]), "")

    def test_files_of_any_bytes(self):
        for line in ("error 5 text 1 shape 6", "error 5 text 2 number 1 1", "error 6 no-margin 1 1 0 1", "error 10 too-wide error", "error 8 too-many-steps 9"):
            self.assertTrue(self.generate(line, b"\xff[", b"\xff,,\n"))


class Page(unittest.TestCase):
    def test_page_is_made_of_the_texts(self):
        printed = subprocess.run([*as_command("refusals"), "--table"], capture_output=True, text=True).stdout
        with open(os.path.join(TOP, "docs", "REFUSALS.md"), encoding="utf-8") as file:
            self.assertEqual(file.read(), printed)

    def test_every_text_stands_on_the_page(self):
        self.assertEqual({name for _, _, names in refusals.STATUSES for name in names}, set(refusals.TEXTS))


class Launcher(unittest.TestCase):
    """The launcher passes on what a program says. The program is a stand-in."""

    def folder(self, body):
        """A folder with the launcher, the scripts and a stand-in of the program."""
        folder, _ = folder_with(self)
        for part in ("crates/mpc_cli/out", "crates/mpc_cli/src", "crates/mpc_cli/specs", "crates/mpc_cli/proofs", "docs"):
            os.makedirs(os.path.join(folder, part))
        shutil.copy(os.path.join(TOP, "mpc"), folder)
        shutil.copy(os.path.join(TOP, "CHANGELOG.md"), folder)
        shutil.copy(os.path.join(TOP, "commands.txt"), folder)
        shutil.copy(os.path.join(TOP, "docs", "help.txt"), os.path.join(folder, "docs"))
        shutil.copytree(os.path.join(TOP, "scripts"), os.path.join(folder, "scripts"), ignore=shutil.ignore_patterns("__pycache__", "tests"))
        with open(os.path.join(folder, "crates.txt"), "w"):
            pass
        program = os.path.join(folder, "crates/mpc_cli/out/mpc_cli")
        with open(program, "w") as file:
            file.write("#!/bin/bash\n" + body)
        os.chmod(program, 0o755)
        return folder

    def launched(self, body, *words, redirected=""):
        command = " ".join([shlex.quote(os.path.join(self.folder(body), "mpc")), *map(shlex.quote, words), redirected])
        return subprocess.run(command, shell=True, capture_output=True, text=True)

    def test_done(self):
        got = self.launched('echo "$1 $2"', "solve", "c d")
        self.assertEqual((got.returncode, got.stdout, got.stderr), (0, "solve c d\n", ""))

    def test_line_and_status_stay(self):
        got = self.launched("echo 1 2; echo error 13 long 1 >&2; exit 13", "solve", "c", "s")
        self.assertEqual((got.returncode, got.stdout), (13, "1 2\n"))
        self.assertEqual(got.stderr.split("\n")[0], "error 13 long 1")
        self.assertIn("longer than 4194304 bytes", got.stderr.split("\n")[1])

    def test_silent_refusal(self):
        got = self.launched("exit 12", "solve", "c", "s")
        self.assertEqual((got.returncode, got.stdout, got.stderr), (12, "", ""))

    def test_closed_output(self):
        got = self.launched("echo there || { echo error 4 write-fault 0 >&2; exit 4; }", "demo", "7", redirected=">&-")
        self.assertEqual((got.returncode, got.stderr.split("\n")[-2]), (4, "error 4 write-fault 0"))

    def built(self, toolchain, kept=(), words=("solve", "c", "s"), name="mpc_cli"):
        """What the launcher says where no program is there: of the crates `low`, the two programs above it and `trials`, with a stand-in for the toolchain."""
        folder = self.folder("exit 0")
        os.remove(os.path.join(folder, "crates/mpc_cli/out/mpc_cli"))
        for part in ("crates/low/src", "crates/low/must-fail", "crates/trials/src", "crates/mpc_generate/src", "bin", *kept):
            os.makedirs(os.path.join(folder, part))
        for file_name, text in (("crates.txt", "low:\nmpc_cli: low\nmpc_generate: low\ntrials: low\n"), ("HANDLES", "Handles allowed: none.\n"), ("bin/rt", "#!/bin/bash\n" + toolchain)):
            with open(os.path.join(folder, file_name), "w") as file:
                file.write(text)
        os.chmod(os.path.join(folder, "bin", "rt"), 0o755)
        got = subprocess.run(
            [os.path.join(folder, "mpc"), *words],
            capture_output=True,
            text=True,
            env=os.environ | {"PATH": os.path.join(folder, "bin") + ":" + os.environ["PATH"]},
        )
        self.assertEqual((got.returncode, got.stdout), (0, "built\n"))
        self.assertIn(f"; for a look before it is proved: ./mpc try {words[0]} ..", got.stderr.split("\n")[0])
        self.assertIn("mpc: 0 of 2 crates are proved; low\n", got.stderr)
        self.assertIn("mpc: 1 of 2 crates are proved\n", got.stderr)
        self.assertFalse(os.path.exists(os.path.join(folder, f"crates/{name}/build.log.begun")))
        return got.stderr

    def test_progress_of_a_build_from_nothing(self):
        """The gate is given the two crates of the program, not that of tests, without their wrong bodies, and the program that it made is taken."""
        self.built(
            """
[ "$*" = ci ] && [ "$(echo crates/*)" = "crates/low crates/mpc_cli" ] && [ ! -e crates/low/must-fail ] && [ "$(sort crates.txt | tr '\n' ' ')" = "low: mpc_cli: low " ] || exit 1
[ "$(cat HANDLES)" = "Handles allowed: none." ] || exit 1
sleep 1; mkdir -p crates/low/out; sleep 6; echo "== low"; echo "logic=proved functions=1"; sleep 6
mkdir -p crates/mpc_cli/out; printf '#!/bin/bash\necho built\n' >crates/mpc_cli/out/mpc_cli; chmod +x crates/mpc_cli/out/mpc_cli
"""
        )

    def test_progress_of_a_build_over_kept_work(self):
        self.built(
            """
if [ "$1" = all ]; then
    sleep 1; mkdir -p ../low/out/incremental; sleep 6; echo "== low"; echo "logic=proved functions=1"; sleep 6; exit
fi
echo "== mpc_cli"; echo "logic=proved functions=1"; printf '#!/bin/bash\necho built\n' > out/mpc_cli; chmod +x out/mpc_cli
""",
            kept=["crates/mpc_cli/out/incremental"],
        )

    def test_generate_is_built_alone(self):
        told = self.built(
            """
[ "$*" = ci ] && [ "$(echo crates/*)" = "crates/low crates/mpc_generate" ] && [ "$(sort crates.txt | tr '\n' ' ')" = "low: mpc_generate: low " ] || exit 1
sleep 1; mkdir -p crates/low/out; sleep 6; echo "== low"; echo "logic=proved functions=1"; sleep 6
mkdir -p crates/mpc_generate/out; printf '#!/bin/bash\necho built\n' >crates/mpc_generate/out/mpc_generate; chmod +x crates/mpc_generate/out/mpc_generate
""",
            words=("generate", "d", "p", "c", "r"),
            name="mpc_generate",
        )
        self.assertIn("mpc: building the program of generate alone", told)

    def test_which_program_runs(self):
        """`generate` is the whole program's where that is there, and else its own one's, but of a design of version 3; of the others there is none but the whole one."""
        folder = self.folder("echo whole")
        alone = os.path.join(folder, "crates/mpc_generate/out/mpc_generate")
        os.makedirs(os.path.dirname(alone))
        with open(alone, "w") as file:
            file.write("#!/bin/bash\necho alone\n")
        os.chmod(alone, 0o755)
        self.assertEqual(self.run_in(folder, "./mpc generate d p c r").stdout, "whole\n")
        os.makedirs(os.path.join(folder, "bin"))
        with open(os.path.join(folder, "bin", "rt"), "w") as file:
            file.write("#!/bin/bash\nexit 1\n")
        os.chmod(os.path.join(folder, "bin", "rt"), 0o755)
        os.remove(os.path.join(folder, "crates/mpc_cli/out/mpc_cli"))
        with open(os.path.join(folder, "e"), "w") as file:
            file.write(FIRST.replace("version = 1", "version = 3 # accelerated"))
        with open(os.path.join(folder, "second"), "w") as file:
            file.write(SECOND + "# no version = 3\n")
        for name in ("d", "second"):
            self.assertEqual(self.run_in(folder, f"PATH=$PWD/bin:$PATH ./mpc generate {name} p c r").stdout, "alone\n")
        # no controller of the accelerated machine is made by it
        for words in ("solve c s", "generate e p c r"):
            got = self.run_in(folder, f"PATH=$PWD/bin:$PATH ./mpc {words}")
            self.assertEqual((got.returncode, got.stdout), (98, ""))
            self.assertIn("crates/mpc_cli/build.log has the reason", got.stderr)

    def test_program_of_changed_sources_is_no_answer(self):
        """Where a source is newer than the program and can't be proved, nothing is run."""
        folder = self.folder("echo stale")
        self.run_in(folder, "mkdir bin; printf '#!/bin/bash\nexit 1\n' > bin/rt; chmod +x bin/rt; sleep 0.1; touch crates/mpc_cli/src/main.rt")
        for _ in range(2):
            got = self.run_in(folder, "PATH=$PWD/bin:$PATH ./mpc solve c s")
            self.assertEqual((got.returncode, got.stdout), (98, ""))

    def run_in(self, folder, command, **how):
        """A command of the shell in a folder with the launcher."""
        return subprocess.run(command, shell=True, cwd=folder, capture_output=True, text=True, **how)

    def test_outputs_that_are_inputs(self):
        """By whatever name they are called, none of the files is touched, and the program is never run."""
        folder = self.folder("echo never; exit 0")
        for name in ("d", "p", "s"):
            with open(os.path.join(folder, name), "w") as file:
                file.write(name)
        self.run_in(folder, "ln -s p symbolic; ln p hard; ln -s . here; ln -s new hanging")
        for words, told in (
            ("generate d p c ./p", "The report file ./p is the policy file p"),
            ("generate d p c symbolic", "The report file symbolic is the policy file p"),
            ("generate d p hard r", "The controller file hard is the policy file p"),
            ("generate d p here/d r", "The controller file here/d is the design file d"),
            ("generate d p new ./new", "The report file ./new is the controller file new"),
            ("generate d p hanging new", "The report file new is the controller file hanging"),
            ("lean d p s c ./s", "The report file ./s is the reference file s"),
            ("lean d p s symbolic r", "The controller file symbolic is the policy file p"),
            ("lean d p s here/s r", "The controller file here/s is the reference file s"),
            ("lean d p s new ./new", "The report file ./new is the controller file new"),
            ("split d p s c ./p", "The report file ./p is the cuts file p"),
            ("split d p s here/s r", "The cells file here/s is the policies file s"),
            ("split d p s new ./new", "The report file ./new is the cells file new"),
            ("c d d ./d h", "The source file ./d is the controller file d"),
            ("c p motor t hard", "The header file hard is the controller file p"),
            ("c d motor new ./new", "The header file ./new is the source file new"),
            ("settle d p s >> s", "Standard output is one of the files that are read"),
            ("settle d p c s >> s", "Standard output is one of the files that are read"),
            ("serve c s >> s", "Standard output is one of the files that are read"),
            ("solve c s >> s", "Standard output is one of the files that are read"),
            ("loop d c s 3 >> ./here/s", "Standard output is one of the files that are read"),
        ):
            got = self.run_in(folder, "./mpc " + words)
            self.assertEqual((got.returncode, got.stdout, got.stderr.split("\n")[0]), (2, "", "error 2 usage"), words)
            self.assertIn(told, got.stderr)
        self.assertEqual(self.run_in(folder, "cat d p s").stdout, "dps")
        for words in ("generate d p c r", "c d d t h", "generate d p /dev/null /dev/null", "solve c s > out", "loop d c s 3 | cat"):
            self.assertEqual(self.run_in(folder, "./mpc " + words + " && cat out 2>/dev/null; true").stderr, "", words)

    def test_tables_are_the_script_s(self):
        """`c` with an option is the script's, which needs no program; without one it is the program's."""
        folder = self.folder('echo "$# $1"')
        self.assertIn("there is no such folder", self.run_in(folder, "./mpc c k --name motor --out none").stderr)
        self.assertEqual(self.run_in(folder, "./mpc c k motor t h").stdout, "5 c\n")
        self.assertEqual(self.run_in(folder, "./mpc c --help").stdout.split("\n")[0], "  mpc c CONTROLLER NAME SOURCE HEADER")

    CALLS = [
        (words, told)
        for words, told in (
            ("", "A command is needed"),
            ("frob", "`frob` is no command"),
            ("solved c s", "`solved` is no command"),
            ("demo", "`demo` takes 1 arguments, NUMBER, and 0 were given"),
            ("solve c", "`solve` takes 2 arguments, CONTROLLER STATES, and 1 were given"),
            ("generate d p c", "`generate` takes 4 arguments"),
            ("generate d p c r f", "`generate` takes 4 arguments"),
            ("loop d c s", "`loop` takes 4 or 5 arguments"),
            ("loop d c s 3 w w", "`loop` takes 4 or 5 arguments"),
            ("lean d p q c", "`lean` takes 5, 6 or 7 arguments"),
            ("stay d p c r f w w", "`stay` takes 5 or 6 arguments"),
            ("c c motor t", "`c` takes 4 arguments, CONTROLLER NAME SOURCE HEADER, and 3 were given"),
            ("settle d c", "`settle` takes 3 or 4 arguments"),
        )
    ]

    def test_what_is_no_call_needs_no_build(self):
        """A word that is no command and a wrong count of arguments are told at once, as the program tells them, and the toolchain isn't asked."""
        folder = self.folder("")
        os.remove(os.path.join(folder, "crates/mpc_cli/out/mpc_cli"))
        self.run_in(folder, "mkdir bin; printf '#!/bin/bash\necho asked\nexit 1\n' > bin/rt; chmod +x bin/rt")
        for words, told in self.CALLS:
            got = self.run_in(folder, "PATH=$PWD/bin:$PATH ./mpc " + words)
            self.assertEqual((got.returncode, got.stdout, got.stderr.split("\n")[0]), (2, "", "error 2 usage"), words)
            self.assertIn(told, got.stderr.split("\n")[1])
            self.assertFalse(os.path.exists(os.path.join(folder, "crates/mpc_cli/build.log")), words)
        for words in ("demo 7", "solve c s", "loop d c s 3 w", "lean d p q c r f w", "stay d p c r f", "serve c s", "c c motor t h", "settle d c z w"):
            self.assertEqual(self.run_in(folder, "PATH=$PWD/bin:$PATH ./mpc " + words).returncode, 98, words)

    @unittest.skipUnless(os.path.exists(os.path.join(TOP, "crates/mpc_cli/out/mpc_cli")), "missing: the program, which ./mpc builds")
    def test_what_is_no_call_is_told_as_the_program_tells_it(self):
        """The built program ends with the same line and status."""
        for words, _ in self.CALLS:
            got = subprocess.run([os.path.join(TOP, "crates/mpc_cli/out/mpc_cli"), *words.split()], capture_output=True, text=True)
            self.assertEqual((got.returncode, got.stdout, got.stderr), (2, "", "error 2 usage\n"), words)

    def looked(self, toolchain, words):
        """What a look says, with a stand-in for the toolchain, in a folder with a program that says what is proved; and the folder."""
        folder = self.folder("echo proved")
        os.makedirs(os.path.join(folder, "bin"))
        os.makedirs(os.path.join(folder, "crates/mpc_generate"))
        with open(os.path.join(folder, "bin", "rt"), "w") as file:
            file.write("#!/bin/bash\n" + toolchain)
        os.chmod(os.path.join(folder, "bin", "rt"), 0o755)
        return self.run_in(folder, "PATH=$PWD/bin:$PATH ./mpc try " + words), folder

    NOTE = "mpc: a look before it is proved: nothing is proved of this run, and what it prints and writes is not certified"

    def test_look_names_whole_paths(self):
        """The kit runs the command in a folder of its own, so each file is named by its whole path, and a number stays."""
        told = 'echo "$(basename "$PWD") $*"; echo "run=ended status=0 runners=1 proved=no" >&2'
        for words, crate, wanted in (
            ("demo 7", "mpc_cli", "demo 7"),
            ("loop d /c s 3 w", "mpc_cli", "loop {0}/d /c {0}/s 3 {0}/w"),
            ("generate d 'p q' c r.json", "mpc_generate", "generate {0}/d {0}/p q {0}/c {0}/r.json"),
        ):
            got, folder = self.looked(told, words)
            self.assertEqual((got.returncode, got.stdout), (0, f"{crate} try --seconds 600 -- {wanted.format(os.path.realpath(folder))}\n"))
            self.assertEqual(got.stderr, self.NOTE + "\n")

    def test_look_ends_as_the_command(self):
        got, _ = self.looked("echo 1 2; printf 'checked: ended status=13\nerror 13 long 1\nrun=ended status=13 runners=1 proved=no\n' >&2; exit 13", "solve c s")
        self.assertEqual((got.returncode, got.stdout), (13, "1 2\n"))
        self.assertEqual(got.stderr.split("\n")[:2], [self.NOTE, "error 13 long 1"])
        self.assertIn("longer than 4194304 bytes", got.stderr.split("\n")[2])
        # (the kit ends with numbers that the command has other meanings for)
        got, _ = self.looked("printf 'checked: no-answer\nrun=no-answer proved=no\n' >&2; exit 6", "solve c s")
        self.assertEqual((got.returncode, got.stdout), (98, ""))
        self.assertEqual(got.stderr.split("\n")[-2], "mpc: the look came to no end")

    def test_look_refuses_at_once(self):
        for words, told in [*self.CALLS, ("explain r", "`explain` is no command"), ("generate d p c ./c", "The report file ./c is the controller file c")]:
            got, _ = self.looked("echo asked", words)
            self.assertEqual((got.returncode, got.stdout, got.stderr.split("\n")[0]), (2, "", "error 2 usage"), words)
            self.assertIn(told, got.stderr)

    def test_nothing_rests_on_a_look(self):
        """No script, check or page calls it, so what they tell comes from the proved program; only bench/gate measures what it takes."""
        asks = self.run_in(TOP, r"grep -rlE '(mpc|\./mpc) try|\"try\"' --include='*.py' --include=run --include=test --include='README.md' scripts checks bench examples .ci test | sort")
        self.assertEqual([file for file in asks.stdout.split() if not file.startswith("bench/gate/")], ["scripts/tests/test_refusals.py"])

    @unittest.skipIf(shutil.which("rt") is None, "missing: rt")
    def test_look_is_of_the_sources_and_leaves_no_program(self):
        """A real look, at the crates alone: it writes the controller and the report that are kept beside the first design, and the next call has a program to build."""
        folder, _ = folder_with(self)
        for part in ("crates", "docs", "scripts", "examples/first"):
            shutil.copytree(os.path.join(TOP, part), os.path.join(folder, part), ignore=shutil.ignore_patterns("out", "must-fail", "proofs", "tests", "__pycache__"))
        for name in ("mpc", "commands.txt", "crates.txt", "HANDLES", "CHANGELOG.md"):
            shutil.copy(os.path.join(TOP, name), folder)
        os.mkdir(os.path.join(folder, ".git"))
        got = self.run_in(folder, "./mpc try generate examples/first/design.toml examples/first/policy.csv made report")
        self.assertEqual((got.returncode, got.stdout, got.stderr), (0, "", self.NOTE + "\n"))
        with open(os.path.join(folder, "made"), encoding="utf-8") as made, open(os.path.join(TOP, "examples/first/controller.txt"), encoding="utf-8") as kept:
            self.assertEqual(made.read(), kept.read())
        self.assertEqual(sorted(os.listdir(folder)), sorted([".git", "CHANGELOG.md", "HANDLES", "commands.txt", "crates", "crates.txt", "docs", "examples", "made", "mpc", "report", "scripts"]))
        self.assertEqual(self.run_in(folder, "find crates -newer report").stdout, "")
        self.assertEqual(self.run_in(folder, "find crates -name 'mpc_*' -type f").stdout, "")

    def test_answers_of_the_launcher(self):
        """Without a program there is help and a version, and both fail where they can't be written."""
        folder = self.folder("")
        os.remove(os.path.join(folder, "crates/mpc_cli/out/mpc_cli"))
        with open(os.path.join(TOP, "docs", "help.txt"), encoding="utf-8") as file:
            page = file.read()
        for words in ("--help", "-h", "help"):
            self.assertEqual(self.run_in(folder, f"./mpc {words}").stdout, page)
        for name, line in (("generate", "  mpc generate DESIGN POLICY CONTROLLER REPORT"), ("lean", "  mpc lean DESIGN POLICY REFERENCE CONTROLLER REPORT [FACES] [DISTURBANCES]")):
            for words in (f"{name} --help", f"{name} -h", f"help {name}"):
                told = self.run_in(folder, f"./mpc {words}")
                self.assertEqual((told.returncode, told.stdout.split("\n")[0]), (0, line))
                self.assertNotIn("mpc solve", told.stdout)
        os.makedirs(os.path.join(folder, "bin"))
        with open(os.path.join(folder, "bin", "rt"), "w") as file:
            file.write("#!/bin/sh\necho the kit\n")
        os.chmod(os.path.join(folder, "bin", "rt"), 0o755)
        told = self.run_in(folder, "PATH=$PWD/bin:$PATH ./mpc --version")
        self.assertRegex(told.stdout, "^mpc [0-9.]+\nthe kit\n$")
        for words in ("--help", "-h", "help", "--version", "generate --help", "help solve"):
            got = self.run_in(folder, f"./mpc {words} >/dev/full")
            self.assertEqual((got.returncode, got.stderr.split("\n")[0]), (4, "error 4 write-fault 0"), words)

    def test_name_that_is_no_text(self):
        got = self.run_in(self.folder("exit 99"), "./mpc solve $'\\xff\\xfe' s", executable="/bin/bash")
        self.assertEqual((got.returncode, got.stdout), (99, ""))
        self.assertIn(r"The argument \xff\xfe is no UTF-8 text", got.stderr)
        self.assertIn("The system gave the program no arguments", self.run_in(self.folder("exit 99"), "./mpc solve c s").stderr)

    def test_link_to_a_launcher(self):
        folder = self.folder('echo "$1"')
        self.run_in(folder, "mkdir far; ln -s ../mpc far/mine")
        self.assertEqual(self.run_in(folder, "far/mine solve c s").stdout, "solve\n")
        self.assertIn("./mpc explain FILE", self.run_in(folder, "cd far; ./mine explain --help").stdout)
        code = "from scripts.common import launcher; print(launcher.LAUNCHER)"
        self.assertEqual(self.run_in(folder, f'{sys.executable} -c "{code}"').stdout, os.path.realpath(os.path.join(folder, "mpc")) + "\n")

    def test_lines_are_counted_on_a_terminal(self):
        folder = self.folder("for i in 1 2 3; do echo $i; sleep 2; done")
        with open(os.path.join(folder, "s"), "w") as file:
            file.write("1\n" * 1000000)
        here, there = pty.openpty()
        with open(os.path.join(folder, "out"), "w") as out:
            ran = subprocess.run(["./mpc", "solve", "c", "s"], cwd=folder, stdout=out, stderr=there)
        os.close(there)
        told = os.read(here, 1000)
        os.close(here)
        self.assertEqual(ran.returncode, 0)
        self.assertRegex(told, rb"mpc: [23] of 1000000 lines")

    def test_table_is_the_program_s(self):
        """The table of commands has the words, the counts and the outputs that the program's definitions have, and help lists the same."""
        with open(os.path.join(TOP, "crates/command_line/specs/Words.antt"), encoding="utf-8") as file:
            definitions = file.read()
        counts: dict[str, set[int]] = {}
        written: dict[str, set[int]] = {}
        for command, count, places in re.findall(r'= Is(?:Named|Writing) words \(codes "(\w+)"\) (\d+|\(.*?\))((?: \d+)*)$', definitions, re.MULTILINE):
            counts.setdefault(command, set()).update(int(n) - 1 for n in re.findall(r"\d+", count))
            written.setdefault(command, set()).update(int(at) for at in places.split())
        for record in re.findall(r"pub record Is\w+ .*\n((?:  pub .*\n)+)", definitions):
            command = re.search(r'command : word_of words 0 ≡ codes "(\w+)"', record)
            if not command:
                continue
            counts.setdefault(command[1], set()).update(int(n) - 1 for n in re.findall(r"\d+", re.search("count : .*", record)[0]))
            written.setdefault(command[1], set()).update(int(at) for at in re.findall(r"IsOwnName words (\d+)|: word_of words (\d+) ≢", record) for at in at if at)
        needed = usage.commands()
        self.assertEqual(counts, {name: set(range(len(words), len(words) + len(usage.optional(name)) + 1)) for name, words in needed.items()})
        self.assertEqual(written, {name: set(usage.written(name)) for name in needed})
        with open(os.path.join(TOP, "docs", "help.txt"), encoding="utf-8") as file:
            listed = re.findall(r"^  mpc ([a-z]+)((?: [A-Z]+)*(?: \[[A-Z]+\])*)(?:  |$)", file.read(), re.MULTILINE)
        marks = str.maketrans("", "", ">=")
        self.assertEqual({name: words.split() for name, words in listed if name not in ("explain", "design", "try")}, {name: [word.translate(marks) for word in words] for name, words in usage.table().items()})

    def test_usage_stands_once(self):
        self.assertEqual(usage.places_of("loop"), ["design", "controller", "states", "turns", "disturbances"])
        self.assertEqual(usage.places_of("c"), ["controller", "name", "source", "header"])

    def test_input_reaches_the_program(self):
        self.assertEqual(self.launched("cat; exit 0", "solve").stdout, "")


if __name__ == "__main__":
    unittest.main()
