"""An independent model of the whole program: what each command answers with, to the byte.

    python3 -m checks.fuzz.program COMMAND ..    runs the command as the program does, in the present folder

The one thing that isn't determined is which good solutions a design's gains are. So `answer` is told them by `gains`, a function of the choice; run as a
program, it takes its own. Everything else is exact: the status, its line on standard error, standard output, and what each file holds.
"""
import json
import os
import sys
from dataclasses import dataclass, field

from . import compiled, control, held_boxes, listing, model, settling, split_boxes
from .command_table import COUNTS, OUTPUTS
from .machines import LISTED
from .model import LIMIT, Refused

NAMES = {1: "memory", 2: "usage", 3: "read-fault", 4: "write-fault", 5: "text", 6: "no-margin", 7: "curvature", 8: "too-many-steps", 9: "too-fine", 10: "too-wide",
         11: "controller", 12: "outside-box", 13: "long", 14: "mismatch", 16: "unequal", 17: "no-stay", 18: "cell", 20: "listing", 21: "trap", 22: "too-wide-c",
         23: "moves", 24: "unsettled", 25: "no-return"}
OVER = 2**40


@dataclass
class Answer:
    """The status, its line, standard output in pieces of a line each, and the files that were written."""

    status: int = 0
    line: bytes = b""
    out: list = field(default_factory=list)
    written: dict = field(default_factory=dict)


def status_line(status, words):
    return " ".join(["error", str(status), NAMES[status], *map(str, words)]).encode() + b"\n"


def decimal(word, most):
    """The number, or None: digits with no sign and no leading zero."""
    is_one = word == "0" or word.isascii() and word.isdigit() and word[0] != "0"
    return int(word) if is_one and int(word) <= most else None


# ---- the texts that are written


def report_text(b):
    violations = [("violation", b["violation"], OVER)]
    if b["version"] > 1:
        violations = [("violation", row, value, OVER) for row, value in enumerate(b["violations"], 1)]
    dearest = ("excess", b["excess"], 65536) if "excess" in b else ("cost", b["cost"])
    rows = [("mpc-report", b["version"]), ("margin", b["margin"], 65536), dearest, ("multiplier", b["multiplier"]), ("step", b["step"]), ("steps", b["steps"]),
            ("bits", b["bits"]), ("width", b["width"]), ("words", b["words"]), *violations, ("gap", b["gap"], OVER), ("undercut", b["undercut"], OVER), ("end",)]
    return "".join(" ".join(map(str, row)) + "\n" for row in rows).encode()


def report_json(b):
    told = {key: str(value) for key, value in b.items() if key != "violations"}
    if b["version"] > 1:
        told["violations"] = [str(value) for value in b["violations"]]
    return (json.dumps(told, sort_keys=True, separators=(",", ":")) + "\n").encode()


def make(number, stages):
    """The design, policy and states texts of a number."""
    z, drawn = number % 2**31, []
    for count in (3, 3, 3, 3, 4, 4, 3, 4, 3, 4):
        z = (1103515245 * z + 12345) % 2**31
        drawn.append(z // 65536 % count)
    a11, a12, a21, a22, i1, i2, t1, w1, t2, w2 = (v + low for v, low in zip(drawn, (1, -1, -1, 1, 1, 1, 0, 1, 0, 1)))
    design = f"""version = 1
states = 2
inputs = 2
stages = {stages}
[plant]
den = 4
a = [[{a11}, {a12}], [{a21}, {a22}]]
b = [[4, 0], [0, 4]]
[cost]
den = 1
row_den = 1
input = [{i1}, {i2}]
stage = [[1, 0, {t1}, {w1}], [0, 1, {t2}, {w2}]]
final = []
[limits]
den = 4
stage = [[0, 0, 4, 0, 4], [0, 0, -4, 0, 4], [0, 0, 0, 4, 4], [0, 0, 0, -4, 4], [4, 0, 0, 0, 5], [-4, 0, 0, 0, 5], [0, 4, 0, 0, 5], [0, -4, 0, 0, 5]]
final = [[4, 0, 5], [-4, 0, 5], [0, 4, 5], [0, -4, 5]]
[box]
grid = 4
lo = [-16, -16]
hi = [16, 16]
[targets]
den = 4
violation = 1
gap = 4
"""
    policy = ("1" + ",0" * 2 * stages + "\n") * 4
    return design.encode(), policy.encode(), b"-16,-16\n16,-16\n-16,16\n16,16\n"


# ---- the commands


def generate(d, plans, gains, references=None):
    """The controller and its bounds, or Refused; lean ones where there are reference plans."""
    return made_of(model.choose(d, plans, references), gains)


def made_of(choice, gains):
    """A choice's controller and its bounds."""
    d = choice.design
    columns, n, r = gains(choice), d.states, choice.report
    side_by_side = lambda some: [list(row) for row in zip(*some)]
    c = control.Controller(n, d.inputs, d.stages, d.rows, r["bits"], d.grid, r["step"], 2, r["steps"], choice.clamp, list(d.lo), list(d.hi),
                           side_by_side(columns[:n]), list(columns[n]), side_by_side(columns[n + 1 :]), choice.rows, choice.states, choice.bounds, d.version, choice.exponents)
    c.w = control.least_width(c)
    return c, {"version": d.version, **r, **choice.printed(columns, control.greatest_entry(c)), "width": c.w}


class Gains:
    """Of controllers that were written, for a choice each: those of one text, or of the cells of one, in their order. `text` gives the bytes, or None where none were
    written; then the model's own are as good. ValueError where they aren't good ones."""

    def __init__(self, text):
        self.text, self.found, self.count = text, None, 0

    def read(self):
        text = self.text()
        if text is not None and self.found is None:
            try:
                self.found = split_boxes.read_cells(text) if text.startswith(b"mpc-cells ") else [control.read_controller(text)]
            except Refused as refused:
                raise ValueError(f"the controller that was written is none: {refused}") from None
        return self.found

    def __call__(self, choice):
        found = self.read()
        if found is None:
            return model.exact_gains(choice)
        if self.count >= len(found):
            raise ValueError(f"{len(found)} controllers were written, and there are more cells")
        c = found[self.count]
        self.count += 1
        sizes, wanted = (c.n, c.m, c.nu), (choice.design.states, choice.design.rows, choice.design.entries)
        if sizes != wanted:
            raise ValueError(f"the controller that was written has the sizes {sizes}, not {wanted}")
        solutions = [*map(list, zip(*c.p_mat)), c.t, *map(list, zip(*c.w_mat))]
        why = model.why_no_gains(choice, solutions)
        if why:
            raise ValueError(why)
        return solutions


class Program:
    """The words are texts, the first of them the command; `read` gives a name's bytes, or None where it can't be read; `write` tells whether a name could be
    written. `run` gives a controller's sums from a state, `played` a listing's words."""

    def __init__(self, words, read, write, gains, run=control.run, played=listing.played, put=None):
        self.words, self.read, self.write, self.gains, self.run, self.played = words, read, write, gains, run, played
        self.answer = Answer()
        self.put = put or self.answer.out.append
        # the controller that was made of a design, or those of cells
        self.made, self.cells = None, ()

    def text(self, file, reader, most=control.EVERY_FILE):
        """What the reader makes of the file at this place among the words, which has no more bytes than this."""
        data = self.read(self.words[file])
        if data is None:
            raise Refused(3, file)
        if len(data) > most:
            raise Refused(13, file)
        try:
            return reader(data)
        except Refused as refused:
            raise Refused(refused.args[0], file, *refused.args[1:]) from None

    def design(self):
        return self.text(1, model.read_design)

    def controller(self, file):
        return self.text(file, control.read_controller)

    def usage(self):
        words = self.words
        if not words or len(words) - 1 not in COUNTS.get(words[0], []):
            raise Refused(2)
        names = words[1:]
        files = names[:1] + names[2:] if words[0] == "c" else names
        if any(files.count(words[at]) > 1 for at in OUTPUTS.get(words[0], [])):
            raise Refused(2)
        if words[0] == "c" and not compiled.is_name(names[1]):
            raise Refused(2)
        if words[0] == "loop" and decimal(names[3], 1000000) is None or words[0] == "demo" and decimal(names[0], 2**32 - 1) is None:
            raise Refused(2)

    def go(self):
        try:
            self.usage()
            getattr(self, self.words[0])()
        except Refused as refused:
            status, *words = refused.args
            self.answer.status, self.answer.line = status, status_line(status, words)
        return self.answer

    def generate(self):
        d = self.design()
        plans = self.text(2, lambda data: model.read_policy(data, d))
        self.write_made(model.choose(d, plans))

    def lean(self):
        d = self.design()
        plans, references = (self.text(file, lambda data: model.read_policy(data, d)) for file in (2, 3))
        faces = self.faces(d, 6)
        choice = model.choose(d, plans, references)
        self.check_faces(choice, faces)
        self.write_made(choice)

    def stay(self):
        d = self.design()
        plans = self.text(2, lambda data: model.read_policy(data, d))
        faces = self.faces(d, 5)
        choice = model.choose(d, plans)
        self.check_faces(choice, faces)
        self.write_made(choice)

    def faces(self, d, file):
        """The faces at this place among the words, and the box of disturbances after them; None where no faces are named."""
        if len(self.words) <= file:
            return None
        found = self.text(file, lambda data: held_boxes.read_faces(data, d))
        still = [[0] * d.states] * 2
        return found, still if len(self.words) == file + 1 else self.text(file + 1, lambda data: held_boxes.read_shift_box(data, d.states))

    def check_faces(self, choice, faces):
        if faces:
            held_boxes.check(choice.design, faces[0], choice.stated_violations, *faces[1])

    def write_made(self, choice):
        c, b = made_of(choice, self.gains)
        self.made = c
        places = OUTPUTS[self.words[0]]
        told = report_json if self.words[places[1]].endswith(".json") else report_text
        self.write_texts(*zip(places, (control.text_of(c), told(b))))

    def write_texts(self, *texts):
        for file, data in texts:
            if not self.write(self.words[file]):
                raise Refused(4, file)
            self.answer.written[self.words[file]] = data

    def states(self, file, machine, count):
        """The states of a file, all of which must lie in the box of a controller or a listing."""
        rows = self.text(file, lambda data: model.read_records(data, count))
        for entry, row in enumerate(rows, 1):
            if control.outside(machine, row):
                raise Refused(12, entry, 0, control.outside(machine, row))
        return rows

    def solve(self):
        c = self.controller(1)
        for row in self.states(2, c, c.n):
            self.put(control.plan_line(c, row, self.run))

    def split(self):
        d = self.design()
        boxes = split_boxes.cells_of(d, self.text(2, lambda data: split_boxes.read_cuts(data, d)))
        policies = self.text(3, lambda data: split_boxes.read_policies(data, d, len(boxes)))
        choices = []
        for number, (box, plans) in enumerate(zip(boxes, policies), 1):
            if plans is None:
                continue
            try:
                choices.append(model.choose(box, plans))
            except Refused as refused:
                status, *words = refused.args
                raise Refused(18, number, NAMES[status], *words) from None
        self.cells, bounds = zip(*(made_of(choice, self.gains) for choice in choices))
        self.write_texts((4, split_boxes.text_of(self.cells)), (5, b"".join(map(report_text, bounds))))

    def serve(self):
        self.cells = cells = self.text(1, split_boxes.read_cells, split_boxes.EVERY_CELLS)
        rows = self.text(2, lambda data: model.read_records(data, cells[0].n))
        serving = [split_boxes.find(cells, row) for row in rows]
        if None in serving:
            entry = serving.index(None)
            raise Refused(12, entry + 1, 0, control.outside(cells[0], rows[entry]))
        for cell, row in zip(serving, rows):
            self.put(control.plan_line(cell, row, self.run))

    def c(self):
        c = self.controller(1)
        if not compiled.is_written(c):
            raise Refused(22, c.w)
        self.write_texts(*zip(OUTPUTS["c"], compiled.texts_of(self.words[2], c)))

    def list(self):
        c = self.text(1, lambda data: control.read_controller(data, LISTED))
        self.write_texts((2, listing.text_of(listing.listing_of(c))))

    def play(self):
        l = self.text(1, listing.read_listing)
        for entry, row in enumerate(self.states(2, l, l.inputs), 1):
            try:
                self.put(listing.play_line(l, self.played(l, row)))
            except listing.Trapped as trapped:
                raise Refused(21, entry, *trapped.args) from None

    def plant_and_controller(self):
        """The design and the controller, which must be of the same sizes."""
        d = self.design()
        c = self.controller(2)
        for name, design, controller in (("states", d.states, c.n), ("inputs", d.inputs, c.p), ("grid", d.grid, c.g)):
            if design != controller:
                raise Refused(14, name, design, controller)
        return d, c

    def settle(self):
        d, c = self.plant_and_controller()
        s = self.text(3, lambda data: settling.read_certificate(data, settling.Box(c.lo, c.hi)))
        shifts = self.text(4, lambda data: held_boxes.read_shift_box(data, d.states)) if len(self.words) > 4 else [[0] * d.states] * 2
        for line in settling.lines_of(s, *settling.check(d, c, s, settling.Box(*shifts))):
            self.put(line)

    def loop(self):
        d, c = self.plant_and_controller()
        rows = self.text(3, lambda data: model.read_records(data, c.n))
        turns = int(self.words[4])
        shifts = [[0] * c.n] * turns if len(self.words) == 5 else self.text(5, lambda data: held_boxes.read_shifts(data, c.n, turns))
        if rows and control.turn_size(d, c) > LIMIT:
            raise Refused(10, "turn")
        seen = {}
        for entry, row in enumerate(rows, 1):
            for line in control.loop_lines(d, c, entry, row, shifts, seen, self.run):
                self.put(line)

    def demo(self):
        design, policy, states = make(int(self.words[1]), 6)
        d = model.read_design(design)
        c, b = generate(d, model.read_policy(policy, d), self.gains)
        self.put(report_text(b))
        for row in model.read_records(states, 2):
            self.put(control.plan_line(c, row, self.run))


def answer(words, read, write, gains, run=control.run):
    return Program(words, read, write, gains, run).go()


def main():
    def read(name):
        try:
            with open(name, "rb") as file:
                return file.read()
        except OSError:
            return None

    def write(name):
        return name != "" and os.path.isdir(os.path.dirname(name) or ".") and not os.path.isdir(name)

    said = answer(sys.argv[1:], read, write, model.gains)
    for name, data in said.written.items():
        with open(name, "wb") as file:
            file.write(data)
    sys.stdout.buffer.write(b"".join(said.out))
    sys.stdout.flush()
    sys.stderr.buffer.write(said.line)
    sys.exit(said.status)


if __name__ == "__main__":
    main()
