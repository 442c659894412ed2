"""Runs the program's commands on changed and random texts, and compares each answer with the independent model beside this file, to the byte.

    python3 -m checks.fuzz.run PROGRAM [--cases COUNT] [--seed SEED] [--jobs JOBS] [--kind KIND] [--loop-products COUNT] [--case NUMBER]
    python3 -m checks.fuzz.run PROGRAM --table NAME [--jobs JOBS] [--case NUMBER]

For each of COUNT (1000) cases the exit status, the line on standard error, standard output and every file that is left must be the model's. A design's gains aren't
determined: they are taken from the controller that the program wrote, once they are known to solve their systems. Each run of a controller is made with every
product and partial sum traced, and all must fit its width; but a run of many steps of a controller that isn't of the kind `controller` only has its sums compared.

A case is made of the seed and its number alone. --case runs one again and shows it; --kind makes all cases of that kind: generate, lean, border, stay, lean_stay, solve,
controller, loop, settle, list, play, split, serve, demo, usage; or accelerated: these on texts of version 3. Of the kinds `stay` and `lean_stay` the first are the worked rows of `stay` that are accepted. Designs are of
all versions; how many of version 2 were accepted, and how many of them have a row with a smaller exponent, the last line says. With --table, controllers, faces, disturbances, cuts, policies (those of
cells), cells or listings, the cases are worked texts of that kind, each cut after every one of its bytes, and with every byte replaced by a space, `-`, `0` and `9`. A border
design's exact numbers, its enclosures, the corners of its policy in either class, or what its rows come to where they count 16 times, pass the limit by little or stay
below it by little. Of each, the model's exact numbers must be the simulated plant's, its enclosures must hold them, no corner may have less slack or a greater cost than
its enclosures show, and both classes are counted beside the status, and whether a design of version 2 has room for smaller exponents.
Where `stay` is accepted, `generate` must write the same files, and no loop of 300 turns from corners of the box and random states, under disturbances in theirs, may leave
it; so it is of `lean` with faces, a case of the kind `lean_stay`, and `lean` without. The sums of such loops are compared as long as the model makes no more products than
--loop-products (5000000); after that the program's lines are counted, all the same.
Where `settle` accepts, no loop of 300 turns from its start box, under disturbances in theirs, may leave the box where no multiplier moves, nor that which is printed from its turn on.
A controller's own listing must put what `solve` puts.
Where `split` is accepted, `generate` must write the same of a cell's design, and `serve` must serve states of the box by the controllers of their cells.
Two sorts of case are counted apart. A design that TOML 1.1 reads and Python's reader (1.0) doesn't must still end with a status of generate. Where a run would be
too long for the model, its status, its line and the number of lines are compared, and not the sums.
"""
import argparse
import collections
import multiprocessing
import os
import random
import shutil
import subprocess
import sys
import tempfile

from . import at_corners, cases, control, forms, held_boxes, listing, listing_cases, model, program, settle_cases, settling, split_boxes, split_cases, stay_cases, tables
from .machines import LISTED

KINDS = ["generate"] * 22 + ["lean"] * 12 + ["border"] * 4 + ["stay"] * 14 + ["lean_stay"] * 6 + ["solve"] * 26 + ["controller"] * 18 + ["loop"] * 22 + ["list"] * 6 + ["play"] * 16
KINDS += ["split"] * 12 + ["serve"] * 16 + ["c"] * 8 + ["usage"] * 4
KINDS += ["settle"] * 14 + ["accelerated"] * 12
# those whose texts are of version 3 then
ACCELERATED = ["generate"] * 8 + ["border"] * 2 + ["lean"] * 8 + ["stay"] * 8 + ["lean_stay"] * 6 + ["solve"] * 4 + ["accelerated_controller"] * 6 + ["loop"] * 6 + ["settle"] * 6
ACCELERATED += ["split"] * 6 + ["serve"] * 6 + ["c"] * 4 + ["list"]
DEMO_EVERY = 2500
# the most products that the model makes in a case, and the most in a run whose every value it traces
MOST_PRODUCTS, MOST_TRACED = 3_000_000, 60_000
# and the most instructions
MOST_PLAYED = 500_000
# of the loops of a design whose box is stayed in
TURNS, MOST_LOOP_PRODUCTS, MOST_OF_PROGRAM = 300, 5_000_000, 1_000_000_000
SECOND = "a design of version 2, accepted"
LOWERED = SECOND + ", with a row whose exponent is below the greatest"


class TooLong(Exception):
    """The model won't run this controller for as long."""


class Case:
    """A command, and where there is one, another that must answer as it does."""

    def __init__(self, kind, words, files, same=None):
        self.kind, self.words, self.files, self.same = kind, words, files, same


class Maker:
    """Makes cases by their numbers."""

    def __init__(self, seed, kind, table=None):
        self.seed, self.kind, self.table = seed, kind, table and tables.Table(table)
        if table:
            return
        self.designs = list(cases.examples())
        self.controllers = list(cases.small_controllers(self.designs))
        self.texts = [text for _, text in self.controllers]
        self.held = list(stay_cases.worked())

    def case(self, number):
        if self.table:
            return Case("table", *self.table.case(number))
        pick = random.Random(f"{self.seed} {number}")
        kind = self.kind or ("demo" if number % DEMO_EVERY == DEMO_EVERY - 1 else pick.choice(KINDS))
        if self.kind == "stay" and number < len(self.held):
            return self.stay_case("r", self.held[number])
        if self.kind == "lean_stay" and number < len(self.held):
            return self.lean_stay_case(pick, "r", self.held[number])
        made = getattr(self, kind)(pick)
        if kind in ("generate", "lean", "stay", "lean_stay", "solve", "loop", "list", "play", "split", "serve", "c") and pick.random() < 0.03:
            self.rename(pick, made)
        return made

    def rename(self, pick, made):
        """Gives a command another name for one of its files: a missing one, a folder, none, one in a folder that isn't there, or that of another file."""
        at, made.same = pick.randrange(1, len(made.words)), None
        made.words[at] = pick.choice(["missing", ".", "", "no/file", pick.choice(made.words), "./" + pick.choice(made.words[1:3])])

    def generate(self, pick):
        design, policy = cases.design_and_policy(pick, self.designs)
        return Case("generate", ["generate", "d", "p", "c", pick.choice(["r", "r", "r.json", ".json", "r.JSON", "json"])], {"d": design, "p": policy})

    def lean(self, pick):
        design, policy = cases.border_design(pick) if pick.random() < 0.1 else cases.design_and_policy(pick, self.designs)
        words = ["lean", "d", "p", "q", "c", pick.choice(["r", "r", "r.json"])]
        return Case("lean", words, {"d": design, "p": policy, "q": cases.references(pick, design, policy)})

    def border(self, pick):
        design, policy = cases.border_design(pick)
        return Case("border", ["generate", "d", "p", "c", "r"], {"d": design, "p": policy})

    def stay(self, pick):
        return self.stay_case(pick.choice(["r", "r", "r.json"]), stay_cases.stay_texts(pick, self.held))

    def stay_case(self, report, texts):
        files = {name: text for name, text in zip("dpfw", texts) if text is not None}
        return Case("stay", ["stay", "d", "p", "c", report, "f", *(["w"] if "w" in files else [])], files)

    def lean_stay(self, pick):
        return self.lean_stay_case(pick, pick.choice(["r", "r", "r.json"]), stay_cases.stay_texts(pick, self.held))

    def lean_stay_case(self, pick, report, texts):
        made = self.stay_case(report, texts)
        files = {**made.files, "q": cases.references(pick, *texts[:2])}
        return Case("lean_stay", ["lean", "d", "p", "q", *made.words[3:]], files)

    def solve(self, pick):
        text = pick.choice(self.controllers)[1]
        c = control.read_controller(text)
        states = cases.states_text(pick, c)
        how = pick.random()
        if how < 0.55:
            text = cases.changed(pick, text)
        elif how < 0.9:
            states = cases.changed(pick, states)
        if pick.random() < 0.001:
            states += b"\n" * (control.EVERY_FILE + pick.choice([0, 1]) - len(states))
        return Case("solve", ["solve", "c", "s"], {"c": text, "s": states})

    def controller(self, pick):
        _, c = cases.random_controller(pick)
        return Case("controller", ["solve", "c", "s"], {"c": control.text_of(c), "s": cases.states_text(pick, c)})

    def accelerated_controller(self, pick):
        _, c = cases.random_controller(pick, versions=(3,))
        return Case("controller", ["solve", "c", "s"], {"c": control.text_of(c), "s": cases.states_text(pick, c)})

    def accelerated(self, pick):
        """A case of another kind on texts of version 3."""
        made = getattr(self, pick.choice(ACCELERATED))(pick)
        if "d" in made.files:
            made.files["d"] = cases.in_version(3, made.files["d"])
        if "c" in made.files:
            made.files["c"] = cases.accelerated(pick, made.files["c"])
        if made.kind != "border" and pick.random() < 0.15:
            name = pick.choice(sorted(made.files))
            made.files[name] = cases.changed(pick, made.files[name])
        return made

    def loop(self, pick):
        design, text = pick.choice(self.controllers)
        c = control.read_controller(text)
        how = pick.random()
        if how < 0.1:
            text = pick.choice(self.controllers)[1]
        elif how < 0.4:
            c = cases.random_controller(pick)[1]
            design, text = cases.design_beside(pick, c), control.text_of(c)
        states = cases.states_text(pick, c, 3)
        turns = str(pick.choice([0, 1, 2, 3, 5, 9, 40]))
        # (the size of a turn is refused where there is a record, be there turns or not)
        if control.greatest_sum(c) > 2**92:
            states, turns = pick.choice([b"", b"\n", states, states]), pick.choice(["0", turns])
        how = pick.random()
        if how < 0.35:
            design = cases.changed(pick, design)
        elif how < 0.55:
            text = cases.changed(pick, text)
        elif how < 0.7:
            states = cases.changed(pick, states)
        elif how < 0.75:
            turns = pick.choice(["01", "-1", "", "+1", "1000001", "1000000", " 1", "1 ", "0x1", "١", "00", "1e1"])
        files = {"d": design, "c": text, "s": states}
        if pick.random() < 0.4:
            files["v"] = stay_cases.shifts_text(pick, c.n, int(turns) if turns.isdecimal() else 1)
            if pick.random() < 0.15:
                files["v"] = cases.changed(pick, files["v"])
        return Case("loop", ["loop", "d", "c", "s", turns, *(["v"] if "v" in files else [])], files)

    def settle(self, pick):
        design, text, certificate, shifts = settle_cases.settle_texts(pick)
        files = {"d": design, "c": text, "s": certificate, **({"w": shifts} if shifts else {})}
        return Case("settle", ["settle", *files], files)

    def list(self, pick):
        text = listing_cases.controller(pick, self.texts, LISTED)[1]
        files = {"c": cases.changed(pick, text) if pick.random() < 0.4 else text}
        if pick.random() < 0.3:
            files["l"] = b"an old listing\n" * pick.choice([1, 1000])
        return Case("list", ["list", "c", "l"], files)

    def c(self, pick):
        text = listing_cases.controller(pick, self.texts)[1]
        name = pick.choice(["motor", "a", "x_1", "abcdefghijklmnopqrstuvwxyz_1234"] * 4 + ["", "1a", "_a", "A", "a-b", "a.c", "abcdefghijklmnopqrstuvwxyz_12345"])
        files = {"c": cases.changed(pick, text) if pick.random() < 0.3 else text, **{old: b"an old text\n" for old in "th" if pick.random() < 0.2}}
        return Case("c", ["c", "c", name, "t", "h"], files)

    def play(self, pick):
        text, states, of = listing_cases.listing_texts(pick, self.texts, MOST_PLAYED)
        files = {"l": text, "s": states, **({"c": of} if of else {})}
        return Case("play", ["play", "l", "s"], files, ["solve", "c", "s"] if of else None)

    def split(self, pick):
        design, cuts, policies = split_cases.split_texts(pick, self.designs)
        return Case("split", ["split", "d", "l", "p", "c", pick.choice(["r", "r", "r.json"])], {"d": design, "l": cuts, "p": policies})

    def serve(self, pick):
        text, states = split_cases.cells_texts(pick, self.texts)
        return Case("serve", ["serve", "c", "s"], {"c": text, "s": states})

    def demo(self, pick):
        return Case("demo", ["demo", str(pick.choice([pick.randrange(2**32), 0, 7, 2**32 - 1, 2**31]))], {})

    def usage(self, pick):
        design, policy = self.designs[0]
        text = self.controllers[0][1]
        words = pick.choice([["generate", "d", "p", "c", "r"], ["solve", "c", "s"], ["loop", "d", "c", "s", "1"], ["demo", "1"], ["lean", "d", "p", "p2", "c", "r"], ["lean", "d", "p", "p2", "c", "r", "f", "w"], ["stay", "d", "p", "c", "r", "f"],
                             ["stay", "d", "p", "c", "r", "f", "w"], ["loop", "d", "c", "s", "1", "w"], ["list", "c", "l"], ["play", "l", "s"], ["split", "d", "t", "b", "c", "r"],
                             ["serve", "e", "s"], ["c", "c", "n", "t", "h"], []])
        words = list(words)
        how = pick.randrange(4)
        if how == 0 and words:
            del words[pick.randrange(len(words))]
        elif how == 1:
            words.insert(pick.randrange(len(words) + 1), pick.choice(["c", "1", "", "solve", "demo"]))
        elif how == 2 and words:
            words[pick.randrange(len(words))] = pick.choice(["", "Solve", "generate", "stay", "list", "play", "split", "serve", "c", "d", "01", "4294967296", "-1", "1000001", "99999999999999999999999"])
        elif words:
            words[-1] = pick.choice(["01", "-0", "4294967296", "4294967295 ", "x", "", "1000001", "d", "p", "c"])
        # (a demo that is none of a wrong usage has the program's gains, as the kind `demo` has)
        if words[:1] == ["demo"] and words[1:] in (["1"], ["1000001"]):
            words = ["demo", "1", "1"]
        c = control.read_controller(text)
        l, e = listing.text_of(listing.listing_of(c)), split_boxes.text_of([c, c])
        return Case("usage", words, {"d": design, "p": policy, "p2": policy, "c": text, "s": b"0\n", "f": b"4,0,0,1\n4,0,0,0\n", "w": b"0\n", "l": l, "t": b"1,0\n", "b": 2 * policy, "e": e})


def products(c):
    return c.steps * (c.nu * (c.n + c.m) + c.m * (c.nu + c.n))


class Runner:
    """Runs cases in a folder of its own."""

    def __init__(self, executable, folder, options):
        self.executable, self.folder, self.loop_products = executable, folder, options.loop_products

    def path(self, name):
        return os.path.join(self.folder, name)

    def clear(self):
        for name in os.listdir(self.folder):
            os.remove(self.path(name))

    def lay(self, files):
        self.clear()
        for name, data in files.items():
            with open(self.path(name), "wb") as file:
                file.write(data)

    def started(self, words):
        return subprocess.run([self.executable, *words], cwd=self.folder, stdin=subprocess.DEVNULL, capture_output=True, timeout=600)

    def left(self):
        found = {}
        for name in os.listdir(self.folder):
            with open(self.path(name), "rb") as file:
                found[name] = file.read()
        return found

    def check(self, case):
        """What is wrong, or None; the status; and what the case is counted as besides."""
        if case.kind == "demo":
            return self.check_demo(case)
        self.lay(case.files)
        ran = self.started(case.words)
        left = self.left()
        read = lambda name: case.files.get(os.path.normpath(name)) if name else None
        write = lambda name: name not in ("", ".", "./", "./.") and "no/" not in name
        place = program.OUTPUTS.get(case.words[0] if case.words else "", (3,))[0]
        written = lambda: next((left[name] for name in map(os.path.normpath, case.words[place : place + 1]) if name in left), None)
        wrong, status, notes = self.compare(case, ran, left, read, write, program.Gains(written))
        if case.same:
            other = self.started(case.same)
            if (other.returncode, other.stderr, other.stdout) != (ran.returncode, ran.stderr, ran.stdout):
                wrong = f"{wrong or ''} {case.same} answers {other.returncode} {other.stderr[:200]!r} {other.stdout[:300]!r}"
            notes = [*notes, "a listing as its controller has it"]
        # (a name that was changed may be one of a file that is read)
        if case.kind in ("stay", "lean_stay") and status == 0 and ran.returncode == 0 and not wrong and {*self.plain(case)[1:]} <= {"d", "p", "q", "c", "r", "r.json"}:
            wrong, more = self.check_stayed(case, left)
            notes = [*notes, *more]
        if case.kind == "split" and status == 0 and ran.returncode == 0 and not wrong and case.words[1:5] == ["d", "l", "p", "c"] and case.words[5] in ("r", "r.json"):
            wrong, more = self.check_split(case, left)
            notes = [*notes, *more]
        if case.kind == "settle" and status == 0 and ran.returncode == 0 and not wrong and case.words[1:] == list(case.files):
            wrong, more = self.check_settled(case)
            notes = [*notes, *more]
        if case.kind == "border":
            d = model.read_design(case.files["d"])
            plans = model.read_policy(case.files["p"], d)
            wrong = "; ".join(filter(None, [wrong, forms.fault(d), at_corners.fault(d, plans)])) or None
            told, form = lambda is_fine: "fine" if is_fine else "exact", model.form_of(d)
            classes = f"{told(form.is_fine)} numbers, {told(at_corners.are_fine(d, plans))} corners"
            room = "" if SECOND not in notes else ", which has room for smaller exponents" if forms.has_lowering_room(d, form) else ", which has no room for smaller exponents"
            notes = [*notes, f"a border design, {classes}, {ending(ran.stderr)}{room}"]
        return wrong, status, notes

    @staticmethod
    def plain(case):
        """The command that does what a case does, without its faces."""
        return ["generate", *case.words[1:5]] if case.kind == "stay" else case.words[:6]

    def check_stayed(self, case, left):
        """Of a design whose box is stayed in: the command without faces writes the same, and loops stay."""
        plain = self.plain(case)
        controller = plain[-2]
        pick, made = random.Random(repr(case.files)), {name: left[name] for name in plain[-2:]}
        self.lay(case.files)
        ran = self.started(plain)
        found = self.left()
        if ran.returncode or {name: found.get(name) for name in made} != made:
            return f"{plain[0]} writes otherwise", []
        d, c = model.read_design(case.files["d"]), control.read_controller(made[controller])
        starts = stay_cases.starts(pick, d)[: MOST_OF_PROGRAM // (TURNS * products(c))]
        files = {**case.files, "c": made[controller], "s": stay_cases.records_text(starts)}
        words = ["loop", "d", "c", "s", str(TURNS)]
        if "w" in case.files:
            files["v"] = stay_cases.records_text(stay_cases.shifts_within(pick, *held_boxes.read_shift_box(files["w"], d.states), TURNS))
            words.append("v")
        loop = Case("stayed", words, files)
        self.lay(files)
        ran = self.started(words)
        wrong, status, notes = self.compare(loop, ran, self.left(), files.get, None, None)
        lines = TURNS * len(starts)
        if (ran.returncode, ran.stdout.count(b"\n")) != (0, lines):
            wrong = f"{wrong or ''} of {lines} lines there are {ran.stdout.count(10)}, and the status is {ran.returncode} {ran.stderr[:200]!r}"
        told = f"a design whose box is stayed in{', with a lean controller' if plain[0] == 'lean' else ''}{', under disturbances' if 'w' in files else ''}"
        kinds = [told] + [f"{told}, {what}" for what, holds in (("of version 2", d.version == 2), ("of version 3", d.version == 3), ("with several exponents", len(set(c.exps)) > 1), ("of a fine form", model.form_of(d).is_fine),
                                                               ("of several stages", d.stages > 1)) if holds]
        kinds += [] if starts else [f"{told}, whose loops are too long for the program"]
        return wrong and f"loop: {wrong}", kinds + [f"its loops: {note}" for note in notes if note == "too long for the model"]

    def check_split(self, case, left):
        """Of a box in cells: `generate` writes the same of one of the cells' designs, and `serve` puts the lines of the states' cells."""
        pick, (made, report) = random.Random(repr(case.files)), (left[name] for name in case.words[4:6])
        cells, d = split_boxes.read_cells(made), model.read_design(case.files["d"])
        boxes = split_boxes.cells_of(d, split_boxes.read_cuts(case.files["l"], d))
        policies, reports = split_boxes.read_policies(case.files["p"], d, len(boxes)), report.split(b"end\n")
        covered = [i for i, plans in enumerate(policies) if plans]
        at = pick.randrange(len(covered))
        k = covered[at]
        records = stay_cases.records_text([den, *plan] for den, plan in policies[k])
        self.lay({"d": split_cases.text_of_design(boxes[k]), "p": records})
        ran = self.started(["generate", "d", "p", "c", "r"])
        found = self.left()
        if ran.returncode or (found["c"], found["r"]) != (control.text_of(cells[at]), reports[at] + b"end\n") or len(reports) != len(cells) + 1:
            return f"generate writes otherwise of cell {k + 1}", []
        states = [list(state) for box in pick.sample(boxes, min(4, len(boxes))) for state in stay_cases.starts(pick, box, 2)]
        states += [[pick.randrange(low, high + 1) for low, high in zip(d.lo, d.hi)] for _ in range(2)]
        held = [sum(not control.outside(cell, state) for cell in cells) for state in states]
        wanted = [sum(not control.outside(boxes[i], state) for i in covered) for state in states]
        if held != wanted or max(held) > 1:
            return f"{held} cells hold the states {states}, and {wanted} should", []
        files = {"c": made, "s": stay_cases.records_text(states)}
        self.lay(files)
        words = ["serve", "c", "s"]
        wrong, status, notes = self.compare(Case("served", words, files), self.started(words), self.left(), files.get, None, None)
        told = f"a box in {'1 cell' if len(cells) == 1 else '2 to 9 cells' if len(cells) < 10 else '10 to 63 cells' if len(cells) < 64 else '64 cells'}"
        kinds = [told, *(["a box in cells, some without a controller"] if len(cells) < len(boxes) else []), *([f"a box in cells, of version {d.version}"] if d.version > 1 else []), *(["a box in cells, with other multipliers"] if len({cell.clamp for cell in cells}) > 1 else [])]
        return wrong and f"serve: {wrong}", kinds + [f"its states: {note}" for note in notes if note == "too long for the model"]

    def check_settled(self, case):
        """Of a certificate that is accepted: loops from its start box lie where it says, at each turn."""
        pick, d, c = random.Random(repr(case.files)), model.read_design(case.files["d"]), control.read_controller(case.files["c"])
        s = settling.read_certificate(case.files["s"], settling.Box(c.lo, c.hi))
        shifts = held_boxes.read_shift_box(case.files["w"], d.states) if "w" in case.files else [[0] * d.states] * 2
        (box, costs), starts = settling.check(d, c, s, settling.Box(*shifts)), settle_cases.starts(pick, s.start)
        files = {"d": case.files["d"], "c": case.files["c"], "t": stay_cases.records_text(starts), "v": stay_cases.records_text(stay_cases.shifts_within(pick, *shifts, TURNS))}
        words = ["loop", "d", "c", "t", str(TURNS), "v"]
        self.lay(files)
        ran = self.started(words)
        wrong, _, notes = self.compare(Case("stayed", words, files), ran, self.left(), files.get, None, None)
        found = [[int(word) for word in line.split()] for line in ran.stdout.splitlines()]
        if (ran.returncode, len(found)) != (0, TURNS * len(starts)):
            return f"loop: {wrong or ''} of {TURNS * len(starts)} lines there are {len(found)}, and the status is {ran.returncode} {ran.stderr[:200]!r}", []
        for start, turn, *rest in found:
            here = settling.Box(rest[: d.states], rest[: d.states])
            if not s.still.holds(here) or turn > s.turns and not box.holds(here) or turn > s.after and not costs.holds(settling.cost_numbers(d, s, here.low)):
                return f"loop: at turn {turn} of start {start} the state {here.low} is outside", []
        told = f"loops that settle{', under disturbances' if 'w' in case.files else ''}"
        return wrong and f"loop: {wrong}", [told] + [f"its loops: {note}" for note in notes if note == "too long for the model"]

    def compare(self, case, ran, left, read, write, gains):
        budget, notes = [self.loop_products if case.kind in ("stayed", "served") else MOST_PRODUCTS], []
        instructions = [MOST_PLAYED]

        def run(c, state):
            budget[0] -= products(c)
            if budget[0] < 0:
                raise TooLong
            if case.kind != "controller" and products(c) > MOST_TRACED:
                return control.run(c, state)
            sums, least, greatest = control.traced(c, state)
            if not (-(2 ** (c.w - 1)) <= least and greatest <= 2 ** (c.w - 1) - 1):
                raise ValueError(f"a value of {least} .. {greatest} leaves the width {c.w}")
            notes.extend(notes_of_run(case, c, least, greatest))
            return sums

        def played(l, state):
            instructions[0] -= l.repeat * len(l.body)
            if instructions[0] < 0:
                raise TooLong
            return listing.played(l, state)

        told = program.Program(case.words, read, write, gains, run, played)
        try:
            said = told.go()
        except TooLong:
            lines = ran.stdout.splitlines()
            begins = b"".join(told.answer.out)
            well = ran.returncode in (0, 12, 21) and ran.stdout.startswith(begins) and len(lines) >= len(told.answer.out)
            return None if well else f"status {ran.returncode}, which begins otherwise than the model", ran.returncode, ["too long for the model"]
        except ValueError as why:
            return str(why), ran.returncode, notes
        if case.kind == "controller" and said.status != 11:
            notes.append("a random controller that is accepted")
        if told.made and told.made.version == 3:
            notes.append("a design of version 3, accepted")
        if told.made and told.made.version == 2:
            notes += [SECOND, LOWERED] if min(told.made.exps) < told.made.s else [SECOND]
        if case.kind == "serve" and said.status in (0, 12):
            notes.append(f"cells of {'both machines' if len({cell.machine for cell in told.cells}) > 1 else 'one machine'}")
        if said.line.endswith(b"not-toml\n") and not ran.stderr.endswith(b"not-toml\n"):
            well = ran.returncode in (0, 3, 5, 6, 7, 8, 9, 10, 11, 12, 13, 14, 16, 17, 18, 23, 24, 25)
            return None if well else f"status {ran.returncode}", ran.returncode, ["read by TOML 1.1 alone"]
        wrong = []
        if ran.returncode != said.status:
            wrong.append(f"status {ran.returncode}, not {said.status}")
        if ran.stderr != said.line:
            wrong.append(f"line {ran.stderr[:200]!r}, not {said.line!r}")
        out = b"".join(said.out)
        if ran.stdout != out:
            wrong.append(f"output {ran.stdout[:300]!r}, not {out[:300]!r}")
        files = dict(case.files)
        for name, data in said.written.items():
            files[os.path.normpath(name)] = data
        for name in sorted({*files, *left}):
            if files.get(name) != left.get(name):
                wrong.append(f"file {name} {str(left.get(name))[:400]}, not {str(files.get(name))[:400]}")
        return "; ".join(wrong) or None, said.status, notes

    def check_demo(self, case):
        """A demo has the gains of the design that it makes, which `generate` writes."""
        design, policy, _ = program.make(int(case.words[1]), 6)
        fault, status, _ = self.check(Case("generate", ["generate", "d", "p", "c", "r"], {"d": design, "p": policy}))
        if fault or status:
            return f"generate on the made design: status {status}, {fault}", status, []
        written = self.left()["c"]
        self.clear()
        ran = self.started(case.words)
        said = program.answer(case.words, None, None, program.Gains(lambda: written))
        well = (ran.returncode, ran.stderr, ran.stdout, self.left()) == (said.status, said.line, b"".join(said.out), {})
        return None if well else f"status {ran.returncode} {ran.stderr[:200]!r} {ran.stdout[:400]!r}, not {said.status} {b''.join(said.out)[:400]!r}", said.status, []


def ending(line):
    """A status line in short."""
    words = line.decode("latin-1").split()
    return " ".join(words[2:4] if "too-wide" in words else words[2:3]) or "accepted"


def notes_of_run(case, c, least, greatest):
    """What a case is counted as by a run whose least and greatest values are these."""
    which = "a random controller" if case.kind == "controller" else "another controller"
    yield f"{which}, run with every value traced"
    if max(greatest, -least) > 2**125:
        yield f"{which}, run with every value traced, which meets one of 2^125 .. 2^126"
    if not -(2 ** (c.w - 2)) <= least <= greatest < 2 ** (c.w - 2):
        yield f"{which}, run with every value traced, which meets one that needs each bit of its width"
    if max(abs(v) for row in c.p_mat + c.w_mat + c.g_mat + c.e_mat for v in row) > 2**126:
        yield f"{which}, run with every value traced, with an entry beyond 2^126, which is only multiplied by 0"


def work(options, numbers, results):
    maker = Maker(options.seed, options.kind, options.table)
    folder = tempfile.mkdtemp(prefix="fuzz-", dir=options.room)
    runner = Runner(options.program, folder, options)
    while True:
        first = numbers.get()
        if first is None:
            break
        for number in range(first, min(first + 50, options.cases)):
            case = maker.case(number)
            try:
                fault, status, notes = runner.check(case)
            except Exception as error:
                fault, status, notes = f"{type(error).__name__}: {error}", "none", []
            results.put((number, case.kind, status, notes, fault, case.words if fault else None))
    shutil.rmtree(folder)
    results.put(None)


def show(options):
    """Runs one case again, and shows it."""
    case = Maker(options.seed, options.kind, options.table).case(options.case)
    with tempfile.TemporaryDirectory() as folder:
        fault, status, notes = Runner(options.program, folder, options).check(case)
    print(f"case {options.case} of seed {options.seed}: {case.kind} {case.words}")
    for name, data in case.files.items():
        print(f"--- {name}, {len(data)} bytes\n{data[:4000].decode('latin-1')}")
    print(f"--- status {status}, {', '.join(notes) or 'nothing besides'}\n{fault or 'as the model says'}")
    sys.exit(fault is not None)


def main():
    parser = argparse.ArgumentParser(description=__doc__, formatter_class=argparse.RawDescriptionHelpFormatter)
    parser.add_argument("program")
    parser.add_argument("--cases", type=int, default=1000)
    parser.add_argument("--seed", type=int, default=1)
    parser.add_argument("--jobs", type=int, default=os.cpu_count())
    parser.add_argument("--kind", choices=sorted({*KINDS, "demo"}))
    parser.add_argument("--table", choices=sorted(tables.TABLES))
    parser.add_argument("--loop-products", type=int, default=MOST_LOOP_PRODUCTS)
    parser.add_argument("--case", type=int)
    options = parser.parse_args()
    options.program = os.path.abspath(options.program)
    if options.table:
        options.cases = tables.Table(options.table).count
    if options.case is not None:
        show(options)
    with tempfile.TemporaryDirectory(prefix="fuzz-") as options.room:
        sys.exit(run_all(options))


def run_all(options):
    numbers, results = multiprocessing.Queue(), multiprocessing.Queue()
    for first in range(0, options.cases, 50):
        numbers.put(first)
    for _ in range(options.jobs):
        numbers.put(None)
    workers = [multiprocessing.Process(target=work, args=(options, numbers, results)) for _ in range(options.jobs)]
    for it in workers:
        it.start()
    statuses, apart, wrong, done, ended = collections.Counter(), collections.Counter(), [], 0, 0
    while ended < options.jobs:
        result = results.get()
        if result is None:
            ended += 1
            continue
        number, kind, status, notes, fault, words = result
        done += 1
        statuses[kind, status] += 1
        apart.update(set(notes))
        if fault:
            wrong.append(number)
            print(f"case {number} of seed {options.seed}, {words}: {fault}", flush=True)
        if done % 10000 == 0:
            print(f"{done} of {options.cases} cases, {len(wrong)} wrong", file=sys.stderr, flush=True)
    print(f"seed {options.seed}, {done} cases")
    for kind in sorted({kind for kind, _ in statuses}):
        found = sorted(((str(status), count) for (it, status), count in statuses.items() if it == kind), key=lambda it: (len(it[0]), it[0]))
        print(f"  {kind}: " + ", ".join(f"{count} of status {status}" for status, count in found))
    for what, count in sorted(apart.items()):
        print(f"  {count} cases: {what}")
    print(f"{done - len(wrong)} as the model says, {len(wrong)} not; {apart[SECOND]} designs of version 2 were accepted, {apart[LOWERED]} of them with a row whose exponent is lowered")
    return 1 if wrong or done != options.cases else 0


if __name__ == "__main__":
    main()
