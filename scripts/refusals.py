"""Says in words why the program refused: the launcher runs it below the program's own line.

    ./mpc refusals STATUS LINE WORD..
    ./mpc refusals --table

STATUS is the exit status, LINE what the program printed on standard error (empty where it printed nothing), and the words are those that the program was given.
It prints one or two sentences, with names in place of numbers as far as the files that the words name can be read, and nothing where there is nothing to say.
--table prints docs/REFUSALS.md.
"""
import os
import re
import sys
import tomllib
from collections.abc import Iterator
from fractions import Fraction

from .common import cell_boxes, sizes
from .common.arguments import MOST_TURNS
from .common.condensed import Condensed, curvature
from .common.corners import corners_of, exact_corner, lean_multiplier_of, margin_of, multiplier_of, steps_of
from .common.design_text import Design, plain, read_design
from .common.excess import excesses_of
from .common.files import read_bytes, same
from .common.libraries import run
from .common.machines import is_accelerated, machine_of
from .common.texts import read_text, records_of
from .common.usage import commands, optional, places_of
from .explain import step_of

# ---- the texts: one for each status, and one for each fault that a status carries

TEXTS = {
    "memory": "The machine had no memory left for this. Some megabytes are enough: free them and run it again.",
    "usage": "{fault} `./mpc --help` lists the commands.",
    "read-fault": "{file} could not be read: {fault}.",
    "write-fault": "{file} could not be written: {fault}. {left}",
    "not-toml": "{file} is no TOML document{fault}. docs/FORMATS.md has the form of a design.",
    "key": "{file} lacks `{key}`{fault}. docs/FORMATS.md lists the 21 keys.",
    "further-key": "{file} has {fault}, which no design has: a misspelling, or a key of another table. docs/FORMATS.md lists the 21 keys.",
    "shape": "`{key}` of {file} is not {shape}. Numbers are written without a point.",
    "range": "A number of `{key}` in {file} is out of its range: {range}.",
    "fields": "Record {entry} of {file} has {fault}: a record holds {wanted}. docs/FORMATS.md has the form.",
    "number": "Field {field} of record {entry} in {file}{fault} is no number that may stand there: {wanted}.",
    "count": "{file} has {entries} records, and the design has {wanted} corners: one plan for each, in the order low low, high low, low high, high high.",
    "count-faces": "{file} has {entries} records, and the box has {wanted} faces: for each coordinate the upper one, then the lower.",
    "count-cuts": "{file} has {entries} records, and the design has {wanted} states: one record for each, how many cuts it has and the cuts.",
    "count-policies": "{file} has {entries} records, and {wanted} are needed: a plan for each corner of each cell, the policy of a cell after that of the one before, or `none`.",
    "no-policies": "{file} has `none` for every cell.",
    "range-certificate": "Record {entry} of {file} can't stand there: it needs {wanted}.",
    "count-certificate": "{file} has {entries} records, and needs 3.",
    "cells": "The cuts of {file} make {cells} cells, and at most 64 are served.",
    "count-disturbances": "{file} has {entries} records, and two are needed: the least disturbances, then the greatest.",
    "count-turns": "{file} has {entries} records, and {wanted} are needed: one for each turn.",
    "no-margin": "At {corner} the policy's plan leaves too little room in {row}: slack {slack}, at least 0.0000153 (2^-16) is needed. "
    '{hint} ./mpc policy finds a policy with room, or says which row and corner are to blame (docs/TARGETS.md, "Slack of the vertex plans").',
    "curvature": "The limits are too steep for the cost: no step 2^-s with s up to 40 is small enough. Divide the rows by their tolerances, or take larger weights "
    '(docs/TARGETS.md, "Weights").',
    "too-many-steps": "A run would take K = {steps} steps, and at most {most} are accepted. {formula}: take a larger violation target{hint}, or a policy with "
    '{better} (docs/TARGETS.md, "What K is made of").',
    "too-fine": "The gap target asks for more than 48 fraction bits: rounding at 48 bits may cost {epsilon}, {hint}. A larger gap target, or a policy with a smaller R "
    '(docs/TARGETS.md, "What K is made of").',
    "too-wide": '`{name}`, {what}, passes 2^126{size}: {help} (docs/SIZES.md).',
    "controller-line": "{file} is no controller text: line {line}{fault} should be {wanted}. `generate` writes such files; docs/FORMATS.md has the form.",
    "cells-line": "{file} is no text of cells: line {line}{fault} should be {wanted}. `split` writes such files; docs/FORMATS.md has the form.",
    "cells-unsafe": "{file} has the form of a text of cells, but a sum of a controller's numbers could leave the width that it says itself, so none is run: a number was changed.",
    "controller-unsafe": "{file} has the form of a controller text, but a sum of its numbers could leave the width that it says itself, so it is not run: a number was changed.",
    "outside-box": "State {entry} of {file} is outside the {kind}'s box in coordinate {name}{fault}. The promises hold inside the box alone: a larger box in the design, or "
    "a state in steps of {step}.",
    "left-box": "The loop from state {entry} left the box before turn {turn}, in coordinate {name}. Nothing promises that a loop of `generate` stays, and `stay` makes those that do: limits at the next state, or coordinates in which "
    'the box is nearly invariant (docs/BOXES.md, "Boxes that loops stay in").',
    "outside-cells": "State {entry} of {file} is in no cell of {cells}, and outside the first one's box in coordinate {name}{fault}. The promises hold inside the cells alone: a larger box in the "
    "design that is split.",
    "long": "{file} is longer than 4194304 bytes, and no file of the tool but a text of cells is.",
    "long-cells": "{file} is longer than 268435456 bytes, and no text of cells is.",
    "mismatch": "The controller was not made for this design: its {field} are {controller}, and the design's are {design}. Run `generate` on this design.",
    "unequal": "Record {entry} of {file} is no proof of {face}: its limits have together {left} of input {input}, and its coordinate has {right}; the weights must make both the same. "
    './mpc faces finds such weights (docs/METHOD.md, "Faces").',
    "no-stay": "Record {entry} of {file} lets a loop pass {face}: the coordinate may go as far as {bound} over 2^grid{end}. Other weights, a limit at the next state, a smaller violation "
    'target or smaller disturbances (docs/METHOD.md, "Faces").',
    "cell": "Cell {cell}{box} has no controller, with its policy: {refusal}",
    "listing": "{file} is no listing text: line {line}{fault} should be {wanted}. `list` writes such files; docs/FORMATS.md has the form.",
    "trap": "The run of {file} from state {entry} stops in repetition {step} at instruction {place}{instruction}: a value needs more bits than its words have. A listing that `list` wrote "
    "never does so from a state of its box: the listing was changed.",
    "trap-input": "State {entry}, shifted up, needs more bits than the words of {file} have. A listing that `list` wrote never does so from a state of its box: the listing was changed.",
    "too-wide-c": "{file} is of a controller of {width} bits, and programs in C are of at most 64, or of 79 in two parts where these fit (docs/C.md): `./mpc c {path} --name NAME --out FOLDER` writes it with tables, which is tested and not "
    "proved. Larger targets make fewer bits.",
    "moves": "In the box of {file} where no multiplier may move, that of row {row} of the controller may: {left} isn't below {right}. That box should be smaller.",
    "unsettled": "After turn {turn} a loop from the start box of {file} may be as far as at {bound} over 2^grid in {name}: beyond the box where no multiplier moves, or at the last turn beyond "
    "the box of rest. A smaller start box or more turns.",
    "no-return": "After turn {turn} a loop from the box of rest of {file} may be as far as at {bound} over 2^grid in {name}: beyond the box where no multiplier moves, or at the last turn beyond "
    "the box of rest itself. A larger box of rest, or more turns.",
    "no-text": "The argument {word} is no UTF-8 text, and the program reads no other: give the file another name.",
    "no-arguments": "The system gave the program no arguments: the machine may have no memory left.",
    "unbuilt": "The launcher could not build the program: crates/mpc_cli/build.log, or for generate crates/mpc_generate/build.log, has the reason.",
}

LEFT = {
    "controller": "Nothing stands in it, or the first part of the text.",
    "report": "The controller file stands whole.",
    "listing": "Nothing stands in it, or the first part of the text.",
    "cells": "Nothing stands in it, or the first part of the text.",
    "reports": "The cells file stands whole.",
    "source": "Nothing stands in it, or the first part of the text.",
    "header": "The source file stands whole.",
    "output": "The lines before it were printed whole.",
}

# the commands that write two files, with how many files they have; and the files that hold plans
COUNTS = {"generate": "four", "stay": "files", "lean": "five", "split": "five"}
PLANS = ("policy", "reference", "policies")
# what the records of a certificate need
BOXES = (
    "turns from 0 to 4096, and a box whose least numbers aren't above its greatest",
    "turns from 0 to 4096, and a box that is part of the controller's",
    "turns from 1 to 4096",
)
# what K is made of by each machine, and which policy makes it less: of a lean controller, and else
STEPS = {
    False: ("K = 2^(s+2) R / target", "K (K + 3) = 2^(s+4) R / target", "a larger margin or a smaller cost"),
    True: ("K = 2^(s+1) R over 15/16 of the target", "K (K + 3) = 2^(s+3) R over 15/16 of the target", "a smaller excess, as ./mpc policy --lean finds it"),
}

DENOMINATOR, NUMERATOR = "a denominator, 1 to 1048576", "-2147483647 to 2147483647"
# key, shape, range: by the place in a design text
PLACES = [
    ("version", "an integer", "1 to 3"),
    ("states", "an integer", "1 to 4, from version 2 on up to 6"),
    ("inputs", "an integer", "1 to 3"),
    ("stages", "an integer", "1 to 20, from version 2 on up to 30"),
    ("plant.den", "an integer", DENOMINATOR),
    ("plant.a", "{n} lists of {n} integers", NUMERATOR),
    ("plant.b", "{n} lists of {p} integers", NUMERATOR),
    ("cost.den", "an integer", DENOMINATOR),
    ("cost.row_den", "an integer", DENOMINATOR),
    ("cost.input", "a list of {p} integers", "1 to 2147483647"),
    ("cost.stage", "up to 12 lists of {n2} integers", NUMERATOR + ", and each weight, the last of its list, at least 0"),
    ("cost.final", "up to 12 lists of {n2} integers", NUMERATOR + ", and each weight, the last of its list, at least 0"),
    ("limits.den", "an integer", DENOMINATOR),
    ("limits.stage", "up to 12 lists of {np1} integers", NUMERATOR),
    ("limits.final", "up to 12 lists of {n1} integers", NUMERATOR + ", and there is a row at limits.stage or here"),
    ("box.grid", "an integer", "0 to 24"),
    ("box.lo", "a list of {n} integers", NUMERATOR),
    ("box.hi", "a list of {n} integers", NUMERATOR + ", each at least its box.lo"),
    ("targets.den", "an integer", DENOMINATOR),
    ("targets.violation", "an integer", "1 to 2147483647"),
    ("targets.gap", "an integer", "1 to 2147483647"),
]
TABLES = ["plant", "cost", "limits", "box", "targets"]

FEWER = "fewer stages, a smaller plant.den, or units in which the row sums of |a| + |b| are nearer to plant.den"
NEARER = "fewer stages, units in which the row sums of |a| + |b| are nearer to plant.den"
EXACT = ", or denominators so short that exact numbers fit"
QUANTITIES = {
    "prediction": ("the plant's growth over the horizon with 40 fraction bits", NEARER + EXACT),
    "corner_slack": ("the enclosures of the corners' slacks", NEARER + ", a smaller box and smaller inputs of the policy" + EXACT),
    "corner_cost": ("the enclosures of the corners' costs", NEARER + ", a smaller box and smaller inputs of the policy, a smaller cost.row_den or cost.den" + EXACT),
    "excess": (
        "what the corners' plans cost more than is best without limits",
        "reference plans that are nearer to the best ones without limits, as ./mpc policy --lean finds them, a smaller box, smaller weights",
    ),
    "multiplier": ("the bound on the multipliers", "a policy with a larger margin or a smaller cost, or in `lean` one with a smaller excess"),
    "hessian": ("the enclosures of the condensed cost", NEARER + ", smaller weights, a smaller cost.row_den or cost.den" + EXACT),
    "rows": ("the enclosures of the condensed limits", NEARER + ", fewer limits, a smaller limits.den" + EXACT),
    "curvature": ("the comparison of limits and cost", FEWER + ", smaller weights or limits.den"),
    "error": ("the sum of the rounding errors", "a policy with a larger margin, a smaller box, smaller weights"),
    "descent": ("the numbers of the gains", FEWER + ", a larger gap target, the same limits over a larger limits.den"),
    "width": ("the greatest sum of a run", "a policy with a larger margin, a larger gap target, a smaller box"),
    "turn": ("the next state of a loop", "a smaller plant.den, or a controller with fewer steps or bits"),
    "stay": ("the greatest sum that a face is tested with", "smaller factors and weights in the same ratio, a smaller plant.den or limits.den, or a smaller box"),
}

# ---- what the texts are filled with


class Call:
    """The words of a command, with what its files say."""

    def __init__(self, words: list[str]) -> None:
        self.words = words
        self.command = words[0] if words else ""
        self.kinds = places_of(self.command)

    def kind(self, number: int) -> str:
        return self.kinds[number - 1] if 0 < number <= len(self.kinds) else "output"

    def path(self, kind: str) -> str | None:
        at = 1 + self.kinds.index(kind) if kind in self.kinds else len(self.words)
        return self.words[at] if at < len(self.words) else None

    def named(self, number: int) -> str:
        """A file as 'the design file NAME'."""
        kind = self.kind(number)
        return "standard output" if kind == "output" else f"the {kind} file {self.path(kind)}"

    def design(self) -> Design | None:
        try:
            return read_design(self.path("design"))
        except (OSError, ValueError, KeyError, TypeError):
            return None

    def records(self, kind: str) -> list[str]:
        """The lines that are records of a policy or states file."""
        try:
            return [line for line in read_text(self.path(kind)).splitlines() if line]
        except (OSError, TypeError):
            return []

    def policy(self, kind: str = "policy") -> list | None:
        """The records of the policy, or of the reference plans."""
        try:
            return records_of(read_text(self.path(kind)))
        except (OSError, ValueError, TypeError):
            return None


class CellCall(Call):
    """The same for one cell of a design's box."""

    def __init__(self, words: list[str], cell: int) -> None:
        super().__init__(words)
        self.cell = cell

    def design(self) -> Design | None:
        whole = super().design()
        try:
            return cell_boxes.cells_of(whole, [record[1:] for record in records_of(read_text(self.path("cuts")))])[self.cell - 1]
        except (OSError, ValueError, TypeError, AttributeError, IndexError):
            return None

    def policy(self, kind: str = "policies") -> list | None:
        lines, design = self.records(kind), self.design()
        if design is None:
            return None
        start = starts_of(lines, self.cell, design)[-2]
        try:
            return records_of("\n".join(lines[start : start + 2**design.states])) or None
        except ValueError:
            return None


def starts_of(lines: list[str], cells: int, design: Design) -> list[int]:
    """The record, from 0, at which the policy of each of so many cells begins, and the one behind the last."""
    starts = [0]
    for _ in range(cells):
        at = starts[-1]
        starts.append(at + (1 if at < len(lines) and lines[at].strip('"') == "none" else 2**design.states))
    return starts


def number_of(word: str, most: int) -> bool:
    """Whether a word is a number of an argument."""
    return word.isascii() and word.isdigit() and str(int(word)) == word and int(word) <= most


def usage(call: Call) -> str:
    words, command, listed = call.words, call.command, commands()
    if not words:
        return "A command is needed."
    if command not in listed:
        *others, last = listed
        return f"`{command}` is no command: {', '.join(others)} or {last} is needed."
    needed, besides = listed[command], optional(command)
    if not len(needed) <= len(words) - 1 <= len(needed) + len(besides):
        *fewer, most = map(str, range(len(needed), len(needed) + len(besides) + 1))
        counts = f"{', '.join(fewer)} or {most}" if fewer else most
        named = " ".join(needed + [f"[{word}]" for word in besides])
        return f"`{command}` takes {counts} arguments, {named}, and {len(words) - 1} were given."
    if command in COUNTS:
        return one_file_twice(call)
    if command == "c":
        return program_fault(call)
    if command == "list":
        return f"The listing file {call.path('listing')} is the controller file {call.path('controller')}: it needs a file of its own."
    if command in ("solve", "play", "serve", "settle") or command == "loop" and number_of(words[4], MOST_TURNS):
        return "Standard output is one of the files that are read: what is printed needs a file of its own."
    if command == "loop":
        return f"The turns `{words[4]}` are no number from 0 to 1000000 without sign or leading zero."
    return f"`{words[1]}` is no number from 0 to 4294967295 without sign or leading zero."


def one_file_twice(call: Call) -> str:
    """Which of the files of `generate`, `stay`, `lean` or `split` are one."""
    count = COUNTS[call.command] if len(call.words) <= 6 else "files"
    for output in ("report", "cells" if call.command == "split" else "controller"):
        for kind in [kind for kind in call.kinds if kind != output and call.path(kind) is not None]:
            if same(call.path(output), call.path(kind)) or call.path(output) == call.path(kind):
                return f"The {output} file {call.path(output)} is the {kind} file {call.path(kind)}: each of the {count} needs a file of its own."
    first = "cells'" if call.command == "split" else "controller's"
    return f"The {first} or the report's name is that of another file of the {count}: each needs a file of its own."


def program_fault(call: Call) -> str:
    """What `c` is refused for: the name, or two files that are one."""
    if not re.fullmatch("[a-z][a-z0-9_]{0,30}", call.words[2]):
        return f"`{call.words[2]}` is no name of a program: a small letter and up to 30 small letters, digits and _ are one."
    for output, others in (("source", ["controller"]), ("header", ["controller", "source"])):
        for kind in others:
            if same(call.path(output), call.path(kind)) or call.path(output) == call.path(kind):
                return f"The {output} file {call.path(output)} is the {kind} file {call.path(kind)}: it needs a file of its own."
    return "The source's or the header's name is that of another file: each needs a file of its own."


def without_arguments(call: Call) -> str:
    """Status 99: the system gave the program no arguments, as where one is no text."""
    for word in call.words:
        try:
            word.encode()
        except UnicodeEncodeError:
            return TEXTS["no-text"].format(word=os.fsencode(word).decode("utf-8", "backslashreplace"))
    return TEXTS["no-arguments"]


def reading_fault(path: str | None) -> str:
    if path is None or not os.path.exists(path):
        return "there is no such file"
    if os.path.isdir(path):
        return "it is a folder"
    return "it may not be read" if not os.access(path, os.R_OK) else "reading it failed"


def writing_fault(path: str | None) -> str:
    if path is None:
        return "it is closed, or its device is full"
    folder = os.path.dirname(path) or "."
    if not os.path.isdir(folder):
        return f"there is no folder {folder}"
    if os.path.isdir(path):
        return "it is a folder"
    return "it may not be written" if not os.access(path if os.path.exists(path) else folder, os.W_OK) else "writing it failed, as on a full disk"


def toml_fault(path: str | None) -> str:
    """Where Python's reader stops, which reads nearly the same TOML."""
    try:
        tomllib.loads(read_bytes(path).decode("utf-8-sig"))
    except UnicodeDecodeError:
        return ": its bytes are no UTF-8 text"
    except tomllib.TOMLDecodeError as fault:
        return f": {fault}"
    except (OSError, TypeError, ValueError, RecursionError):
        pass
    return ": a number lies outside 64 bits, a float is too large, or it is nested too deep"


def further_key(path: str | None) -> str:
    known = {key for key, _, _ in PLACES} | set(TABLES)
    try:
        top = tomllib.loads(read_bytes(path).decode())
    except (OSError, ValueError, TypeError):
        return "a further key"
    keys = [f"{table}.{key}" for table in TABLES if isinstance(top.get(table), dict) for key in top[table]] + list(top)
    extra = [key for key in keys if key not in known]
    return "the key `" + "`, `".join(extra) + "`" if extra else "a further key"


def shape_words(words: str, path: str | None) -> str:
    """A shape with the design's numbers of states and inputs, where they can be read."""
    try:
        top = tomllib.loads(read_bytes(path).decode())
        n, p = int(top["states"]), int(top["inputs"])
        return words.format(
            n=n, p=p, n1=f"{n + 1} (states and a bound)", n2=f"{n + 2} (states, a target and a weight)", np1=f"{n + p + 1} (states, inputs and a bound)"
        )
    except (OSError, ValueError, KeyError, TypeError):
        return words.format(n="`states`", p="`inputs`", n1="`states` + 1", n2="`states` + 2", np1="`states` + `inputs` + 1")


def text_fault(call: Call, file: int, fault: str, numbers: list[int]) -> str:
    """Status 5."""
    kind, name = call.kind(file), call.named(file)
    path = call.path(kind)
    if fault == "not-toml":
        return TEXTS[fault].format(file=name, fault=toml_fault(path))
    if fault == "key" and numbers[0] == 0:
        return TEXTS["further-key"].format(file=name, fault=further_key(path))
    if fault == "range" and kind == "cuts":
        return TEXTS["cells"].format(file=name, cells=cell_count(call))
    if fault == "range" and kind == "policies":
        return TEXTS["no-policies"].format(file=name)
    if fault == "range" and kind == "certificate":
        return TEXTS["range-certificate"].format(entry=numbers[0], file=name, wanted=BOXES[numbers[0] - 1])
    if fault in ("key", "shape", "range"):
        key, shape, ranged = PLACES[numbers[0] - 1]
        lacking = f" (or the whole table [{key.split('.')[0]}])" if "." in key else ""
        return TEXTS[fault].format(file=name, key=key, fault=lacking, shape=shape_words(shape, path), range=ranged)
    design, records = call.design(), call.records(kind)
    entry = numbers[0]
    line = records[entry - 1] if 0 < entry <= len(records) else ""
    if fault == "count" and kind == "disturbances" and call.command == "loop":
        return TEXTS["count-turns"].format(file=name, entries=entry, wanted=call.path("turns"))
    if fault == "count" and kind == "disturbances":
        return TEXTS["count-disturbances"].format(file=name, entries=entry)
    if fault == "count" and kind == "faces":
        return TEXTS["count-faces"].format(file=name, entries=entry, wanted=2 * design.states if design else "2n")
    if fault == "count" and kind == "certificate":
        return TEXTS["count-certificate"].format(file=name, entries=entry)
    if fault == "count" and kind == "cuts":
        return TEXTS["count-cuts"].format(file=name, entries=entry, wanted=design.states if design else "n")
    if fault == "count" and kind == "policies":
        cells = cell_count(call)
        return TEXTS["count-policies"].format(file=name, entries=entry, wanted=starts_of(records, cells, design)[-1] if design and isinstance(cells, int) else "2^states for each cell")
    if fault == "count":
        return TEXTS[fault].format(file=name, entries=entry, wanted=2**design.states if design else "2^states")
    if fault == "fields":
        wanted = (
            f"{design.states} numbers, one a state"
            if kind in ("states", "disturbances") and design
            else "one number a state"
            if kind in ("states", "disturbances")
            else "a factor, and a weight for each first limit"
            if kind == "faces"
            else "how many cuts its coordinate has, and then so many cuts"
            if kind == "cuts"
            else "a number of turns, and the least and then the greatest number of each state"
            if kind == "certificate"
            else (
                f"{1 + design.entries} numbers, a denominator and {design.stages} times {design.inputs} inputs"
                if design
                else "a denominator and an input for each stage"
            )
        )
        return TEXTS[fault].format(entry=entry, file=name, fault=f"{line.count(',') + 1} fields" if line else "another number of fields", wanted=wanted)
    word = line.split(",")[numbers[1] - 1] if line.count(",") >= numbers[1] - 1 else ""
    wanted = (
        "a denominator is 1 to 1099511627776"
        if kind in PLANS and numbers[1] == 1
        else "a factor is 1 to 2147483647"
        if kind == "faces" and numbers[1] == 1
        else "a weight is 0 to 2147483647"
        if kind == "faces"
        else NUMERATOR
        if kind == "disturbances" and call.command == "loop"
        else NUMERATOR + ", and in the second record at least the number of the first"
        if kind == "disturbances"
        else "the number of cuts is 0 to 63"
        if kind == "cuts" and numbers[1] == 1
        else cut_range(design, line, entry, numbers[1])
        if kind == "cuts"
        else "a whole number in decimal, of an absolute value of at most 9223372036854775807"
    )
    return TEXTS["number"].format(field=numbers[1], entry=entry, file=name, fault=f", `{word.strip()[:40]}`," if word else "", wanted=wanted)


def cell_count(call: Call) -> int | str:
    """How many cells a text of cuts makes, as far as it can be read."""
    try:
        return cell_boxes.count_of([record[1:] for record in records_of(read_text(call.path("cuts")))])
    except (OSError, ValueError, TypeError):
        return "too many"


def cut_range(design: Design | None, line: str, entry: int, field: int) -> str:
    """What a cut has to be, behind those before it."""
    try:
        low, high = design.lo[entry - 1], design.hi[entry - 1]
        least = int(line.split(",")[field - 2].strip().strip('"')) + 1 if field > 2 else low
    except (AttributeError, IndexError, ValueError):
        return "cuts rise, and each is at least the box's lo and below its hi"
    return f"a cut from {least} to {high - 1}, since cuts rise and the box ends at {high}" if least < high else f"there is no room for a cut, since cuts rise and the box ends at {high}"


def simulated_slack(call: Call, corner: int, row: int) -> Fraction | None:
    """The slack without rounding, where it was shown by an enclosure; else None."""
    try:
        design, policy = call.design(), call.policy()
        return exact_corner(design, corner, policy[corner - 1]).slacks[row - 1] if sizes.has_fine_corners(design, policy) else None
    except (TypeError, AttributeError, IndexError, ValueError):
        return None


def no_margin(call: Call, corner: int, row: int, above: int, below: int) -> str:
    design, slack = call.design(), Fraction(above, below)
    shown = f"{above}/{below} = {float(slack):.7f}" if slack else "0"
    if design is None or row > design.rows:
        return TEXTS["no-margin"].format(corner=f"corner {corner}", row=f"row {row}", slack=shown, hint="")
    exact = simulated_slack(call, corner, row)
    if exact is not None:
        slack, shown = exact, f"{shown}, of the corners' enclosures"
    kind, _, stage = design.place_of_row(row)
    rule = design.stage_rows[(row - 1) % len(design.stage_rows)] if kind == "stage row" else None
    alone = stage == 0 and rule is not None and not any(rule[design.states : -1])
    hint = (
        "The row holds for the state alone, and at stage 0 that is the corner itself: a smaller box, or the limit at the next state."
        if alone
        else "The plan exceeds the limit."
        if slack < 0
        else "The plan touches the limit."
        if slack == 0
        else "The plan all but touches the limit."
    )
    return TEXTS["no-margin"].format(corner=design.corner_words(corner), row=design.row_words(row), slack=shown, hint=hint)


def too_many_steps(call: Call, steps: int) -> str:
    design = call.design()
    fast = design is not None and is_accelerated(design.version)
    most = machine_of(design.version if design else 1).most_steps
    times = Fraction(steps * (steps + 3), most * (most + 3)) if fast else Fraction(steps, most)
    hint = f" (at least {plain(times * Fraction(design.violation, design.target_den))})" if design else ""
    *formulas, better = STEPS[call.command == "lean"]
    return TEXTS["too-many-steps"].format(steps=steps, most=most, formula=formulas[fast], hint=hint, better=better)


def too_fine(call: Call, epsilon: int) -> str:
    design = call.design()
    hint = f"and the target is {plain(Fraction(design.gap, design.target_den))}" if design else "and the target is less"
    return TEXTS["too-fine"].format(epsilon=plain(Fraction(epsilon, 2**40)), hint=hint)


def sizes_of(design: Design, policy: list, reference: list | None) -> dict:
    """The sizes that are tested, as far as there are numbers that they are made of: those of the corners, and where these are within the limit, those of the form; of a lean
    controller by its reference plans."""
    found = sizes.corner_sizes(design, policy)
    if max(found.values()) > sizes.LIMIT:
        return found
    margin, cost = margin_of(corners_of(design, policy))
    bound, form = multiplier_of(margin, cost), sizes.form_of(design)
    if reference is not None:
        found |= sizes.form_sizes(design, form)
        if max(found.values()) > sizes.LIMIT:
            return found
        excesses, size = excesses_of(design, form, policy, reference)
        bound = lean_multiplier_of(design, margin, max(0, *excesses))
        return found | {"excess": size, "multiplier": sizes.multiplier_size(design, bound, max(excesses)), "error": errors_of(design, form, bound, True).size}
    return found | sizes.form_sizes(design, form) | {"multiplier": sizes.multiplier_size(design, bound, 2**16 * cost), "error": errors_of(design, form, bound, False).size}


def errors_of(design: Design, form: Condensed, bound: int, lean: bool) -> sizes.Errors:
    """What errors cost; in version 3 by the steps, which the curvature needs."""
    step = step_of(None, curvature(design, form)) if is_accelerated(design.version) else 0
    return sizes.Errors(design, form, bound, steps_of(design, step, bound, lean), step)


def too_wide(call: Call, name: str) -> str:
    """Status 10, with the size in bits where the files give it."""
    what, helps = QUANTITIES.get(name, ("a number of the design", "a smaller design"))
    try:
        reference = call.policy("reference") if call.command == "lean" else None
        size = f" (it is 2^{sizes.bits(sizes_of(call.design(), call.policy(), reference)[name]):.1f})"
    except (KeyError, TypeError, AttributeError, IndexError, ValueError):
        size = ""
    return TEXTS["too-wide"].format(name=name, what=what, size=size, help=helps)


def controller_lines(text: str, latest: int = 3) -> list[str]:
    """What should stand in each line, as far as the first two lines tell the version, up to the latest that is read, and the sizes."""
    version = next((it for it in range(2, latest + 1) if text.startswith(f"mpc-controller {it}\n")), 1)
    unread = "`mpc-controller 1` or `mpc-controller 2`, as this command takes none of the accelerated machine"
    head = [
        unread if latest < 3 and text.startswith("mpc-controller 3\n") else f"`mpc-controller {version}`",
        "`size` and n, p, N, m",
        "`bits` and f, g, s, w",
        "`steps` and K",
        "`clamp` and the greatest multiplier",
        f"`words` and n + {'3 ' if version == 3 else ''}m + 2 p N",
        *["`exps` and a number from 0 to s for each row"] * (version > 1),
        "`lo` and a number for each state",
        "`hi` and a number for each state, at least its `lo`",
    ]
    try:
        n, p, stages, rows = (int(word) for word in text.splitlines()[1].split(" ")[1:])
    except (ValueError, IndexError):
        return head
    entries, rows_shown = min(p * stages, 90), min(rows, 372)
    return (
        head
        + [f"`P` and {n} numbers"] * entries
        + [f"`T` and {entries} numbers"]
        + [f"`W` and {rows} numbers"] * entries
        + [f"`G` and {entries} numbers"] * rows_shown
        + [f"`E` and {n} numbers"] * rows_shown
        + [f"`b` and {rows} numbers", "`end`", "absent: nothing follows `end`"]
    )


def cells_lines(text: str) -> list[str]:
    """The same of a text of cells."""
    first, _, rest = text.partition("\n")
    try:
        count = min(64, max(0, int(first.removeprefix("mpc-cells "))))
    except ValueError:
        count = 0
    out = ["`mpc-cells` and the number of cells, 1 to 64"]
    for cell in range(count):
        its = controller_lines(rest)
        if cell:
            its[:3] = ["`mpc-controller` and a version that has room for the first cell's sizes", "`size`, n, p and N of the first cell, and m", "`bits` and f, g of the first cell, s, w"]
        if len(its) < 10:
            return out + its
        out += its[:-1]
        rest = "\n".join(rest.split("\n")[len(its) - 1 :])
    return [*out, "`end`", "absent: nothing follows the last `end`"]


def controller_fault(call: Call, file: int, fault: str, numbers: list[int]) -> str:
    name, is_cells = call.named(file), call.kind(file) == "cells"
    kind = "cells" if is_cells else "controller"
    if fault == "unsafe":
        return TEXTS[f"{kind}-unsafe"].format(file=name)
    try:
        text = read_text(call.path(call.kind(file)))
    except (OSError, TypeError):
        text = ""
    lines = cells_lines(text) if is_cells else controller_lines(text, 2 if call.command == "list" else 3)
    found, wanted = text.split("\n"), "another"
    if numbers[0] <= len(lines):
        wanted = lines[numbers[0] - 1]
    shown = f" (`{found[numbers[0] - 1][:40]}`)" if numbers[0] <= len(found) and found[numbers[0] - 1] else ""
    return TEXTS[f"{kind}-line"].format(file=name, line=numbers[0], fault=shown, wanted=wanted)


LISTING_HEAD = [
    "`mpc-listing 1`",
    "`word` and the bits of a word, 2 to 128",
    "`input`, a number of states, 1 to 6, and the bits by which they are shifted up, 0 to 48",
    "`lo` and a number for each state",
    "`hi` and a number for each state, at least its `lo`",
    "`words` and their number, from that of the states to 1000",
    "`output`, the first word that is put out, how many, and what they are over",
    "`repeat`, the repetitions, 1 to 4194304, and the number of instructions, 1 to 100000",
    "`count` and the product of both",
]


def found_line(call: Call, file: int, line: int) -> tuple[str, list[str]]:
    """What stands in a line of a file, as it is shown, and all lines of the file."""
    try:
        found = read_text(call.path(call.kind(file))).split("\n")
    except (OSError, TypeError):
        found = []
    return (f" (`{found[line - 1][:40]}`)" if line <= len(found) and found[line - 1] else ""), found


def listing_fault(call: Call, file: int, line: int) -> str:
    shown, found = found_line(call, file, line)
    try:
        count = int(found[7].split(" ")[2])
    except (IndexError, ValueError):
        count = 0
    after = "an instruction with its numbers in range" if line <= 9 + count else "`end`" if line == 10 + count else "absent: nothing follows `end`"
    return TEXTS["listing"].format(file=call.named(file), line=line, fault=shown, wanted=LISTING_HEAD[line - 1] if line <= 9 else after)


def trap(call: Call, entry: int, step: int, place: int) -> str:
    if place == 0:
        return TEXTS["trap-input"].format(entry=entry, file=call.named(1))
    return TEXTS["trap"].format(entry=entry, file=call.named(1), step=step, place=place, instruction=found_line(call, 1, 9 + place)[0])


def outside_box(call: Call, entry: int, turn: int, coordinate: int) -> str:
    design = call.design()
    name = design.name("state", coordinate).word if design else f"x{coordinate}"
    if turn > 1:
        return TEXTS["left-box"].format(entry=entry, turn=turn, name=name)
    records, fault, step = call.records("states"), "", "1/2^grid"
    kind = "listing" if call.command == "play" else "controller"
    try:
        value = int(records[entry - 1].split(",")[coordinate - 1])
        lines = {line.split(" ")[0]: line.split(" ")[1:] for line in read_text(call.path(kind)).splitlines()[:9]}
        fault = f" ({value}, and the box is {lines['lo'][coordinate - 1]} to {lines['hi'][coordinate - 1]})"
        step = f"1/{2 ** int(lines['bits'][1])}"
    except (IndexError, ValueError, KeyError, OSError, TypeError):
        pass
    return TEXTS["outside-box"].format(entry=entry, file=call.named(3 if call.command == "loop" else 2), kind=kind, name=name, fault=fault, step=step)


def outside_cells(call: Call, entry: int, coordinate: int) -> str:
    """Of `serve`: the first cell's box is that which the line speaks of."""
    fault = ""
    try:
        value = int(call.records("states")[entry - 1].split(",")[coordinate - 1])
        lines = {line.split(" ")[0]: line.split(" ")[1:] for line in read_text(call.path("cells")).splitlines()[1:10]}
        fault = f" ({value}, and it is {lines['lo'][coordinate - 1]} to {lines['hi'][coordinate - 1]})"
    except (IndexError, ValueError, KeyError, OSError, TypeError):
        pass
    return TEXTS["outside-cells"].format(entry=entry, file=call.named(2), cells=call.named(1), name=f"x{coordinate}", fault=fault)


def cell_refused(call: Call, cell: int, name: str, rest: list[str]) -> str:
    """Status 18: why the design with the cell's box is refused."""
    of_cell = CellCall(call.words, cell)
    design = of_cell.design()
    ends = "" if design is None else ", ".join(f"{design.name('state', i + 1).word} {low} to {high}" for i, (low, high) in enumerate(zip(design.lo, design.hi)))
    return TEXTS["cell"].format(cell=cell, box=f" ({ends}, over 2^grid)" if ends else "", refusal=refused(of_cell, name, rest))


def face_words(call: Call, entry: int) -> tuple[str, str]:
    """The face of a record, and where the box ends there."""
    design, coordinate, upper = call.design(), (entry + 1) // 2, entry % 2 == 1
    name = design.name("state", coordinate).word if design else f"x{coordinate}"
    end = (design.hi if upper else design.lo)[coordinate - 1] if design else None
    return f"the {'upper' if upper else 'lower'} end of {name}", "" if end is None else f", and the box ends at {end}"


def unequal(call: Call, entry: int, input: int, left: int, right: int) -> str:
    return TEXTS["unequal"].format(entry=entry, file=call.named(5), face=face_words(call, entry)[0], input=input, left=left, right=right)


def no_stay(call: Call, entry: int, bound: int) -> str:
    face, end = face_words(call, entry)
    return TEXTS["no-stay"].format(entry=entry, file=call.named(5), face=face, bound=bound, end=end)


def too_wide_for_c(call: Call, width: int) -> str:
    return TEXTS["too-wide-c"].format(file=call.named(1), path=call.path("controller"), width=width)


def moves(call: Call, row: int, left: int, right: int) -> str:
    return TEXTS["moves"].format(file=call.named(3), row=row, left=left, right=right)


def beyond(call: Call, name: str, turn: int, coordinate: int, bound: int) -> str:
    """Statuses 24 and 25: how far a loop may go."""
    design = call.design()
    return TEXTS[name].format(file=call.named(3), turn=turn, name=design.name("state", coordinate).word if design else f"x{coordinate}", bound=bound)


def explanation(status: int, line: str, words: list[str]) -> str:
    """The sentences for a status, the program's line and its words; empty where there is nothing to say."""
    call, fields = Call(words), line.split()
    if status == 98:
        return TEXTS["unbuilt"]
    if status == 99:
        return without_arguments(call)
    if status == 1:
        return TEXTS["memory"]
    if status == 2:
        return TEXTS["usage"].format(fault=usage(call))
    if len(fields) < 3 or fields[0] != "error" or fields[1] != str(status):
        return TEXTS["curvature"] if status == 7 else ""
    name, rest = fields[2], fields[3:]
    numbers = [int(word) for word in rest if word.lstrip("-").isdigit()]
    if name == "read-fault":
        return TEXTS[name].format(file=call.named(numbers[0]), fault=reading_fault(call.path(call.kind(numbers[0]))))
    if name == "write-fault":
        kind = call.kind(numbers[0]) if numbers[0] else "output"
        left = LEFT["reports" if (call.command, kind) == ("split", "report") else kind]
        return TEXTS[name].format(file=call.named(numbers[0]), fault=writing_fault(call.path(kind)), left=left)
    if name == "text":
        return text_fault(call, numbers[0], rest[1], numbers[1:])
    if name == "controller":
        return controller_fault(call, numbers[0], rest[1], numbers[1:])
    if name == "long":
        return TEXTS["long-cells" if call.kind(numbers[0]) == "cells" else name].format(file=call.named(numbers[0]))
    if name == "mismatch":
        return TEXTS[name].format(field=rest[0] if rest[0] != "grid" else "grid bits", design=rest[1], controller=rest[2])
    if name == "outside-box" and call.command == "serve":
        return outside_cells(call, numbers[0], numbers[2])
    if name in ("unsettled", "no-return"):
        return beyond(call, name, *numbers)
    if name == "cell":
        return cell_refused(call, numbers[0], rest[1], rest[2:])
    fill = {"listing": listing_fault, "trap": trap, "outside-box": outside_box, "unequal": unequal, "no-stay": no_stay, "too-wide-c": too_wide_for_c, "moves": moves}
    return fill[name](call, *numbers) if name in fill else refused(call, name, rest)


def refused(call: Call, name: str, rest: list[str]) -> str:
    """Why a design with its policy is refused, by the name of the refusal and what follows it."""
    fill = {"no-margin": no_margin, "too-many-steps": too_many_steps, "too-fine": too_fine}
    if name in fill:
        return fill[name](call, *map(int, rest))
    return too_wide(call, rest[0]) if name == "too-wide" else TEXTS.get(name, "")


STATUSES = [
    (1, "memory", ["memory"]),
    (2, "usage", ["usage"]),
    (3, "read-fault FILE", ["read-fault"]),
    (4, "write-fault FILE", ["write-fault"]),
    (5, "text FILE not-toml", ["not-toml"]),
    (5, "text FILE key PLACE", ["key", "further-key"]),
    (5, "text FILE shape PLACE", ["shape"]),
    (5, "text FILE range PLACE", ["range", "range-certificate"]),
    (5, "text FILE fields ENTRY", ["fields"]),
    (5, "text FILE number ENTRY FIELD", ["number"]),
    (5, "text FILE range 0", ["cells", "no-policies"]),
    (5, "text FILE count ENTRIES", ["count", "count-faces", "count-disturbances", "count-turns", "count-cuts", "count-policies", "count-certificate"]),
    (6, "no-margin CORNER ROW NUMERATOR DENOMINATOR", ["no-margin"]),
    (7, "curvature", ["curvature"]),
    (8, "too-many-steps K", ["too-many-steps"]),
    (9, "too-fine E", ["too-fine"]),
    (10, "too-wide NAME", ["too-wide"]),
    (11, "controller FILE line LINE", ["controller-line", "cells-line"]),
    (11, "controller FILE unsafe", ["controller-unsafe", "cells-unsafe"]),
    (12, "outside-box ENTRY TURN COORDINATE", ["outside-box", "left-box", "outside-cells"]),
    (13, "long FILE", ["long", "long-cells"]),
    (14, "mismatch WORD DESIGN CONTROLLER", ["mismatch"]),
    (16, "unequal ENTRY INPUT LEFT RIGHT", ["unequal"]),
    (17, "no-stay ENTRY BOUND", ["no-stay"]),
    (18, "cell CELL NAME ..", ["cell"]),
    (20, "listing FILE LINE", ["listing"]),
    (21, "trap ENTRY STEP PLACE", ["trap", "trap-input"]),
    (22, "too-wide-c WIDTH", ["too-wide-c"]),
    (23, "moves ROW LEFT RIGHT", ["moves"]),
    (24, "unsettled TURN COORDINATE BOUND", ["unsettled"]),
    (25, "no-return TURN COORDINATE BOUND", ["no-return"]),
    (98, "", ["unbuilt"]),
    (99, "", ["no-text", "no-arguments"]),
]


ORDER = """## Which is told

The first test that fails. Out of memory may come at any place. An output may not have the name of another file (2). Each file is read (3), measured (13) and examined (5, 11, 20) before the next. D is a design, P a policy, Q
references, C a controller or cells, R a report, F faces, W the range of disturbances, V disturbances, S states, L a listing.

- `generate D P C R`: D, P; the design's tests; C and then R are written (4).
- `lean D P Q C R [F [W]]`: D, P, Q, F, W; the design's tests, of which `excess` and `multiplier` come behind 7; with F the quantity `stay` (10), then face by face 16 and 17; C, R.
- `stay D P C R F [W]`: D, P, F, W; the design's tests; `stay` (10), face by face 16 and 17; C, R.
- `split D CUTS P C R`: D, CUTS, P; cell by cell the design's tests (18); C, R.
- `solve C S`, `serve C S`: C, S; each state in the box, or in a cell (12); the lines.
- `loop D C S T [V]`, T up to 1000000: D, C; both compared (14); S, V; with a record `turn` (10); then record by record and turn by turn the state in the box (12), and its line.
- `settle D C CERTIFICATE [W]`: D, C; both compared (14); CERTIFICATE, W; `settle` (10); the first row that may move (23); from the start box (24), then from the box of rest (25), the first turn,
  coordinate and end beyond what is asked; the lines.
- `c C NAME SOURCE HEADER`: C; its width (22); SOURCE and then HEADER are written.
- `list C L`: C; L is written. `play L S`: L, S; each state in the box (12); record by record the run (21) and its line.
- `demo X`, X up to 4294967295: the design's tests; the report and the lines.

The design's tests are `prediction`, `corner_slack`, `corner_cost` (10); 6; `multiplier` (10); `prediction`, `hessian`, `rows`, `curvature` (10); 7; 8; `error` (10); 9; `descent`, `width` (10).

What a line's numbers say is the first of its kind:

- 5, of a design: `not-toml` (also bytes that aren't UTF-8, a key given twice, an integer beyond 64 bits, a float too large); the first missing key, by its place in [FORMATS.md](FORMATS.md#design); 0, a key too much; then place by place
  shape and range, at 15 also that no row stands at 14 or 15, at 18 that a `hi` is below its `lo`.
- 5, of records: record by record `fields`, then the first `number` that can't stand there; at last `count`. Of cuts the number of cuts comes first, then `fields`, then the cuts; `count` where the first n are right and there aren't n;
  `range 0` is last; of policies where all are `none`. Of a certificate `range` is the first record whose turns or box can't stand there.
- 6: the first corner, and in it the first row, with its slack. In intervals it is the one that is shown.
- 8: how many steps would be needed. 9: what the errors cost over 2^40 with 48 bits.
- 11, 20: the first line with which, after those before it, no such text begins; in cells also a later cell's `size`, `bits` or version that can't stand with the first's. `unsafe` is told of texts in form alone.
- 12: the record, its turn (0 before any line is printed), the first coordinate. Where no cell has the state, that of the first cell's box.
- 14: `states`, `inputs` or `grid`, with both numbers. 16, 17: the first face that isn't right. 18: the first cell, with the refusal of `generate`.
- 21: the repetition and the instruction in it; 0 and 0 at an input. The lines before it stand.

[PROVED.md](PROVED.md#what-was-cut) says what stands after a fault (4). Where there is no memory for the line itself, the program ends with the same status and prints none."""


def table() -> Iterator[str]:
    """The page of all refusals, made of the texts."""
    yield "# Refusals"
    yield ""
    yield "What the program prints on standard error where it refuses: `error`, the exit status, a name and numbers. The launcher says below it what stands behind it here, with your names and"
    yield "numbers in the braces. FILE is the position of the file's name among the arguments, where the command is 0; as an output 0 is standard output. All else counts from 1."
    yield "Made by `./mpc refusals --table`."
    yield ""
    for status, line, names in STATUSES:
        shown = f"`error {status} {line}`" if line else f"(status {status}, no line)"
        yield f"- {shown}: {'; or: '.join(TEXTS[name] for name in names)}"
    yield ""
    yield ORDER
    yield ""
    yield "## The quantities"
    yield ""
    yield f"(a) is {NEARER}; (b) a smaller plant.den; (c) denominators so short that exact numbers fit."
    yield ""
    for name, (what, helps) in QUANTITIES.items():
        yield f"- `{name}`: {what}. What helps: {helps.replace(FEWER, '(a), (b)').replace(NEARER, '(a)').replace(EXACT, ', (c)')}."


def main(arguments: list[str]) -> int:
    if not arguments or arguments[0] == "--help":
        print(__doc__.strip())
        return 0
    if arguments[0] == "--table":
        print("\n".join(table()))
        return 0
    say_why(int(arguments[0]), arguments[1], arguments[2:])
    return 0


def say_why(status: int, line: str, words: list[str]) -> None:
    """An explanation is a help: the program's own line stands above it, and no traceback belongs below."""
    try:
        told = explanation(status, line, words)
    except Exception as fault:
        if os.environ.get("MPC_REFUSALS_RAISE"):
            raise
        told = f"(no explanation: {fault})"
    if told:
        print(re.sub(r"\b1 (list|integer|number|field|record|time)s\b", r"1 \1", told[0].upper() + told[1:]), file=sys.stderr)


if __name__ == "__main__":
    run(lambda: main(sys.argv[1:]))
