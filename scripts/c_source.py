"""Writes a controller as C99, NAME.h and NAME.c: no heap, no float, nothing but <stdint.h>, tables in flash and one struct of what changes.

    ./mpc c CONTROLLER [REPORT] [DESIGN] --name NAME --out FOLDER

The files come in any order; each is known by what it holds. With the report the header says what is promised, and with the design in its units.

    int  NAME_solve(work, state, sums)         0, and the sums that `solve` prints, after exactly K steps; or the first coordinate, from 1, outside the box
    void NAME_first_inputs(sums, inputs)       the averaged first inputs over 2^f, to the nearest

The C is not proved: docs/C.md says how it is tested, and what it costs. Nothing is written unless both files can be.
"""
import os
import re
import tempfile
from collections.abc import Callable, Iterable, Iterator, Mapping
from typing import Any

from .common import files
from .common.arguments import Parser
from .common.c_text import CText
from .common.c_words import Form
from .common.design_text import Design, design_of
from .common.libraries import Refusal, run
from .common.strict_texts import safe_controller, strict_report
from .common.texts import Controller, kind_of, report_of
from .explain import KINDS, refuse_others, report_words

MARK = "by `./mpc c`"
# headers of C that the compiler would find instead, or in the place of which it would find ours
TAKEN = "assert complex ctype errno fenv float inttypes iso646 limits locale math setjmp signal stdarg stdbool stddef stdint stdio stdlib string tgmath time wchar wctype".split()


def sorted_files(paths: Iterable[str]) -> dict[str, tuple[str, str]]:
    """Path and text by kind."""
    found: dict[str, tuple[str, str]] = {}
    for path in paths:
        held = files.read_bytes(path)
        # a controller's bytes are compared one by one, whatever they are
        text = held.decode("latin-1") if held.startswith(b"mpc-") else held.decode("utf-8", "replace")
        kind = kind_of(text.removeprefix("\ufeff"))
        if kind not in ("controller", "report", "design"):
            raise Refusal(f"{path} holds no controller, no report and no design")
        if kind in found:
            raise Refusal(f"{found[kind][0]} and {path} both hold {KINDS[kind]}")
        found[kind] = path, text
    if "controller" not in found:
        raise Refusal("no controller was named")
    return found


def read(found: Mapping[str, tuple[str, str]], kind: str, reader: Callable[[str], Any]) -> Any:
    """What a reader makes of the text of this kind, None where there is none; its faults with the file's name."""
    if kind not in found:
        return None
    path, text = found[kind]
    try:
        return reader(text)
    except Refusal as why:
        raise Refusal(f"{path}: {why}") from None
    except (KeyError, ValueError, TypeError, IndexError, RecursionError) as fault:
        raise Refusal(f"{path}: it is not {KINDS[kind]}: {fault}") from None


def report_for(controller: Controller, text: str) -> dict:
    """The report of a text in form."""
    strict_report(text, controller.rows)
    return report_of(text)


def promise(report: dict | None, design: Design | None) -> list[str]:
    """What the report promises, in lines; none where there is no report."""
    if report is None:
        return ["What is promised stands in the report that `generate` wrote beside the controller; none was named here."]
    try:
        return ["What is promised of it at every grid state of the box, if the plant is the design's:", *[f"  {line}" for line in report_words(report, design)]]
    except OverflowError:
        raise Refusal("the report's numbers are too large to be said") from None


def places(controller: Controller, design: Design | None) -> Iterator[str]:
    """What states and sums mean, in lines."""
    c = controller
    yield f"State i is state[i] over 2^{c.grid}, inputs are sums over K * 2^f = {c.steps << c.bits}, stage by stage: sums[k * {c.inputs} + l] is input l of stage k."
    for i in range(c.states):
        name = design.name("state", i + 1) if design else None
        yield f"  state[{i}] from {c.lo[i]} to {c.hi[i]}" + (f": {name.word}, {2**c.grid} is {name.shown(1)}" if name else "")
    if design:
        for l in range(c.inputs):
            name = design.name("input", l + 1)
            yield f"  inputs[{l}]: {name.word}, 2^{c.bits} is {name.shown(1)}"


def work_words(text: CText) -> Iterator[str]:
    """How the sums are made, in lines."""
    form, c = text.form, text.controller
    multipliers, entries = form.products()
    of = "of two words" if form.is_wide else "of 32 bits" if "two words" not in form.entry_sums.words() + form.row_sums.words() else "of the words below"
    yield f"n = {c.states}, p = {c.inputs}, N = {c.stages}, m = {c.rows} rows; f = {c.bits}, g = {c.grid}, s = {c.step}, K = {c.steps}; printed width {c.width}"
    yield f"A step has {multipliers} + {entries} products {of}, where {c.entries * (c.states + c.rows) + c.rows * (c.entries + c.states)} are written."
    yield f"Sums of entries: {form.entry_sums.words()}, at most {form.entry_sums.greatest.bit_length()} bits and a sign; of rows: {form.row_sums.words()}, {form.row_sums.greatest.bit_length()} bits."
    yield f"{len(form.seconds)} pairs of opposite rows, {len(form.rows) - len(form.seconds)} other rows, {form.left_out} that reach no entry and are left out."


def commented(line: str) -> str:
    """A line that may stand in a comment: a name from a design may hold anything."""
    line = "".join(ch if ch.isprintable() else " " for ch in line)
    return line.replace("*/", "* /").replace("/*", "/ *").replace("??", "? ?").rstrip("\\ ")


def header_notes(text: CText, path: str, report: dict | None, design: Design | None) -> list[str]:
    notes = [f"{text.name}: the controller of {os.path.basename(path)} as C99, written {MARK}. Not proved, but tested: docs/C.md of the tool says how.", ""]
    notes += [*promise(report, design), "", *places(text.controller, design), "", *work_words(text)]
    return [commented(line) for line in notes]


def check_target(path: str) -> None:
    """A refusal where something is there that isn't the tool's own."""
    if not os.path.lexists(path):
        return
    if not os.path.isfile(path) or os.path.islink(path):
        raise Refusal(f"{path} is no file that may be written anew")
    with open(path, "rb") as file:
        if MARK.encode() not in file.read(4096):
            raise Refusal(f"{path} is there, and was not written {MARK}")


def write_all(texts: Mapping[str, str]) -> None:
    """Writes these texts, each path its own: each beside its place first, and only where all stand there are they moved into it."""
    for path in texts:
        check_target(path)
    beside = {}
    try:
        for path, text in texts.items():
            with tempfile.NamedTemporaryFile("wb", dir=os.path.dirname(path), prefix=".mpc-", delete=False) as file:
                beside[path] = file.name
                file.write(text.encode())
                file.flush()
                os.fsync(file.fileno())
            umask = os.umask(0)
            os.umask(umask)
            os.chmod(beside[path], 0o666 & ~umask)
        for path in texts:
            os.replace(beside[path], path)
            del beside[path]
    finally:
        for name in beside.values():
            os.unlink(name)


def c_texts(name: str, found: Mapping[str, tuple[str, str]]) -> tuple[str, str]:
    """Header and source of the controller among these files, path and text by kind."""
    controller = read(found, "controller", safe_controller)
    report = read(found, "report", lambda text: report_for(controller, text))
    design = read(found, "design", lambda text: design_of(text.removeprefix("\ufeff")))
    refuse_others(design, report, None, controller)
    text = CText(name, Form(controller))
    source = text.source()
    return text.header(header_notes(text, found["controller"][0], report, design)), source


def check_name(name: str) -> None:
    """A refusal of what is no name of a controller's C."""
    if not re.fullmatch(r"[a-z][a-z0-9_]{0,15}", name) or name in TAKEN:
        raise Refusal(f"{name}: the name should be a small letter and up to 15 small letters, digits and _, and not that of a header of C")


def main() -> int:
    parser = Parser(__doc__, prog="./mpc c", usage="./mpc c CONTROLLER [REPORT] [DESIGN] --name NAME --out FOLDER")
    parser.add_argument("files", nargs="+", metavar="FILE")
    parser.add_argument("--name", required=True)
    parser.add_argument("--out", required=True)
    given = parser.parse_args()
    check_name(given.name)
    if not os.path.isdir(given.out):
        raise Refusal(f"{given.out}: there is no such folder")
    header, source = (os.path.join(given.out, given.name + end) for end in (".h", ".c"))
    for path in given.files:
        files.keep_apart({"FILE": path}, {"NAME.h": header, "NAME.c": source})
    texts = c_texts(given.name, sorted_files(given.files))
    write_all(dict(zip((header, source), texts)))
    return 0


if __name__ == "__main__":
    run(main)
