"""Makes one page of what `./mpc design` wrote: for a review, with all that it shows in itself.

    ./mpc report_page FOLDER [PAGE]

Warnings come first: what makes the controller of no use, or its promises of less. Then K and what a run takes, each limit with what is promised of it, what was measured, the box and
what it bears, the loops beside exact model predictive control, where they settle, and where K comes from. It reads design.toml, controller.txt, report.txt, judged.txt, explained.txt,
loop.txt and loop.svg of FOLDER, and faces.csv and disturbances.csv, settle.csv and settled.txt, and fitted.toml, where these are there. The page goes to PAGE, or is printed. It needs no library.
"""
import html
import os
import re
import string
from collections.abc import Iterable
from dataclasses import dataclass
from fractions import Fraction

from .common import files
from .common.arguments import Parser
from .common.design_text import Design, plain, read_design
from .common.libraries import Refusal, run
from .common.model_text import TIMELY
from .common.promises import certificate_of, promise_of, promise_words
from .common.texts import loop_lines_of, read_text, records_of, report_of

TEMPLATE = os.path.join(os.path.dirname(os.path.realpath(__file__)), "common", "page.html")
SETTLES, FITTED = ("settle.csv", "settled.txt"), "fitted.toml"
READ = ["design.toml", "controller.txt", "report.txt", "judged.txt", "explained.txt", "loop.txt", "loop.svg"]
# what of a stage a run may take before it is told
ENOUGH = 80.0


@dataclass
class Found:
    """What stands in a folder."""

    design: Design
    report: dict
    judged: list[str]
    explained: list[str]
    loops: dict
    picture: str
    bears: list[list[int]] | None
    title: str
    settles: str | None = None
    changed: str | None = None


def read_folder(folder: str) -> Found:
    paths = {name: os.path.join(folder, name) for name in READ}
    design = read_design(paths["design.toml"])
    texts = {name: read_text(path) for name, path in paths.items() if name != "design.toml"}
    loops = loop_lines_of(texts["loop.txt"], design.states, design.inputs, design.grid)
    faces, bears = os.path.join(folder, "faces.csv"), os.path.join(folder, "disturbances.csv")
    borne = records_of(read_text(bears)) if os.path.exists(faces) and os.path.exists(bears) else None
    if borne is not None and [len(record) for record in borne] != [design.states] * 2:
        raise Refusal(f"{bears}: two records of {design.states} numbers are expected, the least and the greatest disturbances")
    title = f"Controller of {os.path.basename(os.path.abspath(folder))}"
    return Found(design, report_of(texts["report.txt"]), texts["judged.txt"].splitlines(), texts["explained.txt"].splitlines(), loops, texts["loop.svg"], borne, title, settles_in(folder, design), changed_in(folder))


def settles_in(folder: str, design: Design) -> str | None:
    """Where loops settle, in words, where there is a certificate of it."""
    certificate, promise = (os.path.join(folder, name) for name in SETTLES)
    if not os.path.exists(certificate) or not os.path.exists(promise):
        return None
    start = certificate_of(read_text(certificate), design.states).start
    return promise_words(design, promise_of(read_text(promise), design.states), start)


def changed_in(folder: str) -> str | None:
    """What of the model's cost and stages was changed, in words, where something was."""
    path = os.path.join(folder, FITTED)
    head = read_text(path).split("\n", 1)[0] if os.path.exists(path) else ""
    return head[head.index(TIMELY) :] if TIMELY in head else None


# ---- what is said


def warnings(found: Found) -> list[str]:
    """What a review has to know first."""
    out = []
    judged = re.search(r"at (\d+) states, at (\d+) of which a limit binds", " ".join(found.judged))
    if judged and judged[2] == "0":
        out.append(f"No limit binds at any of the {judged[1]} states that were tried: a linear controller does the same there without a run.")
    if not judged:
        out.append("Nothing was judged: at no state that was tried has the exact problem a plan.")
    part = part_of_a_stage(found.explained)
    if part is not None and part > ENOUGH:
        out.append(f"A run takes {plain(part)} % of a stage on a Cortex-M4 at 100 MHz: a faster processor, fewer steps or a longer stage.")
    if found.changed:
        out.append(f"{found.changed[0].upper()}{found.changed[1:]}: what is promised of the cost is promised of this one. (./mpc design --same-cost)")
    leaving = leaving_starts(found)
    if leaving:
        out.append(f"The loops from start {', '.join(map(str, leaving))} leave the box: the promises hold no longer from there on.")
    if found.bears is None:
        out.append("Nothing shows that loops stay in the box: each promise is of a run from a state of the box. (./mpc design --stay)")
    elif not any(map(any, found.bears)):
        out.append("Loops stay in the box where nothing disturbs the plant, and no disturbance is borne for sure.")
    return out


def part_of_a_stage(explained: Iterable[str]) -> float | None:
    found = re.search(r"([0-9.e+-]+) % of a stage", " ".join(explained))
    return float(found[1]) if found else None


def leaving_starts(found: Found) -> list[int]:
    """The starts whose loops end before the others do."""
    most = max((len(loop) for loop in found.loops.values()), default=0)
    return [start for start, loop in sorted(found.loops.items()) if len(loop) < most]


def lines_with(explained: Iterable[str], *begins: str) -> list[str]:
    return [line for line in explained if line.startswith(begins)]


def limit_rows(found: Found) -> list[list[str]]:
    """Of each row: its name, what is asked, what is promised, and what part of it that is."""
    design, report = found.design, found.report
    violations, out = report["violations"] or [report["violation"]] * design.rows, []
    for kind, rows in (("stage row", design.stage_rows), ("final row", design.final_rows)):
        for number in range(1, len(rows) + 1):
            name = design.name(kind, number)
            promised = max(violations[row - 1] for row, _ in design.rows_of(kind, number))
            asked = Fraction(design.violation, design.target_den)
            out.append([name.word, name.shown(asked), name.shown(promised), f"{plain(100 * promised / asked)} %"])
    return out


def box_rows(found: Found) -> list[list[str]]:
    """Of each coordinate its ends, and what it bears."""
    design, out = found.design, []
    for i in range(design.states):
        name, shown = design.name("state", i + 1), [Fraction(v, 2**design.grid) for v in (design.lo[i], design.hi[i])]
        row = [name.word, *(name.shown(v) for v in shown)]
        if found.bears:
            row += [name.shown(Fraction(record[i], 2**design.grid)) for record in found.bears]
        out.append(row)
    return out


# ---- as HTML


def listed(words: list[str]) -> str:
    return "<ul>" + "".join(f"<li>{html.escape(line)}</li>" for line in words) + "</ul>"


def table(head: list[str], rows: list[list[str]]) -> str:
    cells = lambda row: "".join(f'<td class="number">{html.escape(v)}</td>' if place else f"<td>{html.escape(v)}</td>" for place, v in enumerate(row))
    return f"<table><tr>{''.join(f'<th>{html.escape(v)}</th>' for v in head)}</tr>{''.join(f'<tr>{cells(row)}</tr>' for row in rows)}</table>"


def drawing(text: str) -> str:
    """The picture as a part of the page, without the head of a file of its own."""
    start = text.find("<svg")
    if start < 0:
        raise Refusal("loop.svg holds no picture")
    return text[start:].strip()


def page(found: Found) -> str:
    told = warnings(found)
    head = ["coordinate", "from", "to"] + (["bears from", "bears to, a turn"] if found.bears else [])
    with open(TEMPLATE, encoding="utf-8") as file:
        template = string.Template(file.read())
    return template.substitute(
        title=html.escape(found.title),
        warnings=f'<div class="warnings"><strong>Warnings</strong>{listed(told)}</div>' if told else '<p class="well">Nothing is to be warned of.</p>',
        controller=listed(lines_with(found.explained, "every run", "the machine is", "no product", "the plan costs", "on a Cortex", "as C", "version ")),
        promise="Promised for each state of the box; what was asked is the violation target."
        + (" No loop leaves the box: its faces stand beside, and lean or stay tested them where it made this controller of them." if found.bears else "")
        + (f" Loops settle: {html.escape(found.settles)}." if found.settles else ""),
        limits=table(["limit", "asked", "promised", "of what was asked"], limit_rows(found)),
        measured=listed(found.judged),
        box=table(head, box_rows(found)),
        picture=drawing(found.picture),
        caption="Full: the controller's loops. Dashed: exact model predictive control. Grey: the box. Red: limits, dotted as far as they may be exceeded."
        + (" Green: the box in which loops that start in the bar settle." if found.settles else ""),
        origin=listed(lines_with(found.explained, "R = ", "K = ", "the least slack", "the greatest", "step 2^-", "curvature")),
        explained=html.escape("\n".join(found.explained)),
    )


def main() -> int:
    parser = Parser(__doc__)
    parser.add_argument("folder", metavar="FOLDER")
    parser.add_argument("page", metavar="PAGE", nargs="?")
    given = parser.parse_args()
    inputs = {name: os.path.join(given.folder, name) for name in [*READ, "faces.csv", "disturbances.csv", *SETTLES, FITTED]}
    files.keep_apart(inputs, {"PAGE": given.page or files.STANDARD_OUTPUT})
    text = page(read_folder(given.folder))
    files.put(given.page, text)
    return 0


if __name__ == "__main__":
    run(main)
