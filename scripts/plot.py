"""Draws the lines of `./mpc loop` over time: states and inputs with their limits, one curve for each start.

    ./mpc plot DESIGN LINES [LINES ..] --out FILE.svg [--labels NAME,NAME] [--starts N,N] [--turns N] [--report REPORT] [--disturbances FILE [--bears BOX]]
                    [--settled FILE [--certificate FILE]]

The name of FILE says its format: .svg, .pdf or .png.

The first LINES are drawn full, the second dashed, and so on, so that two controllers can be laid beside each other (as ./mpc exact_loop beside `loop`). Names,
units and the period come from the design's comments. Grey lines are the box, red ones the limits on one state or one input alone. Up to five curves stand in one column,
more in three, as positions, velocities and accelerations along three axes do.

    --labels   what the files are called in the legend
    --starts   the records to draw, from 1 (all)
    --turns    the turns to draw (all)
    --report   a report of the design, whose violations are drawn too, dotted: how far a limit may be exceeded at most, which a lean controller does
    --disturbances   what was added to the next states of these loops, turn by turn (./mpc disturbed_loop); it is drawn below them, with the greatest that the box bears
                     (--bears, by ./mpc faces) in grey
    --settled        what `settle` printed: the box in which every loop lies from a turn on, in green; with --certificate also the box that these loops start in, as a bar, and
                     lighter that in which no multiplier moves, up to that turn
"""
import os
from collections.abc import Iterator
from dataclasses import dataclass

from .common.libraries import Refusal, need, run

need("matplotlib")
import matplotlib.pyplot as pyplot
from matplotlib.figure import Figure

from .common import files, matching
from .common.arguments import Parser, numbers, several
from .common.design_text import Design, read_design
from .common.disturbances import box_in, numbers_in
from .common.pictures import format_of, prepare, write
from .common.promises import Promise, certificate_of, promise_of
from .common.texts import loop_lines_of, read_text, report_of
from .common.tubes import Certificate

STYLES = ["-", "--", ":", "-."]
ONE_COLUMN = 5
# no picture shows more
MOST_LINES = 1000000


def limits_of(design: Design, coordinate: int, report: dict | None = None) -> list[float]:
    """The values at which a stage row on this one coordinate binds, or at which it is exceeded by as much as a report says: states first, then inputs."""
    out = []
    for number, row in enumerate(design.stage_rows, 1):
        if row[coordinate] and sum(map(bool, row[:-1])) == 1:
            out.append((row[-1] + design.limit_den * float(most_of(report, design, number) if report else 0)) / row[coordinate])
    return out


def most_of(report: dict, design: Design, number: int) -> float:
    """By how much a stage row is exceeded at most, at any stage."""
    violations = report["violations"] or [report["violation"]] * design.rows
    return float(max(violations[row - 1] for row, _ in design.rows_of("stage row", number)))


def draw_start(axes: list, design: Design, loop: list, style: str, color: str, label: str, step: float) -> None:
    """One loop: its states joined, its inputs held."""
    times = [k * step for k in range(len(loop))]
    for i in range(design.states):
        size = design.name("state", i + 1).size
        axes[i].plot(times, [float(x[i]) * size for x, _ in loop], style, color=color, linewidth=1.2, label=label)
    for l in range(design.inputs):
        size = design.name("input", l + 1).size
        axes[design.states + l].step(times, [float(u[l]) * size for _, u in loop], style, where="post", color=color, linewidth=1.2)


def draw_limits(axes: list, design: Design, report: dict | None) -> None:
    for i in range(design.states + design.inputs):
        name = design.name("state", i + 1) if i < design.states else design.name("input", i - design.states + 1)
        axes[i].set_ylabel(f"{name.word}\n{name.unit}".strip(), fontsize=8)
        axes[i].tick_params(labelsize=7)
        if i < design.states:
            for bound in (design.lo[i], design.hi[i]):
                axes[i].axhline(bound / 2**design.grid * name.size, color="0.75", linewidth=0.8)
        for bound in limits_of(design, i):
            axes[i].axhline(bound * name.size, color="tab:red", linewidth=0.8)
        for bound in limits_of(design, i, report) if report else []:
            axes[i].axhline(bound * name.size, color="tab:red", linewidth=0.8, linestyle=":")


@dataclass
class Shifts:
    """What is added to next states turn by turn, and the least and the greatest that the box bears, over `2^grid`."""

    turns: list[list[int]]
    bears: tuple[list[int], list[int]] | None = None

    @property
    def drawn(self) -> list[int]:
        """The coordinates, from 0, to which anything is added."""
        return [i for i, values in enumerate(zip(*self.turns)) if any(values)]


def draw_shifts(axes: list, design: Design, shifts: Shifts, turns: int | None, step: float) -> None:
    """What is added to each coordinate that is disturbed."""
    for axis, i in zip(axes, shifts.drawn):
        name = design.name("state", i + 1)
        size = name.size / 2**design.grid
        values = [record[i] * size for record in shifts.turns[:turns]]
        axis.step([k * step for k in range(len(values))], values, where="post", color="0.3", linewidth=1.0)
        for end in shifts.bears or ():
            axis.axhline(end[i] * size, color="0.75", linewidth=0.8)
        axis.set_ylabel(f"added to\n{name.word}\n{name.unit}".strip(), fontsize=8)
        axis.tick_params(labelsize=7)


@dataclass
class Settles:
    """What `settle` promises, and the certificate of it."""

    promise: Promise
    certificate: Certificate | None = None


def draw_settled(axes: list, design: Design, settles: Settles, turns: int, step: float) -> None:
    """The boxes of loops that settle, each as long as loops lie in it."""
    then, s = min(settles.promise.turn, turns), settles.certificate
    for i, axis in enumerate(axes[: design.states]):
        size = design.name("state", i + 1).size / 2**design.grid
        ends = lambda box: (box.low[i] * size, box.high[i] * size)
        axis.fill_between([then * step, turns * step], *ends(settles.promise.box), color="tab:green", alpha=0.3, linewidth=1.0)
        if s:
            axis.fill_between([0, then * step], *ends(s.still), color="tab:green", alpha=0.08, linewidth=0)
            axis.plot([0, 0], ends(s.start), color="tab:green", alpha=0.5, linewidth=3.0)


def draw(design: Design, files: list[dict], labels: list[str], starts: list[int] | None = None, turns: int | None = None, shifts: Shifts | None = None,
         report: dict | None = None, settles: Settles | None = None) -> Figure:
    """The figure of these loops, a dictionary of record -> loop for each file."""
    own = design.states + design.inputs
    count = own + (len(shifts.drawn) if shifts else 0)
    columns = 1 if count <= ONE_COLUMN else 3
    lines = -(-count // columns)
    figure, grid = pyplot.subplots(lines, columns, sharex=True, squeeze=False, figsize=(7 if columns == 1 else 10, 1.6 * lines))
    axes, spare = list(grid.flat)[:count], list(grid.flat)[count:]
    for none in spare:
        none.set_axis_off()
    step = design.period or 1
    draw_limits(axes, design, report)
    if shifts:
        draw_shifts(axes[own:], design, shifts, turns, step)
    if settles:
        longest = max((len(loop) for loops in files for record, loop in loops.items() if not starts or record in starts), default=1)
        draw_settled(axes, design, settles, min(longest, turns or longest) - 1, step)
    for number, (loops, label) in enumerate(zip(files, labels)):
        chosen = [record for record in sorted(loops) if not starts or record in starts]
        for place, record in enumerate(chosen):
            draw_start(axes, design, loops[record][:turns], STYLES[number % 4], f"C{place % 10}", f"{label}, start {record}", step)
    # above the first picture, where it covers nothing
    axes[0].legend(fontsize=6, loc="lower left", bbox_to_anchor=(0.0, 1.02), borderaxespad=0.0, ncol=4)
    for last in axes[-columns:]:
        last.set_xlabel("s" if design.period else "turn", fontsize=8)
    figure.tight_layout()
    return figure


def chosen_lines(path: str, starts: list[int] | None, turns: int | None) -> Iterator[str]:
    """The lines of a file that are to be drawn."""
    count = 0
    for line in files.lines_of(path):
        words = line.split(" ", 2)
        if len(words) < 3 or not (words[0].isdigit() and words[1].isdigit()):
            raise Refusal(f"{path} holds `{line[:40]}`, which is no line of `./mpc loop`")
        if (starts is None or int(words[0]) in starts) and (turns is None or int(words[1]) <= turns):
            count += 1
            yield line
        if count > MOST_LINES:
            raise Refusal(f"{path} has more than {MOST_LINES} lines to draw: --starts or --turns chooses fewer")


def read_loops(path: str, design: Design, starts: list[int] | None, turns: int | None, shifts: Shifts | None) -> dict:
    """The loops of a file, where they are this design's and there are any."""
    try:
        loops = loop_lines_of("\n".join(chosen_lines(path, starts, turns)), design.states, design.inputs, design.grid)
    except (ValueError, ZeroDivisionError) as fault:
        raise fault if isinstance(fault, Refusal) else Refusal(f"{path}: {fault}") from None
    if not loops:
        chosen = " of the chosen starts" if starts else ""
        raise Refusal(f"{path} has no line{chosen}: there is nothing to draw")
    other = "design, or of other disturbances" if shifts else "design"
    matching.refuse(f"{path}", other, matching.loop_difference(loops, design, shifts.turns if shifts else None))
    return loops


def read_shifts(path: str | None, bears: str | None, design: Design) -> Shifts | None:
    """What is added to next states, where it is asked for."""
    if path is None:
        if bears is not None:
            raise Refusal("--bears is drawn with --disturbances", 2)
        return None
    return Shifts(numbers_in(path, design.states), box_in(bears, design) if bears else None)


def read_settles(promise: str | None, certificate: str | None, design: Design) -> Settles | None:
    """Where loops settle, where it is asked for."""
    if promise is None:
        if certificate is not None:
            raise Refusal("--certificate is drawn with --settled", 2)
        return None
    return Settles(promise_of(read_text(promise), design.states), certificate_of(read_text(certificate), design.states) if certificate else None)


def shown(path: str) -> str:
    """A file's name as a label, whatever its bytes are."""
    return os.fsencode(os.path.basename(path)).decode("utf-8", "replace")


def main() -> int:
    parser = Parser(__doc__)
    parser.add_argument("design", metavar="DESIGN")
    parser.add_argument("lines", metavar="LINES", nargs="+")
    parser.add_argument("--out", required=True, metavar="FILE")
    parser.add_argument("--labels", metavar="NAME,NAME")
    parser.add_argument("--starts", type=numbers, metavar="N,N")
    parser.add_argument("--turns", type=several, metavar="N")
    parser.add_argument("--report", metavar="REPORT")
    parser.add_argument("--disturbances", metavar="FILE")
    parser.add_argument("--bears", metavar="BOX")
    parser.add_argument("--settled", metavar="FILE")
    parser.add_argument("--certificate", metavar="FILE")
    given = parser.parse_args()
    inputs = {"DESIGN": given.design} | {f"LINES {place}": path for place, path in enumerate(given.lines, 1)}
    others = ("REPORT", given.report), ("--disturbances", given.disturbances), ("--bears", given.bears), ("--settled", given.settled), ("--certificate", given.certificate)
    inputs |= {word: path for word, path in others if path}
    files.keep_apart(inputs, {"--out": given.out})
    format_of(given.out)
    design = read_design(given.design)
    report = report_of(read_text(given.report)) if given.report else None
    if report:
        matching.refuse("the report", "design", matching.report_difference(report, design))
    shifts = read_shifts(given.disturbances, given.bears, design)
    settles = read_settles(given.settled, given.certificate, design)
    loops = [read_loops(path, design, given.starts, given.turns, shifts) for path in given.lines]
    labels = given.labels.split(",") if given.labels else [shown(path) for path in given.lines]
    if len(labels) != len(loops):
        raise Refusal(f"--labels has {len(labels)} names, and there are {len(loops)} files of lines", 2)
    prepare()
    write(draw(design, loops, labels, given.starts, given.turns, shifts, report, settles), given.out)
    return 0


if __name__ == "__main__":
    run(main)
