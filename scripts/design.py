"""From a model to a controller that is judged: each step shown as the command that it runs, so that you can go on by hand where you like.

    ./mpc design MODEL FOLDER [--as-it-is | --stay] [--same-cost] [--generate] [--accelerated | --plain] [--gap PART] [--turns N] [--seconds S] [--corners N] [--random N] [--states N] [--seed N]

In FOLDER, which is made where it isn't there, stand then

    covered.toml      the model with a box that holds its starts, where half-planes say which these are (`region`, ./mpc regions)
    fitted.toml       the model in coordinates and a box in which its loops stay (./mpc coordinates), or the best that was seen; with --as-it-is MODEL itself is taken
    design.toml       the design (./mpc draft)
    policy.csv        a plan for each corner, and reference.csv the best ones without limits (./mpc policy --lean)
    controller.txt    the controller, and report.txt its bounds (./mpc lean; with --generate ./mpc generate, which needs no reference plans)
    states.csv        corners and random states (./mpc states)
    loop.txt          the controller's loops from there (./mpc loop), and exact.txt those of exact model predictive control (./mpc exact_loop)
    settle.csv        a certificate that loops settle, where one is found, and settled.txt where they lie from its turn on (./mpc settles, and ./mpc settle, which tests it)
    loop.svg          loops, and where they settle, in one picture (./mpc plot)
    judged.txt        what the controller's plans do beside exact ones (./mpc judge)
    explained.txt     what the report holds, in the model's units (./mpc explain)
    report.html       all of it on one page, for a review, warnings first (./mpc report_page)

and where no loop is to leave the box, by --stay or by `stay` in the model's `[box]`, fitted.toml is by ./mpc staying, and beside it stand

    faces.csv         the sums of limits that show that none does, and disturbances.csv the greatest disturbances of a turn that they bear (./mpc faces); ./mpc lean
                      tests them, with --generate ./mpc stay

and where the model's `[box]` has `disturbed`, range.csv is the range of it under which loops settle.

    --generate    makes the controller that keeps far from its limits, by `generate` or `stay`: of more steps, mostly far more, and with real violations far below the printed ones
    --accelerated makes the controller for the accelerated machine, of version 3 (./mpc draft --accelerated): of far fewer steps where a run takes many
    --plain       keeps the plain machine, of version 2. With neither, version 3 is taken where its C takes less than four fifths of the cycles, and that is said
    --as-it-is    takes the model's own coordinates and box, whatever its loops do
    --stay        searches limits on the next state, coordinates and a box for which faces hold
    --same-cost   keeps the model's cost and stages where no loop is to leave the box and a run would take longer than a stage, in place of trying others
    --gap PART    the gap target, as a part of the greatest cost (0.1)
    --turns N     so many turns a loop (50)
    --seconds S   how long coordinates and a box are searched at most (60); Ctrl-C ends the search before, and what is best so far is taken
    --corners N   at most so many corners to begin loops from (8); --random N so many random states (4); --seed N which of them (1)
    --states N    so many random states to judge, beside all corners (96)

First it says what can be said at once (./mpc outlook): units, poles, corners without a plan, sizes; and last from which part of the box loops settle,
and where. It ends with the status of the first step that is refused. Nothing rests on it: what `generate` checks is what counts.
"""
import os
import shlex
import subprocess
import sys
import tempfile
import time
from argparse import Namespace
from collections.abc import Callable
from dataclasses import dataclass
from typing import IO

from .common.libraries import PACKAGES, PYTHON, Refusal, need, run

need(*PACKAGES)
from .common import files, usage
from .common.arguments import Parser, count, positive, turns
from .common.c_costs import saves
from .common.design_text import read_design
from .common.launcher import LAUNCHER
from .common.machines import is_accelerated
from .common.models import Model, grid_disturbances, read_model
from .common.straight_costs import is_written
from .common.texts import Controller, controller_of, records_text

MADE = ["fitted.toml", "design.toml", "policy.csv", "reference.csv", "controller.txt", "report.txt", "states.csv", "loop.txt", "exact.txt", "loop.svg", "judged.txt", "explained.txt", "report.html"]
STAYS = ["faces.csv", "disturbances.csv"]
SETTLES = ["settle.csv", "settled.txt"]
RANGE, COVERED = "range.csv", "covered.toml"
LEFT_THE_BOX = 12
# version 3 is taken by itself where a run takes less than this part of the plain machine's cycles
CHOSEN = 0.8
# what is said where no certificate is found
UNSETTLED = "no certificate was found that loops settle: what ./mpc settles says above is in the way"


@dataclass
class Step:
    """A command as it was run: its status, and what it said."""

    status: int
    said: str


class Steps:
    """Runs commands one after the other, and tells each."""

    def __init__(self, folder: str) -> None:
        self.folder = folder

    def path(self, name: str) -> str:
        return os.path.join(self.folder, name)

    def run(self, *words: str, to: str | None = None) -> Step:
        """Runs a command by the launcher; what it prints goes to a file where one is named. What else it prints and says stands below the command as it comes."""
        program = os.path.relpath(LAUNCHER)
        command = [program if program.startswith("..") else os.path.join(".", program), *words]
        print("$ " + shlex.join(command) + (f" > {shlex.quote(to)}" if to else ""), flush=True)
        kept = os.environ | {PYTHON: sys.executable}
        with (
            tempfile.TemporaryFile("w+") as out,
            subprocess.Popen(command, stdout=out if to else subprocess.PIPE, stderr=subprocess.PIPE if to else subprocess.STDOUT, text=True, env=kept) as began,
        ):
            said = told(began, began.stderr if to else began.stdout)
            out.seek(0)
            printed = out.read() if to else said
        if to and began.returncode in (0, LEFT_THE_BOX):
            files.write(to, printed)
        return Step(began.returncode, printed)

    def must(self, *words: str, to: str | None = None) -> Step:
        """The same of a command without which nothing follows."""
        step = self.run(*words, to=to)
        if step.status:
            sys.stdout.flush()
            raise Refusal(f"./mpc {words[0]} ended with status {step.status}: what stands above says why", step.status)
        return step


def told(began: subprocess.Popen, lines: IO[str]) -> str:
    """What a command says, shown line by line. An interrupt is the command's: a search ends by it with its best, and others end."""
    said, ends = [], 0
    while True:
        try:
            for line in iter(lines.readline, ""):
                said.append(line)
                print(f"    {line}", end="", flush=True)
            began.wait()
            return "".join(said)
        except KeyboardInterrupt:
            ends += 1
            if ends > 1:
                began.kill()
                raise


def fitted(steps: Steps, model: str, given: Namespace, stays: bool) -> str:
    """The model to draft: one whose loops stay, where there is one, or the best that was seen; where they have to stay, no other."""
    if given.as_it_is:
        return model
    seconds, path = ["--seconds", str(given.seconds)], steps.path("fitted.toml")
    if stays:
        options = [option for option, asked in (("--generate", given.generate), ("--same-cost", given.same_cost)) if asked]
        steps.must("staying", model, path, *options, *seconds)
        return path
    step = steps.run("coordinates", model, path, "--turns", str(given.turns), *seconds)
    if step.status not in (0, LEFT_THE_BOX):
        raise Refusal(f"./mpc coordinates ended with status {step.status}: what stands above says why", step.status)
    return path


def covering(steps: Steps, model: str, given: Namespace) -> str:
    """The model with a box that holds its starts, where these are no box."""
    if given.as_it_is or not says(model, lambda found: found.text.get("region")):
        return model
    steps.must("regions", model, steps.path(COVERED), "--seconds", str(given.seconds))
    return steps.path(COVERED)


def make(steps: Steps, model: str, given: Namespace, stays: bool) -> None:
    """The design, its policy, its faces where no loop is to leave the box, and its controller: a lean one, but where the other is asked for, of the machine that is asked for, or that takes less."""
    make_with(steps, model, given, stays, ["--accelerated"] if given.accelerated else plain_kind(given))
    if not given.accelerated and not given.plain and takes_less(steps):
        make_accelerated(steps, model, given, stays)


def controller_in(steps: Steps) -> Controller:
    return controller_of(files.read_bytes(steps.path("controller.txt")).decode())


def takes_less(steps: Steps) -> bool:
    """Whether the controller is one of the plain machine that `c` writes, and one of the accelerated machine would take less; which is said then."""
    made = controller_in(steps)
    if is_accelerated(made.version) or not is_written(made) or not saves(made, CHOSEN):
        return False
    print(f"    K = {made.steps}: by the cycles of its C the accelerated machine takes less than {CHOSEN:.0%} of that, so version 3 is taken (else --plain)", flush=True)
    return True


def make_accelerated(steps: Steps, model: str, given: Namespace, stays: bool) -> None:
    """The same for the accelerated machine; where that isn't made, or is too wide for `c`, the plain one once more."""
    try:
        make_with(steps, model, given, stays, ["--accelerated"])
        why = "" if is_written(controller_in(steps)) else "no C is written of it (docs/C.md)"
    except Refusal as refused:
        why = str(refused)
    if why:
        print(f"    {why}: so the plain machine is kept", flush=True)
        make_with(steps, model, given, stays, plain_kind(given))


def plain_kind(given: Namespace) -> list[str]:
    """What ./mpc draft is asked for, for the plain machine."""
    return [] if given.generate else ["--lean"]


def make_with(steps: Steps, model: str, given: Namespace, stays: bool, kind: list[str]) -> None:
    """The same of one machine."""
    design, policy, reference = map(steps.path, ("design.toml", "policy.csv", "reference.csv"))
    made = [steps.path("controller.txt"), steps.path("report.txt")]
    steps.must("draft", model, design, "--gap", str(given.gap), *kind)
    steps.must("policy", design, policy, *([] if given.generate else ["--lean", reference]), "--turns", "0")
    texts = [design, policy] if given.generate else [design, policy, reference]
    command = "lean" if not given.generate else "stay" if stays else "generate"
    faces = list(map(steps.path, STAYS)) if stays else []
    if stays:
        steps.must("faces", design, policy, faces[0], *([] if given.generate else ["--lean", reference]), "--bears", faces[1])
    steps.must(command, *texts, *made, *faces)


def has_settle() -> bool:
    """Whether the program has the command that tests a certificate."""
    return "settle" in usage.commands()


def settle(steps: Steps, model: str) -> list[str]:
    """Where loops settle, in words: a certificate, under what the model is disturbed by where there is one of that, and what the program says of it. Nothing where none is found."""
    design, controller, certificate, promise = map(steps.path, ("design.toml", "controller.txt", *SETTLES))
    for path in (certificate, promise):
        if os.path.exists(path):
            os.remove(path)
    for shifts in [*disturbed(steps, model, design), []]:
        step = steps.run("settles", design, controller, certificate, "--promise", promise, *(["--disturbances", *shifts] if shifts else []))
        if step.status not in (0, LEFT_THE_BOX):
            raise Refusal(f"./mpc settles ended with status {step.status}: what stands above says why", step.status)
        if step.status == 0:
            if has_settle():
                steps.must("settle", design, controller, certificate, *shifts, to=promise)
            return step.said.splitlines()
    return []


def disturbed(steps: Steps, model: str, design: str) -> list[list[str]]:
    """The file of the range of disturbances that the model asks for, where it asks for any."""
    made = read_model(model)
    if not any(made.disturbed):
        return []
    files.write(steps.path(RANGE), records_text(grid_disturbances(made, read_design(design))))
    return [[steps.path(RANGE)]]


def show(steps: Steps, model: str, given: Namespace) -> list[str]:
    """Loops and their picture, and what was measured beside what is printed; and in words where loops settle."""
    design, controller, states, loop, exact = map(steps.path, ("design.toml", "controller.txt", "states.csv", "loop.txt", "exact.txt"))
    steps.must("states", design, states, "--corners", str(given.corners), "--random", str(given.random), "--seed", str(given.seed))
    left = steps.run("loop", design, controller, states, str(given.turns), to=loop)
    if left.status == LEFT_THE_BOX:
        add_other_starts(design, controller, states, loop, given.turns)
        steps.must("reach", design, states, loop, "--turns", str(given.turns))
    elif left.status:
        raise Refusal(f"the loops ended with status {left.status}: what stands above says why", left.status)
    steps.must("exact_loop", design, states, str(given.turns), to=exact)
    settled = settle(steps, model)
    boxes = ["--settled", steps.path("settled.txt"), "--certificate", steps.path("settle.csv")] if settled else []
    if left.said:
        steps.must("plot", design, loop, exact, "--labels", "controller,exact", "--report", steps.path("report.txt"), *boxes, "--out", steps.path("loop.svg"))
    judged = steps.must("judge", design, controller, steps.path("report.txt"), "--states", str(given.states), "--seed", str(given.seed), to=steps.path("judged.txt"))
    print("    " + judged.said.rstrip("\n").replace("\n", "\n    "))
    names = [steps.path("report.txt"), design, steps.path("policy.csv"), *([] if given.generate else [steps.path("reference.csv")]), controller]
    explained = steps.must("explain", *names, to=steps.path("explained.txt"))
    for line in explained.said.splitlines():
        if line.startswith(("every run", "stage row", "final row", "the plan costs", "a run has")):
            print(f"    {line}")
    if left.said:
        steps.must("report_page", steps.folder, steps.path("report.html"))
    return settled


def add_other_starts(design: str, controller: str, states: str, loop: str, count: int) -> None:
    """Adds the loops of the starts after one that leaves the box, at which `mpc loop` ends."""
    starts, all_lines, leaving, done = files.read_bytes(states).decode().splitlines(), files.read_bytes(loop).decode().splitlines(), [], 0
    lines = all_lines
    while True:
        # the last start that has a line leaves
        done += max((int(line.split(" ", 1)[0]) for line in lines), default=1)
        leaving.append(str(done))
        if done >= len(starts):
            break
        status, lines = looped(design, controller, starts[done:], count)
        all_lines = all_lines + [f"{int(number) + done} {others}" for number, others in (line.split(" ", 1) for line in lines)]
        if status != LEFT_THE_BOX:
            break
    files.write(loop, "".join(line + "\n" for line in all_lines))
    print(f"    the loops of starts {', '.join(leaving)} leave the box, and {loop} has them up to there, and those of the others after them")


def looped(design: str, controller: str, starts: list[str], count: int) -> tuple[int, list[str]]:
    """The status and the lines of the loops from these starts; what is said of them is known already."""
    with tempfile.NamedTemporaryFile("w", suffix=".csv") as rest:
        rest.write("".join(start + "\n" for start in starts))
        rest.flush()
        got = subprocess.run([LAUNCHER, "loop", design, controller, rest.name, str(count)], stdout=subprocess.PIPE, stderr=subprocess.DEVNULL, text=True)
    return got.returncode, got.stdout.splitlines()


def says(path: str, what: Callable[[Model], object]) -> bool:
    """Whether a model says something; what is wrong with it is said by the first step that reads it."""
    try:
        return bool(what(read_model(path)))
    except Refusal:
        return False


def main() -> int:
    parser = Parser(__doc__, prog="./mpc design")
    parser.add_argument("model", metavar="MODEL")
    parser.add_argument("folder", metavar="FOLDER")
    either = parser.add_mutually_exclusive_group()
    either.add_argument("--as-it-is", action="store_true")
    either.add_argument("--stay", action="store_true")
    parser.add_argument("--same-cost", action="store_true")
    parser.add_argument("--generate", action="store_true")
    machine = parser.add_mutually_exclusive_group()
    machine.add_argument("--accelerated", action="store_true")
    machine.add_argument("--plain", action="store_true")
    parser.add_argument("--gap", type=positive, default=0.1, metavar="PART")
    parser.add_argument("--turns", type=turns, default=50, metavar="N")
    parser.add_argument("--seconds", type=positive, default=60.0, metavar="S")
    for name, value in (("--corners", 8), ("--random", 4), ("--states", 96)):
        parser.add_argument(name, type=count, default=value, metavar="N")
    parser.add_argument("--seed", type=int, default=1, metavar="N")
    given = parser.parse_args()
    steps = Steps(given.folder)
    files.keep_apart({"MODEL": given.model}, {name: steps.path(name) for name in [*MADE, *STAYS, *SETTLES, RANGE, COVERED]})
    files.read_bytes(given.model)
    began, stays = time.monotonic(), given.stay or says(given.model, lambda found: any(found.stay))
    os.makedirs(given.folder, exist_ok=True)
    steps.must("outlook", given.model)
    model = fitted(steps, covering(steps, given.model, given), given, stays)
    make(steps, model, given, stays)
    settled = show(steps, model, given)
    print("\n".join(settled) or UNSETTLED)
    print(f"in {time.monotonic() - began:.0f} s: {steps.path('report.html')} has it all on one page, and {steps.path('controller.txt')} the controller")
    return 0


if __name__ == "__main__":
    run(main)
