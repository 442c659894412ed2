"""Measures in a fresh clone, with nothing kept, what the first answers and the gate take, each beside its mark at the pace of this machine.

    python3 -m bench.gate.run [--processors N] [--page [FILE] [--note TEXT]]       one run of all: the pace, a look, the first answers, the gate
    python3 -m bench.gate.run --pace                                               the pace alone, by the proofs of three crates that seldom change
    python3 -m bench.gate.run --first [--page [FILE]]                              the pace; a look, ./mpc try demo 7; the first answer, ./mpc generate, which proves and builds that command's
                                                                           program; and then that of ./mpc demo 7, which proves and builds the rest
    python3 -m bench.gate.run --gate [--kept] [--lanes N] [--log FILE] [NAME ..]   the pace; the gate, `rt ci --anew`: every proof, every test, every must-fail edit
    python3 -m bench.gate.run --renew [--note TEXT]                                measures nothing: the page's own rows, in the order of crates.txt and without crates that are gone

What is measured is what is committed. The clone has no kept work, the first answers are those of a kit that has kept nothing, and the gate reads nothing that was kept but with --kept, as it does in a
checkout: then the table has what is left. With names, these crates and those below them are proved, and the others are taken out of the clone. With --processors N all runs on N of the processors alone,
so the minutes by the clock are what N would take. --lanes N proves N crates side by side with one process each, whatever memory there is; without it the gate chooses by processors and memory, and a
proof may share several processors, which costs some more processor time. Stopped by Ctrl-C or a SIGTERM, it tells what it has measured. Below the table stand the dearest must-fail edits, each with
its seconds. With --page the page of costs, bench/gate/COSTS.md or FILE, is written of what was measured, with the words of --note; of a run with names or --kept
the rows that it measured alone, or with --first its line of the first answer. --pace-is X takes X for
the pace in place of measuring it.

Processor time is that of the prover's processes, as the system counts it, and memory the most that one process held. The marks are for a machine on which the three crates take their marks' seconds, and
one that is slower, or that other work shares, is allowed as many times more. The longest chain is that of the proofs' times, each crate after those that it stands on: no number of processors gives the
first answer sooner.
"""
import argparse
import collections
import importlib.machinery
import importlib.util
import os
import re
import resource
import shutil
import signal
import subprocess
import sys
import tempfile
import threading
import time

from . import page
from .page import BOTH, FIRST, LOOK, PACE, PROOF, TESTS, WHOLE

HERE = os.path.dirname(os.path.abspath(__file__))
PARTS = ("proof", "tests", "edits")
# how many edits are told by name
DEAREST = 20


class Run:
    """A command that was started, what it works for, and what it took."""

    def __init__(self, words, folder, pid):
        self.words, self.folder, self.pid, self.began = [str(it) for it in words], str(folder or os.getcwd()), pid, time.monotonic()
        self.seconds = self.memory = self.wall = None
        self.thread = threading.get_ident()

    def end(self, usage):
        self.seconds, self.memory, self.wall = usage.ru_utime + usage.ru_stime, usage.ru_maxrss * 1024, time.monotonic() - self.began

    def work(self):
        """The crate and the part of the gate, or None and what else it is."""
        if "--crate-name" in self.words:
            crate = self.words[self.words.index("--crate-name") + 1]
            return crate, "tests" if "--test" in self.words else "edits" if "rt-edit-" in self.folder else "proof"
        tools = [os.path.basename(it) for it in self.words]
        if "rattle-link" in tools:
            return None, "linking"
        return None, "layout" if "fmt" in self.words else "runs of programs and tests, and the rest"


RUNS = []
# The processor's seconds of each must-fail edit, by crate and name.
EDITS = collections.Counter()


def watch():
    """Has each command that this process starts counted."""
    started, waits = subprocess.Popen, os.wait4

    class Watched(started):
        def __init__(self, args, *given, **named):
            super().__init__(args, *given, **named)
            RUNS.append(Run(args if isinstance(args, (list, tuple)) else [args], named.get("cwd"), self.pid))

    def waitpid(pid, options):
        found, status, usage = waits(pid, options)
        for it in reversed(RUNS if found else ()):
            if it.pid == found and it.seconds is None:
                it.end(usage)
                break
        return found, status

    subprocess.Popen, os.waitpid = Watched, waitpid


def time_edits(tool):
    """Has the tool's tries of must-fail edits counted by name, where it tries each in a call of its own."""
    tries = getattr(tool, "must_fail", None)
    if tries is None:
        return

    def must_fail(crate, edit, *given, **named):
        since = len(RUNS)
        found = tries(crate, edit, *given, **named)
        mine = [it for it in RUNS[since:] if it.thread == threading.get_ident()]
        EDITS[f"{crate.name}/{os.path.basename(edit).removesuffix('.edit')}"] += sum(it.seconds or 0 for it in mine)
        return found

    tool.must_fail = must_fail


def gate_words(anew):
    """What the gate is called with. A kit whose gate keeps nothing has no flag to begin from nothing."""
    with open(tool_path(), encoding="utf-8") as file:
        return ["ci", "--anew"] if anew and "--anew" in file.read() else ["ci"]


def tool_path():
    return os.path.realpath(shutil.which("rt") or sys.exit("rt isn't on the path"))


def tool():
    """rt, as a module of this process."""
    path = tool_path()
    loader = importlib.machinery.SourceFileLoader("rt", path)
    module = importlib.util.module_from_spec(importlib.util.spec_from_loader("rt", loader))
    sys.modules["rt"] = module
    loader.exec_module(module)
    return module


def crates_in(root):
    """Each crate with those of the repository that it stands on."""
    with open(f"{root}/crates.txt") as file:
        rows = [line.partition("#")[0].partition(":") for line in file if line.partition("#")[0].strip()]
    named = {name.split()[0]: below.split() for name, _, below in rows}
    return {name: [it for it in below if it in named] for name, below in named.items()}


def below(crates, name):
    return {name}.union(*(below(crates, it) for it in crates[name]))


def keep_only(root, names):
    crates = crates_in(root)
    unknown = [it for it in names if it not in crates]
    if unknown:
        sys.exit(f"no crate {', '.join(unknown)} in crates.txt")
    kept = set().union(*(below(crates, it) for it in names))
    with open(f"{root}/crates.txt") as file:
        lines = [line for line in file if line.split(":")[0].split(" ")[0].strip() in kept]
    with open(f"{root}/crates.txt", "w") as file:
        file.writelines(lines)
    for it in crates:
        if it not in kept:
            shutil.rmtree(f"{root}/crates/{it}")


def clone(to):
    top = subprocess.run(["git", "rev-parse", "--show-toplevel"], cwd=os.path.dirname(os.path.abspath(__file__)), check=True, capture_output=True, text=True).stdout.strip()
    if subprocess.run(["git", "status", "--porcelain"], cwd=top, check=True, capture_output=True).stdout:
        print("note: what isn't committed isn't measured", file=sys.stderr)
    subprocess.run(["git", "clone", "-q", "--no-local", top, to], check=True)
    return subprocess.run(["git", "log", "-1", "--format=%h %s"], cwd=to, check=True, capture_output=True, text=True).stdout.strip()


def longest_chain(crates, seconds):
    """The chain of crates with the most proof time, and that time."""
    best = {}

    def chain(name):
        if name not in best:
            longest = max(map(chain, crates[name]), key=lambda it: it[0], default=(0, []))
            best[name] = longest[0] + seconds[name], [*longest[1], name]
        return best[name]

    return max(map(chain, crates), key=lambda it: it[0])


def table(crates, said, wall, total, pace, is_whole):
    spent, memory, others, lost = collections.Counter(), collections.Counter(), collections.Counter(), 0
    for it in RUNS:
        if it.seconds is None:
            # (a shell that rt starts ends with it, and is never waited for)
            lost += it.work()[0] is not None
            continue
        crate, part = it.work()
        if crate is None:
            others[part] += it.seconds
            continue
        spent[crate, part] += it.seconds
        memory[crate, part] = max(memory[crate, part], it.memory)
    # besides its edits a crate is checked as it stands, over what they proved, which counts with them
    named = collections.Counter(re.findall(r"^rt: must-fail (\w+)/", said, re.M))
    cell = lambda crate, part: f"{spent[crate, part]:.0f} | {memory[crate, part] / 2**20:.0f}" if spent[crate, part] else " | "
    print("\n| Crate | Proof, s | MB | Tests, s | MB | Edits | s | MB | Together, s |\n|---|--:|--:|--:|--:|--:|--:|--:|--:|")
    sums = {part: sum(spent[crate, part] for crate in crates) for part in PARTS}
    order = sorted(crates, key=lambda crate: len(below(crates, crate)))
    for crate in order:
        together = sum(spent[crate, part] for part in PARTS)
        print(f"| `{crate}` | {cell(crate, 'proof')} | {cell(crate, 'tests')} | {named[crate] or ''} | {cell(crate, 'edits')} | {together:.0f} |")
    most = max(memory.values(), default=0) / 2**20
    print(f"| all | {sums['proof']:.0f} | | {sums['tests']:.0f} | | {sum(named.values())} | {sums['edits']:.0f} | {most:.0f} | {sum(sums.values()):.0f} |\n")
    if EDITS:
        print("dearest edits: " + ", ".join(f"{edit} {seconds:.0f}" for edit, seconds in EDITS.most_common(DEAREST)))
    for what, seconds in sorted(others.items()):
        print(f"{what}: {seconds:.0f} s")
    rest = total - sum(sums.values()) - sum(others.values())
    print(f"all: {total / 60:.1f} processor minutes in {wall / 60:.1f} minutes, {rest:.0f} s of it in no command above" + (f"; {lost} commands weren't counted" if lost else ""))
    length, chain = longest_chain(crates, {crate: spent[crate, "proof"] for crate in crates})
    steps = [f"{it} {spent[it, 'proof']:.0f}" for it in chain]
    print(f"longest chain of proofs: {length:.0f} s: {', '.join(steps)}")
    beyond = [f"the proof of {crate}" for crate in order if spent[crate, "proof"] > PROOF * pace] + [f"the tests of {crate}" for crate in order if spent[crate, "tests"] > TESTS * pace]
    print("beyond its mark: " + (", ".join(beyond) or "nothing"))
    if is_whole:
        for part, (name, mark) in zip(PARTS, page.PARTS.items()):
            print(page.beside(f"the gate's {name}", sums[part], mark, pace))
        print(page.beside("the gate", total, WHOLE, pace))
    print(f"by the clock on {len(os.sched_getaffinity(0))} processors: {wall / 60:.1f} minutes, {wall / pace / 60:.1f} at the marks' speed")
    costs = {
        crate: page.Cost(*(spent[crate, part] for part in PARTS[:2]), named[crate], spent[crate, "edits"], max(memory[crate, part] for part in PARTS) / 2**30) for crate in order
    }
    page.add_changes(costs, crates)
    return costs, (length, chain)


def write_page(options, wall, measured):
    """bench/gate/COSTS.md, of a whole run."""
    kit = subprocess.run([tool_path(), "version"], capture_output=True, text=True).stdout.split(" ")[0]
    page.write(options.page, page.text(kit, len(os.sched_getaffinity(0)), wall, *measured, page.first_line(page.read(options.page)), options.note, options.pace_is))


def renew(options, measured=None):
    """Writes the page of its own rows, and of those that were measured now."""
    old, top = page.read(options.page), os.path.dirname(os.path.dirname(HERE))
    crates, found = crates_in(top), page.rows_in(old) | (measured or {})
    costs = {crate: found.get(crate, page.Cost()) for crate in sorted(crates, key=lambda crate: len(below(crates, crate)))}
    page.add_changes(costs, crates)
    page.write(options.page, page.renewed(costs, longest_chain(crates, {crate: cost.proof for crate, cost in costs.items()}), page.first_line(old), options.note, options.pace_is))


def gate(options):
    with tempfile.TemporaryDirectory(prefix="gate-") as room:
        root = f"{room}/clone"
        commit = clone(root)
        if options.names:
            keep_only(root, options.names)
        crates = crates_in(root)
        print(f"{commit}\n{len(crates)} crates, {len(os.sched_getaffinity(0))} processors", flush=True)
        if options.lanes:
            os.environ["RT_JOBS"] = str(options.lanes)
        log, sent = options.log or f"{room}/log", os.dup(1)
        before, began = resource.getrusage(resource.RUSAGE_CHILDREN), time.monotonic()

        def tell(status):
            """Prints what the gate said last, and the table, of what was measured so far."""
            sys.stdout.flush()
            os.dup2(sent, 1)
            wall, after = time.monotonic() - began, resource.getrusage(resource.RUSAGE_CHILDREN)
            with open(log) as file:
                said = file.read()
            print("\n".join(said.rstrip("\n").split("\n")[-40 if status else -1 :]))
            measured = table(crates, said, wall, after.ru_utime + after.ru_stime - before.ru_utime - before.ru_stime, options.pace_is, not options.names and not status)
            if options.page and not status and not options.names and not options.kept:
                write_page(options, wall, measured)
            elif options.page and not status:
                renew(options, {crate: cost for crate, cost in measured[0].items() if cost.proof})
            sys.stdout.flush()

        def stop(*_):
            print("stopped before its end", file=sys.stderr)
            tell(130)
            shutil.rmtree(room, ignore_errors=True)
            # what rt has started ends with this process
            os._exit(130)

        for it in (signal.SIGINT, signal.SIGTERM):
            signal.signal(it, stop)
        sys.stdout.flush()
        with open(log, "w") as file:
            # what rt and its commands print goes to the log
            os.dup2(file.fileno(), 1)
        os.chdir(root)
        watch()
        try:
            made = tool()
            time_edits(made)
            status = made.main(gate_words(not options.kept))
        except SystemExit as ended:
            status = ended.code
        os.chdir("/")
        tell(status)
        return status


def kit_without_kept(room):
    """A kit that has kept nothing, and the environment with it: rt keeps what passed beside the kit that it stands in."""
    kit, made = os.path.dirname(os.path.dirname(tool_path())), f"{room}/kit/rattle"
    os.makedirs(f"{made}/bin")
    for name in os.listdir(kit):
        if name != "bin":
            os.symlink(f"{kit}/{name}", f"{made}/{name}")
    for name in os.listdir(f"{kit}/bin"):
        # (a script finds its kit by where it stands itself)
        (shutil.copy2 if name in ("rt", "rtlib.py") else os.symlink)(f"{kit}/bin/{name}", f"{made}/bin/{name}")
    return os.environ | {"PATH": f"{made}/bin:{os.environ['PATH']}"}


def launched(root, words, env):
    """A call of the launcher in a clone: whether it ended well, and its processor and clock seconds."""
    began = time.monotonic()
    started = subprocess.Popen(["./mpc", *words], cwd=root, env=env, stdout=subprocess.DEVNULL)
    _, status, usage = os.wait4(started.pid, 0)
    return os.waitstatus_to_exitcode(status) == 0, usage.ru_utime + usage.ru_stime, time.monotonic() - began


def pace():
    """Proves the crates that seldom change from nothing, and tells what each took."""
    with tempfile.TemporaryDirectory(prefix="gate-") as room:
        root, sent = f"{room}/clone", os.dup(1)
        clone(root)
        keep_only(root, PACE)
        for crate in PACE:
            shutil.rmtree(f"{root}/crates/{crate}/must-fail", ignore_errors=True)
        with open(f"{room}/log", "w") as file:
            os.dup2(file.fileno(), 1)
        os.chdir(root)
        watch()
        try:
            status = tool().main(gate_words(True))
        except SystemExit as ended:
            status = ended.code
        sys.stdout.flush()
        os.dup2(sent, 1)
        os.chdir("/")
        if status:
            with open(f"{room}/log") as file:
                sys.exit(file.read()[-2000:])
    spent = collections.Counter()
    for it in RUNS:
        if it.seconds is not None and it.work()[1] == "proof":
            spent[it.work()[0]] += it.seconds
    print(page.pace_line(spent))
    return 0


def measured_pace():
    """The pace, measured in a process of its own, since what watches the commands stays."""
    said = subprocess.run([sys.executable, "-m", "bench.gate.run", "--pace"], cwd=os.path.dirname(os.path.dirname(HERE)), stdout=subprocess.PIPE, text=True, check=True).stdout
    print(said, end="", flush=True)
    return float(re.search(r": ([0-9.]+) times the marks' time", said)[1])


def first(options):
    with tempfile.TemporaryDirectory(prefix="gate-") as room:
        root = f"{room}/clone"
        print(clone(root), flush=True)
        env = kit_without_kept(room)
        looked, look, look_wall = launched(root, ["try", "demo", "7"], env)
        print(f"{page.beside('a look', look, LOOK, options.pace_is) if looked else 'a look: none'}; {look_wall:.0f} s by the clock", flush=True)
        well, spent, wall = launched(root, ["generate", "examples/first/design.toml", "examples/first/policy.csv", f"{room}/controller", f"{room}/report"], env)
        print(f"{page.beside('the first answer', spent, FIRST, options.pace_is) if well else 'the first answer: none'}; {wall / 60:.1f} minutes by the clock", flush=True)
        # what `generate` has proved is kept, so this is what the whole program takes besides
        others_well, others, others_wall = launched(root, ["demo", "7"], env) if well else (False, 0, 0)
    both = page.beside("the first answer of another command with it", spent + others, BOTH, options.pace_is)
    print(f"{both if others_well else 'the first answer of another command: none'}; {others_wall / 60:.1f} minutes more by the clock", flush=True)
    if others_well and options.page:
        line = page.first_answer(look, (spent, wall), (others, others_wall), len(os.sched_getaffinity(0)), options.pace_is)
        page.write(options.page, page.with_first(page.read(options.page), line))
    return 0 if looked and others_well else 1


def main():
    parser = argparse.ArgumentParser(description=__doc__, formatter_class=argparse.RawDescriptionHelpFormatter)
    parser.add_argument("names", nargs="*", metavar="NAME")
    for flag in ("--pace", "--first", "--gate", "--kept", "--renew"):
        parser.add_argument(flag, action="store_true")
    parser.add_argument("--processors", type=int)
    parser.add_argument("--lanes", type=int)
    parser.add_argument("--log")
    parser.add_argument("--page", nargs="?", const=f"{HERE}/COSTS.md")
    parser.add_argument("--note", default="")
    parser.add_argument("--pace-is", type=float)
    options = parser.parse_args()
    if options.names and not options.gate:
        parser.error("names of crates go with --gate")
    if options.processors:
        os.sched_setaffinity(0, sorted(os.sched_getaffinity(0))[: options.processors])
    if options.pace:
        sys.exit(pace())
    options.log, options.page = options.log and os.path.abspath(options.log), options.page and os.path.abspath(options.page)
    if options.renew:
        options.page, options.pace_is = options.page or f"{HERE}/COSTS.md", options.pace_is or 1
        sys.exit(renew(options))
    options.pace_is = options.pace_is or measured_pace()
    status = first(options) if options.first or not options.gate else 0
    sys.exit(gate(options) or status if options.gate or not options.first else status)


main()
