"""Runs the built program while memory, files and its output fail, and checks what stands afterwards.

    python3 -m checks.faults.run PROGRAM [--jobs JOBS] [--only memory|files|output] [--commands NAME,..] [--short]

Memory: under an allocator that refuses one request, the n-th, for every n that the run makes, and again one that refuses the n-th and all later ones. Each run
must end with the status 1 and its line, or with the right answer, be that a refusal, whose line may be missing; what a command writes is left as it was, the others have put some first lines. Where the
request is the runtime's own, for the arguments, the program ends with 99 and no word. Where all later requests are refused, the line may be missing.
Files: a limit on a file's size at every number of bytes, a full disk, /dev/full, folders that aren't there, names that can't be read or never end.
Output: closed, full, limited at every number of bytes, a pipe that nobody reads.
With --short, as ./test runs it: files and output alone, at a few numbers of bytes. With --commands these alone, as stay,list.
Each command is compared with the model in ../fuzz where nothing fails.
"""
import argparse
import collections
import concurrent.futures
import os
import resource
import signal
import struct
import subprocess
import sys
import tempfile

from ..fuzz import cases, control, listing
from ..fuzz import program as model_program
from ..fuzz import split_boxes

HERE = os.path.dirname(__file__)
EXAMPLES = os.path.join(HERE, "..", "..", "examples")
MEMORY = b"error 1 memory\n"
# of each group, so many faults are told
SHOWN = 20
# with --short, each so many bytes
SHORT_STEP = 211
OLD = {"c": b"an old controller\n", "r": b"an old report\n", "r.json": b"an old report\n", "l": b"an old listing\n", "t": b"an old source\n", "h": b"an old header\n"}
# where the words name what is read
READS = {"generate": (1, 2), "lean": (1, 2, 3, 6, 7), "stay": (1, 2, 5, 6), "solve": (1, 2), "loop": (1, 2, 3, 5), "demo": (), "list": (1,), "play": (1, 2),
         "split": (1, 2, 3), "serve": (1, 2), "settle": (1, 2, 3, 4), "c": (1,)}


def example(name, file):
    with open(os.path.join(EXAMPLES, name, file), "rb") as it:
        return it.read()


FIRST = {"d": example("first", "design.toml"), "p": example("first", "policy.csv"), "k": example("first", "controller.txt"), "s": b"1\n0\n1\n"}
# a plant of two states and two inputs, small enough to be run in a moment
MADE = dict(zip("dps", model_program.make(7, 2)))
# two stages of the first plant written over 1048576, whose exact numbers pass the limit
FINE = {"d": cases.design_text({
    "n": 1, "p": 1, "stages": 2, "den": 1048576, "a": [[1048576]], "b": [[1048576]], "cost_den": 1, "row_den": 1, "input": [1], "cost": [[1, 0, 1]], "final_cost": [],
    "limit_den": 131072, "rows": [[0, 131072, 131072], [0, -131072, 131072]], "final_rows": [[131072, 32768]], "grid": 0, "lo": [0], "hi": [1], "target_den": 1, "violation": 16,
    "gap": 1}), "p": b"1,0,0\n8,-7,0\n"}
# the same policy over 2^40, with which its corners pass the limit, too
FINE_CORNERS = {**FINE, "p": b"1099511627776,0,0\n1099511627776,-962072674304,0\n"}
# in version 2, with rows of several slopes, whose exponents are not all the same
SECOND = {"d": cases.design_text({
    "version": 2, "n": 1, "p": 1, "stages": 1, "den": 1, "a": [[1]], "b": [[1]], "cost_den": 1, "row_den": 1, "input": [1], "cost": [[1, 0, 1]], "final_cost": [],
    "limit_den": 4, "rows": [[0, 64, 64], [0, -16, 64], [0, 4, 64], [0, 1, 64]], "final_rows": [[1, 9]], "grid": 0, "lo": [0], "hi": [1], "target_den": 1, "violation": 1024,
    "gap": 1}), "p": b"1,0\n1,0\n"}
# one that is held in its box by its faces, under disturbances of 0 and 1
HELD = {"d": FIRST["d"].replace(b"final = [[4, 1]]", b"final = [[4, 1], [-4, 1]]").replace(b"den = 1\nviolation = 16\ngap = 1\n", b"den = 10\nviolation = 1\ngap = 10\n"),
        "p": FIRST["p"], "f": b"4,0,0,1,0\n4,0,0,0,1\n", "w": b"0\n1\n"}
# the first design in two cells, and one of two states and version 2 in four, of which the first coordinate's cut is at its least state
CUT = {"d": FIRST["d"], "l": b"1,0\n", "p": b"1,0\n1,0\n8,-7\n8,-7\n"}
CUT_TWICE = {"d": cases.in_version(2, MADE["d"]), "l": b"1,-16\n1,3\n", "p": 4 * MADE["p"]}
# the first controller with an exponent for each row
SECOND_CONTROLLER = FIRST["k"].replace(b"mpc-controller 1\n", b"mpc-controller 2\n").replace(b"\nlo ", b"\nexps 0 1 1\nlo ")
# the same numbers for the accelerated machine, and designs that ask for it
THIRD_CONTROLLER = SECOND_CONTROLLER.replace(b"mpc-controller 2\n", b"mpc-controller 3\n").replace(b"\nwords 6\n", b"\nwords 12\n")
THIRD, THIRD_HELD, THIRD_CUT = ({**files, "d": cases.in_version(3, files["d"])} for files in (FIRST, HELD, CUT))

# x+ = x + u, of 40 over 2^4 to both sides, and a controller of -x/2 between -1 and 1; from where no multiplier moves it settles, also under disturbances
SETTLED = {"d": FIRST["d"].replace(b"grid = 0\nlo = [0]\nhi = [1]", b"grid = 4\nlo = [-40]\nhi = [40]"), "f": b"5,-31,32\n0,-31,32\n1,-3,3\n", "w": b"-1\n1\n",
           "k": b"mpc-controller 1\nsize 1 1 1 2\nbits 11 4 1 40\nsteps 9\nclamp 65536\nwords 5\nlo -40\nhi 40\nP 1024\nT 0\nW 512 -512\nG 2048\nG -2048\nE 0\nE 0\nb 2048 2048\nend\n"}


class Command:
    """A command with its files, and what the program answers where nothing fails."""

    def __init__(self, executable, name, words, files, refused=None):
        self.executable, self.name, self.words, self.files = executable, name, words, files
        # the position of the file that is refused, if one is: those after it are not read
        self.refused = refused
        # where its words name what it writes
        self.places = model_program.OUTPUTS.get(words[0], ())
        self.outputs = [words[at] for at in self.places]

    def lay(self, folder):
        for name, data in {**self.files, **{it: OLD[it] for it in self.outputs}}.items():
            with open(os.path.join(folder, name), "wb") as file:
                file.write(data)

    def run(self, folder, **how):
        how = {"stdout": subprocess.PIPE, "stderr": subprocess.PIPE, "stdin": subprocess.DEVNULL, "cwd": folder, "timeout": 600, **how}
        return subprocess.run([self.executable, *self.words], **how)

    def left(self, folder, names=None):
        found = {}
        for name in self.outputs if names is None else names:
            path = os.path.join(folder, name)
            if os.path.isfile(path):
                with open(path, "rb") as file:
                    found[name] = file.read()
        return found

    def learn(self):
        """Takes the right answer from a run where nothing fails, once it is known to be the model's."""
        with tempfile.TemporaryDirectory() as folder:
            self.lay(folder)
            ran = self.run(folder)
            self.status, self.line, self.out, self.made = ran.returncode, ran.stderr, ran.stdout, self.left(folder)
            problem = self.differs(folder, ran)
        if problem:
            sys.exit(f"{self.name}: where nothing fails, {problem}")

    def differs(self, folder, ran):
        written = self.made.get(self.outputs[0]) if self.outputs else None
        if self.words[0] == "demo":
            # its gains are those of the design that it makes
            design, policy, _ = model_program.make(int(self.words[1]), 6)
            inner = Command(self.executable, "", ["generate", "d", "p", "c", "r"], {"d": design, "p": policy})
            inner.lay(folder)
            inner.run(folder)
            written = inner.left(folder)["c"]

        gains = model_program.Gains(lambda: written)
        said = model_program.answer(self.words, self.files.get, lambda name: True, gains)
        if (ran.returncode, ran.stderr, ran.stdout, self.made) != (said.status, said.line, b"".join(said.out), {**{name: OLD[name] for name in self.outputs}, **said.written}):
            return f"status {ran.returncode} {ran.stderr} {ran.stdout[:200]} is not the model's {said.status} {said.line} {b''.join(said.out)[:200]}"
        return None


def commands(options):
    """Each command that is asked for."""
    return (command for command in all_commands(options.program) if not options.commands or command.words[0] in options.commands.split(","))


def all_commands(executable):
    motor = example("motor", "design.toml"), example("motor", "policy.csv")
    yield Command(executable, "generate", ["generate", "d", "p", "c", "r"], FIRST)
    yield Command(executable, "generate, JSON", ["generate", "d", "p", "c", "r.json"], FIRST)
    yield Command(executable, "generate, two inputs", ["generate", "d", "p", "c", "r"], MADE)
    yield Command(executable, "generate, a motor", ["generate", "d", "p", "c", "r"], dict(zip("dp", motor)))
    yield Command(executable, "generate, a fine plant", ["generate", "d", "p", "c", "r"], FINE)
    yield Command(executable, "generate, fine corners", ["generate", "d", "p", "c", "r"], FINE_CORNERS)
    yield Command(executable, "generate, version 2", ["generate", "d", "p", "c", "r"], SECOND)
    yield Command(executable, "generate, version 2, JSON", ["generate", "d", "p", "c", "r.json"], SECOND)
    yield Command(executable, "generate, version 3", ["generate", "d", "p", "c", "r"], THIRD)
    lean, reference = ["lean", "d", "p", "q", "c", "r"], example("first", "reference.csv")
    yield Command(executable, "lean", lean, {**FIRST, "q": reference})
    yield Command(executable, "lean, JSON", [*lean[:5], "r.json"], {**FIRST, "q": reference})
    yield Command(executable, "lean, a motor", lean, dict(zip("dpq", (motor[0], example("motor", "lean.csv"), example("motor", "reference.csv")))))
    yield Command(executable, "lean, a fine plant", lean, {**FINE, "q": b"1,0,0\n5,-3,-1\n"})
    yield Command(executable, "lean, version 2", lean, {**SECOND, "q": SECOND["p"]})
    yield Command(executable, "lean, version 3", lean, {**THIRD, "q": reference})
    yield Command(executable, "lean, a far reference", lean, {**FIRST, "q": b"1,0\n1,-999999999999999\n"})
    yield Command(executable, "solve", ["solve", "k", "s"], FIRST)
    yield Command(executable, "solve, version 2", ["solve", "k", "s"], {**FIRST, "k": SECOND_CONTROLLER})
    yield Command(executable, "solve, version 3", ["solve", "k", "s"], {**FIRST, "k": THIRD_CONTROLLER})
    yield Command(executable, "loop", ["loop", "d", "k", "s", "4"], FIRST)
    yield Command(executable, "demo", ["demo", "7"], {})
    stay, under = ["stay", "d", "p", "c", "r", "f"], ["stay", "d", "p", "c", "r", "f", "w"]
    yield Command(executable, "stay", stay, HELD)
    yield Command(executable, "stay, JSON", [*stay[:4], "r.json", "f"], HELD)
    yield Command(executable, "stay, under disturbances", under, HELD)
    yield Command(executable, "stay, version 3, under disturbances", under, THIRD_HELD)
    yield Command(executable, "stay, a face that isn't kept", under, {**HELD, "w": b"-1\n1\n"})
    yield Command(executable, "stay, unequal inputs", stay, {**HELD, "f": b"4,0,0,1,0\n3,0,0,0,1\n"})
    held = {**HELD, "q": reference}
    yield Command(executable, "lean with faces", [*lean, "f"], held)
    yield Command(executable, "lean with faces, JSON", [*lean[:5], "r.json", "f"], held)
    yield Command(executable, "lean with faces, under disturbances", [*lean, "f", "w"], held)
    yield Command(executable, "lean with faces, a face that isn't kept", [*lean, "f", "w"], {**held, "w": b"-1\n1\n"})
    shifted = ["loop", "d", "k", "s", "4", "v"]
    yield Command(executable, "loop, under disturbances", shifted, {**FIRST, "v": b"1\n0\n1\n0\n"})
    yield Command(executable, "loop, out of the box", shifted, {**FIRST, "v": b"1\n0\n2\n0\n"})
    made = listing.text_of(listing.listing_of(control.read_controller(FIRST["k"])))
    settle = ["settle", "d", "k", "f"]
    yield Command(executable, "settle", settle, SETTLED)
    yield Command(executable, "settle, under disturbances", [*settle, "w"], SETTLED)
    yield Command(executable, "settle, a multiplier that moves", settle, {**SETTLED, "f": b"5,-32,32\n0,-32,32\n1,-3,3\n"})
    yield Command(executable, "settle, a loop that isn't back", [*settle, "w"], {**SETTLED, "f": b"1,0,0\n0,-31,32\n1,-1,1\n"})
    yield Command(executable, "list", ["list", "k", "l"], FIRST)
    yield Command(executable, "list, version 2", ["list", "k", "l"], {**FIRST, "k": SECOND_CONTROLLER})
    yield Command(executable, "c", ["c", "k", "motor", "t", "h"], FIRST)
    yield Command(executable, "c, version 2", ["c", "k", "motor", "t", "h"], {**FIRST, "k": SECOND_CONTROLLER})
    yield Command(executable, "c, version 3", ["c", "k", "motor", "t", "h"], {**FIRST, "k": THIRD_CONTROLLER})
    split, first = ["split", "d", "l", "p", "c", "r"], control.read_controller(FIRST["k"])
    yield Command(executable, "split", split, CUT)
    yield Command(executable, "split, version 2", split, CUT_TWICE)
    yield Command(executable, "split, version 3", split, THIRD_CUT)
    yield Command(executable, "split, a cell that is refused", split, {**CUT, "p": 4 * b"1,0\n"})
    yield Command(executable, "split, a cut at the end", split, {**CUT, "l": b"1,1\n"}, 2)
    cells = split_boxes.text_of([*map(control.read_controller, (FIRST["k"].replace(b"\nhi 1\n", b"\nhi 0\n"), THIRD_CONTROLLER, SECOND_CONTROLLER)), first])
    yield Command(executable, "serve", ["serve", "e", "s"], {**FIRST, "e": cells})
    yield Command(executable, "serve, a state in no cell", ["serve", "e", "s"], {"e": cells, "s": b"0\n2\n"})
    yield Command(executable, "play", ["play", "m", "s"], {**FIRST, "m": made})
    yield Command(executable, "play, a trap", ["play", "m", "s"], {"m": made.replace(b"word 26", b"word 21"), "s": b"0\n0\n1\n"})


# ---- memory


def compiled(folder):
    library = os.path.join(folder, "refuse.so")
    subprocess.run(["cc", "-O2", "-shared", "-fPIC", "-fno-builtin", "-o", library, os.path.join(HERE, "refuse.c")], check=True)
    return library


def refused_run(command, library, at, refuses_all):
    """The run, what was left, and how many requests were made and refused, and the most bytes lent."""
    with tempfile.TemporaryDirectory() as folder:
        command.lay(folder)
        report = os.path.join(folder, "report-of-the-allocator")
        env = {"PATH": os.environ.get("PATH", ""), "LD_PRELOAD": library, "REFUSE_REPORT": report, "REFUSE_AT": str(at)}
        if refuses_all:
            env["REFUSE_ALL"] = "1"
        ran = command.run(folder, env=env)
        with open(report, "rb") as file:
            asked, refused, peak = struct.unpack("QQQ", file.read())
        return ran, command.left(folder), asked, refused, peak


def judged(command, ran, left, refuses_all):
    """What the run is counted as, or what is wrong with it."""
    as_before = {name: OLD[name] for name in command.outputs}
    if (ran.returncode, ran.stderr, ran.stdout, left) == (command.status, command.line, command.out, command.made):
        return "the right answer all the same", None
    # where there is no memory for the line of a refusal, its status is all that is told
    if command.line and (ran.returncode, ran.stderr, ran.stdout, left) == (command.status, b"", command.out, command.made):
        return "the right status, no line", None
    if ran.returncode == 99 and (ran.stderr, ran.stdout, left) == (b"", b"", as_before):
        return "no arguments (99)", None
    if ran.returncode != 1 or ran.stderr not in ([MEMORY, b""] if refuses_all else [MEMORY]):
        return None, f"status {ran.returncode}, line {ran.stderr[:200]}"
    if left != as_before:
        return None, f"files are {left}"
    if not command.out.startswith(ran.stdout):
        return None, f"output {ran.stdout[:200]}"
    if ran.stdout and not ran.stdout.endswith(b"\n") and command.words[0] != "demo":
        return None, f"output ends within a line: {ran.stdout[-80:]}"
    return "memory (1)" if ran.stderr else "memory (1), no line", None


def memory(options, library):
    wrong = 0
    for command in commands(options):
        command.learn()
        _, _, asked, refused, peak = refused_run(command, library, 0, False)
        print(f"{command.name}: {asked} requests, at most {peak} bytes at a time")
        for refuses_all in (False, True):

            def one(at):
                ran, left, _, refused, _ = refused_run(command, library, at, refuses_all)
                kind, fault = judged(command, ran, left, refuses_all)
                if not fault and not refused:
                    kind, fault = None, "nothing was refused"
                return at, kind, fault

            counts = collections.Counter()
            with concurrent.futures.ThreadPoolExecutor(options.jobs) as pool:
                for at, kind, fault in pool.map(one, range(1, asked + 1)):
                    counts[kind] += 1
                    if fault:
                        wrong += 1
                        if wrong <= SHOWN:
                            print(f"  request {at}{' and later' if refuses_all else ''} refused: {fault}")
            ran, left, _, refused, _ = refused_run(command, library, asked + 1, refuses_all)
            if refused or judged(command, ran, left, refuses_all)[0] != "the right answer all the same":
                wrong += 1
                print(f"  with request {asked + 1} refused, which isn't made: status {ran.returncode}")
            print(f"  {'the n-th and all later ones' if refuses_all else 'the n-th'} refused: " + ", ".join(f"{count} {kind}" for kind, count in counts.most_common()), flush=True)
    return wrong


# ---- files and output


def limited(size):
    """A limit on the size of each file that is written; without its signal the write is answered with an error."""

    def set_limit():
        signal.signal(signal.SIGXFSZ, signal.SIG_IGN)
        resource.setrlimit(resource.RLIMIT_FSIZE, (size, size))

    return set_limit


def is_proper_prefix(some, whole):
    return len(some) < len(whole) and whole.startswith(some)


def sizes_of(whole, step):
    """So many bytes of a whole as a file or an output is limited to: each where the step is 1, and always those about the end."""
    return sorted({*range(0, whole, step), *(size for size in (whole - 1, whole, whole + 1) if size >= 0)})


class Checks:
    def __init__(self):
        self.count, self.wrong = 0, 0

    def expect(self, what, holds, told=""):
        self.count += 1
        if not holds:
            self.wrong += 1
            if self.wrong <= SHOWN:
                print(f"  {what}: {told}")

    def ended(self, what, ran, status, line):
        self.expect(what, ran.returncode == status and ran.stderr == line, f"status {ran.returncode} {ran.stderr[:200]}, not {status} {line}")


def after_limit(checks, what, command, ran, left, size):
    """A command that writes, where no file may grow beyond so many bytes: the files before the first that would are whole, those after it are as they were."""
    failed = next((i for i, name in enumerate(command.outputs) if size < len(command.made[name])), None)
    if failed is None:
        checks.ended(what, ran, 0, b"")
        checks.expect(what, left == command.made, "the files aren't whole")
        return
    checks.ended(what, ran, 4, f"error 4 write-fault {command.places[failed]}\n".encode())
    for i, name in enumerate(command.outputs):
        held, whole = left.get(name, b"?"), command.made[name]
        well = held == whole if i < failed else held == OLD[name] or i == failed and is_proper_prefix(held, whole)
        checks.expect(what, well, f"{name} holds {held}")


def read_what_is_left(checks, what, command, folder):
    """A part of a controller or of a listing is refused at the line where it ends."""
    name = command.outputs[0]
    with open(os.path.join(folder, name), "rb") as file:
        held = file.read()
    with open(os.path.join(folder, "s"), "wb") as file:
        file.write(b"1\n")
    words = [{"list": "play", "split": "serve"}.get(command.words[0], "solve"), name, "s"]
    ran = Command(command.executable, "", words, {}).run(folder)
    said = model_program.answer(words, {name: held, "s": b"1\n"}.get, None, None)
    checks.ended(what, ran, said.status, said.line)


def with_name(command, at, name):
    """A command with another name in the place of a file: its words, how it ran, and what is left."""
    words = list(command.words)
    words[at] = name
    with tempfile.TemporaryDirectory() as folder:
        command.lay(folder)
        return words, Command(command.executable, "", words, {}).run(folder), command.left(folder)


def files(options, _):
    checks = Checks()
    given = list(commands(options))
    writing = [command for command in given if command.name in ("generate", "generate, JSON", "lean", "lean, JSON", "lean with faces", "stay", "stay, JSON", "list", "list, version 2", "split")]
    for command in writing:
        command.learn()
        # about the end of each file, too
        for size in sorted({size for made in command.made.values() for size in sizes_of(len(made), SHORT_STEP if options.short else 1)}):
            with tempfile.TemporaryDirectory() as folder:
                command.lay(folder)
                ran = command.run(folder, preexec_fn=limited(size))
                what = f"{command.name}, files of at most {size} bytes"
                after_limit(checks, what, command, ran, command.left(folder), size)
                if ran.returncode == 4 and "JSON" not in command.name:
                    read_what_is_left(checks, f"{what}, then read again", command, folder)
    print(f"a limit on a file's size: {checks.count} checks, {checks.wrong} wrong", flush=True)
    if any(command.words[0] == "generate" for command in given):
        large = Command(options.program, "generate, six stages", ["generate", "d", "p", "c", "r"], dict(zip("dp", model_program.make(7, 6))))
        large.learn()
        full_disk(checks, large)
    for command in writing:
        for name in ("/dev/full", "no/c", ".", ""):
            for i, at in enumerate(command.places):
                words, ran, left = with_name(command, at, name)
                checks.ended(f"{words}", ran, 4, f"error 4 write-fault {at}\n".encode())
                wanted = {it: command.made[it] if k < i else OLD[it] for k, it in enumerate(command.outputs)}
                checks.expect(f"{words}", left == wanted, f"the files hold {left}")
    for name, status, line in (("missing", 3, "read-fault"), (".", 3, "read-fault"), ("", 3, "read-fault"), ("/proc/self/mem", 3, "read-fault"), ("/dev/zero", 13, "long")):
        for command in given:
            for at in (at for at in READS[command.words[0]] if at < len(command.words) and at <= (command.refused or at)):
                words, ran, left = with_name(command, at, name)
                checks.ended(f"{words}", ran, status, f"error {status} {line} {at}\n".encode())
                checks.expect(f"{words}", ran.stdout == b"" and left == {it: OLD[it] for it in command.outputs}, "something was written")
    print(f"files: {checks.count} checks, {checks.wrong} wrong", flush=True)
    return checks.wrong


def full_disk(checks, command):
    """generate on a file system in memory on which so many pages are free."""
    page, told = resource.getpagesize(), []
    whole = command.made[command.outputs[0]]
    for pages in range(len(whole) // page + 3):
        with tempfile.TemporaryDirectory() as folder:
            command.lay(folder)
            words = " ".join(f"'{word}'" for word in [command.executable, "generate", "d", "p", "full/c", "full/r"])
            # a file takes the other pages; the copies are made before the file system is gone
            script = f"""set -e
mkdir full && mount -t tmpfs -o size={page * (pages + 2)} none full
head -c {page} /dev/zero >full/filler
head -c {page} /dev/zero >full/filler2
status=0; {words} >out 2>err || status=$?
cp full/c c-left 2>/dev/null || true; cp full/r r-left 2>/dev/null || true
echo $status >status"""
            ran = subprocess.run(["unshare", "--user", "--map-root-user", "--mount", "sh", "-c", script], cwd=folder, capture_output=True)
            if ran.returncode:
                print(f"a full disk: not tried, since no file system can be mounted here ({ran.stderr.decode().strip()[:200]})")
                return
            found = command.left(folder, ["out", "err", "status", "c-left", "r-left"])
        status, line = int(found["status"]), found["err"]
        c, r = found.get("c-left", b""), found.get("r-left", b"")
        what = f"a disk with {pages} pages"
        told.append(status)
        if pages * page < len(whole):
            checks.expect(what, (status, line) == (4, b"error 4 write-fault 3\n"), f"status {status} {line}")
            checks.expect(what, is_proper_prefix(c, whole) and r == b"", f"the controller file has {len(c)} bytes, the report file {len(r)}")
        elif pages * page < -(-len(whole) // page) * page + page:
            checks.expect(what, (status, line) == (4, b"error 4 write-fault 4\n"), f"status {status} {line}")
            checks.expect(what, c == whole and is_proper_prefix(r, command.made[command.outputs[1]]), "the controller isn't whole")
        else:
            checks.expect(what, (status, line, c, r) == (0, b"", whole, command.made[command.outputs[1]]), f"status {status} {line}")
    print(f"a full disk, from 0 free pages on: statuses {told}", flush=True)


def quiet(checks, command):
    """A command that prints nothing doesn't need its output."""
    with tempfile.TemporaryDirectory() as folder:
        command.lay(folder)
        ran = command.run(folder, stdout=None, preexec_fn=lambda: os.close(1))
        well = (ran.returncode, ran.stderr, command.left(folder)) == (command.status, command.line, command.made)
        checks.expect(f"{command.name}, output closed", well, f"status {ran.returncode} {ran.stderr}")


def output(options, _):
    checks = Checks()
    fault = b"error 4 write-fault 0\n"
    for command in commands(options):
        command.learn()
        if not command.out:
            quiet(checks, command)
            continue
        with tempfile.TemporaryDirectory() as folder:
            command.lay(folder)
            # (an output that is closed is none to subprocess, so the child closes it itself)
            checks.ended(f"{command.name}, output closed", command.run(folder, stdout=None, preexec_fn=lambda: os.close(1)), 4, fault)
            with open("/dev/full", "wb") as full:
                checks.ended(f"{command.name} to /dev/full", command.run(folder, stdout=full), 4, fault)
            reads, writes = os.pipe()
            os.close(reads)
            checks.ended(f"{command.name} to a pipe that nobody reads", command.run(folder, stdout=writes), 4, fault)
            os.close(writes)
            both = command.run(folder, stdout=None, stderr=None, preexec_fn=lambda: (os.close(1), os.close(2)))
            checks.expect(f"{command.name}, both outputs closed", both.returncode == 4, f"status {both.returncode}")
            for size in sizes_of(len(command.out), SHORT_STEP if options.short else 1 if len(command.out) < 600 else 97):
                out = os.path.join(folder, "out")
                with open(out, "wb") as file:
                    ran = command.run(folder, stdout=file, preexec_fn=limited(size))
                with open(out, "rb") as file:
                    held = file.read()
                what = f"{command.name}, output of at most {size} bytes"
                if size < len(command.out):
                    checks.ended(what, ran, 4, fault)
                    checks.expect(what, is_proper_prefix(held, command.out), f"it holds {held[:200]}")
                else:
                    checks.ended(what, ran, command.status, command.line)
                    checks.expect(what, held == command.out, f"it holds {held[:200]}")
    print(f"output: {checks.count} checks, {checks.wrong} wrong", flush=True)
    return checks.wrong


def main():
    parser = argparse.ArgumentParser(description=__doc__, formatter_class=argparse.RawDescriptionHelpFormatter)
    parser.add_argument("program")
    parser.add_argument("--jobs", type=int, default=os.cpu_count())
    parser.add_argument("--only", choices=["memory", "files", "output"])
    parser.add_argument("--commands")
    parser.add_argument("--short", action="store_true")
    options = parser.parse_args()
    options.program = os.path.abspath(options.program)
    wrong = 0
    with tempfile.TemporaryDirectory() as folder:
        for name, check in (("files", files), ("output", output), ("memory", memory)):
            if options.only in (None, name) and not (options.short and name == "memory"):
                wrong += check(options, compiled(folder) if name == "memory" else None)
    print(f"{wrong} wrong")
    sys.exit(wrong > 0)


main()
