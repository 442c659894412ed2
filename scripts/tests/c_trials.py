"""The C of a controller beside the machine in Python: single steps from any multipliers, whole runs, and what these see of a changed number."""
import os
import random
import re
import subprocess
from dataclasses import dataclass, field

from scripts.common.c_text import CText
from scripts.common.c_words import Form

from .controllers import first_inputs, run, step

HERE = os.path.dirname(__file__)
COMPILER = os.environ.get("CC", "cc")
STRICT = ["-std=c99", "-Wall", "-Wextra", "-pedantic", "-Wconversion", "-Wsign-conversion", "-Wshadow", "-Werror"]


@dataclass
class Changes:
    """How many numbers were changed by 1, those that no case sees, and of these the reasons why they are harmless."""

    count: int
    harmless: dict = field(default_factory=dict)
    missed: list = field(default_factory=list)


def states_of(c, r, count):
    """Corners of the box and states in it."""
    corners = [[c.hi[i] if corner >> i & 1 else c.lo[i] for i in range(c.states)] for corner in range(2**c.states)]
    return (corners + [[r.choice([low, high, r.randint(low, high)]) for low, high in zip(c.lo, c.hi)] for _ in range(count)])[:max(count, 2)]


def extreme_multipliers(c, form, i):
    """A state and multipliers that make the residual of row i as great as they can, its own multiplier at its clamp; and the room that the floors leave."""
    weight = lambda k: -sum(c.G[i][j] * (c.W[j][k] << (c.step - c.exps[k])) for j in range(c.entries))
    pull = lambda k: (c.E[i][k] << (c.bits + c.step)) - (sum(c.G[i][j] * c.P[j][k] for j in range(c.entries)) << c.step)
    multipliers = [form.tops[k] if weight(k) > 0 or k == i else 0 for k in range(c.rows)]
    return [c.hi[k] if pull(k) > 0 else c.lo[k] for k in range(c.states)], multipliers


def just_above(c, form, i):
    """A state and multipliers from which row i's multiplier would be its clamp plus 1, where the search finds them."""
    state, multipliers = extreme_multipliers(c, form, i)
    for _ in range(40):
        plan, _ = step(c, state, multipliers)
        loaded = [v << (c.bits - c.grid) for v in state]
        moved = (sum(a * v for a, v in zip(c.G[i], plan)) + sum(a * v for a, v in zip(c.E[i], loaded)) - (c.b[i] << c.bits)) >> c.bits
        wanted = form.tops[i] + 1 - moved
        if wanted == multipliers[i]:
            return [(state, multipliers)]
        multipliers[i] = min(form.tops[i], max(0, wanted))
    return []


def step_cases(c, form, count, seed=1):
    """States of the box with multipliers of 0 to the clamps, whether a run meets them or not: a row that binds in no run counts, too."""
    r, cases = random.Random(seed), []
    for state in states_of(c, r, count):
        kind = r.choice(["all", "few", "low"])
        multipliers = [0 if kind == "few" and r.random() < 0.8 else r.randint(0, top >> (r.randint(0, max(1, top.bit_length())) if kind == "low" else 0)) for top in form.tops]
        cases.append((state, multipliers))
    for i in range(c.rows):
        cases += [(list(state), [form.tops[i] if k == i else 0 for k in range(c.rows)]) for state in (c.lo, c.hi)]
        cases += [extreme_multipliers(c, form, i), *just_above(c, form, i)]
    return cases


def held(text, multipliers):
    """Multipliers as the C holds them."""
    form = text.form
    differences = [multipliers[a] - (multipliers[form.seconds[q]] if q < len(form.seconds) else 0) for q, a in enumerate(form.rows)]
    return in_parts(differences, form.entry_sums, text.multiplier_parts) + [multipliers[b] for b in form.seconds]


def in_parts(values, sums, are_parts):
    return [v & (2**sums.cut - 1) for v in values] + [v >> sums.cut for v in values] if are_parts else values


def step_numbers(text, cases):
    """The numbers of each case: state and multipliers, then plan, multipliers and sums."""
    for state, multipliers in cases:
        plan, moved = step(text.controller, state, multipliers)
        yield [*state, *held(text, multipliers), *in_parts(plan, text.form.row_sums, text.plan_parts), *held(text, moved), *plan]


def run_numbers(c, states):
    """Each state with 0 and its sums, and states at each side of the box, which are refused by their first coordinate outside."""
    for state in states:
        yield [*state, 0, *run(c, state)]
    for i in range(c.states):
        for value in (c.lo[i] - 1, c.hi[i] + 1):
            # a later coordinate outside doesn't count
            state = [c.lo[k] if k < i else value if k == i else c.hi[k] + k % 2 for k in range(c.states)]
            yield [*state, i + 1, *[0] * c.entries]
    yield [c.lo[0] - 1, *[high + 1 for high in c.hi[1:]], 1, *[0] * c.entries]
    yield [*c.hi[:-1], -(2**31), c.states, *[0] * c.entries]


def average_numbers(c, form, r):
    """Sums with the inputs that they are averaged to, also halfway between two."""
    if form.is_wide:
        return
    for _ in range(50):
        sums = [r.choice([r.randint(-form.sum, form.sum), r.randint(-3, 3) * c.steps + r.choice([-1, 1]) * (c.steps + r.randint(-1, 1)) // 2, r.randint(-3, 3) * c.steps]) for _ in range(c.entries)]
        yield [*sums, *first_inputs(c, sums)]


def numbers_bytes(*lists):
    """Counts and numbers of 16 bytes each."""
    out = bytearray()
    for rows in lists:
        rows = list(rows)
        for v in [len(rows), *[v for row in rows for v in row]]:
            out += (v % 2**128).to_bytes(16, "little")
    return bytes(out)


NUMBER = re.compile(r"/\*.*?\*/|U?INT64_C\((\w+)\)|(?<![\w.])(\d+)(u?)(?![\w.])")


def changeable(source, first="static void mpc_start("):
    """The source with each number of its functions as (number + (changed == place)), and the numbers with what stands around them."""
    begin = source.index(first)
    places = []

    def changed(at):
        if at[0].startswith("/*"):
            return at[0]
        number = at.start(1) if at[1] else at.start()
        places.append((source[begin:][max(0, number - 90) : number], source[begin:][number : at.end() + 30]))
        return f"({at[0]} + ({'unsigned' if at[3] else 'int'})(changed == {len(places) - 1}))"

    # behind each table one more number, so that to read there is seen
    tables = re.sub(r"\n};\ntypedef char mpc_sure_\w+\[.*\n", "\n    99,\n};\n", source[:begin])
    return tables + NUMBER.sub(changed, source[begin:]), places


def layout(text, numbers):
    """The members and tables for c_step.c."""
    names = [name for name, *_ in text.fields()]
    into = [name for name in names if name.startswith(("multipliers", "seconds"))]
    out = [name for name in names if name.startswith("plan")] + into
    lines = [f"#define WIDE {int(text.form.is_wide)}", f"#define NUMBERS {numbers}", "#define INS " + " ".join(f"IN({name})" for name in into)]
    lines += ["#define OUTS " + " ".join(f"OUT({name})" for name in out)]
    lines += ["#define TABLES " + " ".join(f"TABLE({name}, {len(flat)}, {int(name == 'entry_count')})" for name, _, flat in text.tables)]
    return "\n".join(lines) + "\n"


def write(folder, name, text):
    with open(os.path.join(folder, name), "w", encoding="ascii") as file:
        file.write(text)


def build(folder, source, text, numbers, *flags):
    """c_step.c with this source."""
    write(folder, "changed.c", source)
    write(folder, "layout.h", layout(text, numbers))
    program = os.path.join(folder, "step")
    subprocess.run([COMPILER, "-std=gnu99", "-w", *flags, f"-I{folder}", os.path.join(HERE, "c_step.c"), "-o", program], check=True)
    return program


def trial(c, folder, count=150, runs=4, changes=True):
    """Builds the C of a controller with every warning an error, compares it under sanitizers, and then tells what the same cases see of each changed number."""
    form = Form(c)
    text = CText("mpc", form)
    source = text.source()
    write(folder, "mpc.h", text.header(["a trial"]))
    write(folder, "mpc.c", source)
    subprocess.run([COMPILER, *STRICT, "-O2", "-c", os.path.join(folder, "mpc.c"), "-o", os.path.join(folder, "mpc.o")], check=True)
    r = random.Random(2)
    cases = numbers_bytes(step_numbers(text, step_cases(c, form, count)), run_numbers(c, states_of(c, r, runs)), average_numbers(c, form, r))
    program = build(folder, source, text, 0, "-O1", "-fsanitize=undefined,address", "-fno-sanitize-recover=all")
    got = subprocess.run([program], input=cases, capture_output=True)
    if got.returncode or got.stdout != b"right\n":
        raise AssertionError(f"the C of this controller differs: {got.stdout} {got.stderr[-2000:]}")
    if not changes:
        return None
    source, places = changeable(source)
    program = build(folder, source, text, len(places), "-O1", "-fsanitize=undefined", "-fsanitize-undefined-trap-on-error")
    lines = subprocess.run([program, "changes"], input=cases, capture_output=True, check=True).stdout.decode().splitlines()
    return sorted_changes(text, places, [line.split() for line in lines[1:]])


def sorted_changes(text, places, lines):
    told = Changes(int(lines[-1][1]))
    for name, place in lines[:-1]:
        why = harmless_number(text, places[int(place)]) if name == "number" else harmless_table(text, name, int(place))
        if why:
            told.harmless[why] = told.harmless.get(why, 0) + 1
        else:
            told.missed.append(f"{name} {place}" + (f": {places[int(place)]}" if name == "number" else ""))
    return told


def harmless_table(text, name, place):
    """Why a number of a table counts for nothing, or None."""
    c, form = text.controller, text.form
    if name in ("state_gains", "state_rows", "second_state_rows") and form.reach[place % c.states] == 0:
        return "a coefficient of a state that is always 0"
    if name.startswith("plan_rows"):
        entries = [j for first, last in text.spans for j in range(first, last)]
        if form.plan[entries[place]] == 0:
            return "a coefficient of a plan entry that is always 0"
    if name == "first_entry" and text.spans[place][0] == text.spans[place][1]:
        return "where a row counts no entry"
    if name == "tops" and not any(passes_clamp(c, form, i) for i in ([form.rows[place]] + ([form.seconds[place]] if place < len(form.seconds) else []))):
        return "the clamp of a row whose multiplier can't pass it"
    return None


def passes_clamp(c, form, i):
    """Whether row i's multiplier could pass its clamp, from the multipliers that drive it most, floors counted as whole units of the plan."""
    state, multipliers = extreme_multipliers(c, form, i)
    plan, _ = step(c, state, multipliers)
    loaded = [v << (c.bits - c.grid) for v in state]
    residual = sum(a * v for a, v in zip(c.G[i], plan)) + sum(a * v for a, v in zip(c.E[i], loaded)) - (c.b[i] << c.bits)
    return residual + sum(map(abs, c.G[i])) >= 1 << c.bits


def harmless_number(text, place):
    """Why a number of a function counts for nothing, or None. `place` is what stands before it, and the number with what stands behind."""
    c, form = text.controller, text.form
    before = re.sub(r"U?INT64_C\($", "", place[0])
    if re.search(r"if \((moved|second) < $|mpc_less\((moved|second), mpc_of\($", before):
        return "0 is set to 0"
    if before.endswith("if ((rest < ") or before.endswith("if ((rest > ") and c.steps > 2:
        return "a rest of 0, or of 1 in more than 2 steps, is not rounded up"
    if re.search(r"\(rest [<>] 0\) && \(\(-?$|\(rest > $", before) and c.steps <= 2:
        return "a rest of 1 in 2 steps, and of 0 in one"
    if re.search(r"_(offsets|bounds)\[i\] \* $", before) and not any(c.T if "_offsets" in before[-40:] else c.b):
        return "a power of two times 0"
    if re.search(r"& $", before) and "_base_low" in before and low_part_is_zero(c, form, "entry_base" in before[-60:]):
        return "the low part of what is a multiple of its power of two"
    if re.search(r"(gain|row)(_low|_high)? \+= $", before) and (c.entries if "gain" in before[-14:] else last_rows(form)) == 1:
        return "how far a pointer goes that isn't read again"
    if re.search(r"x\[k\] = [^;]*$|for \(k = $", before) and not any(form.reach[:1] if "for (k" in before[-12:] else form.reach):
        return "a state that is always 0"
    if re.search(r"sum[012]? = (mpc_of\()?$", before) and c.bits > 10:
        return "1 more in a sum that is floored by 2^f, f above 10: seen where f is less"
    return None


def last_rows(form):
    """How many rows the last loop over rows has."""
    return len(form.rows) - len(form.seconds) or len(form.rows)


def low_part_is_zero(c, form, is_entry):
    """Whether the state's part of a sum has a low part of 0 at every state."""
    sums, power = (form.entry_sums, c.bits - c.grid + c.step) if is_entry else (form.row_sums, c.bits - c.grid)
    return power >= sums.cut
