"""Changed and random texts for run.py: designs, policies, controllers and states, most of them near to what is accepted."""
import os
import re
from fractions import Fraction
from math import ceil

from . import at_corners, control, forms, model, program
from .machines import VERSIONS

EXAMPLES = os.path.join(os.path.dirname(os.path.abspath(__file__)), "..", "..", "examples")
PIECES = [b"-", b"0", b"1", b"9", b",", b" ", b"\n", b"\r", b"\r\n", b'"', b"[", b"]", b".", b"=", b"#", b"\xff", b"\x00", b"_", b"x", b"e", b"\t", b"'", b"{", b"}",
          b"\xef\xbb\xbf", b"+1", b"4294967296", b"9223372036854775808"]
NUMBERS = [0, 0, 1, 1, 2, 3, 4, 5, 6, 7, 8, 9, 12, 13, 16, 20, 21, 24, 25, 30, 31, 40, 41, 48, 49, 64, 128, 129, 252, 253, 255, 372, 373, 1000, 4096, 65536, 1048576, 1048577, 4194304,
           4194305, 2147483647, 2147483648, 2**40, 2**40 + 1, 2**62, 2**63 - 1, 2**63, 2**126, 2**126 + 1, 2**127 - 1, 2**127]
# an example with a longer policy takes the model seconds
LONG_POLICY = 1000


def bytes_changed(pick, data):
    data = bytearray(data)
    for _ in range(pick.choice([1, 1, 1, 2, 3])):
        at, how = pick.randrange(len(data) + 1), pick.randrange(5)
        if how == 0:
            data[at:at] = pick.choice(PIECES)
        elif how == 1:
            del data[at : at + pick.choice([1, 1, 2, 9])]
        elif how == 2:
            data[at : at + 1] = pick.choice(PIECES)
        elif how == 3:
            data[at : at + 1] = bytes([pick.randrange(256)])
        elif pick.random() < 0.3:
            del data[at:]
    return bytes(data)


def number_changed(pick, data):
    """One of the text's numbers is made another."""
    found = list(re.finditer(rb"-?[0-9]+", data))
    if not found:
        return data
    it = pick.choice(found)
    old = int(it[0])
    new = pick.choice([pick.choice(NUMBERS), pick.choice(NUMBERS), -pick.choice(NUMBERS), old + 1, old - 1, 2 * old, old // 2, pick.randrange(-9, 10)])
    return data[: it.start()] + str(new).encode() + data[it.end() :]


def spelling_changed(pick, data):
    """One of the text's numbers is spelled in another way, which may or may not be one that is read."""
    found = list(re.finditer(rb"-?[0-9]+", data))
    if not found:
        return data
    it = pick.choice(found)
    sign, digits = (b"-", it[0][1:]) if it[0].startswith(b"-") else (b"", it[0])
    zeros = b"0" * (pick.choice([19, 19, 20, 20, 21, 39, 40]) - len(digits))
    new = pick.choice([sign + b"0" + digits, sign + zeros + digits, sign + zeros + digits, b" " + it[0], it[0] + b"  ", b"\t" + it[0], it[0] + b"\t", sign + b" " + digits, b"+" + digits,
                       b"-" + it[0], b"--" + digits, b'"' + it[0] + b'"', b'" ' + it[0] + b'"', b'"' + it[0] + b'" ', b"'" + it[0] + b"'", sign + b"0x" + digits, it[0] + b".0", it[0] + b"e0",
                       sign + digits[:1] + b"_" + digits[1:], b"-0", b"00", b"", b" ", b"\xc2\xa0" + it[0], it[0] + b"\x00", b"\xd9\xa1"])
    return data[: it.start()] + new + data[it.end() :]


def line_changed(pick, data):
    lines = data.split(b"\n")
    at, other = pick.randrange(len(lines)), pick.randrange(len(lines))
    how = pick.randrange(4)
    if how == 0:
        del lines[at]
    elif how == 1:
        lines.insert(at, lines[other])
    elif how == 2:
        lines[at], lines[other] = lines[other], lines[at]
    else:
        lines.insert(at, b"")
    return b"\n".join(lines)


def changed(pick, data):
    how = pick.random()
    if how < 0.15:
        return data
    if how < 0.45:
        for _ in range(pick.choice([1, 1, 2])):
            data = number_changed(pick, data)
        return data
    if how < 0.65:
        return spelling_changed(pick, data)
    return bytes_changed(pick, data) if how < 0.9 else line_changed(pick, data)


# ---- designs


def design_text(v):
    """The text of a design's values, by their places."""
    table = lambda rows: "[" + ", ".join(f"[{', '.join(map(str, row))}]" for row in rows) + "]"
    return f"""version = {v.get("version", 1)}
states = {v["n"]}
inputs = {v["p"]}
stages = {v["stages"]}
[plant]
den = {v["den"]}
a = {table(v["a"])}
b = {table(v["b"])}
[cost]
den = {v["cost_den"]}
row_den = {v["row_den"]}
input = {v["input"]}
stage = {table(v["cost"])}
final = {table(v["final_cost"])}
[limits]
den = {v["limit_den"]}
stage = {table(v["rows"])}
final = {table(v["final_rows"])}
[box]
grid = {v["grid"]}
lo = {v["lo"]}
hi = {v["hi"]}
[targets]
den = {v["target_den"]}
violation = {v["violation"]}
gap = {v["gap"]}
""".encode()


def random_sizes(pick):
    """The version, the states, the inputs and the stages: mostly few, now and then as many as the version has."""
    version = pick.choice(VERSIONS)
    if pick.random() < 0.02:
        return version, pick.choice([1, 2]), 1, model.STAGES[version] - pick.choice([0, 0, 1])
    return version, pick.choice([1, 1, 2, 2, 3, 4] if version == 1 else [1, 1, 2, 2, 3, 4, 5, 6]), pick.choice([1, 1, 2, 3]), pick.choice([1, 1, 2, 3, 4])


def random_design(pick):
    """A design of any sizes with a policy of no input, whose corners mostly stand within the limits; now and then its numbers are so large that a quantity is."""
    version, n, p, stages = random_sizes(pick)
    den = pick.choice([1, 2, 4, 8, 10, 1000, 65536, 1048576])
    large = pick.choice([1, 1, 1, 1, 1, 10, 10**4, 2**20])
    some = lambda count, reach: [pick.randrange(-reach, reach + 1) for _ in range(count)]
    grid = pick.choice([0, 0, 1, 4, 12, 24])
    side = pick.choice([0, 1, 1, 2]) << grid
    limit_den = pick.choice([1, 1, 2, 4, 100, 65536, 1048576])
    v = {"version": version, "n": n, "p": p, "stages": stages, "den": den, "a": [some(n, max(1, den // n)) for _ in range(n)], "b": [some(p, 2 * den) for _ in range(n)],
         "cost_den": pick.choice([1, 1, 1, 8, 256, 1048576]), "row_den": pick.choice([1, 1, 2, 16]), "input": [pick.randrange(1, 9) * large for _ in range(p)]}
    cost = lambda: [*some(n, 3), pick.choice([0, 0, 1, -2, -large]), pick.randrange(0, 5) * large]
    reach = lambda row: sum(map(abs, row)) * max(1, side >> grid) + pick.choice([0, 1, 1, 2, limit_den, limit_den, 3 * limit_den])
    stage_row = lambda: (lambda sigma, phi: [*sigma, *phi, reach(sigma)])(some(n, pick.choice([0, 1, 3, limit_den])), some(p, pick.choice([1, 2, limit_den, 8 * limit_den])))
    final_row = lambda: (lambda sigma: [*sigma, reach(sigma)])(some(n, pick.choice([1, 3, limit_den])))
    v |= {"cost": [cost() for _ in range(pick.choice([0, 1, 2]))], "final_cost": [cost() for _ in range(pick.choice([0, 0, 1]))], "limit_den": limit_den,
          "rows": [stage_row() for _ in range(pick.choice([0, 1, 2, 3]))], "final_rows": [final_row() for _ in range(pick.choice([0, 1, 2]))], "grid": grid,
          "lo": [pick.choice([-side, 0]) for _ in range(n)], "hi": [pick.choice([side, side, 0]) for _ in range(n)],
          "target_den": pick.choice([1, 1, 4, 65536, 1048576]), "violation": pick.choice([1, 16, 1000, 10**6, 2**31 - 1]), "gap": pick.choice([1, 1, 100, 2**20, 2**31 - 1])}
    plan = pick.choice([0, 0, 0, 1, -1])
    policy = "".join(",".join([str(pick.choice([1, 1, 8, 1000, 2**40])), *[str(plan)] * (p * stages)]) + "\n" for _ in range(2**n))
    return design_text(v), policy.encode()


def large_design(pick):
    """A design whose numbers are of any magnitude, so that each quantity comes near its limit now and then. The corners mostly stand within the limits."""
    n, p, stages = pick.choice([1, 1, 1, 2, 3]), pick.choice([1, 1, 2]), pick.choice([1, 1, 1, 2, 3, 5, 9])
    power = lambda most: min(2**most, (1 << pick.randrange(most + 1)) + pick.choice([0, 0, 0, 1, -1]) or 1)
    top = 2**31 - 1
    den, limit_den, grid = power(20), power(20), pick.choice([0, 0, 0, 0, 3, 24])
    plant = pick.choice([den, den, min(top, power(30))])
    number = lambda reach: pick.choice([-1, 1, 1]) * min(top, max(1, reach))
    v = {"version": pick.choice(VERSIONS), "n": n, "p": p, "stages": stages, "den": den, "a": [[number(plant) if i == j else 0 for j in range(n)] for i in range(n)],
         "b": [[number(pick.choice([plant, 1, power(30)])) for _ in range(p)] for _ in range(n)], "cost_den": power(20), "row_den": power(20),
         "input": [min(top, power(31)) for _ in range(p)], "final_cost": []}
    side = pick.choice([0, 0, 1]) << grid
    cost = lambda: [*[pick.choice([0, 1, power(20)]) for _ in range(n)], pick.choice([0, 0, power(30)]), min(top, power(31))]
    v |= {"cost": [cost() for _ in range(pick.choice([0, 1, 1, 3]))], "limit_den": limit_den, "grid": grid, "lo": [0] * n, "hi": [side] * n}
    phi = lambda: [pick.choice([0, number(limit_den), number(power(31))]) for _ in range(p)]
    v |= {"rows": [[*[0] * n, *phi(), min(top, power(31))] for _ in range(pick.choice([1, 1, 2, 12]))], "final_rows": [],
          "target_den": power(20), "violation": min(top, power(31)), "gap": min(top, power(31))}
    policy = "".join(",".join(["1", *["0"] * (p * stages)]) + "\n" for _ in range(2**n))
    return design_text(v), policy.encode()


def greatest_design(pick):
    """A design of the greatest sizes of its version, or nearly so: a chain of states that doesn't grow, in either class. It takes the model a minute."""
    version, den = pick.choice(VERSIONS), pick.choice([1, 4])
    n, stages = model.STATES[version], model.STAGES[version]
    unit = lambda at: [int(i == at) for i in range(n)]
    v = {"version": version, "n": n, "p": 3, "stages": stages, "den": den, "a": [[den // 2 * a + b for a, b in zip(unit(i), unit(i + 1))] for i in range(n)],
         "b": [[int(i == n - 1 - l) for l in range(3)] for i in range(n)], "cost_den": 1, "row_den": 1, "input": [pick.randrange(1, 4) for _ in range(3)],
         "cost": [[*unit(0), 0, 1]], "final_cost": [], "limit_den": 8}
    row = lambda: [*[pick.choice([0, 0, 1, -1]) for _ in range(n)], *[pick.choice([0, 1, -2, pick.choice([8, -8])]) for _ in range(3)], 16]
    v |= {"rows": [row() for _ in range(12)], "final_rows": [[*[pick.choice([0, 1, -1]) for _ in range(n)], 16] for _ in range(pick.choice([12, 12, 11]))], "grid": 0, "lo": [0] * n,
          "hi": [1] * n, "target_den": 1, "violation": 16, "gap": 16}
    return design_text(v), ("1" + ",0" * 3 * stages + "\n").encode() * 2**n


# ---- designs at a border


def over(real, dens):
    """The numbers of a design that nearly has these real ones, over these denominators, with bounds rounded up."""
    most = 2**31 - 1
    near = lambda den, rows, low=-most, to=round: [[min(most, max(low, to(den * x))) for x in row] for row in rows]
    ended = lambda den, rows, end_den, to: [row + end for row, end in zip(near(den, [r[:-1] for r in rows]), near(end_den, [r[-1:] for r in rows], to=to))]
    weighted = lambda rows: ended(dens["row_den"], rows, dens["cost_den"], round)
    bounded = lambda rows: ended(dens["limit_den"], rows, dens["limit_den"], ceil)
    grown = dens["den"] * dens["growth"]
    return {**real, **dens, "a": near(grown, real["a"]), "b": near(grown, real["b"]), "input": near(dens["cost_den"], [real["input"]], 1)[0],
            "cost": weighted(real["cost"]), "final_cost": weighted(real["final_cost"]), "rows": bounded(real["rows"]), "final_rows": bounded(real["final_rows"]),
            "lo": near(2 ** dens["grid"], [real["lo"]])[0], "hi": near(2 ** dens["grid"], [real["hi"]])[0]}


def plans_over(real, dens):
    """And of the policy, with plans that go so far as `reach` says."""
    most = 2**63 - 1
    return [(dens["plan_den"], [min(most, max(-most, round(dens["plan_den"] * dens["reach"] * Fraction(v)))) for v in plan]) for plan in real["plans"]]


def read_over(real, dens):
    return model.read_design(design_text(over(real, dens))), plans_over(real, dens)


def real_design(pick, lengths, versions):
    """Real numbers of a design and a policy; the bounds of its rows are 0."""
    version, stages = pick.choice(versions), pick.choice(lengths)
    if version > 1 and stages == 20:
        stages = pick.choice([20, 25, 30])
    n, p = pick.choice([1, 1, 1, 2, 2, 3, 4] if stages < 10 else [1, 1, 2, 2, 3]), pick.choice([1, 1, 2, 3] if stages < 10 else [1, 1, 1, 2])
    if version > 1 and stages < 5:
        n = pick.choice([n, n, n, 5, 6])
    some = lambda count, reach: [pick.choice([0, pick.uniform(-reach, reach), pick.uniform(-reach, reach), reach]) for _ in range(count)]
    many = lambda counts, make: [make() for _ in range(pick.choice(counts))]
    cost = lambda: [*some(n, 2), pick.choice([0, 0, pick.uniform(-1, 1)]), pick.choice([0, pick.uniform(0, 4), 1, 1, 100])]
    growth, steep = pick.choice([0.5, 1, 1, 1.2, 2] if stages < 10 else [0.5, 0.9, 1, 1, 1.1]), pick.choice([1, 1, 1, 4, 4, 1000, 2**20])
    target_den, violation, gap = pick.choice([(4, 16, 100), (4, 16, 1), (1, 1000, 10**5), (1, 1, 1), (1, 2**31 - 1, 2**31 - 1), (2**20, 2**31 - 1, 1), (2**20, 2**24, 2**12)])
    side = pick.choice([1, 1, 1, 1, 1 / 8, 100])
    plan = pick.choice([lambda: 0, lambda: pick.uniform(-0.25, 0.25)])
    return {"version": version, "n": n, "p": p, "stages": stages, "a": [some(n, growth / n) for _ in range(n)], "b": [some(p, pick.choice([0.1, 1])) for _ in range(n)],
            "input": [pick.choice([1, pick.uniform(0.01, 8)]) for _ in range(p)], "cost": many([0, 1, 2], cost), "final_cost": many([0, 0, 1], cost),
            "rows": many([1, 1, 2, 3], lambda: [*some(n + p, steep), 0]), "final_rows": many([0, 1], lambda: [*some(n, 1), 0]),
            "lo": [pick.choice([-side, 0]) for _ in range(n)], "hi": [pick.choice([side, side, 0]) for _ in range(n)],
            "plans": [[plan() for _ in range(p * stages)] for _ in range(2**n)], "target_den": target_den, "violation": violation, "gap": gap}


class Border:
    """Something that a design and its policy are within or not, and what is brought to where it changes. How much more than it needs a row's bound may be: a long one
    makes the numbers of the rows long."""

    def __init__(self, share, lengths, knobs, is_within, versions=VERSIONS, spare=(0, 0, 0, 1)):
        self.share, self.lengths, self.knobs, self.is_within, self.versions, self.spare = share, lengths, knobs, is_within, versions, spare


# the exponent that covers the squares is a ratio, and hardly depends on what the numbers are over: so one form serves the search
def within_form(make, times=1):
    def over(real, dens):
        form = make(read_over(real, dens)[0])
        return lambda d, plans: forms.is_within_limit(d, form, times)

    return over


within_corners = lambda sizes, *names: lambda real, dens: lambda d, plans: all(v <= forms.LIMIT for name, v in sizes(d, plans).items() if not names or name in names)
SHORT, LONG = [1, 1, 2, 2, 3, 3, 4, 5, 7, 10, 20], [1, 2, 3, 5, 7, 10, 10, 14, 20, 20]
BORDERS = [
    Border(25, SHORT, ["limit_den", "cost_den", "row_den", "den", "den", "den", "den", "den"], within_form(forms.exact_form)),
    Border(15, SHORT, ["limit_den", "cost_den", "row_den"], within_form(forms.fine_form)),
    Border(15, LONG, ["limit_den", "cost_den", "row_den"], within_form(forms.fine_form)),
    Border(30, LONG, ["den", "den", "den", "grid", "plan_den", "plan_den", "row_den", "limit_den", "cost_den"], within_corners(at_corners.exact_sizes)),
    Border(3, LONG, ["growth"], within_corners(at_corners.fine_sizes, "prediction")),
    Border(4, LONG, ["reach", "growth", "limit_den"], within_corners(at_corners.fine_sizes, "corner_slack")),
    Border(8, LONG, ["reach", "growth", "row_den", "cost_den"], within_corners(at_corners.fine_sizes, "corner_cost")),
    # whether exponents may be lowered
    Border(15, SHORT, ["limit_den", "limit_den", "cost_den", "row_den", "den"], within_form(forms.exact_form, 16), [2, 3], [0, 100, 10000, 10**6]),
    Border(15, LONG, ["limit_den", "limit_den", "cost_den", "row_den"], within_form(forms.fine_form, 16), [2, 3], [0, 100, 10000, 10**6]),
]
# the greatest value of what is brought to a border
MOST = {"den": 2**20, "limit_den": 2**20, "cost_den": 2**20, "row_den": 2**20, "grid": 24, "plan_den": 2**40, "growth": 2**31, "reach": 2**63}


def border_design(pick):
    """A design and a policy near a border: of exact numbers, of enclosures, or of the corners in either class. Real numbers are drawn, and then what they are over
    is chosen, or how far the plant or the plans go."""
    (border,) = pick.choices(BORDERS, [border.share for border in BORDERS])
    real, knob = real_design(pick, border.lengths, border.versions), pick.choice(border.knobs)
    power = lambda most: min(2**most, max(1, (1 << pick.randrange(most + 1)) + pick.choice([0, 0, -1, 1])))
    dens = {"den": power(min(20, 56 // real["stages"])) if border.lengths is SHORT else power(pick.choice([6, 16, 20, 20])), "limit_den": power(pick.choice([3, 20, 20])),
            "cost_den": power(pick.choice([3, 12, 20])), "row_den": power(pick.choice([3, 6, 20])), "grid": pick.choice([0, 0, 0, 1, 3, 24]),
            "plan_den": pick.choice([1, 3, 1000, power(40)]), "growth": 1, "reach": 1}
    # each row keeps some slack
    near, plans = read_over(real, {**dens, "den": 2**20})
    starts = [[Fraction(v, 2**near.grid) for v in state] for state in at_corners.states(near)]
    residuals = [near.residuals(x, [Fraction(v, q) for v in u]) for x, (q, u) in zip(starts, plans)]
    slack, rows, stages = pick.choice([-0.1, 0, 2**-16, 2**-15, 0.01, 0.1, 0.1, 0.1, 1, 1, 1, 1, 1, 3, 3]), len(real["rows"]), real["stages"]
    for i, row in enumerate(real["rows"] + real["final_rows"]):
        own = slice(i, rows * stages, rows) if i < rows else slice(rows * (stages - 1) + i, rows * (stages - 1) + i + 1)
        row[-1] = float(max(max(r[own]) for r in residuals)) + slack + pick.choice(border.spare)
    is_within = border.is_within(real, dens)
    low, high = 0, MOST[knob]
    while low < high:
        middle = (low + high + 1) // 2
        low, high = (middle, high) if is_within(*read_over(real, {**dens, knob: middle})) else (low, middle - 1)
    chosen = pick.choice([low, low + 1, low + 1, low + 2, low + pick.randrange(9), 2 * low, 16 * low, pick.randrange(1, MOST[knob])])
    dens[knob] = min(MOST[knob], max(0 if knob == "grid" else 1, chosen))
    return design_text(over(real, dens)), "".join(",".join(map(str, [q, *u])) + "\n" for q, u in plans_over(real, dens)).encode()


def bytes_of(path):
    with open(path, "rb") as file:
        return file.read()


def examples():
    for name in sorted(os.listdir(EXAMPLES)):
        texts = [os.path.join(EXAMPLES, name, file) for file in ("design.toml", "policy.csv")]
        if all(map(os.path.isfile, texts)):
            yield tuple(map(bytes_of, texts))


def size_changed(pick, data):
    """The version or one of the sizes is made another, near the greatest of each version."""
    key, numbers = pick.choice([(b"version", [0, 1, 2, 2, 2, 3, 3, 4]), (b"states", [4, 5, 6, 7]), (b"stages", [20, 21, 30, 31]), (b"inputs", [3, 4])])
    return re.sub(rb"(?m)^" + key + rb" = [0-9]+$", key + b" = %d" % pick.choice(numbers), data)


def example(pick, base):
    """One of the examples, which are of the first version but for the largest; half of the others are made of the second or third, mostly with a step exponent that is 4 more."""
    design, policy = pick.choices(base, [1 if len(policy) < LONG_POLICY else 0.02 for _, policy in base])[0]
    if len(policy) >= LONG_POLICY or pick.random() < 0.5:
        return design, policy
    other = in_version(pick.choice([2, 3]), design)
    return lighter(other, 16) if pick.random() < 0.7 else other, policy


def in_version(version, design):
    return re.sub(rb"(?m)^version = [0-9]+$", b"version = %d" % version, design)


def lighter(design, times):
    """All weights divided by a number."""
    return re.sub(rb"(\[cost\]\nden = )([0-9]+)", lambda it: it[1] + b"%d" % (times * int(it[2])), design)


def design_and_policy(pick, base):
    how = pick.random()
    if how < 0.0005:
        return greatest_design(pick)
    if how < 0.45:
        design, policy = example(pick, base)
    elif how < 0.55:
        design, policy, _ = program.make(pick.randrange(2**32), pick.choice([1, 1, 2]))
        design = in_version(pick.choice(VERSIONS), design)
    elif how < 0.7:
        return large_design(pick)
    else:
        design, policy = random_design(pick)
        if pick.random() < 0.6:
            return design, policy
    if pick.random() < 0.1:
        design = size_changed(pick, design)
    elif pick.random() < 0.65:
        design = changed(pick, design)
    else:
        policy = changed(pick, policy)
    if pick.random() < 0.002:
        design += b"#" * (control.EVERY_FILE + pick.choice([0, 1]) - len(design))
    return design, policy


# ---- references


def best_plan(form, state):
    """The plan of least cost without limits from a state, as floats."""
    size = len(form.q)
    rows = [[2 * v.mid / form.hess_den for v in row] + [-(forms.dot([v.mid for v in of_state], state) + h.mid) / form.hess_den]
            for row, of_state, h in zip(form.q, form.f, form.h0)]
    for j in range(size):
        rows[j] = [v / rows[j][j] for v in rows[j]]
        for i in range(size):
            if i != j:
                rows[i] = [a - rows[i][j] * b for a, b in zip(rows[i], rows[j])]
    return [row[-1] for row in rows]


def best_references(pick, data, policy):
    """The best plans without limits of a design's corners, over any denominators; where none can be found, the policy's own."""
    try:
        d = model.read_design(data)
        form = model.form_of(d)
        plans = [best_plan(form, [Fraction(v, 2**d.grid) for v in state]) for state in at_corners.states(d)]
    except (model.Refused, ArithmeticError):
        return policy
    den = lambda: pick.choice([1, 2, 3, 4, 16, 64, 1000, 65536, 2**40])
    most = 2**63 - 1
    whole = lambda q, plan: [q, *(min(most, max(-most, round(q * v))) for v in plan)]
    return "".join(",".join(map(str, whole(den(), plan))) + "\n" for plan in plans).encode()


def references(pick, design, policy):
    """Reference plans beside a policy: mostly good ones, else the policy itself, far ones, or changed ones."""
    how = pick.random()
    if how < 0.1:
        return policy
    good = best_references(pick, design, policy)
    if how < 0.55:
        return good
    if how < 0.7:
        far = pick.choice([3, 1000, 10**6, 10**12, 10**15])
        return re.sub(rb"(?<=,)-?[0-9]{1,15}", lambda it: b"%d" % (int(it[0]) + pick.randrange(-far, far + 1)), good)
    return changed(pick, pick.choice([good, policy]))


# ---- controllers


def small_controllers(base):
    """Controllers of designs whose targets are so coarse that a run has few steps: of each version, and with other exponents."""
    for design, policy in [*(it for it in base if len(it[1]) < LONG_POLICY), *(program.make(number, stages)[:2] for number, stages in ((1, 1), (7, 2), (9, 1)))]:
        coarse = re.sub(rb"violation = [0-9]+\ngap = [0-9]+", b"violation = 2147483647\ngap = 2147483647", re.sub(rb"(targets\]\nden = )[0-9]+", rb"\g<1>1", design))
        for text in (design, coarse):
            try:
                d = model.read_design(text)
                choice = model.choose(d, model.read_policy(policy, d))
            except model.Refused:
                continue
            if choice.report["steps"] <= 64:
                for version in VERSIONS:
                    d = model.read_design(in_version(version, text))
                    c = program.generate(d, model.read_policy(policy, d), model.exact_gains)[0]
                    yield in_version(version, text), control.text_of(c)
                    if version == 2:
                        c.exps = [max(0, c.s - i % 5) for i in range(c.m)]
                        yield in_version(version, text), control.text_of(c)
                break


def accelerated(pick, text):
    """The text of a controller, or of cells, as one of version 3 of the same numbers: of what can be read with the words and exponents of that, and mostly the width."""
    first, *parts = text.split(b"mpc-controller ")
    return first + b"".join(accelerated_part(pick, b"mpc-controller " + part) for part in parts)


def accelerated_part(pick, text):
    reader = control.Reader(text)
    try:
        c = control.controller_in(reader)
    except model.Refused:
        return re.sub(rb"^mpc-controller [12]\n", b"mpc-controller 3\n", text)
    c.version = 3
    c.w = max(2, min(128, (control.least_width(c) or 128) + pick.choice([0, 0, 0, 0, 1, 9, -1])))
    return control.text_of(c) + b"".join(line + b"\n" for line in reader.lines[reader.at :]) + reader.rest


def random_controller(pick, like=None, versions=VERSIONS):
    """A controller in form whose width is near the least one, of one of these versions. Some have sums near 2^126, some entries of any size that are only ever multiplied by 0. With another
    one that it must be like, its sizes but for the rows, and its grid, are those."""
    version = pick.choice([it for it in versions if like is None or like.n <= model.STATES[it]])
    n, p, stages, m = pick.choice([1, 1, 2, 3, model.STATES[version]]), pick.choice([1, 1, 2, 3]), pick.choice([1, 1, 2, 3]), pick.choice([1, 1, 2, 3, 5, 8])
    g = pick.choice([0, 0, 2, 4, 24])
    if like is not None:
        n, p, stages, g = like.n, like.p, like.stages, like.g
    f, s, nu = pick.choice([g, pick.randrange(g, 49), min(48, g + 6), 48]), pick.choice([0, 0, 1, 2, 7, 40]), p * stages
    room = pick.choice([3, 8, 16, 31, 40, 60, 80])
    number = lambda: pick.randrange(-(1 << pick.randrange(1, room + 1)), (1 << pick.randrange(1, room + 1)) + 1)
    matrix = lambda rows, cols: [[number() for _ in range(cols)] for _ in range(rows)]
    side = pick.choice([0, 1, 5, 1 << g, 2**31 - 1])
    lo = [pick.choice([-side, 0, -pick.randrange(side + 1)]) for _ in range(n)]
    hi = [pick.choice([side, max(low, 0), pick.randrange(low, side + 1)]) for low in lo]
    clamp = pick.choice([0, 1, 1 << f, pick.randrange(1 << room), 1 << min(126, f + s + 5)])
    c = control.Controller(n, p, stages, m, f, g, s, 128, pick.choice([1, 1, 2, 3, 5, 9]), clamp, lo, hi, matrix(nu, n), [number() for _ in range(nu)], matrix(nu, m),
                           matrix(m, nu), matrix(m, n), [number() for _ in range(m)], version, [pick.choice([s, 0, pick.randrange(s + 1)]) for _ in range(m)] if version > 1 else None)
    any_number = lambda: pick.choice([-(2**127), 2**127 - 1, pick.randrange(-(2**127), 2**127)])
    kind = pick.choice(["plain", "plain", "near", "near", "idle"])
    if kind == "idle":
        make_idle(pick, c, any_number)
    if kind == "near":
        bring_near(pick, c)
    greatest = control.greatest_sum(c)
    least = max(2, greatest.bit_length() + 1)
    c.w = min(128, max(2, pick.choice([least, least, least, least, least + 1, least + 9, 128, least - 1])))
    return kind, c


def make_idle(pick, c, any_number):
    """Makes what some entries are multiplied by 0, and those entries any numbers of 128 bits."""
    i = pick.randrange(c.n)
    c.lo[i] = c.hi[i] = 0
    for row in c.p_mat + c.e_mat:
        row[i] = any_number()
    if pick.random() < 0.5:
        c.clamp = 0
        c.w_mat = [[any_number() for _ in row] for row in c.w_mat]
        # with no pull of its own, an input stays 0
        if pick.random() < 0.5:
            j = pick.randrange(c.nu)
            c.p_mat[j] = [any_number() if high == low == 0 else 0 for low, high in zip(c.lo, c.hi)]
            c.t[j] = 0
            for row in c.g_mat:
                row[j] = any_number()


def bring_near(pick, c):
    """Brings a residual's absolute sum to 2^126, or to the next numbers below and above that a change of its bound or of a gain gives."""
    near = pick.choice([2**126, 2**126, 2**126, 2**100, 2**62, 2**63])
    how = pick.randrange(2)
    _, a, _, rows, _, _ = control.absolute_sums(c)
    if how == 0:
        i = pick.randrange(c.m)
        rest = rows[i] - 2**c.f * abs(c.bound[i])
        if rest <= near:
            c.bound[i] = pick.choice([-1, 1]) * ((near - rest) // 2**c.f + pick.choice([-1, 0, 0, 1]))
    else:
        j = pick.randrange(c.nu)
        unit = 2 ** (c.f + c.s)
        rest = a[j] - unit * abs(c.t[j])
        if rest <= near:
            c.t[j] = pick.choice([-1, 1]) * ((near - rest) // unit + pick.choice([-1, 0, 0, 1]))


def state_near(pick, c):
    """A state, most times in the box."""
    how = pick.random()
    if how < 0.4:
        return [pick.choice([low, high]) for low, high in zip(c.lo, c.hi)]
    if how < 0.9:
        return [pick.randrange(low, high + 1) for low, high in zip(c.lo, c.hi)]
    return [pick.choice([low - 1, low, high, high + 1]) for low, high in zip(c.lo, c.hi)]


def states_text(pick, c, most=4):
    """Records of states, most of them in the box."""
    return states_of(pick, [state_near(pick, c) for _ in range(pick.choice([0, 1, 1, 2, 3, most]))])


def states_of(pick, rows):
    """These states as a text, with any ends of lines."""
    end = pick.choice([b"\n", b"\n", b"\n", b"\r\n", b"\n\n"])
    return end.join(",".join(map(str, row)).encode() for row in rows) + pick.choice([end, b""] if rows else [b""])


def design_beside(pick, c):
    """A design of any plant with a controller's sizes and grid, or one of them another."""
    n, p, g = c.n, c.p, c.g
    if pick.random() < 0.15:
        other = n % model.STATES[c.version] + 1
        n, p, g = pick.choice([(other, p, g), (n, p % 3 + 1, g), (n, p, pick.choice([0, 1, 24])), (other, p % 3 + 1, g + 1 if g < 24 else 0)])
    version = 2 if n > 4 and pick.random() < 0.9 else pick.choice([1, 2])
    is_wide = control.greatest_sum(c) > 2**92
    reach = 2**31 - 1 if is_wide and pick.random() < 0.8 else pick.choice([1, 2, 9, 1000, 2**31 - 1])
    some = lambda count: [pick.randrange(-reach, reach + 1) for _ in range(count)]
    v = {"version": version, "n": n, "p": p, "stages": pick.randrange(1, model.STAGES[version] + 1), "den": pick.choice([1, 2, 3, 7, 1000, 1048575, 1048576]), "a": [some(n) for _ in range(n)],
         "b": [some(p) for _ in range(n)], "cost_den": 1, "row_den": 1, "input": [1] * p, "cost": [], "final_cost": [], "limit_den": 1, "rows": [[0] * (n + p) + [1]],
         "final_rows": [], "grid": g, "lo": [0] * n, "hi": [0] * n, "target_den": 1, "violation": 1, "gap": 1}
    return design_text(v)
