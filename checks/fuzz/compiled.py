"""An independent model of the program that `c` writes: the source and the header of a controller, in C99.

All in exact whole numbers, by the definitions of crates/c_program/specs (`Of`, `FastOf`, `InParts`) and crates/c_language/specs (`Needed`, `Text`), and with no code of the program's. An expression is a pair of its text
and of whether it is a sum, which stands in parentheses where it is an operand of a product or the second of a sum.
"""
import re

from .control import absolute_sums
from .forms import ceil_div
from .machines import Accelerated

# the greatest width of a controller whose sums are made at once, and of one whose sums are made in parts; and what its factors are below
MOST_WIDTH, MOST_PARTED_WIDTH = 64, 79
MOST_FACTOR = 2**37
PART = 16


def is_name(word):
    """Whether a program can have this name."""
    return re.fullmatch("[a-z][a-z0-9_]{0,30}", word) is not None


def constant(v):
    return (f"INT64_C({v})" if v >= 0 else f"(-INT64_C({-v}))"), False


def value(name):
    return f"(int64_t){name}", False


def closed(a):
    return f"({a[0]})" if a[1] else a[0]


def plus(a, b):
    return f"{a[0]} + {closed(b)}", True


def minus(a, b):
    return f"{a[0]} - {closed(b)}", True


def times(a, b):
    return f"({closed(a)} * {closed(b)})", False


def divided(a, sign, k):
    return f"({closed(a)} {sign} {constant(k)[0]})", False


def over(a, name):
    return f"({closed(a)} / {value(name)[0]})", False


def shifted(a, k):
    return f"(({a[0]}) >> {k})", False


def shifted_by(a, name):
    return f"(({a[0]}) >> {value(name)[0]})", False


def lowered(name, k):
    """A variable's value over 2^k, rounded down."""
    return shifted(value(name), k) if k else value(name)


class Program:
    """The statements of a controller's program, each with the narrowest type that holds its variable."""

    def __init__(self, c):
        self.c = c
        self.state_tops, _, self.entry_tops, rows, moved, self.sum_tops = absolute_sums(c)
        # what a row's sum comes to beside a multiplier, and this on its way to the next one
        self.row_tops, self.moved_tops = [c.clamp + ceil_div(v, 2**c.f) for v in rows], moved[: c.m]
        self.lowering = [c.s - exponent for exponent in c.exps]
        self.tops = [c.clamp >> k for k in self.lowering]
        self.partners = [next((k for k in range(c.m) if self.are_opposite(k, i)), c.m) for i in range(c.m)]
        self.is_second = [k < i and self.partners[k] == i for i, k in enumerate(self.partners)]
        self.is_first = [i < k < c.m and self.partners[k] == i for i, k in enumerate(self.partners)]
        # the greatest power of two, of at most 2^f, that divides all factors of a row
        self.shared = [max(k for k in range(c.f + 1) if all(factor % (1 << k) == 0 for factor in c.g_mat[i])) for i in range(c.m)]
        # a row whose multiplier moves no plan entry, and a coordinate of the state that moves none of what is left, are left out
        self.rows = [i for i in range(c.m) if self.tops[i] and any(row[i] for row in c.w_mat)]
        of_rows = [c.e_mat[i] for i in self.rows]
        self.coordinates = [k for k in range(c.n) if self.state_tops[k] and any(row[k] for row in c.p_mat + of_rows)]

    def are_opposite(self, k, i):
        c = self.c
        negated = lambda one, two: all(a + b == 0 for a, b in zip(one, two))
        return c.exps[k] == c.exps[i] and negated(c.g_mat[k], c.g_mat[i]) and all(row[k] + row[i] == 0 for row in c.w_mat)

    @staticmethod
    def kind(top):
        return "int32_t" if top < 2**31 else "int64_t"

    @staticmethod
    def with_products(a, factors, tops, names):
        """A sum, and the products of these factors with these variables that aren't always 0."""
        for factor, top, name in zip(factors, tops, names):
            if factor * top:
                a = plus(a, times(constant(factor), value(name)))
        return a

    @staticmethod
    def declared(kind, name, a):
        return f"{kind} {name} = ({kind})({a[0]});"

    @staticmethod
    def assigned(kind, name, a):
        return f"{name} = ({kind})({a[0]});"

    def of_state(self, z, factors):
        return self.with_products(constant(z), factors, self.state_tops, [f"x{k}" for k in range(self.c.n)])

    def base(self, letters, k, z, factors):
        """The statements of what the state adds to a sum, and what it adds to it always."""
        yield self.declared("int64_t", f"{letters[1]}{k}", self.of_state(z, factors))

    def before(self):
        c = self.c
        for k in self.coordinates:
            yield self.declared(self.kind(self.state_tops[k]), f"x{k}", times(constant(1 << (c.f - c.g)), value(f"state[{k}]")))
        for j in range(c.nu):
            yield from self.base(("A", "a"), j, c.t[j] << (c.f + c.s), [a << c.s for a in c.p_mat[j]])
        for i in self.rows:
            yield from self.base(("R", "r"), i, -c.bound[i] << c.f, c.e_mat[i])
        for i in self.rows:
            yield self.declared(self.kind(self.tops[i]), f"l{i}", constant(0))
        for j in range(c.nu):
            yield self.declared(self.kind(self.sum_tops[j]), f"s{j}", constant(0))

    def of_plan(self, a, i):
        return self.with_products(a, [factor >> self.shared[i] for factor in self.c.g_mat[i]], self.entry_tops, [f"u{j}" for j in range(self.c.nu)])

    def row(self, i):
        base = lowered(f"r{i}", self.shared[i])
        if self.is_first[i]:
            return plus(base, value(f"g{i}"))
        return minus(base, value(f"g{self.partners[i]}")) if self.is_second[i] else self.of_plan(base, i)

    def differences(self):
        for i in self.rows:
            if self.is_first[i]:
                yield self.declared(self.kind(self.tops[i]), f"d{i}", minus(value(f"l{i}"), value(f"l{self.partners[i]}")))

    def gain_name(self, i):
        return f"{'d' if self.is_first[i] else 'l'}{i}"

    def of_gains(self, a, j, names):
        gains = [0 if self.is_second[i] else self.c.w_mat[j][i] << self.lowering[i] for i in range(self.c.m)]
        return self.with_products(value(a), gains, self.tops, names)

    def entry(self, j):
        return shifted(self.of_gains(f"a{j}", j, [self.gain_name(i) for i in range(self.c.m)]), min(self.c.f + self.c.s, 63))

    def plan(self):
        for j in range(self.c.nu):
            yield self.declared(self.kind(self.entry_tops[j]), f"u{j}", minus(constant(0), self.entry(j)))

    def weighted(self, a):
        """As often as the step counts."""
        return a

    def sums(self):
        for j in range(self.c.nu):
            yield self.assigned(self.kind(self.sum_tops[j]), f"s{j}", plus(value(f"s{j}"), self.weighted(value(f"u{j}"))))

    def residual(self, i):
        """The statements of a row's sum, and what it is over 2^f."""
        if self.is_first[i]:
            yield self.declared("int64_t", f"g{i}", self.of_plan(constant(0), i))
        yield self.declared(self.kind(self.row_tops[i] << self.c.f - self.shared[i]), f"y{i}", self.row(i))

    def step_of(self, i):
        return lowered(f"y{i}", self.c.f - self.shared[i])

    def moved(self, i, name, most):
        """Those that move the multiplier of this name, which is at most so great."""
        kind, top = self.kind(self.moved_tops[i]), constant(most)
        yield self.declared(kind, f"t{i}", plus(value(name), self.weighted(self.step_of(i))))
        yield f"if (t{i} < 0) {{ t{i} = 0; }}"
        yield f"if (t{i} > {top[0]}) {{ {self.assigned(kind, f't{i}', top)} }}"
        yield self.assigned(self.kind(most), name, value(f"t{i}"))

    def body(self):
        yield from self.differences()
        yield from self.plan()
        yield from self.sums()
        for i in self.rows:
            yield from self.residual(i)
            yield from self.moved(i, f"l{i}", self.tops[i])

    @property
    def counted(self):
        """What the weights of all steps come to."""
        return self.c.total

    def average(self, j):
        steps, total = self.counted, value(f"sums[{j}]")
        if steps & (steps - 1) == 0:
            return shifted(plus(total, constant(steps // 2)), steps.bit_length() - 1)
        rest = times(constant(2), divided(total, "%", steps))
        raised = plus(divided(total, "/", steps), shifted(plus(rest, constant(steps)), 63))
        return minus(raised, shifted(minus(constant(steps - 1), rest), 63))


class AcceleratedProgram(Program):
    """Those of the accelerated machine, whose plan is made at means: these are where the plain machine has its multipliers."""

    def __init__(self, c):
        super().__init__(c)
        self.own_tops = [2 * c.clamp >> k for k in self.lowering]
        self.reached = self.kind(2 * c.clamp * c.total)
        self.divisor = Accelerated.mean_divisor(c.steps)
        # the rows whose means are made by a reciprocal, and of these the ones that take one round
        self.twice_quick, self.quick = ([i for i in self.rows if self.divisor < 2**31 and self.own_tops[i] < 2**most] for most in (56, 30))

    def before(self):
        yield from super().before()
        for i in self.rows:
            yield self.declared(self.kind(self.own_tops[i]), f"m{i}", constant(0))
        for i in self.rows:
            yield self.declared(self.reached, f"v{i}", constant(0))
        yield self.declared("int32_t", "k0", constant(2))
        if self.twice_quick:
            yield self.declared("int32_t", "e0", constant(1))
            yield self.declared("int64_t", "p0", constant(2**33))

    def weighted(self, a):
        return times(value("k0"), a)

    def scale(self):
        """The shift that leaves a divisor two bits, and the divisor's reciprocal."""
        divisor, doubling, shift, power = map(value, ("b0", "c0", "e0", "p0"))
        yield self.declared("int32_t", "c0", plus(constant(1), shifted(minus(times(divisor, constant(2**30)), power), 63)))
        yield self.assigned("int32_t", "e0", plus(shift, doubling))
        yield self.assigned("int64_t", "p0", plus(power, times(doubling, power)))
        yield self.declared("int32_t", "q0", over(minus(power, constant(1)), "b0"))

    def quotient(self, i, name, kind):
        """What is left of a numerator over the divisor, of less than 31 bits, into a variable: by the reciprocal that or one less, and what is left over then tells which."""
        left, divisor = value(f"n{i}"), value("b0")
        yield self.assigned(kind, name, shifted(times(value(f"h{i}"), value("q0")), 32))
        yield self.declared("int32_t", f"z{i}", minus(minus(left, times(value(name), divisor)), divisor))
        yield self.assigned(kind, name, plus(plus(value(name), constant(1)), shifted(value(f"z{i}"), 31)))

    def mean(self, i, numerator):
        kind, head, left = self.kind(self.tops[i]), f"h{i}", value(f"n{i}")
        if i not in self.twice_quick:
            yield self.assigned(kind, f"l{i}", over(numerator, "b0"))
            return
        yield self.declared("int64_t", f"n{i}", numerator)
        if i in self.quick:
            yield self.declared("int32_t", head, shifted_by(left, "e0"))
            yield from self.quotient(i, f"l{i}", kind)
            return
        yield self.declared("int32_t", head, shifted_by(shifted(left, 26), "e0"))
        yield self.assigned(kind, f"l{i}", times(shifted(times(value(head), value("q0")), 32), constant(2**26)))
        yield self.assigned("int64_t", f"n{i}", minus(left, times(value(f"l{i}"), value("b0"))))
        yield self.assigned("int32_t", head, shifted_by(left, "e0"))
        yield from self.quotient(i, head, "int32_t")
        yield self.assigned(kind, f"l{i}", plus(value(f"l{i}"), value(head)))

    def body(self):
        reached = lambda i: plus(value(f"v{i}"), self.weighted(value(f"m{i}")))
        if self.rows:
            yield self.declared(self.kind(self.divisor), "b0", times(minus(value("k0"), constant(1)), plus(value("k0"), constant(2))))
        if self.twice_quick:
            yield from self.scale()
        for i in self.rows:
            yield from self.mean(i, reached(i))
        yield from self.differences()
        yield from self.plan()
        yield from self.sums()
        for i in self.rows:
            yield from self.residual(i)
            yield from self.moved(i, f"m{i}", self.own_tops[i])
            yield self.assigned(self.reached, f"v{i}", reached(i))
        yield self.assigned("int32_t", "k0", plus(value("k0"), constant(1)))


class InParts:
    """What is otherwise in a program whose sums are made in two parts: of the factors without their last 16 bits, and of these."""

    def base(self, letters, k, z, factors):
        low = (1 << PART) - 1
        yield self.declared("int64_t", f"{letters[0]}{k}", self.of_state(z >> PART, [a >> PART for a in factors]))
        yield self.declared("int64_t", f"{letters[1]}{k}", self.of_state(z & low, [a & low for a in factors]))

    def parts(self, whole, letters, k, top):
        high = f"{letters[0]}{k}"
        yield self.declared(self.kind((top >> PART) + 1), high, shifted(value(whole), PART))
        yield self.declared("int32_t", f"{letters[1]}{k}", minus(value(whole), times(constant(1 << PART), value(high))))

    @staticmethod
    def together(high, low, k):
        return shifted(plus(high, shifted(low, PART)), min(k - PART, 63))

    def entry(self, j):
        high, low = (self.of_gains(f"{base}{j}", j, [f"{letter}{i}" for i in range(self.c.m)]) for base, letter in ("AL", "aj"))
        return self.together(high, low, self.c.f + self.c.s)

    def plan(self):
        c = self.c
        for i in self.rows:
            if not self.is_second[i]:
                yield from self.parts(self.gain_name(i), "Lj", i, self.tops[i])
        used = [j for j in range(c.nu) if self.entry_tops[j] and any(c.g_mat[i][j] for i in self.rows)]
        for j, line in enumerate(super().plan()):
            yield line
            if j in used:
                yield from self.parts(f"u{j}", "Uw", j, self.entry_tops[j])

    def of_part(self, a, i, letter):
        return self.with_products(a, self.c.g_mat[i], self.entry_tops, [f"{letter}{j}" for j in range(self.c.nu)])

    def row_part(self, i, base, gradient, letter):
        a = value(f"{base}{i}")
        if self.is_first[i]:
            return plus(a, value(f"{gradient}{i}"))
        return minus(a, value(f"{gradient}{self.partners[i]}")) if self.is_second[i] else self.of_part(a, i, letter)

    def residual(self, i):
        if self.is_first[i]:
            for gradient, letter in ("GU", "gw"):
                yield self.declared("int64_t", f"{gradient}{i}", self.of_part(constant(0), i, letter))
        yield self.declared(self.kind(self.row_tops[i]), f"y{i}", self.together(self.row_part(i, *"RGU"), self.row_part(i, *"rgw"), self.c.f))

    def step_of(self, i):
        return value(f"y{i}")


class PartedProgram(InParts, Program):
    """A program of the plain machine in parts."""


class PartedAcceleratedProgram(InParts, AcceleratedProgram):
    """One of the accelerated machine."""


def has_parts(c):
    """Whether each part of each sum fits 64 bits, as each variable does."""
    states, _, entries, rows, moved, sums = absolute_sums(c)
    factors = [abs(a) << c.s - exponent for row in c.w_mat for a, exponent in zip(row, c.exps)] + [abs(a) for row in c.g_mat for a in row]
    return c.w <= MOST_PARTED_WIDTH and c.f >= PART and max(states + factors) < MOST_FACTOR and max(moved + sums) < 2**63


def is_written(c):
    return c.w <= MOST_WIDTH or has_parts(c)


def program_of(c):
    plain, accelerated = (Program, AcceleratedProgram) if c.w <= MOST_WIDTH else (PartedProgram, PartedAcceleratedProgram)
    return accelerated(c) if c.version == 3 else plain(c)


def heads(name, c):
    return (
        f"int {name}_solve(const int32_t state[{c.n}], int64_t sums[{c.nu}])",
        f"void {name}_first_inputs(const int64_t sums[{c.nu}], int64_t inputs[{c.p}])",
    )


def refusal(i, low, high):
    """The line that refuses number i of the state outside the box; with the greatest number of 32 bits it is not compared."""
    above = "" if high == 2**31 - 1 else f" || state[{i}] > {constant(high)[0]}"
    return f"    if (state[{i}] < {constant(low)[0]}{above}) {{ return {i + 1}; }}"


def source_lines(name, c):
    program, (solve, first_inputs) = program_of(c), heads(name, c)
    yield from (f'#include "{name}.h"', "", f"typedef char {name}_shifts_round_down[((-INT64_C(3)) >> 1) == (-INT64_C(2)) ? 1 : -1];", "", solve, "{")
    yield from map(refusal, range(c.n), c.lo, c.hi)
    yield from (f"    {line}" for line in program.before())
    yield f"    for (int32_t step = 0; step < {c.steps}; step++) {{"
    yield from (f"        {line}" for line in program.body())
    yield "    }"
    yield from (f"    sums[{j}] = (int64_t)s{j};" for j in range(c.nu))
    yield from ("    return 0;", "}", "", first_inputs, "{")
    yield from (f"    inputs[{j}] = {program.average(j)[0]};" for j in range(c.p))
    yield "}"


def header_lines(name, c):
    solve, first_inputs = heads(name, c)
    yield from (f"#ifndef {name}_H", f"#define {name}_H", "", "#include <stdint.h>", "")
    sizes = {"STATES": c.n, "INPUTS": c.p, "STAGES": c.stages, "STEPS": c.steps, "BITS": c.f, "GRID": c.g}
    yield from (f"#define {name}_{word} {number}" for word, number in sizes.items())
    yield from ("", "#ifdef __cplusplus", 'extern "C" {', "#endif", "")
    yield "/* From a state over 2^GRID: 0, and the numerators of the averaged plan, as solve prints them; or the first number, from 1, outside the box, and nothing is written. */"
    yield from (solve + ";", "", "/* From these sums: the averaged first inputs over 2^BITS, to the nearest, ties upward. */", first_inputs + ";")
    yield from ("", "#ifdef __cplusplus", "}", "#endif", "", "#endif")


def text(lines):
    return "".join(line + "\n" for line in lines).encode()


def texts_of(name, c):
    """The source and the header."""
    return text(source_lines(name, c)), text(header_lines(name, c))
