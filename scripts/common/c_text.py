"""The C99 of a controller: a header and a source of nothing but <stdint.h>, with no heap and no float, its tables constant and one struct of what changes."""
import re

from .c_words import LONG, NARROW, PARTS, TOP31, TOP63, WIDE
from .libraries import Refusal

WIDTH = 118
CHUNK = 8

TWO_WORDS = """
/* Two words: the number high * 2^64 + low in two's complement, of 128 bits. */
static NAME_wide NAME_of(int64_t value)
{
    NAME_wide r;
    r.low = (uint64_t)value;
    r.high = (value < 0) ? UINT64_MAX : 0u;
    return r;
}

static NAME_wide NAME_add(NAME_wide a, NAME_wide b)
{
    NAME_wide r;
    r.low = a.low + b.low;
    r.high = a.high + b.high + ((r.low < a.low) ? 1u : 0u);
    return r;
}

static NAME_wide NAME_negative(NAME_wide a)
{
    NAME_wide r;
    r.low = ~a.low + 1u;
    r.high = ~a.high + ((r.low == 0u) ? 1u : 0u);
    return r;
}

/* Modulo 2^128: exact, as every product of a controller fits. */
static NAME_wide NAME_times(NAME_wide a, NAME_wide b)
{
    const uint64_t half = UINT64_C(0xffffffff);
    const uint64_t low = (a.low & half) * (b.low & half);
    const uint64_t left = (a.low >> 32) * (b.low & half);
    const uint64_t right = (a.low & half) * (b.low >> 32);
    const uint64_t middle = (low >> 32) + (left & half) + (right & half);
    NAME_wide r;
    r.low = (middle << 32) | (low & half);
    r.high = ((a.low >> 32) * (b.low >> 32)) + (left >> 32) + (right >> 32) + (middle >> 32) + (a.low * b.high) + (a.high * b.low);
    return r;
}

/* Times 2^k, k below 128. */
static NAME_wide NAME_raised(NAME_wide a, unsigned k)
{
    NAME_wide r = a;
    if (k >= 64u) {
        r.high = a.low << (k - 64u);
        r.low = 0u;
    } else if (k > 0u) {
        r.high = (a.high << k) | (a.low >> (64u - k));
        r.low = a.low << k;
    } else {
        /* as it is */
    }
    return r;
}

/* The floor of it over 2^k, k below 128. */
static NAME_wide NAME_floor(NAME_wide a, unsigned k)
{
    const uint64_t sign = ((a.high >> 63) != 0u) ? UINT64_MAX : 0u;
    NAME_wide r = a;
    if (k > 64u) {
        r.low = (a.high >> (k - 64u)) | (sign << (128u - k));
        r.high = sign;
    } else if (k == 64u) {
        r.low = a.high;
        r.high = sign;
    } else if (k > 0u) {
        r.low = (a.low >> k) | (a.high << (64u - k));
        r.high = (a.high >> k) | (sign << (64u - k));
    } else {
        /* as it is */
    }
    return r;
}

static int NAME_less(NAME_wide a, NAME_wide b)
{
    const uint64_t flip = UINT64_C(1) << 63;
    return ((a.high ^ flip) < (b.high ^ flip)) || ((a.high == b.high) && (a.low < b.low));
}
"""

SOLVE = """
int NAME_solve(NAME_work *work, const int32_t state[NAME_STATES], NAME_sum sums[NAME_ENTRIES])
{
    int outside = 0;
    int i;
    for (i = NAME_STATES; i > 0; i--) {
        if ((state[i - 1] < NAME_box_low[i - 1]) || (state[i - 1] > NAME_box_high[i - 1])) {
            outside = i;
        }
    }
    if (outside == 0) {
        uint32_t t;
        NAME_start(work, state, sums);
        for (t = 0; t < (uint32_t)NAME_STEPS; t++) {
            NAME_step(work, sums);
        }
    }
    return outside;
}
"""

FIRST_INPUTS = """
void NAME_first_inputs(const NAME_sum sums[NAME_ENTRIES], int64_t inputs[NAME_INPUTS])
{
    int i;
    for (i = 0; i < NAME_INPUTS; i++) {
        const int64_t whole = sums[i] / NAME_STEPS;
        const int64_t rest = sums[i] % NAME_STEPS;
        int64_t more = 0;
        if ((rest > 0) && ((2 * rest) >= NAME_STEPS)) {
            more = 1;
        }
        if ((rest < 0) && ((-2 * rest) > NAME_STEPS)) {
            more = -1;
        }
        inputs[i] = whole + more;
    }
}
"""


def literal(value, width):
    return f"INT64_C({value})" if width > 32 else str(value)


def power(exponent, width=64):
    """2^exponent as a constant: no signed number is shifted left."""
    return literal(2**exponent, width)


def table_width(numbers):
    """The bits of the narrowest type for these numbers, of which no one needs its least."""
    greatest = max((abs(v) for v in numbers), default=0)
    for width in (8, 16, 32, 64):
        if greatest < 2 ** (width - 1):
            return width
    raise Refusal(f"a coefficient of {greatest.bit_length()} bits and a sign: the C has coefficients of up to 63")


def filled(words):
    """Lines of these words, each line as long as it may be."""
    lines, line = [], "   "
    for word in words:
        if len(line) + 1 + len(word) > WIDTH:
            lines.append(line)
            line = "   "
        line += " " + word
    return [*lines, line]


class CText:
    """The two texts of a form of a controller, under a name."""

    def __init__(self, name, form):
        self.name, self.form, self.controller = name, form, form.controller
        # what the source has: (name, bits of an element, rows of numbers), which a test may go through
        self.tables = []
        spans = form.spans()
        self.packed = [row[first:last] for row, (first, last) in zip(form.plan_rows, spans)]
        self.spans = spans
        self.state_rows = any(form.state_rows[i][k] for i in form.rows + form.seconds for k in range(self.controller.states))
        self.plan_parts = form.row_sums.tier == PARTS and form.row_sums.variable_parts == 2
        self.multiplier_parts = bool(form.rows) and form.entry_sums.tier == PARTS and form.entry_sums.variable_parts == 2
        self.tops = [form.tops[i] for i in form.rows]

    def named(self, text):
        return text.replace("NAME", self.name)

    # ---- types

    @property
    def multiplier_type(self):
        return "NAME_wide" if self.form.is_wide else "int32_t" if self.form.top <= TOP31 else "int64_t"

    @property
    def plan_type(self):
        return "NAME_wide" if self.form.is_wide else "int32_t" if max(self.form.plan) <= TOP31 else "int64_t"

    @property
    def moved_type(self):
        """That of a multiplier before it is clamped."""
        return "NAME_wide" if self.form.is_wide else "int32_t" if self.form.moved <= TOP31 else "int64_t"

    @property
    def has_wide(self):
        form = self.form
        return form.is_wide or WIDE in (form.entry_sums.tier, form.row_sums.tier) or form.wide_entry_bases or form.wide_row_bases

    # ---- the header

    def header(self, notes):
        c = self.controller
        comment = "/* " + "\n".join(notes).replace("\n", "\n * ").replace(" * \n", " *\n") + "\n */\n"
        guard = f"{self.name.upper()}_H"
        sizes = [("STATES", c.states), ("INPUTS", c.inputs), ("STAGES", c.stages), ("ENTRIES", c.entries), ("STEPS", c.steps), ("BITS", c.bits), ("GRID", c.grid)]
        text = f"#ifndef {guard}\n#define {guard}\n\n#include <stdint.h>\n\n" + "".join(f"#define NAME_{word} {number}\n" for word, number in sizes) + "\n"
        if self.has_wide:
            text += "/* high * 2^64 + low, in two's complement */\ntypedef struct {\n    uint64_t low;\n    uint64_t high;\n} NAME_wide;\n\n"
        text += f"typedef {'NAME_wide' if self.form.is_wide else 'int64_t'} NAME_sum;\n\n"
        text += "/* What changes in a run, and needs no preparation. */\ntypedef struct {\n" + "".join(f"    {line}\n" for line in self.members()) + "} NAME_work;\n\n"
        text += "/* 0, and the sums of the STEPS plans; or the first coordinate, from 1, that lies outside the box, and nothing is written. */\n"
        text += "int NAME_solve(NAME_work *work, const int32_t state[NAME_STATES], NAME_sum sums[NAME_ENTRIES]);\n\n"
        if not self.form.is_wide:
            text += "/* The averaged first inputs over 2^BITS, to the nearest, ties upward: within 2^-(BITS+1) of the exact average. */\n"
            text += "void NAME_first_inputs(const NAME_sum sums[NAME_ENTRIES], int64_t inputs[NAME_INPUTS]);\n\n"
        return comment + self.named(text + "#endif\n")

    def members(self):
        """The members of the struct with their comments."""
        return [f"{kind} {name}[{count}];" + (f" /* {comment} */" if comment else "") for name, kind, count, comment in self.fields()]

    def fields(self):
        """Name, type, length and meaning of each member of the struct."""
        form, c = self.form, self.controller
        rows, of = len(form.rows), "the multipliers, of a pair of rows their difference"
        if self.multiplier_parts:
            yield from (("multipliers_low", "int32_t", rows, of + ", the low part"), ("multipliers_high", "int32_t", rows, "and the high part"))
        elif rows:
            yield "multipliers", self.multiplier_type, rows, of
        if form.seconds:
            yield "seconds", self.multiplier_type, len(form.seconds), "the multipliers of the second rows of pairs"
        if self.plan_parts:
            yield from (("plan_low", "int32_t", c.entries, "the plan, the low part"), ("plan_high", "int32_t", c.entries, "and the high part"))
        else:
            yield "plan", self.plan_type, c.entries, "the plan"
        bases = [("entry_base", form.entry_sums, c.entries, "the state's part of each entry's sum"), ("row_base", form.row_sums, len(form.rows), "of each row's sum")]
        for name, sums, count, comment in [*bases, ("second_base", form.row_sums, len(form.seconds), "of each second row's sum")]:
            if count and sums.tier == PARTS:
                yield from ((name + "_low", "int32_t", count, comment + ", the low part"), (name + "_high", "int64_t", count, "and the high part"))
            elif count:
                yield name, "NAME_wide" if sums.tier == WIDE else "int64_t", count, comment

    # ---- the source

    def source(self):
        """Tables, the start of a run, a step, and the two functions."""
        self.tables = []
        tables = self.box_tables() + self.state_tables() + self.row_tables()
        start, step = self.start(), self.step()
        parts = [f'/* Written by `./mpc c`, and not by hand: see {self.name}.h. */\n#include "{self.name}.h"\n', *self.assumptions(), "", *tables]
        if self.has_wide:
            parts.append(self.helpers("\n".join([*tables, start, step])))
        parts += ["", start, "", step, SOLVE.rstrip("\n")]
        if not self.form.is_wide:
            parts.append(FIRST_INPUTS.rstrip("\n"))
        return self.named("\n".join(parts) + "\n")

    def assumptions(self):
        """What the source takes for granted, as arrays that have a negative length where it doesn't hold."""
        form = self.form
        sure = [("floor32", "((int32_t)-3 >> 1) == -2", ">> of a negative number is a floor"), ("floor", "((int64_t)-3 >> 1) == -2", "")]
        sure += [("wraps", "(int64_t)UINT64_MAX == -1", "conversions are two's complement"), ("parts", "((int64_t)-3 & 7) == 5", "and so is &")]
        if not form.is_wide:
            limits = {"int32_t": "INT32_MAX", "int64_t": "INT64_MAX"}
            sure += [("multipliers", f"INT64_C({form.top}) <= {limits[self.multiplier_type]}", "the clamp fits a multiplier")]
            sure += [("moved", f"INT64_C({form.moved}) <= {limits[self.moved_type]}", "and a multiplier its type before it is clamped")]
            sure += [("plan", f"INT64_C({max(form.plan)}) <= {limits[self.plan_type]}", "an entry of a plan fits")]
            sure += [("sums", f"INT64_C({max(form.plan)}) <= (INT64_MAX / NAME_STEPS)", "and the sum of all plans")]
            sure += [("state", f"INT64_C({max(form.reach)}) <= {'INT32_MAX' if max(form.reach) <= TOP31 else 'INT64_MAX'}", "a state over 2^BITS fits")]
        for word, sums in (("entry", form.entry_sums), ("row", form.row_sums)):
            if sums.tier in (NARROW, LONG):
                sure += [(f"{word}_sum", f"UINT64_C({sums.greatest}) <= (uint64_t)INT64_MAX", f"the sum of {'an entry' if word == 'entry' else 'a row'} fits in any order")]
        lines = ["/* Each of these types has the length 1, or the file doesn't compile. */"]
        return lines + [f"typedef char NAME_sure_{word}[({holds}) ? 1 : -1];" + (f" /* {why} */" if why else "") for word, holds, why in sure]

    def table(self, name, rows, comment="", width=None, count=None):
        """A table with a type that its length is what the loops run over."""
        flat = [v for row in rows for v in row]
        width = width or table_width(flat)
        self.tables.append((name, width, flat))
        lines = [line for row in rows if row for line in filled([literal(v, width) + "," for v in row])]
        told = f" /* {comment} */" if comment else ""
        return "\n".join([f"static const int{width}_t NAME_{name}[] = {{{told}", *lines, "};", self.length_check(name, count or str(len(flat)))])

    def length_check(self, name, count):
        return f"typedef char NAME_sure_{name}[(sizeof NAME_{name} == ({count}) * sizeof NAME_{name}[0]) ? 1 : -1];"

    def box_tables(self):
        c = self.controller
        return [self.table("box_low", [c.lo], "the box", 32, "NAME_STATES"), self.table("box_high", [c.hi], "", 32, "NAME_STATES")]

    def state_tables(self):
        form, c = self.form, self.controller
        tables = [self.table("state_gains", form.state_gains, "P", None, "NAME_ENTRIES * NAME_STATES"), self.table("offsets", [c.T], "T", None, "NAME_ENTRIES")]
        for word, rows in (("", form.rows), ("second_", form.seconds)):
            if rows and self.state_rows:
                tables.append(self.table(word + "state_rows", [form.state_rows[i] for i in rows], "E", None, f"{len(rows)} * NAME_STATES"))
            if rows:
                tables.append(self.table(word + "bounds", [[c.b[i] for i in rows]], "b"))
        return tables

    def row_tables(self):
        form = self.form
        if not form.rows:
            return []
        tables = self.top_tables()
        tables += self.coefficients("gains", form.gains, form.entry_sums, f"NAME_ENTRIES * {len(form.rows)}", "W")
        tables += self.coefficients("plan_rows", self.packed, form.row_sums, str(sum(map(len, self.packed))), "G, from the first entry that counts to the last")
        if len(set(self.spans)) > 1:
            tables.append(self.table("first_entry", [[first for first, _ in self.spans]], "", 16))
            if self.row_length() is None:
                tables.append(self.table("entry_count", [[last - first for first, last in self.spans]], "", 16))
        return tables

    def top_tables(self):
        """The clamps, where they aren't one number of 63 bits."""
        if self.form.is_wide:
            halves = [(v & (2**64 - 1), v >> 64) for v in self.tops]
            lines = [f"    {{ UINT64_C({low}), UINT64_C({high}) }}," for low, high in halves]
            self.tables.append(("tops", 128, self.tops))
            return ["\n".join(["static const NAME_wide NAME_tops[] = { /* the clamps */", *lines, "};", self.length_check("tops", str(len(lines)))])]
        return [self.table("tops", [self.tops], "the clamps")] if len(set(self.tops)) > 1 else []

    def coefficients(self, name, rows, sums, count, comment):
        """A table of coefficients, or two of their parts."""
        if sums.coefficient_parts == 1:
            return [self.table(name, rows, comment, None, count)]
        low, high = [[v & (2**sums.cut - 1) for v in row] for row in rows], [[v >> sums.cut for v in row] for row in rows]
        return [self.table(name + "_low", low, comment + ", the low part", 32, count), self.table(name + "_high", high, "and the high part", None, count)]

    def row_length(self):
        """How many entries each row counts, where all count as many."""
        lengths = {last - first for first, last in self.spans}
        return lengths.pop() if len(lengths) == 1 else None

    def helpers(self, text):
        """The functions of two words that the text calls; none of them calls another."""
        functions = re.findall(r"(?:/\*[^\n]*\*/\n)?static .*?\n}\n", TWO_WORDS, re.S)
        names = [re.search(r"(NAME_\w+)\(", body)[1] for body in functions]
        used = {i for i, name in enumerate(names) if name + "(" in text}
        return "\n" + "\n".join(functions[i] for i in sorted(used)).rstrip("\n")

    # ---- the start of a run

    def start(self):
        form = self.form
        self.wide_state = max(form.reach) > TOP63
        shift = self.controller.bits - self.controller.grid
        # the power itself needs room, too, where every state is 0
        kind = "NAME_wide" if self.wide_state else "int64_t" if max(*form.reach, 2**shift) > TOP31 else "int32_t"
        loaded = f"NAME_raised(NAME_of(state[k]), {shift}u)" if self.wide_state else f"({kind})state[k] * {power(shift, 64 if kind == 'int64_t' else 32)}"
        lines = ["static void NAME_start(NAME_work *work, const int32_t state[NAME_STATES], NAME_sum sums[NAME_ENTRIES])", "{"]
        lines += [f"    {kind} x[NAME_STATES];", "    int i;", "    int k;", "    for (k = 0; k < NAME_STATES; k++) {", f"        x[k] = {loaded};", "    }"]
        zero = "NAME_of(0)" if form.is_wide else "0"
        lines += ["    for (i = 0; i < NAME_ENTRIES; i++) {", *self.base("entry_base", "state_gains", "NAME_offsets[i]", form.wide_entry_bases, form.entry_sums)]
        lines += [f"        sums[i] = {zero};", "    }"]
        for word, count in (("", len(form.rows)), ("second_", len(form.seconds))):
            if count:
                base = self.base("second_base" if word else "row_base", word + "state_rows", f"-(int64_t)NAME_{word}bounds[i]", form.wide_row_bases, form.row_sums)
                lines += [f"    for (i = 0; i < {count}; i++) {{", *base, *self.at_zero(word, zero), "    }"]
        return "\n".join([*lines, "}"])

    def at_zero(self, word, zero):
        """A multiplier's 0."""
        if not word and self.multiplier_parts:
            return ["        work->multipliers_low[i] = 0;", "        work->multipliers_high[i] = 0;"]
        return [f"        work->{'seconds' if word else 'multipliers'}[i] = {zero};"]

    def base(self, member, table, offset, is_wide, sums):
        """The part of a sum that the state and the offset make: the same in each step."""
        c = self.controller
        is_wide = is_wide or self.form.is_wide
        has_state = member == "entry_base" or self.state_rows
        raised = c.step if member == "entry_base" else 0
        factor = f"NAME_{table}[(i * NAME_STATES) + k]"
        if is_wide:
            one = "x[k]" if self.wide_state else "NAME_of(x[k])"
            lines = [f"        NAME_wide sum = NAME_raised(NAME_of({offset}), {c.bits}u);"]
            added = f"sum = NAME_add(sum, NAME_times(NAME_of({factor}), {one}));"
            after = [f"        sum = NAME_raised(sum, {raised}u);"] if raised else []
        else:
            lines = [f"        int64_t sum = {offset if offset.startswith('-') else '(int64_t)' + offset} * {power(c.bits)};"]
            added = f"sum += (int64_t){factor} * x[k];"
            after = [f"        sum *= {power(raised)};"] if raised else []
        if has_state:
            lines += ["        for (k = 0; k < NAME_STATES; k++) {", f"            {added}", "        }"]
        return lines + after + self.stored_base(member, is_wide, sums)

    def stored_base(self, member, is_wide, sums):
        if sums.tier == PARTS:
            mask = 2**sums.cut - 1
            low, high = (f"sum.low & {mask}u", f"(int64_t)NAME_floor(sum, {sums.cut}u).low") if is_wide else (f"sum & {mask}", f"sum >> {sums.cut}")
            return [f"        work->{member}_low[i] = (int32_t)({low});", f"        work->{member}_high[i] = {high};"]
        return [f"        work->{member}[i] = {'NAME_of(sum)' if sums.tier == WIDE and not is_wide else 'sum'};"]

    # ---- a step

    def step(self):
        form = self.form
        self.has_loop = False
        body = self.plan_lines()
        body += self.row_lines(0, len(form.seconds), True) + self.row_lines(len(form.seconds), len(form.rows), False)
        lines = ["static void NAME_step(NAME_work *work, NAME_sum sums[NAME_ENTRIES])", "{", "    int i;"] + (["    int k;"] if self.has_loop else [])
        if form.rows:
            lines += self.pointers("gain", "gains", form.entry_sums) + self.pointers("row", "plan_rows", form.row_sums)
        return "\n".join([*lines, *body, "}"])

    def parts_of(self, sums):
        return ["_low", "_high"] if sums.coefficient_parts == 2 else [""]

    def pointers(self, word, table, sums):
        widths = {name: width for name, width, _ in self.tables}
        return [f"    const int{widths[table + part]}_t *{word}{part} = NAME_{table}{part};" for part in self.parts_of(sums)]

    def moved_on(self, word, sums, by):
        return [f"        {word}{part} += {by};" for part in self.parts_of(sums)]

    def sum_words(self, sums, first="0", second="0"):
        """The words that a sum is added up in, and what they begin with."""
        if sums.tier == PARTS:
            third = ["        int64_t sum2 = 0;"] if sums.coefficient_parts + sums.variable_parts == 4 else []
            return [f"        int64_t sum0 = {first};", f"        int64_t sum1 = {second};", *third]
        return [f"        {'NAME_wide' if sums.tier == WIDE else 'int64_t'} sum = {first};"]

    def plan_lines(self):
        """Each entry of the plan, and the sum of all plans."""
        form, sums = self.form, self.form.entry_sums
        begins = ("work->entry_base_low[i]", "work->entry_base_high[i]") if sums.tier == PARTS else ("work->entry_base[i]",)
        lines = ["    for (i = 0; i < NAME_ENTRIES; i++) {", *self.sum_words(sums, *begins), f"        {self.plan_type} entry;"]
        if form.rows:
            lines += self.products(sums, "gain", "multipliers", len(form.rows), None) + self.moved_on("gain", sums, len(form.rows))
        floor = self.floor(sums, self.controller.bits + self.controller.step, "sum" if sums.tier != PARTS else ("sum0", "sum1", "sum2"))
        if form.is_wide:
            lines += [f"        entry = NAME_negative({floor});"]
        elif sums.tier == WIDE:
            lines += [f"        entry = -{'(int32_t)' if self.plan_type == 'int32_t' else ''}(int64_t){floor}.low;"]
        else:
            lines += [f"        entry = -{'(int32_t)' if self.plan_type == 'int32_t' else ''}{floor};"]
        lines += self.stored("plan", "entry", form.row_sums, self.plan_parts, "")
        return lines + ["        sums[i] = NAME_add(sums[i], entry);" if form.is_wide else "        sums[i] += entry;", "    }"]

    def stored(self, member, value, sums, in_parts, cast):
        """A value into a member, in parts where that has two."""
        if in_parts:
            low, high = f"{value} & {2**sums.cut - 1}", f"{value} >> {sums.cut}"
            return [f"        work->{member}_low[i] = (int32_t)({low});", f"        work->{member}_high[i] = (int32_t)({high});"]
        return [f"        work->{member}[i] = {cast}{value};"]

    def row_lines(self, first, last, is_pair):
        """Each multiplier moved by its row's residual at the new plan: of pairs both."""
        if first == last:
            return []
        form, sums = self.form, self.form.row_sums
        length, zero = self.row_length(), "NAME_of(0)" if sums.tier == WIDE else "0"
        count = str(length) if length is not None else "NAME_entry_count[i]"
        begins = "NAME_first_entry[i]" if len(set(self.spans)) > 1 else self.spans[0][0]
        lines = [f"    for (i = {first}; i < {last}; i++) {{", *self.sum_words(sums, zero, zero)]
        lines += [f"        {self.moved_type} moved;"] + ([f"        {self.moved_type} second;"] if is_pair else [])
        lines += self.products(sums, "row", "plan", length if length is not None else count, begins) + self.moved_on("row", sums, count)
        if self.multiplier_parts:
            lines += [f"        moved = ((int64_t)work->multipliers_high[i] * {power(form.entry_sums.cut)}) + work->multipliers_low[i];"]
        else:
            lines += ["        moved = work->multipliers[i];"]
        cast = "(int32_t)" if self.multiplier_type == "int32_t" and self.moved_type == "int64_t" else ""
        if is_pair:
            lines += ["        moved = NAME_add(moved, work->seconds[i]);" if form.is_wide else "        moved += work->seconds[i];"]
        lines += self.moved("moved", "row_base", "+")
        if is_pair:
            lines += ["        second = work->seconds[i];", *self.moved("second", "second_base", "-"), f"        work->seconds[i] = {cast}second;"]
            lines += ["        moved = NAME_add(moved, NAME_negative(second));" if form.is_wide else "        moved -= second;"]
        return lines + self.stored("multipliers", "moved", form.entry_sums, self.multiplier_parts, cast) + ["    }"]

    def moved(self, value, base, sign):
        """A multiplier moved by the floor of its row's sum, and clamped."""
        form, sums, bits = self.form, self.form.row_sums, self.controller.bits
        cast = "(int32_t)" if self.moved_type == "int32_t" else ""
        if sums.tier == PARTS:
            floor = self.floor(sums, bits, (f"(work->{base}_low[i] {sign} sum0)", f"(work->{base}_high[i] {sign} sum1)", "sum2" if sign == "+" else "(-sum2)"))
        elif sums.tier == WIDE:
            floor = self.floor(sums, bits, f"NAME_add(work->{base}[i], {'sum' if sign == '+' else 'NAME_negative(sum)'})")
        else:
            floor = self.floor(sums, bits, f"(work->{base}[i] {sign} sum)")
        if form.is_wide:
            lines = [f"        {value} = NAME_add({value}, {floor});", f"        if (NAME_less({value}, NAME_of(0))) {{", f"            {value} = NAME_of(0);", "        }"]
            return lines + [f"        if (NAME_less(NAME_tops[i], {value})) {{", f"            {value} = NAME_tops[i];", "        }"]
        top = "NAME_tops[i]" if len(set(self.tops)) > 1 else literal(self.tops[0], 32 if self.moved_type == "int32_t" else 64)
        lines = [f"        {value} += {cast}{f'(int64_t){floor}.low' if sums.tier == WIDE else floor};", f"        if ({value} < 0) {{", f"            {value} = 0;", "        }"]
        return lines + [f"        if ({value} > {top}) {{", f"            {value} = {top};", "        }"]

    def products(self, sums, word, member, count, first):
        """The products of one sum. `count` is a number, or how many in C; `first` the first entry that a row counts, or None for all multipliers."""
        if not isinstance(count, int) or sums.tier == WIDE:
            self.has_loop = True
            return [f"        for (k = 0; k < {count}; k++) {{", *[f"            {line}" for line in self.term(sums, word, member, "k", first)], "        }"]
        if count <= 2 * CHUNK:
            return [f"        {line}" for k in range(count) for line in self.term(sums, word, member, k, first)]
        self.has_loop = True
        whole = count - count % CHUNK
        lines = [f"        for (k = 0; k < {whole}; k += {CHUNK}) {{"]
        lines += [f"            {line}" for k in range(CHUNK) for line in self.term(sums, word, member, f"k + {k}" if k else "k", first)] + ["        }"]
        return lines + [f"        {line}" for k in range(whole, count) for line in self.term(sums, word, member, k, first)]

    def term(self, sums, word, member, k, first):
        """One product, in all its parts."""
        if isinstance(first, str):
            at = first if k == 0 else f"{first} + {k}"
        else:
            at = str(k + first) if isinstance(k, int) and first is not None else f"{k} + {first}" if first else str(k)
        if sums.tier in (NARROW, LONG):
            return [f"sum += (int64_t){word}[{k}] * work->{member}[{at}];"]
        if sums.tier == WIDE:
            value = f"work->{member}[{at}]"
            return [f"sum = NAME_add(sum, NAME_times(NAME_of({word}[{k}]), {value if self.form.is_wide else f'NAME_of({value})'}));"]
        lines = []
        for i, coefficient in enumerate(self.parts_of(sums)):
            for j, variable in enumerate(["_low", "_high"] if sums.variable_parts == 2 else [""]):
                lines.append(f"sum{i + j} += (int64_t){word}{coefficient}[{k}] * work->{member}{variable}[{at}];")
        return lines

    def floor(self, sums, shift, of):
        """The floor of a sum over 2^shift."""
        if sums.tier in (NARROW, LONG):
            return f"({of} >> {min(shift, 63)})"
        if sums.tier == WIDE:
            return f"NAME_floor({of}, {shift}u)"
        cut, (low, middle, high) = sums.cut, of
        carried = f"({middle} + ({low} >> {cut}))"
        if sums.coefficient_parts + sums.variable_parts == 3:
            return f"({carried} >> {min(shift - cut, 63)})" if shift > cut else carried
        if shift >= 2 * cut:
            return f"(({high} + ({carried} >> {cut})) >> {min(shift - 2 * cut, 63)})"
        return f"(({carried} >> {shift - cut}) + ({high} * {power(2 * cut - shift)}))"
