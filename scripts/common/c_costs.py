"""What a run of the C of a controller costs on a Cortex-M4: cycles, flash and RAM. Where `c` writes it that is the straight C of `straight_costs`; else C with tables, by its sizes and by the words that it takes.

RAM is exact, and so are the tables in flash. Cycles and the bytes of the code are sums of shares that were fitted to what `bench/target/costs.py` measured of controllers of many
sizes (gcc 12 -O2, cycles by the processor's table without wait states). That script says how near they come: cycles within 16 %, mostly 8, where there are two words a third; flash within a quarter.
"""
from dataclasses import replace

from .c_text import CHUNK, CText
from .c_words import LONG, NARROW, PARTS, WIDE, Form
from .design_text import plain
from .libraries import Refusal
from .machines import accelerated_steps, is_accelerated
from .straight_costs import HELD, MOST_WIDTH, STEP, AcceleratedCosts, StraightCosts, is_written

# cycles of a step for each product of the plan's entries, and for each entry
ENTRIES = {NARROW: (3.9, 16), "two": (3.4, 30), "four": (2.9, 44), LONG: (14, 20), WIDE: (55, 190)}
# for each product of a row where all rows count as many entries, and where they don't; for each row, and more where they don't; more for each pair
ROWS = {NARROW: (4, 10, 16, 8, 34), "two": (3.4, 4.9, 52, 26, 46), "four": (2.9, 2.9, 61, 48, 62), LONG: (14, 18, 20, 8, 40), WIDE: (343, 343, 0, 0, 338)}
# cycles of the start for each coefficient of the state in entries and in rows
START = {NARROW: (11, 15), "two": (17, 18), "four": (11, 230), LONG: (11, 15), WIDE: (42, 222)}
# bytes of code: of everything, more by the words of entries and of rows, for each product that is written out, and for loops
CODE, ENTRY_CODE, ROW_CODE = 800, {NARROW: 0, "two": 190, "four": 80, LONG: 60, WIDE: 230}, {NARROW: 0, "two": 80, "four": 780, LONG: 100, WIDE: 1100}
PRODUCT_CODE, SINGLES_CODE, COUNTS_CODE = 15, 92, 61
# cycles that each row and a step take more in an accelerated run of which no C is written: the division of means, and two lists more
ACCELERATED_ROW, ACCELERATED_STEP = 115, 40
# steps of the plain machine with which the accelerated one takes less, however much more of its own each takes
MOST_PAYING = 10**6


def kind(sums):
    """The tier, of parts by how many products each takes."""
    return sums.tier if sums.tier != PARTS else "four" if sums.coefficient_parts + sums.variable_parts == 4 else "two"


class Costs:
    """Cycles of a run, bytes of flash and of RAM; Refusal where there is no C."""

    def __init__(self, controller):
        self.form = Form(controller)
        self.text = CText("mpc", self.form)
        self.text.source()
        self.entries, self.rows = kind(self.form.entry_sums), kind(self.form.row_sums)

    @property
    def cycles(self):
        return round(self.start_cycles() + self.form.controller.steps * self.step_cycles())

    def start_cycles(self):
        c, form = self.form.controller, self.form
        return START[self.entries][0] * c.entries * c.states + START[self.rows][1] * (len(form.rows) + len(form.seconds)) * c.states

    def step_cycles(self):
        form = self.form
        of_entries, of_rows = form.products()
        a_product, an_entry = ENTRIES[self.entries]
        straight, looped, a_row, a_looped_row, a_pair = ROWS[self.rows]
        is_straight = self.text.row_length() is not None
        rows = of_rows * (straight if is_straight else looped) + len(form.rows) * (a_row if is_straight else a_row + a_looped_row)
        return of_entries * a_product + form.controller.entries * an_entry + rows + len(form.seconds) * a_pair

    @property
    def flash(self):
        tables = sum(width // 8 * len(numbers) for _, width, numbers in self.text.tables)
        count, form = len(self.form.rows), self.form
        written_out = count if count <= 2 * CHUNK else CHUNK + count % CHUNK
        written_out *= form.entry_sums.coefficient_parts * form.entry_sums.variable_parts if form.entry_sums.tier != WIDE else 0
        loops = (len(form.seconds) > 0) + (len(form.rows) > len(form.seconds))
        code = CODE + ENTRY_CODE[self.entries] + ROW_CODE[self.rows] + PRODUCT_CODE * written_out
        return tables + code + SINGLES_CODE * (len(form.rows) > len(form.seconds)) + COUNTS_CODE * loops * (self.text.row_length() is None)

    @property
    def ram(self):
        """Of the struct, each member at a multiple of its element's size, and of the sums."""
        sizes = {"int32_t": (4, 4), "int64_t": (8, 8), "NAME_wide": (16, 8)}
        at, widest = 0, 1
        for _, word, count, _ in self.text.fields():
            size, align = sizes[word]
            at, widest = -(-at // align) * align + size * count, max(widest, align)
        return -(-at // widest) * widest + self.form.controller.entries * (16 if self.form.is_wide else 8)


def about_step(rows, entries):
    """About how many cycles a step of the straight C takes, before there is a controller: by the factors of the limit rows and the count of a plan's entries, where opposite rows share their products,
    all rows can bind, and multipliers and plans take 32 bits; where they take 64, some three times as much."""
    counted = [tuple(row) for row in rows]
    apart = {max(row, tuple(-v for v in row)) for row in counted}
    cycles = lambda what: STEP[what][0]
    of_rows = sum(cycles("row's product") if abs(v) != 1 else cycles("row's sum") for row in apart for v in row if v)
    beyond = max(0, 3 * entries + len(counted) - HELD) * cycles("number beyond the registers")
    return entries * (len(apart) * cycles("entry's product") + cycles("entry")) + of_rows + (len(counted) - len(apart)) * cycles("pair") + beyond


def about_means(rows):
    """And how many more one of the accelerated machine takes with so many rows."""
    cycles = lambda what: STEP["accelerated " + what][0]
    return cycles("reciprocal") + rows * (cycles("mean by a reciprocal") + cycles("reach of 64 bits"))


def rounded(value):
    """A number of two digits, with commas."""
    unit = 10 ** max(0, len(str(int(value))) - 2)
    return f"{round(value / unit) * unit:,}"


def costs_of(controller):
    """The costs of the C of a controller of the plain machine; Refusal where there is none."""
    return StraightCosts(controller) if is_written(controller) else Costs(controller)


def plain_cycles(controller, steps):
    """About how many cycles a run of the plain machine takes that has a controller's numbers, and so many steps."""
    return costs_of(replace(controller, version=2, steps=steps)).cycles


def accelerated_cycles(controller, steps):
    """And one of the accelerated machine."""
    c = replace(controller, version=3, steps=steps)
    if is_written(c):
        return AcceleratedCosts(c).cycles
    form = Form(replace(c, version=2))
    return steps * (Costs(replace(c, version=2)).step_cycles() + ACCELERATED_ROW * (len(form.rows) + len(form.seconds)) + ACCELERATED_STEP)


def c_words(controller, period, clock):
    """What the C of a controller takes and costs, in words."""
    try:
        yield from accelerated_words(controller, period, clock) if is_accelerated(controller.version) else plain_words(controller, period, clock)
    except Refusal as why:
        yield f"no C can be written of it: {why}"


def plain_words(controller, period, clock):
    costs = costs_of(controller)
    yield straight_words(costs.rows) if is_written(controller) else table_words(costs.form)
    yield f"{cycle_words(controller, costs.cycles, period, clock)}; {size_words(costs)}"


def accelerated_words(controller, period, clock):
    """The same of a controller of version 3; of one that `c` doesn't write an estimate."""
    cycles = cycle_words(controller, accelerated_cycles(controller, controller.steps), period, clock)
    if is_written(controller):
        costs = AcceleratedCosts(controller)
        yield straight_words(costs.rows)
        yield f"{cycles}; {size_words(costs)}"
    else:
        yield f"{cycles}; an estimate, since no C is written of it: each row takes {ACCELERATED_ROW} cycles more than in the plain machine"


def size_words(costs):
    return f"about {rounded(costs.flash)} bytes of flash, {costs.ram} of RAM"


def cycle_words(controller, cycles, period, clock):
    """The cycles of a run, and its time."""
    c = controller
    written = c.steps * (c.entries * (c.states + c.rows) + c.rows * (c.entries + c.states))
    time = cycles / (clock * 1e6)
    share = f", {plain(float(f'{100 * time / period:.2g}'))} % of a stage of {plain(period)} s" if period else ""
    return f"on a Cortex-M4 about {rounded(cycles)} cycles a run, {cycles / written:.1f} for each product as written: {plain(float(f'{time * 1e3:.2g}'))} ms at {plain(clock)} MHz{share}"


def other_cycle_words(controller, steps):
    """What a run takes in so many steps of the machine that isn't the controller's, of the same numbers; and from how many steps of the plain one on the accelerated one takes less."""
    fast = is_accelerated(controller.version)
    of_plain, of_fast = (steps, controller.steps) if fast else (controller.steps, steps)
    try:
        plain_run, fast_run = plain_cycles(controller, of_plain), accelerated_cycles(controller, of_fast)
    except Refusal:
        return ""
    ratio = fast_run / of_fast / (plain_run / of_plain)
    pays = next((count for count in range(1, MOST_PAYING) if count > ratio * accelerated_steps(count)), MOST_PAYING)
    told = f"about {rounded(plain_run)} cycles" if fast else f"about {rounded(fast_run)} cycles by an estimate"
    return f", {told}; version 3 takes less from K = {pays} of version 2 on"


def saves(controller, part=1.0):
    """Whether a run of version 3 would take less than this part of this one of the plain machine, as far as can be said."""
    try:
        return accelerated_cycles(controller, accelerated_steps(controller.steps)) < part * plain_cycles(controller, controller.steps)
    except Refusal:
        return False


def straight_words(rows):
    """What a step of the straight C has left."""
    c = rows.c
    products = sum(row[i] != 0 for row in rows.gains for i in rows.left if i not in rows.seconds) + sum(v != 0 for i in rows.left if i not in rows.seconds for v in c.G[i])
    never = f"; {c.rows - len(rows.left)} of {c.rows} rows bind from no state" if len(rows.left) < c.rows and c.steps > 1 else ""
    parts = " in two parts" * (c.width > MOST_WIDTH)
    return f"as C (./mpc c): no tables; {products} products a step{parts}{shared_words(len(rows.firsts))}{never}"


def table_words(form):
    """And what C with tables has."""
    entries, rows = form.entry_sums.words(), form.row_sums.words()
    words = f"sums of entries and of rows {entries}" if entries == rows else f"sums of entries {entries}; of rows {rows}"
    return f"as C with tables (./mpc c .. --out): {words}; {sum(form.products())} products a step{shared_words(len(form.seconds))}"


def shared_words(pairs):
    return f", shared by {pairs} pair{'s' * (pairs > 1)} of rows" if pairs else ""
