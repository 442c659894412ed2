"""bench/gate/COSTS.md, as python3 -m bench.gate.run writes it of what it measured."""
import os
import re
from dataclasses import dataclass

# the marks, in seconds of processor time; on a machine that takes more time they are as much longer (`pace`): of a crate's proof and its tests,
PROOF, TESTS = 120, 180
# of the gate's proofs, tests and edits and of the whole,
PARTS = {"proofs": 45 * 60, "tests": 25 * 60, "edits": 80 * 60}
WHOLE = sum(PARTS.values())
# of a look, of the first answer by `generate`, and of that by another command with all that the first one proved
LOOK, FIRST, BOTH = 90, 20 * 60, 38 * 60
# the crates that seldom change, with the seconds that their proofs take at the marks' speed: what they take on a machine tells its pace
PACE = {"integer_algebra": 12, "word_region": 15, "frac_scaled": 19}
FIRST_ANSWER = "The first answer"
HEAD = """# What proofs cost

Written by `python3 -m bench.gate.run --page`. [PROOFS.md](../../docs/PROOFS.md#what-keeps-a-proof-short) says what keeps a proof short.
"""


@dataclass
class Cost:
    """What a crate took: seconds of the processor, the number of its edits, the most memory of one check in GB; and the seconds of the proofs and tests of it and of all above it."""

    proof: float = 0
    tests: float = 0
    edits: int = 0
    edit_time: float = 0
    memory: float = 0
    above: float = 0


def add_changes(costs: dict[str, Cost], below: dict[str, list[str]]) -> None:
    """Fills in what a change of each crate costs, by the crates that each stands on."""
    seen: dict[str, set[str]] = {}

    def all_below(name: str) -> set[str]:
        if name not in seen:
            seen[name] = {name}.union(*(all_below(it) for it in below.get(name, [])))
        return seen[name]

    for name, cost in costs.items():
        cost.above = sum(other.proof + other.tests for above, other in costs.items() if name in all_below(above))


def rows_in(page: str) -> dict[str, Cost]:
    """The crates of a page with what they took, but for what a change of them costs."""
    number = lambda cell: float(cell.strip("* ") or 0)
    rows = re.findall(r"^\| `(\w+)` \|(.*)\|$", page, re.M)
    return {name: Cost(number(cells[0]), number(cells[1]), int(number(cells[2])), *map(number, cells[3:5])) for name, row in rows for cells in [row.split("|")]}


def minutes(seconds: float) -> str:
    return f"{seconds / 60:.0f}"


def pace_of(seconds: dict[str, float]) -> float:
    """How many times the marks' time a machine takes, by the proofs of the crates that seldom change."""
    return sum(seconds[name] for name in PACE) / sum(PACE.values())


def pace_line(seconds: dict[str, float]) -> str:
    each = ", ".join(f"{name} {seconds[name]:.0f} s of {mark}" for name, mark in PACE.items())
    return f"the pace of this machine: {pace_of(seconds):.2f} times the marks' time ({each})"


def beside(what: str, seconds: float, mark: float, pace: float) -> str:
    """What was measured beside its mark, both in processor minutes, at the pace of the machine."""
    return f"{what}: {seconds / 60:.1f} processor minutes, {seconds / pace / 60:.1f} at the marks' speed, where {mark / 60:.4g} are the mark: {'kept' if seconds <= mark * pace else 'NOT KEPT'}"


def cell(seconds: float, mark: float) -> str:
    """Seconds, bold beyond their mark; empty where there are none."""
    return "" if not seconds else f"**{seconds:.0f}**" if seconds > mark else f"{seconds:.0f}"


def row(name: str, cost: Cost, pace: float = 1) -> str:
    edits = f"{cost.edits or ''} | {cost.edit_time:.0f}" if cost.edit_time else " | "
    return f"| `{name}` | {cell(cost.proof, PROOF * pace)} | {cell(cost.tests, TESTS * pace)} | {edits} | {f'{cost.memory:.1f}' if cost.proof else ''} | {minutes(cost.above)} |"


def page_of(lines: list[str], costs: dict[str, Cost], pace: float) -> str:
    """The page of these lines before its rows."""
    last = "The last column has the processor minutes that a changed contract or definition of a crate costs, without edits: the proofs and tests of it and of all above it."
    head = ["| Crate | Proof | Tests | Edits | Their time | Memory | A change, minutes |", "|---|---|---|---|---|---|---|"]
    return "\n".join([HEAD, *lines, last, "", *head, *(row(name, cost, pace) for name, cost in costs.items()), ""])


def text(kit: str, processors: int, wall: float, costs: dict[str, Cost], chain: tuple[float, list[str]], first: str = "", note: str = "", pace: float = 1) -> str:
    """The page. Costs stand in the order of their crates; the chain is its seconds and its crates. The machine takes `pace` times the time of the one that the marks are for."""
    proof, tests, edits = (sum(getattr(cost, part) for cost in costs.values()) for part in ("proof", "tests", "edit_time"))
    beyond = [f"the proof of `{name}`" for name, cost in costs.items() if cost.proof > PROOF * pace] + [f"the tests of `{name}`" for name, cost in costs.items() if cost.tests > TESTS * pace]
    slower = f", {pace:g} times on this machine" if pace != 1 else ""
    lines = [
        f"Processor seconds from nothing, and the most memory of one check in GB, of one run with `{kit}` on a machine with {processors} processors, which ended after {minutes(wall)} minutes."
        + (f" {note}" if note else ""),
        f"The proofs take {minutes(proof)} processor minutes (mark {minutes(PARTS['proofs'])}), the tests {minutes(tests)} ({minutes(PARTS['tests'])}) and the {sum(cost.edits for cost in costs.values())} edits "
        f"{minutes(edits)} ({minutes(PARTS['edits'])}), in which each crate's proof is made once more to begin with: {minutes(proof + tests + edits)} in all, where {minutes(WHOLE)} are the mark{slower}.",
        f"The longest chain of proofs is {chain[0] / 60:.1f} minutes: {', '.join(f'`{name}`' for name in chain[1])}.",
        *([first] if first else []),
        f"Beyond the mark of {minutes(PROOF)} minutes for a proof or {minutes(TESTS)} for tests{slower}, where the number is bold: {', '.join(beyond) or 'none'}. An empty field has no tests or no edits.",
    ]
    return page_of(lines, costs, pace)


def renewed(costs: dict[str, Cost], chain: tuple[float, list[str]], first: str, note: str, pace: float) -> str:
    """The page where its rows are of more than one run: crates that no run has measured have an empty row, and sums are of the others. The words before them are `note`."""
    proof, tests, edits = (sum(getattr(cost, part) for cost in costs.values()) for part in ("proof", "tests", "edit_time"))
    none = [f"`{name}`" for name, cost in costs.items() if not cost.proof]
    lines = [
        f"Processor seconds from nothing, and the most memory of one check in GB. {note}".rstrip(),
        f"Of {len(costs)} crates {len(costs) - len(none)} were measured: their proofs take {minutes(proof)} processor minutes (mark of all {minutes(PARTS['proofs'])}), their tests {minutes(tests)} "
        f"({minutes(PARTS['tests'])}) and {sum(cost.edits for cost in costs.values() if cost.edit_time)} edits {minutes(edits)} ({minutes(PARTS['edits'])}), {pace:g} times on that machine.",
        f"Not measured: {', '.join(none) or 'none'}. Their rows are empty, and sums lack them.",
        f"The longest chain of proofs that were measured is {chain[0] / 60:.1f} minutes: {', '.join(f'`{name}`' for name in chain[1])}.",
        *([first] if first else []),
    ]
    return page_of(lines, costs, pace)


def first_answer(look: float, first: tuple[float, float], others: tuple[float, float], processors: int, pace: float = 1) -> str:
    """The line of the look and of the first answer, in seconds of the processor and by the clock, and of what the first answer of another command takes after it."""
    slower = f", {pace:g} times on this machine" if pace != 1 else ""
    return (
        f"{FIRST_ANSWER} (`./mpc generate` in a fresh clone, with nothing kept, which proves that command's program) takes {first[0] / 60:.1f} processor minutes and "
        f"{first[1] / 60:.1f} minutes on {processors} processors; the first of another command, which proves the rest, takes {others[0] / 60:.1f} processor minutes and {others[1] / 60:.1f} minutes more: "
        f"{(first[0] + others[0]) / 60:.1f} in all, where {minutes(FIRST)} are the mark for `generate` and {minutes(BOTH)} for all{slower}. A look before any proof, `./mpc try demo 7`, takes {look:.0f} processor "
        f"seconds, where {LOOK} are the mark{slower} (`python3 -m bench.gate.run --first`)."
    )


def first_line(page: str) -> str:
    """What a page says of the first answer, which another run measures."""
    found = re.search(rf"^{FIRST_ANSWER}.*$", page, re.M)
    return found[0] if found else ""


def with_first(page: str, line: str) -> str:
    """A page with another line of the first answer."""
    old = first_line(page)
    return page.replace(old, line) if old else page.replace("\nBeyond the mark", f"\n{line}\nBeyond the mark")


def read(path: str) -> str:
    """A page as it stands, or nothing."""
    if not os.path.exists(path):
        return ""
    with open(path, encoding="utf-8") as file:
        return file.read()


def write(path: str, page: str) -> None:
    """Writes beside the page, and renames."""
    with open(path + ".part", "w", encoding="utf-8") as file:
        file.write(page)
    os.replace(path + ".part", path)
