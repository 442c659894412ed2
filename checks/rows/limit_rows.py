"""Rows at the limits of what a command takes: the longest texts, the most turns, the greatest sizes, and what is wrong at the end of a long text.

Memory is ample, so no answer is `memory`: a program may give that answer wherever it takes memory, so that only rows tell that it doesn't. The numbers are those of the short rows.
"""
from collections.abc import Iterator

from .listing_rows import foreign
from .split_rows import MOST_BYTES, cells, largest_cell
from .stay_rows import FACES, HELD, HELD_CONTROLLER
from .texts import GENERATE, SOLVE, put, refused, sub
from .worked_texts import CONTROLLER, DESIGN, LEAN_CONTROLLER, LEAN_REPORT, LISTING, LOW, LOW_REPORT, POLICY, REFERENCE, REPORT

Row = tuple
PLAY, SERVE, LOOP = ["play", "l", "s"], ["serve", "c", "s"], ["loop", "d", "c", "s"]
HIGH = sub(CONTROLLER, ("lo 0\n", "lo 1\n"))
BOTH = cells(LOW, HIGH)
TURNS = 1_000_000
# the states, and the longest states text, of records of two bytes
MANY, MOST = 100_000, MOST_BYTES // 2
# the most instructions of a listing, and the lines before them
BODY, HEAD = 100_000, 9


def longest(text: str, filler: str = "\n") -> str:
    """A text with as much behind it as a file may have."""
    return text + filler * (MOST_BYTES - len(text))


def states(count: int) -> str:
    return "0\n1\n" * (count // 2)


def turns_of(count: int) -> str:
    """The lines of the first loop from 1, which stands still from its second turn on."""
    return "1 1 1 4096 -2224\n" + "".join(f"1 {turn} 0 4096 0\n" for turn in range(2, count + 1))


def state_rows() -> Iterator[tuple[str, Row]]:
    for words, files, low in ((SOLVE, {"c": CONTROLLER}, "4096 0\n"), (PLAY, {"l": LISTING}, "4096 0\n"), (SERVE, {"c": BOTH}, "32 0\n")):
        for what, count in (("100,000 states", MANY), ("the longest states", MOST)):
            yield f"{words[0]}: {what}", put(words, {**files, "s": states(count)}, (low + "4096 -2224\n") * (count // 2))
        yield f"{words[0]}: the last of 100,000 states is none", refused(words, {**files, "s": states(MANY) + "x\n"}, 5, f"text 2 number {MANY + 1} 1")
        yield f"{words[0]}: the last of 100,000 states is outside", refused(words, {**files, "s": states(MANY) + "2\n"}, 12, f"outside-box {MANY + 1} 0 1")


def turn_rows() -> Iterator[tuple[str, Row]]:
    files, still = {"d": DESIGN, "c": CONTROLLER}, "0\n" * TURNS
    yield "loop: a million turns", put([*LOOP, f"{TURNS}"], {**files, "s": "1"}, turns_of(TURNS))
    yield "loop: a million turns under disturbances", put([*LOOP, f"{TURNS}", "v"], {**files, "s": "1", "v": still}, turns_of(TURNS))
    yield "loop: a million turns from outside", refused([*LOOP, f"{TURNS}"], {**files, "s": "2"}, 12, "outside-box 1 1 1")
    yield "loop: a million turns under disturbances from outside", refused([*LOOP, f"{TURNS}", "v"], {**files, "s": "2", "v": still}, 12, "outside-box 1 1 1")
    yield "loop: a million turns, and one shift more", refused([*LOOP, f"{TURNS}", "v"], {**files, "s": "1", "v": still + "0\n"}, 5, f"text 5 count {TURNS + 1}")
    yield "loop: a million turns, and the last shift is none", refused([*LOOP, f"{TURNS}", "v"], {**files, "s": "1", "v": still[:-2] + "x\n"}, 5, f"text 5 number {TURNS} 1")
    yield "loop: 100,000 records", put([*LOOP, "1"], {**files, "s": "0\n" * MANY}, "".join(f"{entry} 1 0 4096 0\n" for entry in range(1, MANY + 1)))


def text_rows() -> Iterator[tuple[str, Row]]:
    """Listings and controllers of the greatest sizes, and their last lines."""
    body = ["load 0"] * (BODY - 1)
    yield "play: the longest body", put(PLAY, {"l": foreign(*body, "store 1"), "s": "5\n"}, "7 5\n")
    yield "play: the longest body, a bad last instruction", refused(PLAY, {"l": foreign(*body, "store 3"), "s": "5\n"}, 20, f"listing 1 {HEAD + BODY}")
    yield "play: the longest body, no end", refused(PLAY, {"l": foreign(*body, "store 1")[:-4], "s": "5\n"}, 20, f"listing 1 {HEAD + BODY + 1}")
    yield "play: the longest listing", refused(PLAY, {"l": longest(foreign(*body, "store 1")), "s": "5\n"}, 20, f"listing 1 {HEAD + BODY + 2}")
    largest = largest_cell()
    origin = ",".join(["0"] * 6) + "\n"
    yield "solve: the longest controller", put(SOLVE, {"c": largest, "s": origin}, f"{2**48}{' 0' * 90}\n")
    yield "solve: the longest controller, without its end", refused(SOLVE, {"c": largest[:-4], "s": origin}, 11, f"controller 1 line {largest.count(chr(10))}")
    yield "solve: the longest controller with more behind", refused(SOLVE, {"c": longest(largest), "s": origin}, 11, f"controller 1 line {largest.count(chr(10)) + 1}")
    yield "list: the longest controller", (["list", "c", "l"], {"c": largest}, 0, "", "", {}, {"l": ["mpc-listing 1", "end"]})


def made_rows() -> Iterator[tuple[str, Row]]:
    """The commands that make controllers, over the longest texts of what they read."""
    d, p = longest(DESIGN, "#"), longest(POLICY)
    yield "generate: the longest texts", (GENERATE, {"d": d, "p": p}, 0, "", "", {"c": CONTROLLER, "r": REPORT}, {})
    yield "lean: the longest texts", (["lean", "d", "p", "w", "c", "r"], {"d": d, "p": p, "w": longest(REFERENCE)}, 0, "", "", {"c": LEAN_CONTROLLER, "r": LEAN_REPORT}, {})
    held = {"d": longest(HELD, "#"), "p": p, "f": longest(FACES)}
    yield "stay: the longest texts", (["stay", "d", "p", "c", "r", "f"], held, 0, "", "", {"c": HELD_CONTROLLER}, {"r": ["steps 641"]})
    yield "split: the longest texts", (["split", "d", "l", "p", "c", "r"], {"d": d, "l": longest("1,0\n"), "p": longest("1,0\n1,0\n8,-7\n8,-7\n")}, 0, "", "", {
        "c": BOTH, "r": LOW_REPORT + REPORT}, {})
    yield "demo: the greatest number", (["demo", f"{2**32 - 1}"], {}, 0, None, "", {}, {"": ["mpc-report 1", "end"]})


def rows() -> Iterator[tuple[str, Row]]:
    for some in (state_rows, turn_rows, text_rows, made_rows):
        yield from some()
