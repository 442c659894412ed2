"""Rows of accumulator listings: what is written of a controller, and what plays it.

The first are the worked ones, by hand. The examples' controllers and listings, and the sums that these put, are those of the model in ../fuzz.
"""
import os

from ..fuzz import control, listing, model, program
from .texts import put, refused, sub
from .worked_texts import CONTROLLER, LISTING

HERE = os.path.dirname(os.path.abspath(__file__))
EXAMPLES = os.path.join(HERE, "..", "..", "examples")
LIST, PLAY = ["list", "c", "l"], ["play", "l", "s"]
LEAST, GREATEST = -(2**127), 2**127 - 1


def listed(controller, text):
    return LIST, {"c": controller}, 0, "", "", {"l": text}, {}


def trapped(text, states, out, entry, step, place):
    return PLAY, {"l": text, "s": states}, 21, out, f"error 21 trap {entry} {step} {place}\n", {}, {}


def foreign(*body, word=8, words=3, repeat=1, box=(-9, 9), output="1 1 7"):
    """A listing of no controller, of one input that isn't shifted, which puts out its second word over 7."""
    head = ["mpc-listing 1", f"word {word}", "input 1 0", f"lo {box[0]}", f"hi {box[1]}", f"words {words}", f"output {output}", f"repeat {repeat} {len(body)}", f"count {repeat * len(body)}"]
    return "\n".join([*head, *body, "end\n"])


def list_rows():
    second = lambda exponents, *changes: sub(CONTROLLER, ("mpc-controller 1", "mpc-controller 2"), ("words 6\n", f"words 6\nexps {exponents}\n"), *changes)
    yield "list", listed(CONTROLLER, LISTING)
    yield "list over an old file", (LIST, {"c": CONTROLLER, "l": "an old listing\n" * 99}, 0, "", "", {"l": LISTING}, {})
    yield "list, version 2", listed(second("1 1 1"), LISTING)
    third = ("mac 3 256 0", "mac 3 256 1"), ("cap 32768\nstore 3", "cap 16384\nstore 3")
    yield "list, version 2: another exponent", listed(second("1 1 0"), sub(LISTING, *third))
    first = ("mac 1 256 0", "mac 1 256 1"), ("cap 32768\nstore 1", "cap 127\nstore 1"), ("cap 32768\nstore 2", "cap 255\nstore 2"), ("cap 32768\nstore 3", "cap 255\nstore 3")
    yield "list, version 2: a clamp that a row's power doesn't divide", listed(second("0 1 1", ("clamp 32768", "clamp 255")), sub(LISTING, *first))
    # constants that are 0 have no instruction, but T and b have theirs
    bare = sub(CONTROLLER, ("P 512", "P 0"), ("W 256 -256 256", "W 0 -256 0"), ("b 1024 1024 256", "b 0 -1024 256"))
    yield "list: products with 0", listed(bare, sub(LISTING, ("repeat 4 38\ncount 152", "repeat 4 35\ncount 140"), ("mac 0 512 0\n", ""), ("mac 1 256 0\n", ""), ("mac 3 256 0\n", ""), (
        "con -1024 10\nshr 10\naddm 1", "con 0 10\nshr 10\naddm 1"), ("con -1024 10\nshr 10\naddm 2", "con 1024 10\nshr 10\naddm 2")))
    # what is only multiplied by 0 may be any number of 128 bits
    still = sub(CONTROLLER, ("hi 1", "hi 0"), ("P 512", f"P {LEAST}"), ("E 1024", f"E {GREATEST}"))
    yield "list: constants of 128 bits", listed(still, sub(LISTING, ("hi 1", "hi 0"), ("mac 0 512 0", f"mac 0 {LEAST} 0"), ("mac 0 1024 0", f"mac 0 {GREATEST} 0")))
    yield "play: constants of 128 bits", put(PLAY, {"l": sub(LISTING, ("hi 1", "hi 0"), ("mac 0 512 0", f"mac 0 {LEAST} 0"), ("mac 0 1024 0", f"mac 0 {GREATEST} 0")), "s": "0\n"}, "4096 0\n")
    six = "mpc-controller 2\nsize 6 1 1 1\nbits 0 0 1 16\nsteps 2\nclamp 9\nwords 9\nexps 0\nlo 0 0 0 0 0 0\nhi 1 2 3 4 5 6\nP 1 2 3 4 5 6\nT 0\nW -1\nG -1\nE 1 1 1 1 1 1\nb 1\nend\n"
    body = "clear mac_0_1_0 mac_1_2_0 mac_2_3_0 mac_3_4_0 mac_4_5_0 mac_5_6_0 con_0_0 shl_1 mac_6_-1_1 shr_1 neg store_7 " \
        "clear mac_7_-1_0 mac_0_1_0 mac_1_1_0 mac_2_1_0 mac_3_1_0 mac_4_1_0 mac_5_1_0 con_-1_0 shr_0 addm_6 low cap_4 store_6 load_8 addm_7 store_8"
    lines = "mpc-listing 1\nword 16\ninput 6 0\nlo 0 0 0 0 0 0\nhi 1 2 3 4 5 6\nwords 9\noutput 8 1 2\nrepeat 2 30\ncount 60\n" + body.replace(" ", "\n").replace("_", " ") + "\nend\n"
    yield "list, version 2: six states", listed(six, lines)
    yield "listing: fewer words than inputs", refused(PLAY, {"l": sub(lines, ("words 9", "words 5")), "s": "1"}, 20, "listing 1 6")
    yield "play: six states", put(PLAY, {"l": lines, "s": "1,2,3,4,5,6\n0,0,0,0,0,1\n"}, "2 -178\n2 -8\n")
    yield "list: no controller", refused(LIST, {}, 3, "read-fault 1")
    yield "list: a long controller", refused(LIST, {"c": CONTROLLER + "\n" * 4194305}, 13, "long 1")
    yield "list: a controller with a zero before its steps", refused(LIST, {"c": sub(CONTROLLER, ("steps 4", "steps 04")), "l": "old"}, 11, "controller 1 line 4")
    yield "list: gains too large", refused(LIST, {"c": sub(CONTROLLER, ("W 256 -256", "W 512 -256"))}, 11, "controller 1 unsafe")
    yield "list: a listing for a controller", refused(LIST, {"c": LISTING}, 11, "controller 1 line 1")
    for name in ("no/l", ".", ""):
        yield f"list to {name!r}", refused(["list", "c", name], {"c": CONTROLLER}, 4, "write-fault 2")
    for words in ("list c", "list c l s", "list c c", "list"):
        yield f"usage: {words}", refused(words.split(), {"c": CONTROLLER}, 2, "usage")


def text_rows():
    at = lambda line, *changes: refused(PLAY, {"l": sub(LISTING, *changes), "s": "1"}, 20, f"listing 1 {line}")
    yield "listing: no end", at(48, ("end\n", ""))
    yield "listing: no last line feed", at(48, ("end\n", "end"))
    yield "listing: more after its end", at(49, ("end\n", "end\n\n"))
    yield "listing: no byte", refused(PLAY, {"l": "", "s": "1"}, 20, "listing 1 1")
    yield "listing: a controller", refused(PLAY, {"l": CONTROLLER, "s": "1"}, 20, "listing 1 1")
    for line, old, new in (
        (1, "mpc-listing 1", "mpc-listing 2"), (1, "mpc-listing 1\n", "mpc-listing 1\r\n"), (2, "word 26", "word 1"), (2, "word 26", "word 129"), (2, "word 26", "word 026"), (3, "input 1 10", "input 0 10"),
        (3, "input 1 10", "input 7 10"), (3, "input 1 10", "input 1 49"), (3, "input 1 10", "input 1 -1"), (4, "lo 0", "lo -2147483648"), (4, "lo 0", "lo 0 0"), (5, "hi 1", "hi -1"),
        (5, "hi 1", "hi 2147483648"), (6, "words 6", "words 0"), (6, "words 6", "words 1001"), (7, "output 5 1", "output 5 2"), (7, "output 5 1", "output 6 1"), (7, "output 5 1", "output 5 0"),
        (7, "output 5 1", "output -1 1"), (7, "1 4096", "1 0"), (7, "1 4096", f"1 {2**126 + 1}"), (8, "repeat 4 38", "repeat 0 38"), (8, "repeat 4 38", "repeat 4194305 38"),
        (8, "repeat 4 38", "repeat 4 0"), (8, "repeat 4 38", "repeat 4 100001"), (9, "count 152", "count 153"), (48, "repeat 4 38\ncount 152", "repeat 4 39\ncount 156"),
        (47, "repeat 4 38\ncount 152", "repeat 4 37\ncount 148"), (11, "mac 0 512 0", "mac 6 512 0"), (11, "mac 0 512 0", "mac -1 512 0"), (11, "mac 0 512 0", "mac 0 512 127"),
        (11, "mac 0 512 0", "mac 0 512"), (11, "mac 0 512 0", f"mac 0 {GREATEST + 1} 0"), (11, "mac 0 512 0", f"mac 0 {LEAST - 1} 0"), (11, "mac 0 512 0", "mac 0 -0 0"), (12, "con 0 10", "con 0 127"),
        (12, "con 0 10", f"con {LEAST - 1} 10"), (13, "shl 1", "shl 127"), (17, "shr 11", "shr 127"), (17, "shr 11", "shr -1"), (18, "neg", "neg 1"), (18, "neg", "NEG"), (18, "neg", "not"),
        (19, "store 4", "store 6"), (19, "store 4", "store 4 "), (45, "load 5", "load 6"), (46, "addm 4", "addm 6"), (26, "cap 32768\nstore 1", f"cap {GREATEST + 1}\nstore 1"),
    ):
        yield f"listing: {new.splitlines()[0]} in line {line}", at(line, (old, new))
    yield "play: no listing", refused(PLAY, {"s": "1"}, 3, "read-fault 1")
    yield "play: no states file", refused(PLAY, {"l": LISTING}, 3, "read-fault 2")
    yield "play: a long listing", refused(PLAY, {"l": LISTING + "\n" * 4194305, "s": "x"}, 13, "long 1")
    yield "play: long states", refused(PLAY, {"l": LISTING, "s": "\n" * 4194305}, 13, "long 2")
    yield "play: the listing before the states", refused(PLAY, {"l": CONTROLLER}, 20, "listing 1 1")
    for fault, states in (("fields 1", "1,1"), ("number 2 1", "1\nx\n"), ("number 1 1", "\t1")):
        yield f"play: states, {fault}", refused(PLAY, {"l": LISTING, "s": states}, 5, f"text 2 {fault}")
    for words in ("play l", "play l s s", "play"):
        yield f"usage: {words}", refused(words.split(), {"l": LISTING, "s": "1"}, 2, "usage")


def play_rows():
    yield "play", put(PLAY, {"l": LISTING, "s": "1\n"}, "4096 -2224\n")
    yield "play: both states", put(PLAY, {"l": LISTING, "s": "1\r\n0\r\n"}, "4096 -2224\n4096 0\n")
    yield "play: no states", put(PLAY, {"l": LISTING, "s": ""}, "")
    word = lambda bits: sub(LISTING, ("word 26", f"word {bits}"))
    for bits in (25, 22):
        yield f"play: words of {bits} bits", put(PLAY, {"l": word(bits), "s": "1\n0\n"}, "4096 -2224\n4096 0\n")
    yield "play: words of 21 bits", trapped(word(21), "0\n1\n0\n", "4096 0\n", 2, 1, 4)
    yield "play: words of 20 bits", trapped(word(20), "1\n", "", 1, 1, 2)
    yield "play: words of 20 bits at 0", trapped(word(20), "0\n", "", 1, 1, 13)
    yield "play: words of 11 bits", trapped(word(11), "1\n", "", 1, 0, 0)
    yield "play: all states are tested before the first is played", refused(PLAY, {"l": word(20), "s": "1\n2\n"}, 12, "outside-box 2 0 1")
    yield "play: no state is played where a text is wrong", refused(PLAY, {"l": word(20), "s": "1\nx\n"}, 5, "text 2 number 2 1")
    # the accumulator goes on from one repetition to the next, and begins at 0 with each record
    yield "play: an accumulator that isn't cleared", put(PLAY, {"l": foreign("addm 0", "store 1", repeat=5), "s": "1\n3\n-2\n"}, "7 5\n7 15\n7 -10\n")
    yield "play: an accumulator that isn't cleared traps", trapped(foreign("addm 0", "store 1", repeat=43), "1\n-3\n3\n", "7 43\n", 2, 43, 1)
    yield "play: an accumulator that reaches the end of the word", put(PLAY, {"l": foreign("addm 0", "store 1", repeat=64), "s": "-2\n"}, "7 -128\n")
    yield "play: words that aren't cleared", put(PLAY, {"l": foreign("clear", "addm 2", "addm 0", "store 2", "store 1", repeat=3), "s": "1\n2\n"}, "7 3\n7 6\n")
    yield "play: two million repetitions", trapped(foreign("addm 0", word=22, repeat=4194304), "0\n1\n", "7 0\n", 2, 2097152, 1)
    yield "play: all words put out", put(PLAY, {"l": foreign("load 0", "store 2", output="0 3 85070591730234615865843651857942052864"), "s": "-9\n"}, "85070591730234615865843651857942052864 -9 0 -9\n")
    shifted = lambda bits, word: sub(foreign("load 0", "store 1", word=word), ("input 1 0", f"input 1 {bits}"))
    yield "play: an input of the most bits", put(PLAY, {"l": shifted(48, 64), "s": "3\n-9\n"}, f"7 {3 * 2**48}\n7 {-9 * 2**48}\n")
    yield "play: an input at the end of the word", put(PLAY, {"l": shifted(7, 8), "s": "-1\n"}, "7 -128\n")
    yield "play: an input beyond the end of the word", trapped(shifted(7, 8), "-1\n1\n", "7 -128\n", 2, 0, 0)
    yield "play: an input below the word", trapped(shifted(7, 8), "-2\n", "", 1, 0, 0)
    yield "play: a thousand words", put(PLAY, {"l": foreign("load 0", "store 999", words=1000, output="999 1 1"), "s": "4\n"}, "1 4\n")
    yield "play: an address beyond a thousand words", refused(PLAY, {"l": foreign("load 0", "store 1000", words=1000), "s": "4\n"}, 20, "listing 1 11")
    for body, value in (
        (["con 5 2"], 20), (["con -5 4", "shr 5"], -3), (["con -1 0", "shr 126"], -1), (["con -5 0", "low"], 0), (["con 5 0", "low"], 5), (["con 5 0", "cap 4"], 4), (["con -5 0", "cap 4"], -5),
        (["con 5 0", f"cap {GREATEST}"], 5), (["con -128 0", "cap -127"], -128), (["con -127 0", "neg"], 127), (["load 0", "shl 6"], 64), (["mac 0 -3 2"], -12), (["mac 0 -2 6"], -128),
        ([f"mac 2 {GREATEST} 126"], 0), ([f"mac 2 {LEAST} 126"], 0), (["con 0 126", "shl 126"], 0), (["mac 0 0 6"], 0), (["con 5 0", "clear"], 0), (["addm 0", "addm 0", "addm 0"], 3), (["con -1 7"], -128),
    ):
        yield f"play: {', '.join(body)}", put(PLAY, {"l": foreign(*body, "store 1"), "s": "1"}, f"7 {value}\n")
    for place, body in (
        (1, ["con 1 7"]), (1, ["con -129 0"]), (1, [f"con {GREATEST} 126"]), (2, ["con -1 7", "neg"]), (2, ["con -1 7", "con -1 0"]), (2, ["load 0", "shl 7"]), (2, ["con -1 7", "shl 1"]),
        (2, ["load 0", "shl 126"]), (1, ["mac 0 1 7"]), (1, ["mac 0 0 7"]), (1, ["mac 0 -1 7"]), (1, ["mac 0 128 0"]), (1, [f"mac 0 {LEAST} 126"]), (2, ["con 100 0", "mac 0 1 5"]),
        # a product that would come back into the word
        (2, ["con -1 6", "mac 0 1 7"]), (2, ["con -1 6", "con 1 7"]), (2, ["con 5 0", "cap -129"]), (2, ["con 5 0", f"cap {LEAST}"]), (3, ["load 0", "con 63 1", "addm 0"]), (3, ["con 1 6", "addm 0", "con 1 6"]),
    ):
        yield f"play: a trap at {', '.join(body)}", trapped(foreign(*body, "store 1"), "1", "", 1, 1, place)
    # in words of 128 bits
    wide = lambda *body: foreign(*body, "store 1", word=128, box=(0, 1))
    yield "play: the greatest constant", put(PLAY, {"l": wide(f"con {GREATEST} 0"), "s": "1"}, f"7 {GREATEST}\n")
    yield "play: the least constant", put(PLAY, {"l": wide(f"con {LEAST} 0"), "s": "1"}, f"7 {LEAST}\n")
    yield "play: the least constant as a factor", put(PLAY, {"l": wide(f"mac 0 {LEAST} 0"), "s": "0\n1\n"}, f"7 0\n7 {LEAST}\n")
    yield "play: 2^126", put(PLAY, {"l": wide("con 1 126"), "s": "1"}, f"7 {2**126}\n")
    for body, place in (([f"con {LEAST} 0", "neg"], 2), (["con 1 126", "shl 1"], 2), (["con 2 126"], 1), ([f"con {GREATEST} 0", "addm 0"], 2), ([f"con {LEAST} 0", "mac 0 -1 0"], 2), (["mac 0 2 126"], 1),
                        ([f"con {LEAST} 0", f"mac 0 {LEAST} 0"], 2), ([f"mac 0 {LEAST} 1"], 1), ([f"con {GREATEST} 1"], 1)):
        yield f"play: a trap in 128 bits at {', '.join(body)}", trapped(wide(*body), "1", "", 1, 1, place)
    for body, value in (([f"con {LEAST} 0", f"con {GREATEST} 0"], -1), (["con -2 126"], LEAST), (["con -1 126", "shl 1"], LEAST), ([f"con {LEAST} 0", "shr 126"], -2), ([f"con {LEAST} 0", "low"], 0),
                        ([f"cap {LEAST}"], LEAST)):
        yield f"play: in 128 bits {', '.join(body)}", put(PLAY, {"l": wide(*body), "s": "1"}, f"7 {value}\n")


def example_rows():
    """What a bit less than the printed width does to the run from the box's last corner, and what the greatest width does that this run doesn't fit."""
    for name, least, place in (("first", 21, 4), ("motor", 38, 2), ("pmsm", 39, 87), ("satellite", 39, 283), ("wheel", 40, 293), ("kiln", 44, 82), ("antenna", 59, 1763), ("rendezvous", 74, 7)):
        texts = []
        for file in ("design.toml", "policy.csv"):
            with open(os.path.join(EXAMPLES, name, file), "rb") as it:
                texts.append(it.read())
        d = model.read_design(texts[0])
        c, _ = program.generate(d, model.read_policy(texts[1], d), model.exact_gains)
        l = listing.listing_of(c)
        text = listing.text_of(l).decode()
        yield f"list: {name}", listed(control.text_of(c).decode(), text)
        word = lambda bits: sub(text, (f"\nword {c.w}\n", f"\nword {bits}\n"))
        states = ",".join(map(str, c.hi)) + "\n"
        yield f"play: {name}, a bit less than its width", put(PLAY, {"l": word(c.w - 1), "s": states}, control.plan_line(c, c.hi).decode())
        yield f"play: {name}, words of {least} bits", trapped(word(least), states, "", 1, 1, place)


def rows():
    for some in (list_rows, text_rows, play_rows, example_rows):
        yield from some()
