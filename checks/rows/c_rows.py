"""Rows of `c`: the source and the header of a controller's program in C.

The texts are those of the model in ../fuzz, whose tests compile them and run them beside the machine.
"""

from ..fuzz import compiled, control
from .texts import refused, sub
from .worked_texts import CONTROLLER, LISTING

C = ["c", "c", "motor", "t", "h"]


def compiles(controller, words=C, **others):
    source, header = compiled.texts_of(words[2], control.read_controller(controller.encode()))
    return words, {"c": controller, **others}, 0, "", "", {words[3]: source.decode(), words[4]: header.decode()}, {}


def parted(width, bits, *changes):
    """The worked controller over 2^bits, with a width above 64: its sums are made in two parts where it has them."""
    k = 2 ** (bits - 10)
    times = lambda line, *numbers: (line + " ".join(map(str, numbers)), line + " ".join(str(v * k) for v in numbers))
    lines = [("bits 10 0 1 26", f"bits {bits} 0 1 {width}"), times("clamp ", 32768), times("P ", 512), times("W ", 256, -256, 256), ("G 1024\nG -1024\nG 1024", f"G {1024 * k}\nG {-1024 * k}\nG {1024 * k}")]
    return sub(CONTROLLER, *lines, times("E ", 1024), times("b ", 1024, 1024, 256), *changes)


def parted_rows():
    """Which controllers of more than 64 bits are written, at the ends of what is asked of them."""
    for what, controller in {
        "66 bits in parts": parted(66, 26),
        "79 bits": parted(79, 26),
        "16 fraction bits": parted(65, 16),
        "a factor of 37 bits": parted(79, 26, (f"W {256 * 2**16} ", f"W {2**37 - 1} ")),
        "a state of 37 bits": parted(79, 26, ("hi 1\n", f"hi {2**11 - 1}\n")),
        "a state that is always 0, in parts": parted(66, 26, ("hi 1\n", "hi 0\n"), (f"P {512 * 2**16}", f"P {-(2**127)}")),
    }.items():
        yield f"c: {what}", compiles(controller)
    for what, controller, width in (
        ("80 bits", parted(80, 26), 80),
        ("15 fraction bits", parted(65, 15), 65),
        ("a factor of 38 bits", parted(79, 26, (f"W {256 * 2**16} ", f"W {2**37} ")), 79),
        ("a state of 38 bits", parted(79, 26, ("hi 1\n", f"hi {2**11}\n")), 79),
        ("a sum of a run of 64 bits", parted(79, 26, ("steps 4", f"steps {2**20}"), ("T 0", f"T {2**44}")), 79),
    ):
        yield f"c: {what}", refused(C, {"c": controller, "t": "old"}, 22, f"too-wide-c {width}")


def rows():
    second = lambda exponents, *changes: sub(CONTROLLER, ("mpc-controller 1", "mpc-controller 2"), ("words 6\n", f"words 6\nexps {exponents}\n"), *changes)
    wide = lambda width: sub(CONTROLLER, ("bits 10 0 1 26", f"bits 10 0 1 {width}"))
    yield "c", compiles(CONTROLLER)
    yield "c over old files", compiles(CONTROLLER, t="an old source\n" * 999, h="an old header\n" * 99)
    yield "c, version 2", compiles(second("1 1 1"))
    for exponents in ("1 1 0", "0 1 1", "0 0 1"):
        yield f"c, version 2: exponents {exponents}", compiles(second(exponents))
    yield "c: three steps", compiles(sub(CONTROLLER, ("steps 4", "steps 3")))
    yield "c: products with 0", compiles(sub(CONTROLLER, ("P 512", "P 0"), ("W 256 -256 256", "W 0 -256 0"), ("b 1024 1024 256", "b 0 -1024 256")))
    yield "c: a state that is always 0", compiles(sub(CONTROLLER, ("hi 1", "hi 0"), ("P 512", f"P {-(2**127)}"), ("E 1024", f"E {2**127 - 1}")))
    six = "mpc-controller 2\nsize 6 1 1 1\nbits 0 0 1 16\nsteps 2\nclamp 9\nwords 9\nexps 0\nlo 0 0 0 0 0 0\nhi 1 2 3 4 5 6\nP 1 2 3 4 5 6\nT 0\nW -1\nG -1\nE 1 1 1 1 1 1\nb 1\nend\n"
    yield "c, version 2: six states", compiles(six)
    for name in ("a", "c", "t", "motor_2", "abcdefghijklmnopqrstuvwxyz_1234"):
        yield f"c of the name {name}", compiles(CONTROLLER, ["c", "c", name, "t", "h"])
    for name in ("", "_a", "2a", "Motor", "mo-tor", "mo.h", "é", "abcdefghijklmnopqrstuvwxyz_12345"):
        yield f"c of the name {name!r}", refused(["c", "c", name, "t", "h"], {"c": CONTROLLER}, 2, "usage")
    yield "c: 64 bits", compiles(wide(64))
    for width in (65, 128):
        yield f"c: {width} bits", refused(C, {"c": wide(width), "t": "old"}, 22, f"too-wide-c {width}")
    yield from parted_rows()
    yield "c: no controller", refused(C, {}, 3, "read-fault 1")
    yield "c: a long controller", refused(C, {"c": CONTROLLER + "\n" * 4194305}, 13, "long 1")
    yield "c: a controller with a zero before its steps", refused(C, {"c": sub(CONTROLLER, ("steps 4", "steps 04")), "h": "old"}, 11, "controller 1 line 4")
    yield "c: gains too large", refused(C, {"c": sub(CONTROLLER, ("W 256 -256", "W 512 -256"))}, 11, "controller 1 unsafe")
    yield "c: a listing for a controller", refused(C, {"c": LISTING}, 11, "controller 1 line 1")
    for name in ("no/t", ".", ""):
        yield f"c to {name!r}", refused(["c", "c", "motor", name, "h"], {"c": CONTROLLER}, 4, "write-fault 3")
        words, files, _, _, _, whole, _ = compiles(CONTROLLER)
        yield f"c with its header to {name!r}", (["c", "c", "motor", "t", name], files, 4, "", "error 4 write-fault 4\n", {"t": whole["t"]}, {})
    for words in ("c", "c c motor t", "c c motor t h x", "c c motor c h", "c c motor t c", "c c motor t t"):
        yield f"usage: {words}", refused(words.split(), {"c": CONTROLLER}, 2, "usage")
