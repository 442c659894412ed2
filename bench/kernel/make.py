#!/usr/bin/env python3
"""make.py FOLDER STATES INPUTS STAGES ROWS BITS STEPS [COUNT [limits]]: writes FOLDER/controller, FOLDER/second and FOLDER/states: a controller of these
sizes with as many fraction bits, in numbers of that many bits, the same numbers in version 2, where every other row has a smaller step exponent, FOLDER/third,
the same in version 3, with the accelerated machine's width and at most 65,534 steps, and COUNT states of its box (1 where none is given). With `limits`
its rows are as a design's: two for each plan entry, which limit that entry alone, and then rows that limit states, each with numbers up to its stage.

make.py states CONTROLLER COUNT: puts COUNT states of the box of a controller text."""
import sys

G, S = 8, 4


def numbers(bits):
    """Numbers of so many bits and a sign, from a linear congruential generator."""
    x = 20260101
    while True:
        x = (x * 6364136223846793005 + 1442695040888963407) % 2**64
        yield (x >> (63 - bits)) - 2**bits


def matrix(source, rows, cols):
    return [[next(source) for _ in range(cols)] for _ in range(rows)]


def limits(g, nu, inputs, stages):
    """Zeros where a design's rows have them."""
    for i, row in enumerate(g):
        first, last = (i // 2, i // 2 + 1) if i < 2 * nu else (0, inputs * ((i - 2 * nu) % stages + 1))
        row[:] = [v if first <= j < last else 0 for j, v in enumerate(row)]


def width(f, steps, clamp, low, high, p, t, w, g, e, b, accelerated=False):
    """The least width of a word that holds every absolute sum, of the plain machine or of the accelerated."""
    x = [max(abs(l), abs(h)) << (f - G) for l, h in zip(low, high)]
    size = lambda row, reach: sum(abs(a) * r for a, r in zip(row, reach))
    a = [((size(p[j], x) + (abs(t[j]) << f)) << S) + size(w[j], [clamp] * len(b)) for j in range(len(t))]
    u = [-(-v >> (f + S)) for v in a]
    c = [size(g[i], u) + size(e[i], x) + (abs(b[i]) << f) for i in range(len(b))]
    weight, weights, top = (steps + 1, steps * (steps + 3) // 2, 2 * clamp) if accelerated else (1, steps, clamp)
    d = [top + weight * -(-v >> f) for v in c]
    greatest = max(x + a + c + d + [weights * v for v in u] + [top * weights if accelerated else 0])
    assert greatest <= 2**126
    return max(2, greatest.bit_length() + 1)


def put_states(name, count):
    box = {}
    for line in open(name):
        words = line.split()
        if words[0] in ("lo", "hi"):
            box[words[0]] = [int(word) for word in words[1:]]
    source = numbers(48)
    for _ in range(count):
        print(",".join(str(low + next(source) % (high - low + 1)) for low, high in zip(box["lo"], box["hi"])))


def main():
    if sys.argv[1] == "states":
        put_states(sys.argv[2], int(sys.argv[3]))
        return
    folder = sys.argv[1]
    n, inputs, stages, m, f, steps = map(int, sys.argv[2:8])
    count = int(sys.argv[8]) if len(sys.argv) > 8 else 1
    nu = inputs * stages
    clamp = 1 << (f + S + 6)
    source = numbers(f)
    low, high = [-1024] * n, [1024] * n
    p, (t,), w = matrix(source, nu, n), matrix(source, 1, nu), matrix(source, nu, m)
    g, e, (b,) = matrix(source, m, nu), matrix(source, m, n), matrix(source, 1, m)
    if "limits" in sys.argv:
        limits(g, nu, inputs, stages)
    bits = width(f, steps, clamp, low, high, p, t, w, g, e, b)
    fewer = min(steps, 65534)
    more = width(f, fewer, clamp, low, high, p, t, w, g, e, b, True)
    plain = [["size", n, inputs, stages, m], ["bits", f, G, S, bits], ["steps", steps], ["clamp", clamp], ["words", n + m + 2 * nu]]
    fast = [["size", n, inputs, stages, m], ["bits", f, G, S, more], ["steps", fewer], ["clamp", clamp], ["words", n + 3 * m + 2 * nu]]
    exponents = [S if i % 2 == 0 else i // 2 % S for i in range(m)]
    lines = [["lo"] + low, ["hi"] + high]
    lines += [["P"] + row for row in p] + [["T"] + t] + [["W"] + row for row in w]
    lines += [["G"] + row for row in g] + [["E"] + row for row in e] + [["b"] + b, ["end"]]
    for name, first, head, extra in ("controller", 1, plain, []), ("second", 2, plain, [["exps"] + exponents]), ("third", 3, fast, [["exps"] + exponents]):
        with open(folder + "/" + name, "w") as out:
            out.writelines(" ".join(map(str, line)) + "\n" for line in [["mpc-controller", first]] + head + extra + lines)
    with open(folder + "/states", "w") as out:
        out.writelines(",".join(str(next(source) % 2049 - 1024) for _ in range(n)) + "\n" for _ in range(count))


main()
