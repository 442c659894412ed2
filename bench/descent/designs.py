#!/usr/bin/env python3
"""designs.py FOLDER: writes designs of 60 plan entries and 252 limit rows into the folder, and prints for each its name and the condition of
its hessian, the greatest eigenvalue over the least.

The plant is two double integrators under three inputs, over 20 stages. The designs differ in their weights alone."""
import math
import sys

A = [[1, 1, 0, 0], [0, 1, 0, 0], [0, 0, 1, 1], [0, 0, 0, 1]]
B = [[0, 0, 0], [1, 0, 1], [0, 0, 0], [0, 1, 1]]
STAGES = 20
STATES, INPUTS = 4, 3
ENTRIES = STAGES * INPUTS

# name, input weights, weight of each state at each stage, weight of the first state at the end
DESIGNS = [
    ("condition_8", [75700] * 3, 1, 100),
    ("condition_68", [7910] * 3, 1, 100),
    ("condition_877", [605] * 3, 1, 100),
    ("condition_17000", [31] * 3, 1, 100),
    ("condition_1000000", [1] * 3, 2, 200),
    ("condition_20000000", [1] * 3, 40, 4000),
    ("uneven_inputs", [1, 1000, 1], 1000000, 100000),
]


def unit(width, place, number=1):
    return [number if i == place else 0 for i in range(width)]


def limit_rows():
    rows = []
    for sign in (1, -1):
        for i in range(INPUTS):
            rows.append([0] * STATES + unit(INPUTS, i, sign) + [1])
        for i in (0, 2, 1):
            rows.append(unit(STATES, i, sign) + [0] * INPUTS + [9])
    return rows


def final_rows():
    rows = [unit(STATES, i, sign) + [9] for i in range(STATES) for sign in (1, -1)]
    return rows + [[1, 1, 0, 0, 9], [0, 0, 1, 1, 9], [1, -1, 0, 0, 9], [0, 0, 1, -1, 9]]


def text(inputs, stage, final):
    return f"""version = 1
states = {STATES}
inputs = {INPUTS}
stages = {STAGES}
[plant]
den = 1
a = {A}
b = {B}
[cost]
den = 1
row_den = 1
input = {inputs}
stage = {[unit(STATES, i) + [0, stage] for i in range(STATES)]}
final = {[unit(STATES, 0) + [0, final]]}
[limits]
den = 1
stage = {limit_rows()}
final = {final_rows()}
[box]
grid = 10
lo = {[-1024] * STATES}
hi = {[1024] * STATES}
[targets]
den = 1
violation = 16
gap = 1
"""


def hessian(inputs, stage, final):
    h = [[0.0] * ENTRIES for _ in range(ENTRIES)]
    response = [[0] * ENTRIES for _ in range(STATES)]
    for k in range(STAGES):
        response = [[sum(A[i][s] * response[s][j] for s in range(STATES)) for j in range(ENTRIES)] for i in range(STATES)]
        for l in range(INPUTS):
            for i in range(STATES):
                response[i][k * INPUTS + l] += B[i][l]
        weighted = [(row, stage) for row in response]
        if k + 1 == STAGES:
            weighted.append((response[0], final))
        for row, weight in weighted:
            for i in range(ENTRIES):
                if row[i]:
                    for j in range(ENTRIES):
                        h[i][j] += 2.0 * weight * row[i] * row[j]
    for j in range(ENTRIES):
        h[j][j] += 2.0 * inputs[j % INPUTS]
    return h


def scaled(v):
    length = math.sqrt(sum(x * x for x in v))
    return length, [x / length for x in v]


def condition(h):
    n = len(h)
    v = [1.0 + 0.1 * i for i in range(n)]
    for _ in range(300):
        greatest, v = scaled([sum(a * b for a, b in zip(row, v)) for row in h])
    root = [[0.0] * n for _ in range(n)]
    for j in range(n):
        for i in range(j, n):
            left = h[i][j] - sum(root[i][k] * root[j][k] for k in range(j))
            root[i][j] = math.sqrt(left) if i == j else left / root[j][j]
    v = [float((i * 7 + 3) % 11 - 5) for i in range(n)]
    for _ in range(100):
        for i in range(n):
            v[i] = (v[i] - sum(root[i][k] * v[k] for k in range(i))) / root[i][i]
        for i in reversed(range(n)):
            v[i] = (v[i] - sum(root[k][i] * v[k] for k in range(i + 1, n))) / root[i][i]
        inverse, v = scaled(v)
    return greatest * inverse


for name, inputs, stage, final in DESIGNS:
    with open(f"{sys.argv[1]}/{name}.toml", "w") as out:
        out.write(text(inputs, stage, final))
    print(f"{name} {condition(hessian(inputs, stage, final)):.2g}")
