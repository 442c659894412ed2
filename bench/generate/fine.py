"""Writes designs whose exact numbers pass the limit, of 21 to 60 plan entries, each with a policy: fine.py FOLDER, for run.sh.

Four states in two chains, up to three inputs, 12 cost rows and 12 limit rows of each kind, and a plant over the greatest denominator that there is. The model in
checks/fuzz says that the design and its corners are of the fine classes, and that it is accepted.
"""
import os
import sys

from checks.fuzz import at_corners, cases, forms, model

A = [[0.8, 0.2, 0, 0], [0, 0.8, 0, 0], [0, 0, 0.8, 0.2], [0, 0, 0, 0.8]]
B = [[0, 0, 0], [0.2, 0, 0], [0, 0, 0.2], [0, 0.2, 0]]
UNITS = [[int(i == j) for j in range(4)] for i in range(4)]
CHAINS = [[1, 1, 0, 0], [0, 0, 1, 1], [1, 0, 1, 0], [0, 1, 0, 1]]


def numbers(stages, inputs, den):
    """The design's numbers, over the plant's denominator."""
    near = lambda rows: [[round(den * v) for v in row] for row in rows]
    cost = [[*row, 0, weight] for weight, rows in ((2, UNITS), (1, CHAINS), (1, [[v, -v, 0, 0] for v in (1, 1)] + [[0, 0, v, -v] for v in (1, 1)])) for row in rows]
    limit = 64
    inside = [[side * limit * v for v in row] for side in (1, -1) for row in UNITS]
    ends = inside + [[limit * v // 2 for v in row] for row in CHAINS]
    bounded = [[*row, *[0] * inputs, 2 * limit] for row in inside[: 12 - 2 * inputs]]
    driven = [[0, 0, 0, 0, *[side * limit * int(l == at) for l in range(inputs)], 2 * limit] for side in (1, -1) for at in range(inputs)]
    return {"n": 4, "p": inputs, "stages": stages, "den": den, "a": near(A), "b": near([row[:inputs] for row in B]), "cost_den": 1, "row_den": 1, "input": [1] * inputs,
            "cost": cost, "final_cost": cost, "limit_den": limit, "rows": bounded + driven, "final_rows": [[*row, 2 * limit] for row in ends], "grid": 0,
            "lo": [-1] * 4, "hi": [1] * 4, "target_den": 1, "violation": 16, "gap": 16}


def main():
    folder = sys.argv[1]
    for stages, inputs in ((7, 3), (10, 3), (20, 2), (20, 3)):
        text = cases.design_text(numbers(stages, inputs, 2**20))
        d = model.read_design(text)
        plans = [(1, [0] * d.entries)] * 2**d.states
        if forms.is_within_limit(d, forms.exact_form(d)) or not at_corners.are_fine(d, plans):
            sys.exit(f"{stages} stages, {inputs} inputs: the design or its corners aren't fine")
        model.choose(d, plans)
        name = os.path.join(folder, f"fine-{d.entries}-{d.rows}")
        os.mkdir(name)
        for file, data in (("design.toml", text), ("policy.csv", ("1" + ",0" * d.entries + "\n").encode() * 2**d.states)):
            with open(os.path.join(name, file), "wb") as it:
                it.write(data)


if __name__ == "__main__":
    main()
