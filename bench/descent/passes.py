"""What further moves of the gains would do to the printed gap.

    python3 -m bench.descent.passes PROGRAM

For each example the program makes the controller. Its gap is computed anew from the gains that were written; then after one more pass over the entries of every column, in
which an entry moves by 1 wherever that lowers the sum of the residuals and leaves the solution good; and, beside it, with the exact solutions rounded to the nearest.
"""
import os
import subprocess
import sys
import tempfile

from checks.fuzz import control, model

TOP = os.path.dirname(os.path.dirname(os.path.dirname(os.path.abspath(__file__))))


def moved(matrix, column, bits, x):
    """The entries after one more pass, and how many moved."""
    x = list(x)
    rest = [sum(h * v for h, v in zip(row, x)) - 2**bits * c for row, c in zip(matrix, column)]
    count = 0
    for j in range(len(x)):
        for step in (-1, 1):
            new = [r + step * row[j] for r, row in zip(rest, matrix)]
            if sum(map(abs, new)) < sum(map(abs, rest)) and all(2 * abs(r) <= row[i] for i, (r, row) in enumerate(zip(new, matrix))):
                x[j], rest, count = x[j] + step, new, count + 1
                break
    return x, count


def example(program, folder, name):
    design, policy, controller = f"{TOP}/examples/{name}/design.toml", f"{TOP}/examples/{name}/policy.csv", f"{folder}/controller"
    subprocess.run([program, "generate", design, policy, controller, f"{folder}/report"], check=True)
    with open(design, "rb") as one, open(policy, "rb") as other, open(controller, "rb") as third:
        d = model.read_design(one.read())
        plans, c = model.read_policy(other.read(), d), control.read_controller(third.read())
    choice, most = model.choose(d, plans), control.greatest_entry(c)
    gains = [*map(list, zip(*c.p_mat)), list(c.t), *map(list, zip(*c.w_mat))]
    gap = lambda solutions: choice.errors.real(choice, solutions, most, choice.report["bits"])
    passed = [moved(choice.matrix, column, choice.report["bits"], x) for column, x in zip(choice.columns, gains)]
    now, less = gap(gains), lambda other: f"{100 * (1 - other / gap(gains)):.2f} %"
    print(f"{name}: the gap is {now} / 2^40, by the stated errors it would be {choice.errors.epsilon(choice.report['bits'])}; one more pass moves {sum(n for _, n in passed)} entries "
          f"and takes off {less(gap([x for x, _ in passed]))}, the rounded exact solutions {less(gap(model.exact_gains(choice)))}")


def main():
    if len(sys.argv) != 2:
        sys.exit(__doc__)
    with tempfile.TemporaryDirectory() as folder:
        for name in sorted(os.listdir(f"{TOP}/examples")):
            if os.path.exists(f"{TOP}/examples/{name}/policy.csv"):
                example(os.path.abspath(sys.argv[1]), folder, name)


main()
