"""Exponents of the step and of the rows, by the model in checks/fuzz: of the exact numbers, or of enclosures where a quantity of the exact ones is above 2^126.

    python3 -m bench.curvature.exponents            prints what the tests of `trials_engine` expect
    python3 -m bench.curvature.exponents DESIGN     prints the exponents of a design text, and those of its rows

Roots of small matrices, and what a root shows of one, are computed here from the definitions alone.
"""
import sys
from math import isqrt
from operator import mul

from bench.designs import design
from checks.fuzz import forms, model


def root(M):
    """The recipe, column by column. None, or the shift and the root."""
    n = len(M)
    top = max(M[i][i] for i in range(n))
    if min(M[i][i] for i in range(n)) <= 0 or top >= 2 ** 116 or any(abs(x) > top for row in M for x in row):
        return None
    h = 0
    while 4 ** (h + 1) * top < 2 ** 62:
        h += 1
    B = [[4 ** h * x for x in row] for row in M]
    mu = min(B[i][i] for i in range(n)) // 4096
    left = [B[i][i] - mu for i in range(n)]
    R = [[0] * n for _ in range(n)]
    for j in range(n):
        if left[j] <= 0 or isqrt(left[j]) == 0:
            return None
        R[j][j] = isqrt(left[j])
        for i in range(j + 1, n):
            R[i][j] = (B[i][j] - sum(R[i][k] * R[j][k] for k in range(j))) // R[j][j]
            if abs(R[i][j]) >= 2 ** 62:
                return None
            left[i] -= R[i][j] ** 2
            if left[i] <= 0:
                return None
    return h, R


def check(M, R):
    n = len(M)
    rest = [[M[i][j] - sum(map(mul, R[i], R[j])) for j in range(n)] for i in range(n)]
    room = all(sum(abs(M[i][j]) + sum(map(abs, map(mul, R[i], R[j]))) for j in range(n)) <= 2 ** 127 - 1 for i in range(n))
    return room and model.is_dominant(rest)


def exponents(d):
    """s and s1, and s2 and sd (None where there is none up to 40), of the design's class."""
    form = model.form_of(d)
    matrices = model.StepMatrices(d, form)
    s2 = forms.squares_exponent(d, form)
    sd = next((s for s in range(41) if model.is_dominant(matrices.at(s))), None)
    s1 = s2 if sd is None else min(s2, sd)
    s = None if s1 > 40 else next((s for s in range(s1) if model.has_certificate(matrices.at(s))), s1)
    return s, s1, s2, sd


def row_exponents(d):
    """The exponent of each limit row of a design of version 2."""
    form = model.form_of(d)
    return model.row_exponents(d, form, model.StepMatrices(d, form), exponents(d)[0])


def answer(d):
    """What `curvature` answers: s and s1, a word, or the quantity that is too wide for the class."""
    wide = [name for name, size in forms.sizes(d, model.form_of(d)).items() if size > forms.LIMIT]
    s, s1, _, _ = exponents(d)
    return 'too wide ' + wide[0] if wide else 'no step' if s is None else f's {s} s1 {s1}'


def read(name):
    """A design text, as one of version 2."""
    with open(name, 'rb') as file:
        d = model.read_design(file.read())
    d.version = 2
    return d


BASE = dict(states=1, inputs=1, stages=1, plant_den=1, a=[[1]], b=[[1]], cost_den=1, row_den=1, input=[1],
            stage_cost=[[1, 0, 1]], final_cost=[], limit_den=4, stage_rows=[[0, 4, 4], [0, -4, 4]], final_rows=[[4, 1]])
STEEP = dict(BASE, limit_den=1, final_rows=[])
CERTIFIED = dict(BASE, stages=2, a=[[2]], stage_cost=[], final_cost=[[1, 0, 100]], limit_den=1,
                 stage_rows=[[0, 1, 1], [0, 1, 2], [0, -1, 1]], final_rows=[])
SATELLITE = dict(states=2, inputs=1, stages=5, plant_den=8, a=[[8, 4], [0, 8]], b=[[1], [4]], cost_den=1, row_den=1, input=[1],
                 stage_cost=[[1, 0, 0, 1], [0, 1, 0, 1]], final_cost=[], limit_den=1,
                 stage_rows=[[0, 0, 1, 4], [0, 0, -1, 4], [1, 0, 0, 8], [-1, 0, 0, 8], [0, 1, 0, 2], [0, -1, 0, 2]],
                 final_rows=[[1, 0, 8], [-1, 0, 8], [0, 1, 2], [0, -1, 2]])
WIDE = dict(BASE, stages=2, plant_den=1048576, a=[[1048576]], b=[[1048576]], limit_den=131072,
            stage_rows=[[0, 131072, 131072], [0, -131072, 131072]], final_rows=[[131072, 32768]])
THIRD = dict(SATELLITE, stages=6, plant_den=30011, a=[[30011, 15007], [-7, 29989]], b=[[3761], [15001]])
MIXED = dict(THIRD, stage_cost=[[1, 0, 0, 1], [0, 1, 0, 1], [2, 3, -1, 5]], row_den=2, cost_den=3,
             stage_rows=[[0, 1, 1, 4], [0, 0, -1, 4], [1, 1, 0, 8], [-1, 3, 2, 8]], final_rows=[[1, 2, 8], [-3, 1, 8]])
OVER = dict(states=1, inputs=1, stages=3, plant_den=1048573, a=[[1048573]], b=[[7]], cost_den=1048576, row_den=1024, input=[3], stage_cost=[[1024, 0, 5]],
            final_cost=[], limit_den=1024, stage_rows=[[0, 1024, 1024], [512, -1024, 1024]], final_rows=[[1024, 1024]])
CHECKS = [([[0, 1], [1, 0]], [[0, 0], [0, 0]]), ([[1]], [[1]]), ([[5, 3], [3, 9]], [[2, 0], [1, 2]]),
          ([[4, 0], [0, 4]], [[2, 0], [1, 2]]), ([[1, -1], [-1, 1]], [[0, 0], [0, 0]]), ([[1, -2], [-2, 2]], [[0, 0], [0, 0]]),
          ([[2, -2], [-2, 1]], [[0, 0], [0, 0]]), ([[0]], [[0]]), ([[-1]], [[0]]), ([[2 ** 126]], [[0]]),
          ([[2 ** 126]], [[2 ** 63]]), ([[2 ** 126, 2 ** 126 - 1], [2 ** 126 - 1, 2 ** 126]], [[0, 0], [0, 0]]),
          ([[2 ** 126, 2 ** 126], [2 ** 126, 2 ** 126]], [[0, 0], [0, 0]])]
ROOTS = [[[1]], [[4]], [[2 ** 62]], [[2 ** 60 - 1]], [[2 ** 116 - 1]], [[2 ** 116, 0], [0, 1]], [[1, 2], [2, 1]],
         [[0, 0], [0, 1]], [[9, -9], [-9, 9]], [[10, -9], [-9, 10]], [[4, 2, -2], [2, 10, 2], [-2, 2, 14]],
         [[2 ** 100, 2 ** 70], [2 ** 70, 2 ** 99]]]

if __name__ == '__main__':
    if len(sys.argv) > 1:
        read_one = read(sys.argv[1])
        print(exponents(read_one))
        print('rows', *row_exponents(read_one))
        sys.exit()
    for name, numbers in [('base', BASE), ('steep', dict(STEEP, stage_rows=[[0, 1400000, 1400000]])),
                    ('steeper', dict(STEEP, stage_rows=[[0, 1500000, 1500000]])), ('certified', CERTIFIED),
                    ('satellite', SATELLITE), ('wide', WIDE), ('third', THIRD), ('mixed', MIXED), ('over', OVER)]:
        d = design(**numbers)
        s, _, s2, sd = exponents(d)
        print(f'{name}:', 'fine' if model.form_of(d).is_fine else 'exact', answer(d), f's2 {s2} sd {sd}', *([] if s is None else ['rows', *row_exponents(d)]))
    for m, r in CHECKS:
        print('check', m, r, check(m, r))
    for m in ROOTS:
        print('root of', m, 'is', root(m))
