"""What run.sh times, and what it compares the exponents with.

    python3 -m bench.curvature.make FOLDER              writes the crate `curvature_bench`, which times the step exponent of one design of the greatest size of version 1
    python3 -m bench.curvature.make --designs FOLDER    writes designs, each with a policy, whose rows have exponents of their own
    python3 -m bench.curvature.make --expected          prints the exponents of their rows, as exponents.py computes them in some minutes: rows.txt

The first has 60 plan entries and 252 limit rows: no gap is dominant, s1 is 38, and the certificate is found at 32, so 33 roots are tried. The designs are of the greatest
sizes of both versions, and one of them is fine. A stage row of each is so steep that most others are lowered four times, each time with a root: no matrix is dominant.
"""
import os
import sys

from bench.designs import design

from .exponents import exponents, row_exponents

INPUTS = 8000
A = [[1, 1, 0, 0], [0, 0, 1, 0], [0, 0, 0, 1], [0, 0, 0, 0]]
B = [[0, 0, 1], [0, 1, 0], [1, 0, 0], [0, 0, 1]]
STAGE = [[(i * 7 + j * 3) % 5 - 2 for j in range(4)] + [INPUTS * ((i * 5 + j * 2) % 7 - 3) for j in range(3)] + [100] for i in range(12)]
FINAL = [[(i * 3 + j * 5) % 7 - 3 for j in range(4)] + [100] for i in range(12)]
COST = [[1, 0, 0, 0, 0, 1], [0, 1, 0, 0, 0, 2], [1, 0, 1, 0, 0, 1]]
LAST = [[1, 1, 1, 1, 0, 5]]
WEIGHTS = [1, 2, 1]
DESIGN = dict(states=4, inputs=3, stages=20, plant_den=1, a=A, b=B, cost_den=1, row_den=1, input=WEIGHTS, stage_cost=COST, final_cost=LAST,
              limit_den=1, stage_rows=STAGE, final_rows=FINAL)


def rows(m):
    return '&[' + ', '.join('&[' + ', '.join(map(str, r)) + ']' for r in m) + ']'


MAIN = '''#![tactic(auto)]

use design_engine::condense;
use hessian_check::curvature;
use mat_int::Mat;
use qp_model::{Design, DesignParts};
use std::alloc::{AllocError, Global};
use std::io;
use std::time::Instant;

fn matrix(alloc: Global, cols: usize, rows: &[&[i128]]) -> Result<Mat, AllocError> {
    let mut made = Mat::zero(alloc, 0, cols)?;
    for row in rows {
        if row.len() == made.cols() {
            made.push_row(alloc, row)?;
        }
    }
    Ok(made)
}

fn parts(alloc: Global) -> Result<DesignParts, AllocError> {
    Ok(DesignParts {
        version: 1,
        states: 4,
        inputs: 3,
        stages: 20,
        plant_den: 1,
        a: matrix(alloc, 4, %(A)s)?,
        b: matrix(alloc, 3, %(B)s)?,
        cost_den: 1,
        row_den: 1,
        input_weights: vec![in alloc; %(WEIGHTS)s]?,
        stage_cost: matrix(alloc, 6, %(COST)s)?,
        final_cost: matrix(alloc, 6, %(LAST)s)?,
        limit_den: 1,
        stage_rows: matrix(alloc, 8, %(STAGE)s)?,
        final_rows: matrix(alloc, 5, %(FINAL)s)?,
        grid: 0,
        lo: vec![in alloc; 0; 4]?,
        hi: vec![in alloc; 1; 4]?,
        target_den: 1,
        violation: 16,
        gap: 16,
    })
}

fn main(rt: HostRuntime) -> io::Result<()> {
    let alloc = rt.alloc();
    let Ok(design) = Design::from_parts(parts(alloc)?) else {
        return println!(rt; "no design");
    };
    let Ok(condensed) = condense(alloc, &design) else {
        return println!(rt; "not condensed");
    };
    let start = Instant::now(&rt)?;
    let answer = curvature(alloc, &condensed);
    let took = start.elapsed(&rt)?.as_micros();
    let Ok(exponents) = answer else {
        return println!(rt; "no exponents");
    };
    let s = exponents.s;
    let s1 = exponents.s1;
    println!(rt; "{s} {s1} {took}")
}
'''

# ---- designs whose rows are lowered


def chain(states, den, keep):
    """A chain of states: each has `keep` over den of itself, and the rest of the next one."""
    return [[keep if i == j else den - keep if j == i + 1 else 0 for j in range(states)] for i in range(states)]


def steep_and_flat(states, steep, flat):
    """12 stage rows and 12 final rows, of which the first is steep in the inputs."""
    stage = [[(i * 7 + j * 3) % 5 - 2 for j in range(states)] + [(flat if i else steep) * ((i * 5 + j * 2) % 7 - 3) for j in range(3)] + [100] for i in range(12)]
    return stage, [[(i * 3 + j * 5) % 7 - 3 for j in range(states)] + [100] for i in range(12)]


def lowered(states, stages, den, a, b, steep, flat):
    stage, final = steep_and_flat(states, steep, flat)
    unit = lambda *at: [int(i in at) for i in range(states)]
    return dict(states=states, inputs=3, stages=stages, plant_den=den, a=a, b=b, cost_den=1, row_den=1, input=[1, 2, 1],
                stage_cost=[unit(0) + [0, 1], unit(1) + [0, 2], unit(0, 2) + [0, 1]], final_cost=[[1] * states + [0, 5]], limit_den=1, stage_rows=stage, final_rows=final)


def exact_lowered(states, stages):
    """Whole numbers: the first state sums up what comes down the chain, and each other takes an input."""
    (_, *first), *others = chain(states, 1, 0)
    driven = [[int(i > 0 and l == 2 * i % 3) for l in range(3)] for i in range(states)]
    return lowered(states, stages, 1, [[1, *first], *others], driven, 8000, 125)


def fine_lowered():
    """Two chains of three, over a denominator that 2^40 is no multiple of."""
    den, one = 10 ** 6, chain(3, 10 ** 6, 8 * 10 ** 5)
    a = [row + [0] * 3 for row in one] + [[0] * 3 + row for row in one]
    b = [[0] * 3, [0] * 3, [10 ** 5, 0, 10 ** 5], [0] * 3, [0] * 3, [0, 10 ** 5, -10 ** 5]]
    return lowered(6, 30, den, a, b, 64, 1)


# by name: the design's version and numbers
LOWERED = {'first-60-252': (1, exact_lowered(4, 20)), 'second-60-252': (2, exact_lowered(4, 20)), 'second-90-372': (2, exact_lowered(6, 30)), 'fine-90-372': (2, fine_lowered())}


def design_text(version, d):
    """A box of side 1 from 0, and targets so coarse that no design is refused."""
    n = d['states']
    return f'''version = {version}
states = {n}
inputs = {d['inputs']}
stages = {d['stages']}
[plant]
den = {d['plant_den']}
a = {d['a']}
b = {d['b']}
[cost]
den = {d['cost_den']}
row_den = {d['row_den']}
input = {d['input']}
stage = {d['stage_cost']}
final = {d['final_cost']}
[limits]
den = {d['limit_den']}
stage = {d['stage_rows']}
final = {d['final_rows']}
[box]
grid = 0
lo = {[0] * n}
hi = {[1] * n}
[targets]
den = 1
violation = 2147483647
gap = 2147483647
'''


def write_designs(folder):
    for name, (version, d) in LOWERED.items():
        inside = os.path.join(folder, name)
        os.makedirs(inside)
        with open(os.path.join(inside, 'design.toml'), 'w') as f:
            f.write(design_text(version, d))
        with open(os.path.join(inside, 'policy.csv'), 'w') as f:
            f.write(('1' + ',0' * d['inputs'] * d['stages'] + '\n') * 2 ** d['states'])


def write_crate(folder):
    folder = os.path.join(folder, 'src')
    os.makedirs(folder, exist_ok=True)
    numbers = dict(A=rows(A), B=rows(B), WEIGHTS=', '.join(map(str, WEIGHTS)), COST=rows(COST), LAST=rows(LAST), STAGE=rows(STAGE), FINAL=rows(FINAL))
    with open(os.path.join(folder, 'main.rt'), 'w') as f:
        f.write(MAIN % numbers)
    print(*exponents(design(**DESIGN))[:2])


if __name__ == '__main__':
    if sys.argv[1] == '--designs':
        write_designs(sys.argv[2])
    elif sys.argv[1] == '--expected':
        for name, (version, d) in LOWERED.items():
            if version > 1:
                print(name, *row_exponents(design(**d)), flush=True)
    else:
        write_crate(sys.argv[1])
