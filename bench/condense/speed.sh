#!/bin/sh
# Times `condense_exact` on the largest shape: 4 states, 3 inputs, 20 stages, 12 cost rows and 12 limit rows of each kind (60 plan entries,
# 252 limit rows). Works on a copy of the repository, which it removes; prints the milliseconds of the least of five runs.
set -e
top=$(cd "$(dirname "$0")/../.." && pwd)
copy=$(mktemp -d)
trap 'rm -rf "$copy"' EXIT
cp -r "$top/crates" "$top/crates.txt" "$top/HANDLES" "$copy/"
cd "$copy"
rt new crates/condense_speed start_io > /dev/null
rm -f crates/condense_speed/src/clock.rt crates/condense_speed/stdin crates/condense_speed/stdout
echo "condense_speed: anyhow mat_int qp_model scaled_condense" >> crates.txt
cat > crates/condense_speed/src/main.rt <<'MAIN'
#![tactic(auto)]

use anyhow::Error;
use mat_int::Mat;
use scaled_condense::condense_exact;
use qp_model::{Design, DesignParts};
use std::alloc::{AllocError, Global};
use std::time::Instant;

// Small numbers from a rule, with a weight that isn't negative at the end.
fn table(alloc: Global, rows: usize, cols: usize) -> Result<Mat, AllocError> {
    let mut mat = Mat::zero(alloc, 0, cols)?;
    let mut draw = 7u32;
    for _ in 0..rows {
        let mut row = Vec::new(alloc);
        for _ in 0..cols {
            draw = draw.wrapping_mul(1103515245).wrapping_add(12345);
            row.push(i128::from((draw >> 16) % 3))?;
        }
        if row.len() == mat.cols() {
            mat.push_row(alloc, &row)?;
        }
    }
    Ok(mat)
}

fn matrix(alloc: Global, cols: usize, rows: &[&[i128]]) -> Result<Mat, AllocError> {
    let mut mat = Mat::zero(alloc, 0, cols)?;
    for row in rows {
        if row.len() == mat.cols() {
            mat.push_row(alloc, row)?;
        }
    }
    Ok(mat)
}

fn list(alloc: Global, len: usize, number: i128) -> Result<Vec<i128>, AllocError> {
    vec![in alloc; number; len]
}

fn parts(alloc: Global) -> Result<DesignParts, AllocError> {
    Ok(DesignParts {
        version: 1,
        states: 4,
        inputs: 3,
        stages: 20,
        plant_den: 4,
        a: matrix(alloc, 4, &[&[3, 1, 0, 0], &[0, 3, 1, 0], &[0, 0, 3, 0], &[0, 0, 0, 3]])?,
        b: matrix(alloc, 3, &[&[0, 0, 0], &[0, 0, 0], &[1, 0, 0], &[0, 1, 0]])?,
        cost_den: 3,
        row_den: 2,
        input_weights: list(alloc, 3, 2)?,
        stage_cost: table(alloc, 12, 6)?,
        final_cost: table(alloc, 12, 6)?,
        limit_den: 4,
        stage_rows: table(alloc, 12, 8)?,
        final_rows: table(alloc, 12, 5)?,
        grid: 4,
        lo: list(alloc, 4, -8)?,
        hi: list(alloc, 4, 8)?,
        target_den: 1,
        violation: 1,
        gap: 1,
    })
}

fn main(rt: HostRuntime) -> Result<(), Error> {
    let design = Design::from_parts(parts(rt.alloc())?)?;
    let mut least = u128::MAX;
    for _ in 0..5 {
        let start = Instant::now(&rt)?;
        let form = condense_exact(rt.alloc(), &design)?;
        let spent = start.elapsed(&rt)?.as_micros();
        println!(rt; "{} plan entries, {} rows, {spent} us", form.hess.rows(), form.g.rows())?;
        least = least.min(spent);
    }
    println!(rt; "least {} ms", least / 1000)?;
    Ok(())
}
MAIN
cd crates/condense_speed
rt "${1:-run}"
