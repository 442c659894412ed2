#!/bin/sh
# Times `solve_all` and counts its moves at 40 bits, on designs of the largest shape (60 plan entries, 257 columns) of several conditions,
# and on the satellite of the examples. Works on a copy of the repository, which it removes. A line a design: its name, the condition of
# its hessian, milliseconds for all columns (the least of five runs), moves a column, and moves a column where each goes from 0, from
# coarse to fine (up to a condition of 10^5; beyond it a count takes minutes).
#
# The moves are counted by a Rust program made of the product's own sources (rust_copy.py), on the condensed form that the product made.
# Where its solutions aren't the product's, the script says so and fails.
set -e
here=$(cd "$(dirname "$0")" && pwd)
top=$(cd "$here/../.." && pwd)
copy=$(mktemp -d)
trap 'rm -rf "$copy"' EXIT

mkdir "$copy/designs"
python3 "$here/designs.py" "$copy/designs" > "$copy/conditions"
cp "$top/examples/satellite/design.toml" "$copy/designs/satellite.toml"
echo "satellite -" >> "$copy/conditions"

(cd "$top" && tar cf - --exclude=out --exclude=must-fail crates crates.txt HANDLES) | tar xf - -C "$copy"
cd "$copy"
rt new crates/descent_speed start_io > /dev/null
rm -f crates/descent_speed/src/clock.rt crates/descent_speed/stdin crates/descent_speed/stdout
echo "descent_speed: anyhow approx_inverse condensed_form design_engine design_files mat_int" >> crates.txt
cat > crates/descent_speed/src/main.rt <<'MAIN'
#![tactic(auto)]

use anyhow::Error;
use approx_inverse::{Inverse, solve_all};
use condensed_form::Condensed;
use design_engine::condense;
use design_files::read_design;
use mat_int::Mat;
use std::fs;
use std::time::Instant;

const FRACTION_BITS: u32 = 40;

fn put_row(rt: &HostRuntime, row: &[i128]) -> Result<(), Error> {
    for v in row {
        print!(rt; " {v}")?;
    }
    Ok(())
}

fn put_rows(rt: &HostRuntime, mat: &Mat) -> Result<(), Error> {
    for i in 0..mat.rows() {
        put_row(rt, mat.row(i))?;
    }
    Ok(())
}

fn put_form(rt: &HostRuntime, name: &str, form: &Condensed) -> Result<(), Error> {
    print!(rt; "form {name} {} {} {}", form.hess.rows(), form.lin.cols(), form.g.rows())?;
    print!(rt; " {} {} {} {} {}", form.limit_den, form.weight_den, form.cost_row_den, form.power, form.floor)?;
    put_rows(rt, &form.hess)?;
    put_rows(rt, &form.lin)?;
    put_row(rt, &form.off)?;
    put_rows(rt, &form.g)?;
    println!(rt; "")?;
    Ok(())
}

fn sum_from(sum: i128, row: &[i128]) -> i128 {
    let mut sum = sum;
    for v in row {
        sum = sum.wrapping_mul(1000003).wrapping_add(*v);
    }
    sum
}

fn sum_of(found: &Inverse) -> i128 {
    let mut sum = 0i128;
    for i in 0..found.p_mat.rows() {
        sum = sum_from(sum, found.p_mat.row(i));
    }
    sum = sum_from(sum, &found.t);
    for i in 0..found.w_mat.rows() {
        sum = sum_from(sum, found.w_mat.row(i));
    }
    sum
}

fn tell(rt: &HostRuntime, name: &str) -> Result<(), Error> {
    let path = format!(in rt.alloc(); "data/{name}.toml")?;
    let text = fs::read(rt, path.as_str())?;
    let design = read_design(rt.alloc(), &text)?;
    let form = condense(rt.alloc(), &design)?;
    let mut least = u128::MAX;
    let mut sum = 0;
    for _ in 0..5 {
        let start = Instant::now(rt)?;
        let found = solve_all(rt.alloc(), &form, FRACTION_BITS)?;
        least = least.min(start.elapsed(rt)?.as_micros());
        sum = sum_of(&found);
    }
    println!(rt; "told {name} {}.{:03} {sum}", least / 1000, least % 1000)?;
    put_form(rt, name, &form)
}

fn main(rt: HostRuntime) -> Result<(), Error> {
    for name in [NAMES] {
        tell(&rt, name)?;
    }
    Ok(())
}
MAIN
names=$(awk '{ printf "%s\"%s\"", (NR > 1 ? ", " : ""), $1 }' conditions)
sed -i "s|NAMES|$names|" crates/descent_speed/src/main.rt
cp -r designs crates/descent_speed/data
(cd crates/descent_speed && rt run) > run.log 2>&1 || { grep -v '^form' run.log | tail -20 >&2; exit 1; }

python3 "$here/rust_copy.py" rust
rustc -O --edition 2015 rust/main.rs -o moves

failed=0
echo "design condition milliseconds moves moves_from_0"
while read -r name condition; do
    milliseconds=$(awk -v name="$name" '$1 == "told" && $2 == name { print $3 }' run.log)
    sum=$(awk -v name="$name" '$1 == "told" && $2 == name { print $4 }' run.log)
    sed -n "s/^form $name //p" run.log > form
    read -r counted counted_sum <<COUNTED
$(./moves < form)
COUNTED
    from_zero=-
    if [ "$condition" = - ] || awk -v it="$condition" 'BEGIN { exit !(it < 100000) }'; then
        from_zero=$(./moves from-zero < form | cut -d' ' -f1)
    fi
    if [ "$counted_sum" != "$sum" ]; then
        echo "$name: the counting program found other solutions than the product" >&2
        failed=1
    fi
    echo "$name $condition $milliseconds $counted $from_zero"
done < conditions
exit $failed
