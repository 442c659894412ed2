#!/usr/bin/env bash
# run.sh: times the step exponent of a design of the greatest size of version 1 (60 plan entries, 252 limit rows) in a program of its own, made
# in a copy of the repository, and compares it with that of exponents.py. The mark is one second.
#
# run.sh PROGRAM [RUNS]: with the built program it times `generate` on designs of 60 plan entries and 252 rows in both versions, and of 90 and 372
# in both classes, and compares the rows' exponents with rows.txt, which `make.py --expected` prints. It tells the least user and system time of
# several runs (5), in milliseconds; what version 2 takes beside version 1 at 60 and 252 are the exponents of the rows. With valgrind at hand it
# tells the share of each part of hessian_check, its calls counted in.
set -euo pipefail
here=$(dirname "$(realpath "$0")")
top=$(realpath "$here/../..")
work=$(mktemp -d)
trap 'rm -rf "$work"' EXIT
TIMEFORMAT='%U %S'

generated() {
    "$program" generate "$1/design.toml" "$1/policy.csv" "$1/controller" "$1/report"
}

# The least processor time on the design in a folder, in milliseconds. The controller is left in that folder.
least() {
    for _ in $(seq "$2"); do
        { time generated "$1" 2>"$work/err"; } 2>&1 || { cat "$work/err" >&2; exit 1; }
    done | awk '{ t = ($1 + $2) * 1000; if (NR == 1 || t < least) least = t } END { print least }'
}

# The shares of the functions of hessian_check in the instructions on the design in a folder, with what they call.
shares() {
    valgrind --tool=callgrind --callgrind-out-file="$work/calls" "$program" generate "$1/design.toml" "$1/policy.csv" "$1/controller" "$1/report" >"$work/out" 2>"$work/err"
    callgrind_annotate --inclusive=yes "$work/calls" | awk '/^ *[0-9,]+ \(.*hessian_check/ && ++found <= 6 { sub(/ *\[.*/, ""); sub(/^ */, "    "); print }'
}

# The exponents of the rows of the controller in a folder are those of rows.txt, or all the same in version 1.
compared() {
    local name found
    name=$(basename "$1")
    found=$(sed -n 's/^exps //p' "$1/controller")
    [ "$name $found" = "$(grep "^$name " "$here/rows.txt" || echo "$name ")" ]
}

time_designs() {
    local design took
    mkdir "$work/designs"
    (cd "$top" && python3 -m bench.curvature.make --designs "$work/designs")
    for design in "$work"/designs/*/; do
        took=$(least "$design" "$1")
        echo "$(basename "$design"): $took ms"
        compared "$design" || { echo "$(basename "$design"): other exponents than in rows.txt"; exit 1; }
        if command -v valgrind >/dev/null; then
            shares "$design"
        fi
    done
}

if [ $# -gt 0 ]; then
    program=$(realpath "$1")
    time_designs "${2:-5}"
    exit
fi

cd "$top"
# the crates that the bench is made of, and those below them
needed() {
    awk -F: '
        /^[a-z]/ { below[$1] = $2 }
        function visit(crate, names, count, i) {
            if (!(crate in below) || crate in seen) return
            seen[crate]
            count = split(below[crate], names, " ")
            for (i = 1; i <= count; i++) visit(names[i])
        }
        END { visit("design_engine"); for (crate in seen) print crate }' crates.txt
}
for crate in $(needed); do
    mkdir -p "$work/crates/$crate"
    tar cf - --exclude=out -C "crates/$crate" . | tar xf - -C "$work/crates/$crate"
    grep "^$crate:" crates.txt >>"$work/crates.txt"
done
echo "curvature_bench: design_engine hessian_check mat_int qp_model" >>"$work/crates.txt"
expected=$(python3 -m bench.curvature.make "$work/crates/curvature_bench")

cd "$work/crates/curvature_bench"
rt run >log 2>&1 || { tail -20 log >&2; exit 1; }
read -r s s1 took < <(grep -E '^[0-9]+ [0-9]+ [0-9]+$' log)
echo "s $s, s1 $s1, $took microseconds; expected: $expected"
[ "$s $s1" = "$expected" ] && [ "$took" -le 1000000 ]
