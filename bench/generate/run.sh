#!/usr/bin/env bash
# run.sh PROGRAM [RUNS]: times `PROGRAM generate` on each example, and beside it `PROGRAM lean`, and the former on the designs of fine.py, whose exact numbers pass the limit. It prints the least user and
# system time of several runs, in milliseconds; the marks are 10 for the satellite, and 500 for each fine design. With valgrind at hand it prints the functions that
# take the most instructions for the satellite, and for each fine design the shares of its parts: a run that is refused for its steps ends before the rounding errors
# are added up. The mark of condensing is 50 ms at 60 plan entries and 252 rows.
set -euo pipefail
program=$(realpath "$1")
runs=${2:-20}
here=$(realpath "$(dirname "$0")")
examples=$(realpath "$here/../../examples")
work=$(mktemp -d)
trap 'rm -rf "$work"' EXIT
TIMEFORMAT='%U %S'
mkdir "$work/fine"
(cd "$here/../.." && python3 -m bench.generate.fine "$work/fine")

# The least processor time of a command on the design in a folder, in milliseconds; the command with the names of its plans.
least() {
    local names=("${@:3}")
    for _ in $(seq "$runs"); do
        { time "$program" "$2" "$1/design.toml" "${names[@]/#/$1/}" "$work/controller" "$work/report" >"$work/out" 2>"$work/err"; } 2>&1
    done | awk '{ t = ($1 + $2) * 1000; if (NR == 1 || t < least) least = t } END { print least }'
}

# The functions' instructions on a design text; those that they call are counted in where the second word is yes.
instructions() {
    valgrind --tool=callgrind --callgrind-out-file="$work/calls" "$program" generate "$1" "$(dirname "$1")/policy.csv" "$work/controller" "$work/report" >"$work/out" 2>"$work/err" || true
    callgrind_annotate --inclusive="$2" "$work/calls" | grep -E '^ *[0-9,]+ \(' | sed 's/\[.*//'
}

# The instructions of a run on a design text, and of its condensing.
condensing() {
    instructions "$1" yes | tr -d , | awk '/PROGRAM TOTALS/ { all = $1 } /:design_engine::condensing::condense / { part = $1 } END { print all, part }'
}

for example in "$examples"/*/; do
    echo "$(basename "$example"): $(least "$example" generate policy.csv) ms, lean $(least "$example" lean lean.csv reference.csv) ms"
done
for fine in "$work"/fine/*/; do
    took=$(least "$fine" generate policy.csv)
    echo "$(basename "$fine"): $took ms"
    if command -v valgrind >/dev/null; then
        sed '/^\[targets\]/,$ { s/^den = .*/den = 1048576/; s/^violation = .*/violation = 1/ }' "$fine/design.toml" >"$fine/many_steps.toml"
        echo "$(condensing "$fine/design.toml") $(condensing "$fine/many_steps.toml") $took" | awk '{
            printf "    %.0f %% condensing (%.0f ms), %.0f %% texts, corners and step exponent, %.0f %% errors, gains and width\n",
                100 * $2 / $1, $5 * $2 / $1, 100 * ($3 - $4) / $1, 100 * ($1 - $3) / $1 }'
    fi
done
if command -v valgrind >/dev/null; then
    # the functions with the largest shares of their own
    instructions "$examples/satellite/design.toml" no | head -14
fi
