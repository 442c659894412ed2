#!/usr/bin/env bash
# run.sh PROGRAM [RUNS]: times `PROGRAM solve CONTROLLER STATES` against the same machine in plain C, on the same files, and compares
# what they put. C is built by gcc -O3 for the processors that the program is built for (x86-64-v2): with all words of 128 bits, with factors copied to 64, and with all
# words of 64 bits. It prints the least user time of several runs of each, which take turns, and the program's ratios.
#
# First come made controllers of three sizes whose width is above 64, with their marks, which are ratios to C with 128 bits; then controllers of a width of at most 64: three
# examples' and a made one, whose rows are as a design's, with their marks to C with 128 bits and to C with 64.
# The numbers of each made controller follow in version 2, where every other row has a smaller step exponent: its times, and the program's and C's ratios to version 1; the
# mark is of the program's. It fails where a ratio is beyond its mark.
#
# Last come controllers of the accelerated machine, against that machine in C: the three examples', of their designs as version 3, and the made ones' numbers in version 3,
# of a width of at most 64 and above. They have no marks.
set -euo pipefail
program=$(realpath "$1")
runs=${2:-15}
here=$(dirname "$(realpath "$0")")
examples=$here/../../examples
work=$(mktemp -d)
trap 'rm -rf "$work"' EXIT

for kind in "wide " "copies -DFACTOR=int64_t" "narrow -DWORD=int64_t"; do
    "${CC:-gcc}" -O3 -march=x86-64-v2 ${kind#* } -o "$work/${kind%% *}" "$here/machine.c"
done
cd "$work"
TIMEFORMAT=%U

# The user time, in seconds, of a command, added to a list; its output goes to a file beside that.
timed() {
    local name=$1
    shift
    { time "$@" >"$name.lines" 2>"$name.errors"; } 2>>"$name.times"
}

least() {
    sort -n "$1.times" | head -1
}

# Whether two put the same lines.
same() {
    cmp -s "$1.lines" "$2.lines" && return
    echo "the lines of $1 and $2 differ" >&2
    diff "$1.lines" "$2.lines" >&2 || true
    return 1
}

# Times a controller in the program and in C built so, and compares what they put.
measure() {
    local controller=$1 name=$2 kind
    shift 2
    rm -f "$name"_*.times
    for _ in $(seq "$runs"); do
        for kind in "$@"; do timed "${name}_$kind" "./$kind" "$controller" states; done
        timed "${name}_program" "$program" solve "$controller" states
    done
    for kind in "$@"; do same "${name}_$kind" "${name}_program" || return 1; done
}

# A ratio of the program to C, with its mark.
ratio() {
    awk -v what="$1" -v mark="$2" -v program="$(least first_program)" -v c="$(least "first_$3")" 'BEGIN {
        printf "  %s %.3f s, ratio %.2f%s\n", what, c, program / c, mark ? sprintf(", mark %.2f", mark) : ""
        exit mark && program > mark * c
    }'
}

# Version 2 of the controller that was measured.
second() {
    measure second second "$@" || return 1
    local kind others=""
    for kind in "$@"; do others+=$(awk -v kind="$kind" -v a="$(least "second_$kind")" -v b="$(least "first_$kind")" 'BEGIN { printf "; C %s %.2f", kind, a / b }'); done
    awk -v mark=1.1 -v a="$(least second_program)" -v b="$(least first_program)" -v others="$others" 'BEGIN {
        printf "  version 2 over version 1: program %.3f s, ratio %.2f, mark %.2f%s\n", a, a / b, mark, others
        exit a > mark * b
    }'
}

# A made controller whose width is above 64: states, inputs, stages, rows, bits, steps, and the mark.
wide_size() {
    local slow=0
    python3 "$here/make.py" "$work" "${@:1:6}"
    measure controller first wide copies || return 1
    echo "$4 rows, $(($2 * $3)) plan entries, $6 steps, width above 64: program $(least first_program) s"
    ratio "C with 128 bits" "$7" wide || slow=1
    ratio "C with copies of 64 bits" 0 copies || slow=1
    second wide copies || slow=1
    return "$slow"
}

# One of a width of at most 64: its name and the marks.
narrow_size() {
    local slow=0
    measure controller first wide narrow || return 1
    echo "$1, width $(awk '$1 == "bits" { print $5 }' controller): program $(least first_program) s"
    ratio "C with 128 bits" "$2" wide || slow=1
    ratio "C with 64 bits" "$3" narrow || slow=1
    return "$slow"
}

# An example's: its name, a count of states, and the marks.
example() {
    "$program" generate "$examples/$1/design.toml" "$examples/$1/policy.csv" controller report
    python3 "$here/make.py" states controller "$2" >states
    narrow_size "$1" "$3" "$4"
}

# An example's as a design of version 3, and states so many.
accelerated_example() {
    sed 's/^version = .*/version = 3/' "$examples/$1/design.toml" >design
    "$program" generate design "$examples/$1/policy.csv" controller report
    python3 "$here/make.py" states controller "$2" >states
    narrow_size "$1, accelerated, $(awk '$1 == "steps" { print $2 }' controller) steps" 0 0
}

# The numbers of a made controller in version 3, of a width of at most 64.
accelerated_size() {
    python3 "$here/make.py" "$work" "$@"
    mv third controller
    narrow_size "$4 rows, $(($2 * $3)) plan entries, accelerated, $(awk '$1 == "steps" { print $2 }' controller) steps" 0 0
}

failed=0
wide_size 2 1 5 34 28 1000000 0.70 || failed=1
wide_size 2 1 10 64 36 400000 0.68 || failed=1
wide_size 4 3 20 252 36 30000 0.65 || failed=1
example motor 4000 0.45 0.85 || failed=1
example wheel 600 0.27 0.6 || failed=1
example satellite 500 0.27 0.6 || failed=1
python3 "$here/make.py" "$work" 4 3 10 110 12 300 300 limits
narrow_size "110 rows, 30 plan entries, 300 steps" 0.25 0 || failed=1
second wide narrow || failed=1
accelerated_example motor 100000 || failed=1
accelerated_example wheel 30000 || failed=1
accelerated_example satellite 30000 || failed=1
accelerated_size 4 3 10 110 12 300 300 limits || failed=1
exit "$failed"
