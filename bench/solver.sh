#!/usr/bin/env bash
# Measures the proved solver, one in plain Rust by the same rules, and CaDiCaL, on pigeonhole formulas, on pairs of sequences of instructions, and on the
# formulas of the 100 windows of listings that take the most conflicts. Both logs have to be equal, each verdict has to be CaDiCaL's, and each log is checked by
# `lrat_check` and by a second checker. Times are processor times, the least of the turns. If `perf` is there, the share of propagation is printed.
# Use: bench/solver.sh [TURNS [FOLDER]], a folder of listings
. "$(dirname "$0")/common.sh"
turns=${1:-5} folder=${2:-}
take_crates cdcl_core
mkdir -p "$work/formulas" "$work/asked"
prove_clause solver_times
proved=$(build_proved solver_times "$top/bench/solver/proved.rs" cdcl_core cnf_gates lrat_check step_ledger anyhow)
plain=$(build_plain "$top/bench/solver/plain.rs")
python3 "$top/bench/solver/formulas.py" "$work/formulas"

# solving PROGRAM: runs it on $formula.
solving() { "$1" < "$formula"; }

cadical_in() { cadical -q -n "$formula" > "$work/other.txt" || true; }

# try_formula TURNS: solves the formula with all three and compares. Sets verdict, conflicts and the times in microseconds.
try_formula() {
    in_turns "$1" solving
    other_time=$(clocked cadical_in 2>&1)
    conflicts=$(tail -n 1 "$work/proved.times" | cut -d' ' -f2)
    verdict=$(head -n 1 "$work/proved.printed")
    case $verdict in
        sat) grep -qx "s SATISFIABLE" "$work/other.txt" ;;
        unsat) grep -qx "s UNSATISFIABLE" "$work/other.txt" ;;
    esac || { echo "$formula: $verdict, and CaDiCaL says $(cat "$work/other.txt")" >&2; exit 1; }
    python3 "$top/bench/solver/checked.py" "$work" "$formula" "$work/proved.printed" > "$work/build.log" 2>&1 || { tail -n 20 "$work/build.log" >&2; exit 1; }
}

# share FORMULA..: the share of the proved solver's time on formulas that is spent in propagation.
share() {
    command -v perf > /dev/null || return 0
    perf record -q -e cpu-clock -o "$work/perf" bash -c 'for formula in "${@:2}"; do "$1" < "$formula" > /dev/null; done' solve "$proved" "$@" 2> "$work/told" || return 0
    perf report -i "$work/perf" --comm "$(basename "$proved" | cut -c1-15)" --no-children --stdio 2> "$work/told" |
        awk '/%/ && !/^#/ { all += $1 } /unit_propagation/ { sum += $1 } END { printf ", propagation %.0f %%", 100 * sum / all }'
}

# a_second CONFLICTS MICROSECONDS
a_second() { awk "BEGIN { printf \", %d a second\", 1000000 * $1 / ($2 + 1) }"; }

for formula in "$work"/formulas/*.cnf; do
    name=$(basename "$formula" .cnf)
    try_formula "$turns"
    head -n 1 "$formula" | sed "s/p cnf \(.*\) \(.*\)/$name, \1 variables, \2 clauses: $verdict, $conflicts conflicts/" | tr -d '\n'
    [ "$conflicts" -lt 1000 ] || { a_second "$conflicts" "$proved_time"; share "$formula"; }
    echo "; CaDiCaL $other_time us"
    print_times "$name" us "$proved_time" "$plain_time"
done
[ -d "$folder" ] || exit 0

# the formulas that a learner gives the solver for the listings' windows
harvest=$(build_plain "$top/bench/live_items/plain.rs") && mv "$harvest" "$work/harvest"
learner=$(build_plain "$top/bench/learner/plain.rs") && mv "$learner" "$work/learner"
plain=$(build_plain "$top/bench/solver/plain.rs")
for listing in "$folder"/*; do
    asked=$work/asked/$(basename "$listing")
    mkdir "$asked"
    "$work/harvest" windows < "$listing" 2> "$work/told" | "$work/learner" "$asked" 2> "$work/told" > "$work/table"
done
find "$work/asked" -name '*.cnf' | awk -F/ '{ print $NF, $0 }' | sort -r | head -n 100 | cut -d' ' -f2- > "$work/slowest"
all_conflicts=0 all_proved=0 all_plain=0 all_other=0 sat=0
while read -r formula; do
    try_formula "$turns"
    [ "$verdict" != sat ] || sat=$((sat + 1))
    all_conflicts=$((all_conflicts + conflicts)) all_proved=$((all_proved + proved_time)) all_plain=$((all_plain + plain_time)) all_other=$((all_other + other_time))
done < "$work/slowest"
mapfile -t slowest < "$work/slowest"
echo "the ${#slowest[@]} slowest of $(find "$work/asked" -name '*.cnf' | wc -l) formulas of windows, $sat with a model: $all_conflicts conflicts$(a_second "$all_conflicts" "$all_proved")$(share "${slowest[@]}"); CaDiCaL $all_other us"
print_times "the slowest formulas of windows" us "$all_proved" "$all_plain"
