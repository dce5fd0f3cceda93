#!/usr/bin/env bash
# Measures learning tables from the windows of listings (three registers, three instructions, the default pool, a budget of 20,000) with the proved crates
# and with a plain Rust learner by the same rules, which gets its windows from a plain Rust reader of the listing. For each listing both tables must be equal
# byte for byte, including proofs and logs. Then `peep learn` is compared with the plain learner's time. If `perf` is there, the shares of the time are printed.
# With a cost file the tables are learnt by these costs, from windows of at most two instructions.
# Use: bench/learner.sh [--costs COSTS] FOLDER [TURNS [LISTINGS]], only the first LISTINGS of the folder
. "$(dirname "$0")/common.sh"
costs=
if [ "${1:-}" = --costs ]; then
    costs=${2:-}
    [ -f "$costs" ] || { echo "no cost file: $costs" >&2; exit 2; }
    shift 2
fi
folder=${1:-} turns=${2:-2} count=${3:-1000}
[ -d "$folder" ] || { sed -n '2,6s/^# //p' "$0" >&2; exit 2; }
take_crates audit_cli
mkdir -p "$work/crates/learner_times/proofs/timed" "$work/tables" "$work/given"
cat > "$work/crates/learner_times/proofs/timed/Answers.antt" <<'ANTT'
use Rattle.table_learn.specs.Given.{settings_of}
use Rattle.audit_cli.proofs.LearnLemmas.{harvest_windows}
use Rattle.learner_times.proofs.timed.Goals as goal

pub learn-requires-clause-windows : goal.learn-requires-clause-windows
learn-requires-clause-windows g c = harvest_windows (settings_of c.args.settings) c.args.listing.now c.in-Ok.windows.items c.in-Ok.ensures
ANTT
harvest=$(build_plain "$top/bench/live_items/plain.rs") && mv "$harvest" "$work/harvest"
plain=$(build_plain "$top/bench/learner/plain.rs")
proved=$(build_proved learner_times "$top/bench/learner/proved.rs" listing_parser liveness window_harvest table_learn rule_table seq_enum thumb_instr step_ledger audit_cli anyhow)
"$top/peep" > "$work/built" 2>&1 || true
peep=$top/crates/peep/out/peep

# costs_line: the line of a table for the cost file.
costs_line() {
    local names="adds subs movs cmp lsls lsrs asrs ands eors adcs sbcs rors tst rsbs cmn orrs muls bics mvns mov add sxth sxtb uxth uxtb rev rev16 revsh"
    awk -v names="$names" 'NR > 1 { cost[$1] = $2 } END { count = split(names, name); printf "costs"; for (n = 1; n <= count; n++) printf " %d", name[n] in cost ? cost[name[n]] : 1 }' "$costs"
}

# windows LISTING: its windows as a table without right sides.
windows() {
    if [ -z "$costs" ]; then
        "$work/harvest" windows < "$1"
    else
        "$work/harvest" windows 3 2 < "$1" | sed "/^pool/a $(costs_line)"
    fi
}

# given LISTING: the proved program's input: the listing, preceded by the cost file and an empty line if there are costs.
given() {
    [ -z "$costs" ] || { cat "$costs" && echo; }
    cat "$1"
}

mapfile -t listings < <(find "$folder" -type f | sort | head -n "$count")
for listing in "${listings[@]}"; do
    windows "$listing" > "$work/tables/$(basename "$listing")" 2> "$work/told"
    given "$listing" > "$work/given/$(basename "$listing")"
done

# learning PROGRAM LISTING: runs a program, the proved one on the listing, the plain one on its windows.
learning() {
    case $1 in
        "$proved") "$1" < "$work/given/$(basename "$2")" ;;
        *) "$1" < "$work/tables/$(basename "$2")" ;;
    esac
}

options=()
[ -z "$costs" ] || options=(--costs "$costs" --left 2)
proved_sum=0 plain_sum=0 peep_sum=0
for listing in "${listings[@]}"; do
    rm -f "$work"/*.times
    for _ in $(seq "$turns"); do
        for program in proved plain; do
            on_processor learning "${!program}" "$listing" 2>> "$work/$program.times" > "$work/$program.table"
        done
        cmp "$work/proved.table" "$work/plain.table"
        clocked "$peep" learn "$listing" "$work/peep.table" "${options[@]}" 2>> "$work/peep.times" > "$work/printed"
    done
    cmp "$work/peep.table" "$work/plain.table"
    proved_sum=$((proved_sum + $(shortest proved 1))) plain_sum=$((plain_sum + $(shortest plain 1))) peep_sum=$((peep_sum + $(shortest peep 1) / 1000))
    tail -n 1 "$work/plain.times" >> "$work/shares"
    echo "$(basename "$listing"): $(tr '\n' ' ' < "$work/printed")proved $(shortest proved 1) ms, plain Rust $(shortest plain 1) ms"
done
windows=$(awk '{ sum += $2 } END { print sum }' "$work/shares")
print_times "learning $windows windows of ${#listings[@]} listings" ms "$proved_sum" "$plain_sum"
print_times "\`peep learn\` of them" ms "$peep_sum" "$plain_sum" "the plain learner's learning"
awk '{ all += $1; i += $3; s += $4; f += $5; o += $6 } END { printf "plain Rust: outcomes %.0f %%, states %.0f %%, formulas %.0f %%, solver %.0f %%\n", 100 * i / all, 100 * s / all, 100 * f / all, 100 * o / all }' "$work/shares"

# share NAMES: the share of the time that perf saw in functions of these crates.
share() { awk -v names="$1" '$0 ~ names { sum += $1 } END { printf "%.0f %%", sum }' "$work/seen"; }

if command -v perf > /dev/null; then
    number=0
    # the profiles of all listings are summed, so longer runs count more
    for listing in "${listings[@]}"; do perf record -q -e cpu-clock -o "$work/perf.$((number += 1))" "$proved" < "$work/given/$(basename "$listing")" > "$work/proved.table" 2> "$work/told" || true; done
    for n in $(seq "$number"); do perf report -i "$work/perf.$n" --no-children --stdio -n 2> "$work/told"; done | grep -v '^#' | awk 'NF > 3 { $1 = $2; print }' > "$work/counts"
    awk 'NR == FNR { all += $1; next } { $1 = 100 * $1 / all; print }' "$work/counts" "$work/counts" > "$work/seen"
    echo "proved: outcomes $(share 'fingerprints'), states $(share 'window_exec|word_bits'), formulas $(share 'bit_blast|cnf_gates'), solver $(share 'cdcl_core|unit_propagation|clause_arena|clause_model')"
fi
