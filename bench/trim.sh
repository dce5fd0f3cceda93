#!/usr/bin/env bash
# Measures `peep trim` (reading, auditing and writing) on tables with MEGABYTES and half of MEGABYTES of proofs, and a plain Rust program that checks each proof
# once and trims by the hints that it saw used, and also `peep audit` of the same tables. Both have to write the same.
# Use: bench/trim.sh [MEGABYTES [TURNS]]
. "$(dirname "$0")/common.sh"
megabytes=${1:-50} turns=${2:-3}
[[ $megabytes =~ ^[0-9]+$ ]] || { sed -n '2,4s/^# //p' "$0" >&2; exit 2; }
build_plain "$top/bench/audit/proofs.rs" > "$work/told" && mv "$work/plain" "$work/proofs"
plain=$(build_plain "$top/bench/audit/plain.rs")
"$top/peep" > "$work/built" 2>&1 || true
peep=$top/crates/peep/out/peep

# by_plain: trims the table with the plain program.
by_plain() { "$plain" trim < "$work/table" > "$work/plain.table" 2> "$work/told"; }

for bytes in $((megabytes * 500000)) $((megabytes * 1000000)); do
    "$work/proofs" "$bytes" > "$work/table"
    half=${trimming:-}
    rm -f "$work"/*.times
    for _ in $(seq "$turns"); do
        clocked "$peep" trim "$work/table" "$work/peep.table" 2>> "$work/proved.times" > "$work/printed"
        clocked by_plain 2>> "$work/plain.times"
        clocked "$peep" audit "$work/table" 2>> "$work/audit.times" > "$work/audited"
        cmp "$work/peep.table" "$work/plain.table"
    done
    trimming=$(shortest proved 1)
    print_times "trimming $(wc -c < "$work/table") bytes to $(wc -c < "$work/peep.table"), $(cat "$work/printed")" us "$trimming" "$(shortest plain 1)"
    echo "auditing them: $(shortest audit 1) us"
    [ -z "$half" ] || print_factor "from half the size on" us "$half" "$trimming"
done
