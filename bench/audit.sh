#!/usr/bin/env bash
# Measures reading and auditing two tables with the proved crates and in plain Rust: one of ENTRIES entries with 401,323 shorter sequences each and
# no proofs, and one with MEGABYTES of proofs. Use: bench/audit.sh [ENTRIES [MEGABYTES [TURNS]]]
. "$(dirname "$0")/common.sh"
entries=${1:-1000} megabytes=${2:-50} turns=${3:-3}
take_crates table_audit
proofs=$(build_plain "$top/bench/audit/proofs.rs")
"$proofs" $((megabytes * 1000000)) > "$work/proofs"
python3 "$top/bench/audit/table.py" "$entries" > "$work/entries"
plain=$(build_plain "$top/bench/audit/plain.rs")
proved=$(build_proved audit_times "$top/bench/audit/proved.rs" rule_table table_audit step_ledger anyhow)

from_table() { "$1" < "$table"; }

for name in entries proofs; do
    table=$work/$name
    in_turns "$turns" from_table
    said="$(grep -c '^entry' "$table") entries, $(wc -c < "$table") bytes"
    print_times "auditing a table of $said" us "$proved_time" "$plain_time"
    print_times "reading it" us "$(shortest proved 2)" "$(shortest plain 2)"
done
