#!/usr/bin/env bash
# Measures judging logs that spend a budget (each line accepted and each clause new) with the proved crate and with a plain Rust program that keeps the same
# lists of clauses by literals; both must answer the same. The logs have LINES random clauses of ten literals, twice as many, and the 20,000 clauses that the
# plain solver learns from a pigeonhole formula. Use: bench/newness.sh [LINES [TURNS]]
. "$(dirname "$0")/common.sh"
lines=${1:-50000} turns=${2:-5}
take_crates lrat_check
prove_clause newness_times
proved=$(build_proved newness_times "$top/bench/newness/proved.rs" lrat_check cnf_gates step_ledger anyhow)
solver=$(build_plain "$top/bench/solver/plain.rs") && mv "$solver" "$work/solver"
plain=$(build_plain "$top/bench/newness/plain.rs")

# judging PROGRAM: runs it on $log.
judging() { "$1" < "$log"; }

# try_log LOG NAME
try_log() {
    log=$1
    in_turns "$turns" judging
    print_times "$2, $(wc -c < "$log") bytes, $(cat "$work/proved.printed")" us "$proved_time" "$plain_time"
}

python3 "$top/bench/newness/logs.py" "$lines" 10 > "$work/once"
python3 "$top/bench/newness/logs.py" $((2 * lines)) 10 > "$work/twice"
try_log "$work/once" "a log" && proved_once=$proved_time plain_once=$plain_time
try_log "$work/twice" "a log of twice as many clauses"
print_factor "twice as many clauses, proved:" us "$proved_once" "$proved_time"
print_factor "twice as many clauses, plain Rust:" us "$plain_once" "$plain_time"
python3 "$top/bench/newness/logs.py" pigeons 12 > "$work/formula"
{ cat "$work/formula" && "$work/solver" < "$work/formula" 2> "$work/told"; } > "$work/learnt"
try_log "$work/learnt" "a log of the solver"
