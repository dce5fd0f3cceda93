#!/usr/bin/env bash
# Changes tables of each version, listings and cost files at random (bytes, lines, numbers at their limits) and runs every command on them, in few processes.
# Each run has to end in time with a documented status and line, and a refused one has to leave all as it was. Use: bench/fuzz.sh FOLDER [RUNS [SEED]]
. "$(dirname "$0")/common.sh"
folder=${1:-} runs=${2:-1000000} seed=${3:-1}
[ -d "$folder" ] || { sed -n '2,3s/^# //p' "$0" >&2; exit 2; }
take_crates audit_cli
program=$(build_proved runs "$top/bench/runs/proved.rs" audit_cli outer_store step_ledger anyhow hex)
start=$(date +%s)
python3 "$top/bench/fuzz.py" "$program" "$runs" "$seed" "$folder"
echo "$(($(date +%s) - start)) s"
