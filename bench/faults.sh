#!/usr/bin/env bash
# Runs every command with faults: each growth of memory refused in turn, each open, read and write failed or cut short in turn, each call of a store and a
# sink in memory failed in turn, and standard output and files that can't be written or read. Each run has to end with a documented status and its word, and
# to leave what that status promises. Use: bench/faults.sh
. "$(dirname "$0")/common.sh"
take_crates audit_cli
runs=$(build_proved runs "$top/bench/runs/proved.rs" audit_cli outer_store step_ledger anyhow hex)
# builds the proved program if it isn't built yet; without arguments its status is 2
"$top/peep" 2> "$work/peep.log" || [ $? = 2 ] || { tail -n 20 "$work/peep.log" >&2; exit 1; }
cc -O2 -shared -fPIC "$top/bench/faults/refuse.c" -o "$work/refuse.so"
python3 "$top/bench/faults/faults.py" "$top/crates/peep/out/peep" "$work/refuse.so" "$runs"
