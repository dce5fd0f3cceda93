#!/usr/bin/env bash
# Measures `formula` for two sides of three products each, proved and in plain Rust by the same rules. Use: bench/formulas.sh [TURNS]
. "$(dirname "$0")/common.sh"
turns=${1:-5}
take_crates bit_blast
proved=$(build_proved formulas "$top/bench/formulas/proved.rs" thumb_instr cnf_gates bit_blast anyhow)
plain=$(build_plain "$top/bench/formulas/plain.rs")
in_turns "$turns" env
print_times formulas ms "$proved_time" "$plain_time"
