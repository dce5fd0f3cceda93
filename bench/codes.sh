#!/usr/bin/env bash
# Measures decoding all first halfwords and encoding them again, TURNS times: the proved crates, and the same code without contracts in plain Rust.
# Use: bench/codes.sh [TURNS]
. "$(dirname "$0")/common.sh"
turns=${1:-1000}
with_sum() { cat "$1" "$top/bench/codes/sum.rs" | sed "s/TURNS: u32 = .*;/TURNS: u32 = $turns;/"; }
take_crates thumb_table
with_sum "$top/bench/codes/proved.rs" > "$work/proved.rs"
proved=$(build_proved codes "$work/proved.rs" thumb_instr thumb_table)
python3 "$top/bench/stripped.py" "$work/plain.rs" thumb_instr thumb_table -- seq laws items accesses window renaming
with_sum "$top/bench/codes/plain.rs" >> "$work/plain.rs"
# its crates name one another as modules, with paths as in that edition
plain=$(build_plain "$work/plain.rs" 2015)
in_turns 3 clocked
print_times "$turns turns over 65,536 halfwords" ms $((proved_time / 1000)) $((plain_time / 1000))
