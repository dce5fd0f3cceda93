#!/usr/bin/env bash
# Measures the proved index of the prints of all 401,323 sequences of at most two instructions over r0 to r2 and the default pool, eight states side by side,
# and the same in plain Rust. Use: bench/prints.sh [TURNS]
. "$(dirname "$0")/common.sh"
turns=${1:-5}
take_crates fingerprints
proved=$(build_proved prints "$top/bench/prints/proved.rs" thumb_instr seq_enum fingerprints anyhow)
plain=$(build_plain "$top/bench/prints/plain.rs")
in_turns "$turns" env
print_times "prints of 401,323 sequences" ms "$proved_time" "$plain_time"
