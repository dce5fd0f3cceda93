#!/usr/bin/env bash
# Measures finding those of the 4,438,005 sequences of at most three instructions over r0, r1 and a pool of two numbers that cost less than 36, with
# the proved crate and in plain Rust. Use: bench/cheaper.sh [TURNS]
. "$(dirname "$0")/common.sh"
turns=${1:-5}
take_crates seq_enum
proved=$(build_proved cheaper "$top/bench/cheaper/proved.rs" seq_enum anyhow)
plain=$(build_plain "$top/bench/cheaper/plain.rs")
in_turns "$turns" env
print_times "cheaper sequences of 4,438,005" ms "$proved_time" "$plain_time"
