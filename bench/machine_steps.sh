#!/usr/bin/env bash
# Measures a million steps of the proved machine and of a plain Rust interpreter of the same instructions, on a loop of loads, stores and branches.
# Use: bench/machine_steps.sh [TURNS]
. "$(dirname "$0")/common.sh"
turns=${1:-5}
take_crates label_layout thumb_machine
with_digest() { cat "$top/bench/machine_steps/$1" "$top/bench/machine_steps/digest.rs" > "$work/$1"; echo "$work/$1"; }
proved=$(build_proved machine_steps "$(with_digest proved.rs)" listing_parser label_layout thumb_machine anyhow)
plain=$(build_plain "$(with_digest plain.rs)")
looping() { "$1" < "$top/bench/machine_steps/loop.s"; }
in_turns "$turns" looping
print_times "a million steps" ms "$proved_time" "$plain_time"
