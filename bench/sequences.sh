#!/usr/bin/env bash
# Measures walking through the first 5,000,000 sequences of three registers and the default pool, proved and in plain Rust. Use: bench/sequences.sh [TURNS]
. "$(dirname "$0")/common.sh"
turns=${1:-5}
take_crates seq_enum thumb_table
mkdir -p "$work/crates/sequences/proofs/digest"
cat > "$work/crates/sequences/proofs/digest/Invariants.antt" <<'ANTT'
use Rattle.seq_enum.specs.Walks.{IsWalk}
use Rattle.sequences.proofs.digest.Given as goal

abbrev pub invariant-loop-turn : goal.invariant-loop-turn
invariant-loop-turn l = IsWalk l.walk
ANTT
proved=$(build_proved sequences "$top/bench/sequences/proved.rs" seq_enum thumb_instr thumb_table anyhow)
plain=$(build_plain "$top/bench/sequences/plain.rs")
in_turns "$turns" env
print_times "5,000,000 sequences" ms "$proved_time" "$plain_time"
