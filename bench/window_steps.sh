#!/usr/bin/env bash
# Measures `step` of windows, proved and in plain Rust, on random instructions over r0 to r3. Use: bench/window_steps.sh [TURNS]
. "$(dirname "$0")/common.sh"
turns=${1:-5}
take_crates window_exec
mkdir -p "$work/crates/window_steps/specs"
echo "pub mod Ready" > "$work/crates/window_steps/specs/Lib.antt"
cat > "$work/crates/window_steps/specs/Ready.antt" <<'ANTT'
-- A test of the registers that an instruction names.
use Rattle.std.specs.Prelude.{ℕ, Bool, true, ◌&&◌, nat_lt, List, [], ◌∷◌}

abbrev pub are_below : ℕ → List ℕ → Bool
are_below k [] = true
are_below k (x ∷ xs) = nat_lt x k && are_below k xs
ANTT
proved=$(build_proved window_steps "$top/bench/window_steps/proved.rs" thumb_instr thumb_table thumb_model window_exec anyhow)
plain=$(build_plain "$top/bench/window_steps/plain.rs")
in_turns "$turns" env
print_times "random steps" ms "$proved_time" "$plain_time"
