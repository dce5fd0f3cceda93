#!/usr/bin/env bash
# Measures finding the live items of a listing and its windows with the proved crates and with a plain Rust program by the same rules: on one listing of about
# 65,000 lines, made by repeating the files of a folder, and on a chain of backward branches, each to the one before, along which liveness spreads back.
# Use: bench/live_items.sh FOLDER [TURNS]
. "$(dirname "$0")/common.sh"
folder=${1:-} turns=${2:-9}
[ -d "$folder" ] || { sed -n '2,4s/^# //p' "$0" >&2; exit 2; }
take_crates window_harvest
# the proof folder for the program's step ledger, which counts in contracts only
mkdir -p "$work/crates/live_items/proofs/main"
cat > "$work/crates/live_items/proofs/main/Invariants.antt" <<'ANTT'
use Rattle.live_items.proofs.main.Given as goal

abbrev pub ghosts-timed : goal.ghosts-timed
ghosts-timed a = record { name = a.blank.name; parts = a.blank.parts }
ANTT
proved=$(build_proved live_items "$top/bench/live_items/proved.rs" thumb_model listing_parser liveness window_harvest seq_enum step_ledger anyhow)
plain=$(build_plain "$top/bench/live_items/plain.rs")

# run_both LISTING TURNS: runs both programs alternately; they must report the same, except for times.
run_both() {
    local program
    rm -f "$work"/*.times
    for _ in $(seq "$2"); do
        for program in proved plain; do
            on_processor "${!program}" < "$1" 2> "$work/$program.told"
            cat "$work/$program.told" >> "$work/$program.times"
        done
        cmp <(cut -d' ' -f3- "$work/proved.told") <(cut -d' ' -f3- "$work/plain.told") || { cat "$work"/*.told >&2; exit 1; }
    done
}

# chain N: N backward branches, each to the one before, and a return.
chain() {
    echo "x0: bx lr"
    for n in $(seq "$1"); do echo "x$n: b x$((n - 1))"; done
}

python3 "$top/bench/repeated.py" "$folder" > "$work/listing.s"
run_both "$work/listing.s" "$turns"
read -r _ _ places visits _ pairs _ < "$work/proved.told"
print_times "live items of $places places, $visits visits" us "$(shortest proved 1)" "$(shortest plain 1)"
print_times "windows of $places places, $pairs pairs" us "$(shortest proved 2)" "$(shortest plain 2)"
for count in 15000 30000; do
    chain "$count" > "$work/chain.s"
    run_both "$work/chain.s" 3
    read -r _ _ _ visits _ < "$work/proved.told"
    print_times "live items of a chain of $count branches backward, $visits visits" us "$(shortest proved 1)" "$(shortest plain 1)"
done
