#!/usr/bin/env bash
# Measures rewriting with the proved crates and with a plain Rust program by the same rules, by a table of 500 entries learnt from the files of a folder. The
# listings, each also at half the size, where the factor is about 2 if time is linear: LINES (65,536) lines made by repeating the files, and fewer of them with
# WINDOWS (20,000) windows that may be replaced. Then 50,000 straight lines. Then the first two with five lines in front, because of which the layout is asked
# before each replacement. Then 131,000 and half as many windows whose replacements, by a table with costs, are as long; each has a label, which gets a line of
# its own. Both programs have to write the same listings.
# Use: bench/rewriting.sh FOLDER [LINES [WINDOWS [TURNS]]]
. "$(dirname "$0")/common.sh"
folder=${1:-} lines=${2:-65536} windows=${3:-20000} turns=${4:-3}
[ -d "$folder" ] || { sed -n '2,8s/^# //p' "$0" >&2; exit 2; }
harvest=$(build_plain "$top/bench/live_items/plain.rs") && mv "$harvest" "$work/harvest"
learner=$(build_plain "$top/bench/learner/plain.rs") && mv "$learner" "$work/learner"
plain=$(build_plain "$top/bench/rewriting/plain.rs")
take_crates window_rewrite
proved=$(build_proved rewriting "$top/bench/rewriting/proved.rs" rule_table table_audit listing_parser window_rewrite step_ledger anyhow)

# taught: the listing to learn from: the added windows, each once, and each file of the folder once.
taught() {
    printf '\t%s\n' 'lsls r0, r0, #24' 'lsrs r0, r0, #24' nop 'mvns r0, r0' 'adds r0, #1' nop 'mov r0, r0' 'bx lr'
    python3 "$top/bench/repeated.py" "$folder" "$(cat "$folder"/* | wc -l)"
}
taught | "$work/harvest" windows 2> "$work/told" | "$work/learner" 2> "$work/told" | python3 "$top/bench/rewriting/table.py" 500 > "$work/table"

# listing LINES WINDOWS: writes a listing. Two of three windows take two lines.
listing() { python3 "$top/bench/repeated.py" "$folder" $(($1 - $2 * 5 / 3 - 1)) | python3 "$top/bench/rewriting/salted.py" "$2"; }

# loose: prepends a literal whose label isn't aligned, so that only the layout can tell whether it stays in place.
loose() { printf 'loose:\n\tldr\tr0, .Lloose\n\tbx\tlr\n.Lloose:\n\t.word\t5\n'; cat; }

# run_both: runs both programs alternately on the table and $work/listing.s. `$said` describes the run.
run_both() {
    local program replaced
    cat "$work/table" "$work/listing.s" > "$work/input"
    rm -f "$work"/*.times
    for _ in $(seq "$turns"); do
        for program in proved plain; do
            on_processor "${!program}" < "$work/input" 2> "$work/$program.told" > "$work/$program.s"
            cat "$work/$program.told" >> "$work/$program.times"
        done
        cmp "$work/proved.s" "$work/plain.s"
        cmp <(cut -d' ' -f3- "$work/proved.told") <(cut -d' ' -f3- "$work/plain.told") || { cat "$work"/*.told >&2; exit 1; }
    done
    replaced=$(cut -d' ' -f3 "$work/plain.told")
    said="$(wc -l < "$work/listing.s") lines by $(grep -c '^entry' "$work/table") entries, $replaced windows replaced"
}

# tell: prints the times of both.
tell() {
    print_times "rewriting $said" us "$(shortest proved 1)" "$(shortest plain 1)"
    print_times "reading, rewriting and printing $said" us "$(shortest proved 2)" "$(shortest plain 2)"
}

# grow: runs both programs on $work/half.s, then on $work/whole.s, and prints the times and their growth.
grow() {
    local half_proved half_plain
    cp "$work/half.s" "$work/listing.s"
    run_both
    half_proved=$(shortest proved 1) half_plain=$(shortest plain 1)
    cp "$work/whole.s" "$work/listing.s"
    run_both
    tell
    print_factor "from half the size on: proved" us "$half_proved" "$(shortest proved 1)"
    print_factor "from half the size on: plain Rust" us "$half_plain" "$(shortest plain 1)"
}

for salt in 0 "$windows"; do
    listing $((lines / 2)) $((salt / 2)) > "$work/half.s"
    listing "$lines" "$salt" > "$work/whole.s"
    grow
done
listing "$lines" 0 | python3 "$top/bench/rewriting/straight.py" 50000 > "$work/listing.s"
run_both
tell
for salt in 0 "$windows"; do
    listing $((lines - 5)) "$salt" | loose > "$work/listing.s"
    run_both
    said="$said, the layout asked"
    tell
done
python3 "$top/bench/rewriting/labelled.py" 131000 "$work"
grow
