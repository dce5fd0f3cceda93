#!/usr/bin/env bash
# Measures reading a table of MEGABYTES and writing it back, with the proved crates and with a plain Rust program for the same grammar; both have to write
# it back byte for byte. Also at twice the size: if time is linear the factor is about 2.
# Use: bench/table_texts.sh [MEGABYTES [TURNS]]
. "$(dirname "$0")/common.sh"
megabytes=${1:-25}
turns=${2:-3}
take_crates rule_table
proved=$(build_proved table_texts "$top/bench/table_texts/proved.rs" rule_table anyhow)
plain=$(build_plain "$top/bench/table_texts/plain.rs")

# run_both FILE: runs both programs alternately on a table.
run_both() {
    local program
    rm -f "$work"/*.times
    for _ in $(seq "$turns"); do
        for program in proved plain; do
            on_processor "${!program}" < "$1" 2> "$work/$program.told" > "$work/written"
            cmp "$work/written" "$1" || { cat "$work/$program.told" >&2; exit 1; }
            cat "$work/$program.told" >> "$work/$program.times"
        done
    done
}

for size in "$megabytes" $((2 * megabytes)); do
    python3 "$top/bench/tables.py" $((size * 1000000)) > "$work/table"
    run_both "$work/table"
    # the first number is the time of reading, the second that of writing
    said="a table's text of $(wc -l < "$work/table") lines, $(wc -c < "$work/table") bytes"
    print_times "reading $said" us "$(shortest proved 1)" "$(shortest plain 1)"
    print_times "writing $said" us "$(shortest proved 2)" "$(shortest plain 2)"
done
