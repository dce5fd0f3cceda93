#!/usr/bin/env bash
# Measures reading and printing a listing, and reading it and laying it out, with the proved crates and with a plain Rust program for the same grammar.
# Use: bench/listing_lines.sh LISTING [TURNS]
# or   bench/listing_lines.sh --each FOLDER, which tests that both programs print each file of a folder back byte for byte, and lay it out alike,
# or   bench/listing_lines.sh --shapes [TURNS], which measures listings of some shapes at n and 2n: if time is linear, both programs' factors are about equal,
# or   bench/listing_lines.sh --all FOLDER [TURNS]: each file of the folder, one listing of about 65,000 lines made by repeating them, and the shapes.
. "$(dirname "$0")/common.sh"
usage() { sed -n '2,6s/^# //p' "$0" >&2; exit 2; }
what=$work/listing.s
case ${1:-} in
    --each) do=each folder=${2:-} turns=1 ;;
    --shapes) do=shapes turns=${2:-9} ;;
    --all) do="each one shapes" folder=${2:-} turns=${3:-9} ;;
    *) do=one what=${1:-} turns=${2:-9} ;;
esac
case $do in
    each*) [ -d "$folder" ] || usage ;;
    one) [ -f "$what" ] || usage ;;
esac
take_crates listing_parser label_layout
proved=$(build_proved listing_lines "$top/bench/listing_lines/proved.rs" listing_parser label_layout anyhow)
plain=$(build_plain "$top/bench/listing_lines/plain/main.rs")

# run_both LISTING: runs both programs alternately on a listing, TURNS times; both must print it back and report the same, except for times.
run_both() {
    local program
    for _ in $(seq "$turns"); do
        for program in proved plain; do
            on_processor "${!program}" < "$1" 2> "$work/$program.told" > "$work/printed"
            cmp "$work/printed" "$1" || { cat "$work/$program.told" >&2; exit 1; }
            cat "$work/$program.told" >> "$work/$program.times"
        done
        cmp <(cut -d' ' -f3,5- "$work/proved.told") <(cut -d' ' -f3,5- "$work/plain.told") || { cat "$work"/*.told >&2; exit 1; }
    done
    mv "$work/proved.times" "$work/proved.last"
    mv "$work/plain.times" "$work/plain.last"
}

# shortest PROGRAM SUM: the least sum of times over the last runs of a program. $1 is reading and printing, $2 reading, $4 laying out.
shortest() { awk "{ print $2 }" "$work/$1.last" | sort -n | head -n 1; }

# try_each FOLDER: reads each file of a folder with both programs.
try_each() {
    local same=0 other=0 lines=0 file
    for file in "$1"/*; do
        "$proved" < "$file" > "$work/printed" 2> "$work/told"
        "$plain" < "$file" 2>&1 > /dev/null | cut -d' ' -f3,5- > "$work/plain_told"
        if cmp -s "$file" "$work/printed" && cut -d' ' -f3,5- "$work/told" | cmp -s - "$work/plain_told"; then
            same=$((same + 1)) lines=$((lines + $(cut -d' ' -f3 "$work/told")))
        else
            other=$((other + 1)); echo "$file: $(cat "$work/told")"
        fi
    done
    echo "$same files of $lines lines are read and printed back, $other not"
}

# measure_one LISTING
measure_one() {
    local said
    said="$(wc -l < "$1") lines, $(wc -c < "$1") bytes"
    run_both "$1"
    print_times "reading and printing $said" us "$(shortest proved '$1')" "$(shortest plain '$1')"
    print_times "reading and laying out $said" us "$(shortest proved '$2 + $4')" "$(shortest plain '$2 + $4')"
}

# measure_shape NAME N: reading, printing and laying out at N and 2N.
measure_shape() {
    local proved_once plain_once proved_twice plain_twice
    python3 "$top/bench/shapes.py" "$1" "$2" > "$work/shape.s"
    run_both "$work/shape.s"
    proved_once=$(shortest proved '$1 + $4') plain_once=$(shortest plain '$1 + $4')
    python3 "$top/bench/shapes.py" "$1" $((2 * $2)) > "$work/shape.s"
    run_both "$work/shape.s"
    proved_twice=$(shortest proved '$1 + $4') plain_twice=$(shortest plain '$1 + $4')
    print_factor "$1 at $2 and $((2 * $2)): proved" us "$proved_once" "$proved_twice"
    print_factor "$1 at $2 and $((2 * $2)): plain Rust" us "$plain_once" "$plain_twice"
    print_times "$1 at $((2 * $2))" us "$proved_twice" "$plain_twice"
}

for part in $do; do
    case $part in
        each) try_each "$folder" ;;
        one)
            [ -z "${folder:-}" ] || python3 "$top/bench/repeated.py" "$folder" > "$what"
            measure_one "$what" ;;
        shapes) python3 "$top/bench/shapes.py" > "$work/shapes"
            while read -r name count; do measure_shape "$name" "$count"; done < "$work/shapes" ;;
    esac
done
