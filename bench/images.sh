#!/usr/bin/env bash
# Compares the images of the files of a folder with those of GNU as and ld and with what objdump reads in them, at the bases 0 and 0x8000000. Also measures
# assembling a listing of about 65,500 lines, made by repeating the files, with the proved crates, with a plain Rust program, and with GNU as and ld.
# Use: bench/images.sh FOLDER [TURNS]
. "$(dirname "$0")/common.sh"
folder=${1:-} turns=${2:-9}
[ -d "$folder" ] || { sed -n '2,4s/^# //p' "$0" >&2; exit 2; }
take_crates thumb_assembler
proved=$(build_proved images "$top/bench/images/proved.rs" listing_parser label_layout thumb_assembler anyhow)
plain=$(build_plain "$top/bench/images/plain.rs")
python3 "$top/bench/images.py" compare "$proved" "$folder"/*
# with the lines that set addresses, which come first, these are about 65,500 lines
python3 "$top/bench/repeated.py" "$folder" 65392 | python3 "$top/bench/images.py" addressed > "$work/listing.s"
python3 "$top/bench/images.py" gnu < "$work/listing.s" > "$work/gnu.s"

gnu() {
    arm-none-eabi-as -mcpu=cortex-m0 -mthumb "$work/gnu.s" -o "$work/listing.o"
    arm-none-eabi-ld -Ttext=0 -e 0 "$work/listing.o" -o "$work/listing.elf"
}

for _ in $(seq "$turns"); do
    for program in proved plain; do
        on_processor "${!program}" < "$work/listing.s" 2>> "$work/$program.times" > "$work/$program.image"
    done
    cmp "$work/proved.image" "$work/plain.image"
    clocked gnu 2>> "$work/gnu.times"
done
# the first number is the time of assembling, the second that of reading, laying out and assembling
said="$(wc -l < "$work/listing.s") lines to $(wc -c < "$work/proved.image") bytes"
print_times "assembling $said" us "$(shortest proved 1)" "$(shortest plain 1)"
print_times "reading, laying out and assembling $said" us "$(shortest proved 2)" "$(shortest plain 2)"
print_times "reading, laying out and assembling $said" us "$(shortest proved 2)" "$(shortest gnu 1)" "GNU as and ld"
