#!/usr/bin/env bash
# Makes the files derived from firmware.c again, and compares each with the one in this folder: gcc's listing firmware.s, the table firmware.peep learnt from
# it, the rewritten listing shorter.s with its image shorter.bin, and the output of the emulated firmware, firmware.out. Without gcc only the first is skipped,
# without an emulator the last. Use: examples/make.sh [--keep]; with --keep a file that differs is replaced here.
. "$(dirname "$0")/common.sh"
keep=${1:-}
failed=0

# compare NAME: compares a file that was made with the one in this folder.
compare() {
    if cmp -s "$work/$1" "$here/$1"; then
        echo "$1: the same"
    elif [ "$keep" = --keep ]; then
        cp "$work/$1" "$here/$1"
        echo "$1: written"
    else
        echo "$1: differs"
        failed=1
    fi
}

written_by() { grep '\.ident' "$1"; }

if has arm-none-eabi-gcc python3; then
    listing firmware "$work/firmware.s"
    if [ "$keep" = --keep ] || [ "$(written_by "$work/firmware.s")" = "$(written_by "$here/firmware.s")" ]; then
        compare firmware.s
    else
        echo "firmware.s: by another gcc, $(written_by "$work/firmware.s")"
    fi
fi
peep learn "$here/firmware.s" "$work/firmware.peep"
compare firmware.peep
peep rewrite "$here/firmware.peep" "$here/firmware.s" "$work/shorter.s" "$work/shorter.bin"
compare shorter.s
compare shorter.bin
if has qemu-system-arm; then
    emulated "$here/shorter.bin" "$work/firmware.out"
    compare firmware.out
fi
exit "$failed"
