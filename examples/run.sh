#!/usr/bin/env bash
# Runs the firmware in an emulator before and after rewriting, and compares its output with firmware.out: gcc's listing and the shorter one, both made into
# images by GNU as and ld; the image that peep wrote; and, if gcc is installed, the files compiled one by one, as given and rewritten, each time linked by GNU
# ld, as in a build of many files. Use: examples/run.sh
. "$(dirname "$0")/common.sh"
has arm-none-eabi-as arm-none-eabi-ld arm-none-eabi-objcopy qemu-system-arm || exit 0
failed=0

# run WHAT IMAGE: runs an image, and compares its output with firmware.out.
run() {
    local said="as expected"
    if ! emulated "$2" "$work/out" || ! cmp -s "$work/out" "$here/firmware.out"; then
        said="unlike what was expected"
        failed=1
    fi
    echo "$1: $(wc -c < "$2") bytes, prints $(wc -l < "$work/out") lines $said"
}

cp "$here/firmware.s" "$here/shorter.s" "$work"
linked "$work/before" "$work/firmware.s"
linked "$work/after" "$work/shorter.s"
run "by gcc, linked by ld" "$work/before"
run "shorter, linked by ld" "$work/after"
run "shorter, image of peep" "$here/shorter.bin"
if has arm-none-eabi-gcc python3; then
    for unit in vectors fixed states text uart main; do
        listing "$unit" "$work/$unit.s"
        cp "$work/$unit.s" "$work/$unit.given.s"
        told=$(peep rewrite "$here/firmware.peep" "$work/$unit.given.s" "$work/$unit.s" -)
        echo "$unit: ${told//$'\n'/, }"
    done
    linked "$work/given" "$work"/{vectors,fixed,states,text,uart,main}.given.s
    linked "$work/units" "$work"/{vectors,fixed,states,text,uart,main}.s
    run "file by file, by gcc" "$work/given"
    run "file by file, shorter" "$work/units"
fi
exit "$failed"
