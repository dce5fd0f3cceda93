# shellcheck shell=bash
# What make.sh and run.sh share: source it with `. "$(dirname "$0")/common.sh"`.
# It sets `here`, the folder of the examples, and `work`, a folder that is removed when the script ends.
set -eu
here=$(cd "$(dirname "${BASH_SOURCE[0]}")" && pwd)
work=$(mktemp -d)
trap 'rm -rf "$work"' EXIT

# has TOOL..: whether all of these can be run; prints the first that can't.
has() {
    local tool
    for tool in "$@"; do
        command -v "$tool" > /dev/null || { echo "no $tool here"; return 1; }
    done
}

peep() { "$here/../peep" "$@"; }

# listing UNIT OUT: gcc's listing of a file of this folder, cut to its code.
listing() {
    # no jump tables (data in code); no loops turned into calls of memset, which would make memset call itself; the vectors first
    arm-none-eabi-gcc -mcpu=cortex-m0 -mthumb -Os -ffreestanding -fno-jump-tables -fno-tree-loop-distribute-patterns -fno-toplevel-reorder \
        -Wall -Wextra -Werror -S "$here/$1.c" -o "$work/whole.s"
    python3 "$here/cut.py" "$work/whole.s" "$2"
}

# linked OUT LISTING..: the image that GNU as, ld and objcopy make of listings.
linked() {
    local out=$1 objects=() path
    shift
    for path in "$@"; do
        arm-none-eabi-as "$path" -o "$path.o"
        objects+=("$path.o")
    done
    arm-none-eabi-ld -T "$here/link.ld" -e reset "${objects[@]}" -o "$out.elf"
    arm-none-eabi-objcopy -O binary "$out.elf" "$out"
}

# emulated IMAGE OUT: runs an image from address 0 on an emulated micro:bit. The firmware's input line is sent once its prompt has appeared, because the
# emulated serial port loses what arrives before it is enabled. The firmware ends the emulator by requesting a reset.
emulated() {
    local image=$1 out=$2 emulator
    rm -f "$work/line" "$out"
    mkfifo "$work/line"
    timeout 120 qemu-system-arm -M microbit -nographic -no-reboot -kernel "$image" < "$work/line" > "$out" &
    emulator=$!
    exec 3> "$work/line"
    while [ ! -s "$out" ] && kill -0 "$emulator" 2> "$work/gone"; do sleep 0.1; done
    echo 80Ff7fFe >&3
    exec 3>&-
    wait "$emulator"
}
