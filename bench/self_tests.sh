#!/usr/bin/env bash
# Builds mbedtls' algorithms with their self tests, once with gcc and once with the driver, links them with newlib, runs both in an emulator, and compares
# what they print. The driver's settings apply. Use: bench/self_tests.sh SOURCES, the folder with the unpacked packages of tables/packages.txt.
set -eu
top=$(cd "$(dirname "$0")/.." && pwd)
sources=${1:-}
mbedtls=$(find "${sources:-/nowhere}" -maxdepth 1 -name 'mbedtls-*' -type d | head -n 1)
[ -n "$mbedtls" ] || { sed -n '2,3s/^# //p' "$0" >&2; exit 2; }
units=(aes arc4 base64 bignum blowfish camellia ccm chacha20 chachapoly cipher cipher_wrap constant_time des gcm md5 nist_kw platform platform_util poly1305 ripemd160 sha1 sha256 sha512)
core=(-mcpu=cortex-m0 -mthumb)
work=$(mktemp -d)
trap 'rm -rf "$work"' EXIT
export PEEP_LOG=$work/log

# built COMPILER FLAG..: builds $work/program, and prints how many bytes of code and constants it has.
built() {
    local unit objects=()
    for unit in "${units[@]}"; do
        "$1" "${core[@]}" "${@:2}" -w -ffunction-sections -fdata-sections -I"$mbedtls/include" -c "$mbedtls/library/$unit.c" -o "$work/$unit.o"
        objects+=("$work/$unit.o")
    done
    arm-none-eabi-gcc "${core[@]}" -Os -w -I"$mbedtls/include" -c "$top/bench/self_tests/main.c" -o "$work/main.o"
    arm-none-eabi-gcc "${core[@]}" --specs=rdimon.specs -Wl,--gc-sections -Wl,--no-warn-rwx-segments -T "$top/bench/self_tests/link.ld" "$work/main.o" "${objects[@]}" -o "$work/program"
    arm-none-eabi-size "$work/program" | awk 'NR == 2 { print $1 }'
}

# printed: runs the program, which prints its results.
printed() { qemu-system-arm -M mps2-an385 -nographic -semihosting -kernel "$work/program"; }

for flags in "-Os" "-Os -g" "-O2"; do
    read -ra words <<< "$flags"
    plain=$(built arm-none-eabi-gcc "${words[@]}")
    printed > "$work/plain.out"
    ours=$(built "$top/driver/peep-cc" "${words[@]}")
    printed > "$work/ours.out"
    cmp "$work/plain.out" "$work/ours.out"
    echo "$flags: $plain bytes by gcc, $ours by the driver, the same $(wc -l < "$work/ours.out") lines, $(grep -c ' 0$' "$work/ours.out") self tests passed"
done
