# shellcheck shell=bash
# What the measures share: source it with `. "$(dirname "$0")/common.sh"`.
# It sets `top`, the repository's top folder, and `work`, a folder that is removed when the script ends. All times are processor times, user and system
# together, so that other load on the machine matters little: those that a program measures itself as well as those measured from outside.
set -eu
top=$(cd "$(dirname "${BASH_SOURCE[0]}")/.." && pwd)
work=$(mktemp -d)
trap 'rm -rf "$work"' EXIT
cc -O2 -shared -fPIC "$top/bench/processor_clock.c" -o "$work/processor_clock.so"

# on_processor COMMAND..: runs a program, or a function that runs programs, with clocks that give processor time.
on_processor() { LD_PRELOAD="$work/processor_clock.so" "$@"; }

# take_crates CRATE..: copies crates and those that they use into the work folder, each with its line of crates.txt.
take_crates() {
    local crate line
    mkdir -p "$work/crates"
    cp "$top/HANDLES" "$work/"
    for crate in "$@"; do
        # the toolchain's crates have no folder here; a crate that is already copied is skipped
        if [ -d "$top/crates/$crate" ] && [ ! -d "$work/crates/$crate" ]; then
            line=$(grep "^$crate:" "$top/crates.txt")
            # shellcheck disable=SC2086 # the words after the colon are crates
            take_crates ${line#*:}
            # without what rt kept there: rt itself reuses what it can
            tar -C "$top/crates" --exclude="$crate/out" -c "$crate" | tar -C "$work/crates" -x
            echo "$line" >> "$work/crates.txt"
        fi
    done
}

# prove_clause NAME: writes the proof parts needed for a program's function `clause`, which reads the literals of a line.
prove_clause() {
    local folder=$work/crates/$1/proofs/clause
    mkdir -p "$folder"
    cat > "$folder/Invariants.antt" <<ANTT
use Rattle.cnf_gates.specs.Cnf.{AreLiterals}
use Rattle.$1.proofs.clause.Given as goal

abbrev pub invariant-loop-word : goal.invariant-loop-word
invariant-loop-word l = AreLiterals l.clause.items
ANTT
    cat > "$folder/Answers.antt" <<ANTT
use Rattle.std.proofs.Common.{subst, List, ℤ, sym, ◌++◌, ◌∷◌, [], w32}
use Rattle.std.proofs.lemmas.Int.{to_z-of_z}
use Rattle.cnf_gates.specs.Cnf.{AreLiterals}
use Rattle.cnf_gates.proofs.Literals.{AreLiteralsOf-push}
use Rattle.$1.proofs.clause.Goals as goal

pub loop-word-preserved-in-Continue-1 : goal.loop-word-preserved-in-Continue-1
loop-word-preserved-in-Continue-1 c =
    let z : ℤ = c.in-Some-literal.number in
    let more : AreLiterals (c.loop-word.clause.items ++ z ∷ []) = AreLiteralsOf-push 200000 c.loop-word.clause.items z c.loop-word.invariant c.in-Some-literal.ensures.0 in
    subst AreLiterals (sym c.in_ok-push.ensures.items) (rw (to_z-of_z w32 z c.in-Some-literal.ensures.1) more)
ANTT
}

# build_proved NAME SOURCE DEP..: proves and builds a program over copied crates, and prints its path; if that fails, prints the end of rt's output.
# The program's own definitions and proofs, if any, are written to $work/crates/NAME before.
build_proved() {
    local crate=$work/crates/$1
    mkdir -p "$crate/src"
    cp "$2" "$crate/src/main.rt"
    echo "$1: ${*:3}" >> "$work/crates.txt"
    # rt also runs the program, which it expects to print nothing
    (cd "$crate" && rt run) < /dev/null > "$work/build.log" 2>&1 || true
    [ -x "$crate/out/$1" ] || { tail -n 20 "$work/build.log" >&2; return 1; }
    echo "$crate/out/$1"
}

# build_plain SOURCE [EDITION]: builds plain Rust (2021) for the processor that rt builds for, and prints its path; if that fails, the end of rustc's output.
build_plain() {
    rustc -O -C target-cpu=x86-64-v2 --edition "${2:-2021}" "$1" -o "$work/plain" 2> "$work/plain.log" || { tail -n 20 "$work/plain.log" >&2; return 1; }
    echo "$work/plain"
}

# clocked COMMAND..: runs a command that prints nothing on standard error, and prints there its processor time in microseconds, rounded to a thousand.
clocked() {
    local TIMEFORMAT='%U %S'
    { time "$@"; } 2> "$work/clocked"
    awk '{ printf "%d\n", 1000000 * ($1 + $2) }' "$work/clocked" >&2
}

# in_turns TURNS COMMAND..: runs a command alternately with the path of the proved program, `$proved`, and of the plain one, `$plain`. Both must print
# the same. `$proved_time` and `$plain_time` are set to the least of the first numbers that the runs print on standard error.
in_turns() {
    local program
    rm -f "$work"/*.times
    for _ in $(seq "$1"); do
        for program in proved plain; do
            on_processor "${@:2}" "${!program}" 2>> "$work/$program.times" > "$work/$program.printed"
        done
        cmp "$work/proved.printed" "$work/plain.printed"
    done
    # shellcheck disable=SC2034 # for the script that sources this one
    proved_time=$(shortest proved 1) plain_time=$(shortest plain 1)
}

# shortest PROGRAM COLUMN: the least number in a column of what a program's runs printed on standard error.
shortest() { cut -d' ' -f"$2" "$work/$1.times" | sort -n | head -n 1; }

# print_times WHAT UNIT PROVED PLAIN [NAME]: prints both times and their ratio. NAME is printed in place of "plain Rust".
print_times() {
    echo "$1: proved $3 $2, ${5:-plain Rust} $4 $2, ratio $(awk "BEGIN { printf \"%.2f\", $3 / $4 }")"
}

# print_factor WHAT UNIT ONCE TWICE: prints both times and how many times longer the second is.
print_factor() {
    echo "$1 $3 and $4 $2, factor $(awk "BEGIN { printf \"%.2f\", $4 / $3 }")"
}
