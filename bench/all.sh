#!/usr/bin/env bash
# Runs every measure, one after the other, and prints what each prints: times with their ratios, and factors of growth. A measure whose external
# tool is missing is skipped with a message. If one fails, the status is 1. Use: bench/all.sh LISTINGS, a folder of listings that gcc wrote.
. "$(dirname "$0")/common.sh"
listings=${1:-}
[ -d "$listings" ] || { sed -n '2,3s/^# //p' "$0" >&2; exit 2; }
failed=0

# measure TOOLS RUNNER SCRIPT WORD..: runs a script of this folder, which needs the tools besides rt and rustc.
measure() {
    local tool
    echo "$3:"
    for tool in rt rustc $1; do
        if ! command -v "$tool" > /dev/null; then
            echo "skipped, for want of $tool"
            return
        fi
    done
    if ! "$2" "$top/bench/$3" "${@:4}"; then
        echo "failed"
        failed=1
    fi
}

measure python3 bash codes.sh
measure "" bash window_steps.sh
measure "" bash formulas.sh
measure "" bash sequences.sh
measure "" bash cheaper.sh
measure "" bash prints.sh
measure python3 bash audit.sh
measure "" bash trim.sh
measure "" bash machine_steps.sh
measure python3 bash listing_lines.sh --all "$listings"
measure python3 bash rewriting.sh "$listings"
measure python3 bash growth.sh
measure python3 bash tidying.sh "$listings"
measure python3 bash table_texts.sh
measure python3 bash newness.sh
measure python3 bash live_items.sh "$listings"
measure "python3 arm-none-eabi-as" bash images.sh "$listings"
measure cadical python3 measure_lrat.py "$work/lrat"
measure "python3 cadical" bash solver.sh 5 "$listings"
measure "" bash learner.sh "$listings"
measure "" bash learner.sh --costs "$top/examples/small-multiplier.costs" "$listings"
measure cadical python3 exported.py "$work/rules"
measure "python3 cc" bash faults.sh
measure python3 bash fuzz.sh "$listings" 100000
measure cadical python3 forger.py "$listings" "$work/forged"
measure "" python3 limits.py "$listings" "$work/limits"
exit "$failed"
