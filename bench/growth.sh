#!/usr/bin/env bash
# Measures how the time of rewriting grows with listings of hostile shapes, beside a plain Rust program of the best known algorithms: each shape of growth.py
# at N, 2 N and 4 N. Prints a row for each: the processor seconds of rewriting in both programs, without auditing and reading, the factor of each doubling, and
# the ratio at 4 N. Runs of more than LIMIT (60) seconds are reported, larger ones skipped. Unless shapes are named, first both rewrite 100 random listings.
# The outputs must be equal, for each shape too. If PROGRAM, a build of rewriting/proved.rs, is given, it is measured, and nothing is proved.
# Use: bench/growth.sh [LIMIT [PROGRAM [SHAPE ..]]], PROGRAM - for none
. "$(dirname "$0")/common.sh"
limit=${1:-60} given=${2:--}
shapes=("${@:3}")
[[ $limit =~ ^[0-9]+$ ]] || { sed -n '2,6s/^# //p' "$0" >&2; exit 2; }
plain=$(build_plain "$top/bench/growth/plain.rs")
if [ "$given" != - ]; then
    proved=$given
else
    take_crates window_rewrite
    proved=$(build_proved rewriting "$top/bench/rewriting/proved.rs" rule_table table_audit listing_parser window_rewrite step_ledger anyhow)
fi

# run PROGRAM SECONDS: runs a program, `proved` or `plain`, on $work/input for at most so many processor seconds. `$took` is the first number that it
# prints, in microseconds, or empty if it took longer.
run() {
    took=
    if (ulimit -t "$2" && on_processor "${!1}" < "$work/input" 2> "$work/$1.told" > "$work/$1.s") 2> /dev/null; then
        took=$(cut -d' ' -f1 "$work/$1.told")
    fi
}

# agree WHAT: fails unless both programs wrote and printed the same, except for times.
agree() {
    if ! cmp -s "$work/proved.s" "$work/plain.s" || ! cmp -s <(cut -d' ' -f3- "$work/proved.told") <(cut -d' ' -f3- "$work/plain.told"); then
        echo "$1 differs" && head -n 1 "$work"/*.told >&2
        exit 1
    fi
}

# seconds MICROSECONDS: as seconds, or that it took more than the limit.
seconds() { if [ -n "$1" ]; then awk "BEGIN { printf \"%.3f\", $1 / 1000000 }"; else echo "> $limit"; fi; }

# quotient A B: A divided by B, if both are known.
quotient() { if [ -n "$1" ] && [ -n "$2" ] && [ "$2" -gt 0 ]; then awk "BEGIN { printf \"%.1f\", $1 / $2 }"; else echo -; fi; }

# compare COUNT: both programs rewrite COUNT random listings.
compare() {
    local listing
    mkdir -p "$work/random"
    python3 "$top/bench/growth/random_listing.py" "$work/random" "$1"
    python3 "$top/bench/growth.py" groups_backward 3 --table > "$work/table"
    for listing in "$work/random"/*; do
        cat "$work/table" "$listing" > "$work/input"
        run proved "$limit"
        run plain "$limit"
        agree "$(basename "$listing")"
    done
    echo "$1 random listings come out the same"
}

# measure SHAPE N: prints a shape's row.
measure() {
    local program count at audit said=""
    local -A times=()
    for program in proved plain; do
        at=0
        for count in "$2" $(($2 * 2)) $(($2 * 4)); do
            if [ "$at" = 0 ] || [ -n "${times[$program$((at - 1))]}" ]; then
                # the time for auditing the table
                python3 "$top/bench/growth.py" "$1" "$count" --table > "$work/input"
                audit=0
                if [ "$program" = proved ]; then
                    { on_processor clocked "$proved" < "$work/input" > /dev/null; } 2> "$work/audit"
                    audit=$(($(tail -n 1 "$work/audit") / 1000000 + 1))
                fi
                python3 "$top/bench/growth.py" "$1" "$count" > "$work/input"
                run "$program" $((limit + audit))
                # a short run is made twice, and the lesser time counts
                if [ -n "$took" ] && [ "$took" -lt 1000000 ]; then
                    times[$program$at]=$took
                    run "$program" $((limit + audit))
                    [ "$took" -lt "${times[$program$at]}" ] || took=${times[$program$at]}
                fi
                times[$program$at]=$took
                mv "$work/$program.s" "$work/$program$at.s"
            else
                times[$program$at]=
            fi
            at=$((at + 1))
        done
    done
    for at in 0 1 2; do
        if [ -n "${times[proved$at]}" ] && [ -n "${times[plain$at]}" ]; then
            cmp "$work/proved$at.s" "$work/plain$at.s"
        fi
    done
    for program in proved plain; do
        said+=" $(seconds "${times[${program}0]}"), $(seconds "${times[${program}1]}"), $(seconds "${times[${program}2]}") |"
        said+=" $(quotient "${times[${program}1]}" "${times[${program}0]}"), $(quotient "${times[${program}2]}" "${times[${program}1]}") |"
    done
    echo "| $1, $2 |$said $(quotient "${times[proved2]}" "${times[plain2]}") |"
}

[ ${#shapes[@]} != 0 ] || compare 100
echo "| shape, N | proved at N, 2 N, 4 N, in seconds | factors | plain Rust | factors | ratio at 4 N |"
echo "|---|---|---|---|---|---|"
python3 "$top/bench/growth.py" | while read -r shape count; do
    if [ ${#shapes[@]} = 0 ] || [[ " ${shapes[*]} " = *" $shape "* ]]; then
        measure "$shape" "$count"
    fi
done
