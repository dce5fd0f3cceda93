#!/usr/bin/env bash
# Measures how the time of tidying grows with the proved crates and with a plain Rust program of the best known algorithms: for N lines made by repeating the
# files of a folder, and for listings of the shapes of tidying/shapes.py, each at N and 2 N. Prints a row for each: processor seconds of reading, tidying and
# printing in both programs, those of tidying alone, and the factor of each at 2 N. A run of more than LIMIT (20) seconds is reported, and larger ones are
# skipped. Unless shapes are named, first both tidy 200 random listings, and so does a program that follows the definition. The outputs must be equal, for each
# shape too. PROGRAM is a build of tidying/proved.rs; without one, or with -, it is proved and built; with none, only the plain program is
# measured.
# Use: bench/tidying.sh FOLDER [LIMIT [PROGRAM [SHAPE ..]]]
. "$(dirname "$0")/common.sh"
folder=${1:-} limit=${2:-20} proved=${3:--}
shapes=("${@:4}")
if [ ! -d "$folder" ] || ! [[ $limit =~ ^[0-9]+$ ]]; then
    sed -n '2,9s/^# //p' "$0" >&2
    exit 2
fi
slow=$(build_plain "$top/bench/tidying/slow.rs") && mv "$slow" "$work/slow" && slow=$work/slow
plain=$(build_plain "$top/bench/tidying/plain.rs")
mv "$plain" "$work/tidied" && plain=$work/tidied
if [ "$proved" = - ]; then
    take_crates flow_tidy
    proved=$(build_proved tidying "$top/bench/tidying/proved.rs" listing_parser flow_tidy step_ledger anyhow)
fi

# run PROGRAM [BASE LINES BYTES]: tidies $work/listing.s to $work/PROGRAM.s with a program, `plain`, `slow` or `proved`. `$tidying` and `$whole` are the
# microseconds that it reports, and `$said` the rest; empty if it takes more than the limit.
run() {
    tidying="" whole="" said=""
    (ulimit -t "$limit" && on_processor "${!1}" "${@:2}" < "$work/listing.s" 2> "$work/$1.told" > "$work/$1.s") 2> "$work/stopped" || return 0
    read -r tidying whole said < "$work/$1.told"
    # a refusal has no times
    [ "$tidying" != refused ] || { said="refused $whole $said" tidying="" whole=""; }
}

# agree WHAT PROGRAM: fails unless the program wrote what the plain program wrote.
agree() {
    cmp -s "$work/$2.s" "$work/plain.s" || { echo "$1 differs" && exit 1; }
}

# seconds MICROSECONDS: as seconds, or that it took more than the limit.
seconds() { if [ -n "$1" ]; then awk "BEGIN { printf \"%.3f\", $1 / 1000000 }"; else echo "> $limit"; fi; }

# quotient A B: A divided by B, if both are known.
quotient() { if [ -n "$1" ] && [ -n "$2" ] && [ "$2" -gt 0 ]; then awk "BEGIN { printf \"%.2f\", $1 / $2 }"; else echo -; fi; }

# compare_plain WHAT [BASE LINES BYTES]: both plain programs tidy $work/listing.s.
compare_plain() {
    local by_definition
    run slow "${@:2}"
    by_definition=$said
    run plain "${@:2}"
    agree "$1" slow
    [ "$said" = "$by_definition" ] || { echo "$1: $said for $by_definition" && exit 1; }
}

# compare COUNT: all programs tidy COUNT random listings of each of two kinds, and the plain programs also with limits that these just meet.
compare() {
    local listing
    mkdir -p "$work/rewritten" "$work/chained"
    python3 "$top/bench/growth/random_listing.py" "$work/rewritten" "$1"
    python3 "$top/bench/tidying/shapes.py" --random "$work/chained" "$1"
    for listing in "$work"/rewritten/* "$work"/chained/*; do
        cp "$listing" "$work/listing.s"
        compare_plain "$listing" 0 "$(wc -l < "$listing")" "$(awk 'length > n { n = length } END { print n }' "$listing")"
        compare_plain "$listing"
        if [ "$proved" != none ]; then
            run proved
            agree "$listing" proved
        fi
    done
    echo "$((2 * $1)) random listings come out the same"
}

# listing SHAPE N: writes a listing.
listing() {
    case $1 in
        real) python3 "$top/bench/repeated.py" "$folder" "$2" ;;
        *) python3 "$top/bench/tidying/shapes.py" "$1" "$2" ;;
    esac
}

# least PROGRAM: runs a program twice. `$tidying` and `$whole` are the lesser times.
least() {
    local first=() changes
    run "$1"
    first=("$tidying" "$whole") changes=$said
    [ -n "$whole" ] || return 0
    run "$1"
    [ "${first[0]}" -ge "$tidying" ] || tidying=${first[0]}
    [ "${first[1]}" -ge "$whole" ] || whole=${first[1]}
    said=$changes
}

# measure SHAPE N: prints a shape's row.
measure() {
    local at count changes
    local -A proveds=() proved_alone=() plains=() plain_alone=()
    for at in 1 2; do
        listing "$1" $(($2 * at)) > "$work/listing.s"
        least plain
        plains[$at]=$whole plain_alone[$at]=$tidying changes=${said%% *}
        proveds[$at]="" proved_alone[$at]=""
        if [ "$proved" != none ] && { [ "$at" = 1 ] || [ -n "${proveds[1]}" ]; }; then
            least proved
            proveds[$at]=$whole proved_alone[$at]=$tidying
            [ -z "$whole" ] || agree "$1" proved
        fi
    done
    [ "$proved" != none ] || { proveds=([1]=- [2]=-) proved_alone=([1]=- [2]=-); }
    count=$(wc -l < "$work/listing.s")
    echo "| $1, $2 | $count | $changes |$(row "${proveds[1]}" "${proveds[2]}")$(row "${plains[1]}" "${plains[2]}") $(quotient "${proveds[2]#-}" "${plains[2]}") |" \
        "$(row "${proved_alone[1]}" "${proved_alone[2]}")$(row "${plain_alone[1]}" "${plain_alone[2]}") $(quotient "${proved_alone[2]#-}" "${plain_alone[2]}") |"
}

# row ONCE TWICE: both times and their factor.
row() {
    if [ "$1" = - ]; then echo " - | - |"; else echo " $(seconds "$1"), $(seconds "$2") | $(quotient "$2" "$1") |"; fi
}

[ ${#shapes[@]} != 0 ] || compare 100
echo "| shape, N | lines at 2 N | changes | proved at N, 2 N, in seconds | factor | plain Rust | factor | ratio at 2 N | tidying alone, proved | factor | plain Rust | factor | ratio at 2 N |"
echo "|---|---|---|---|---|---|---|---|---|---|---|---|---|"
{ echo real 131000; python3 "$top/bench/tidying/shapes.py"; } | while read -r shape count; do
    if [ ${#shapes[@]} = 0 ] || [[ " ${shapes[*]} " = *" $shape "* ]]; then
        measure "$shape" "$count"
    fi
done
