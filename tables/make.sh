#!/usr/bin/env bash
# Makes the tables of this folder again from Debian source packages: fetches them with apt-get, compiles them to listings at -Os and -O2, learns rules for the
# windows of supported functions and for the same left sides under other masks, keeps those that remove an instruction and occur in enough listings, and raises
# entries to families. Use: tables/make.sh FOLDER, which holds the packages and all files made; a second run continues from these.
#
# The plain learner of `bench/` learns many windows at a time, and writes the same table that `peep learn` would. `peep audit` judges a table by its text alone,
# whichever program made it.
set -eu
here=$(cd "$(dirname "$0")" && pwd)
top=$(dirname "$here")
folder=${1:-}
[ -n "$folder" ] || { sed -n '2,4s/^# //p' "$0" >&2; exit 2; }
core=(-mcpu=cortex-m0 -mthumb)
most=${MOST:-10000}
jobs=${JOBS:-2}
mkdir -p "$folder/sources" "$folder/cut"
folder=$(cd "$folder" && pwd)
# pools: the most frequent numbers in code, and two pools of the next most frequent ones, each with some of the first
usual=0,1,2,3,4,5,6,7,8,15,16,24,31,127,128,255
second=0,1,2,9,10,12,13,14,17,20,23,28,32,48,64,255
third=0,1,2,11,18,19,21,22,25,26,30,40,56,63,104,255

# built NAME SOURCE: a plain program of bench/.
built() { [ -x "$folder/$1" ] || rustc -O --edition 2021 "$top/bench/$2" -o "$folder/$1" 2> "$folder/$1.log"; }

# fetch: fetches the missing packages. /etc/apt has to name a source of Debian's source packages that still has these versions.
fetch() {
    local use name version rest
    while IFS='; ' read -r use name version rest; do
        case $use in learn | measure) ;; *) continue ;; esac
        compgen -G "$folder/sources/$name-*/" > /dev/null || (cd "$folder/sources" && apt-get source -qq "$name=$version") || echo "$name $version: not to be had"
    done < "$here/packages.txt"
    "$here/prepare.sh" "$folder/sources"
}

# cut_all: cuts each listing to the functions that the driver would pass to peep.
cut_all() {
    local package name
    for package in "$folder"/O[s2]/*; do
        name=$(basename "$(dirname "$package")")_$(basename "$package")
        mkdir -p "$folder/cut/$name"
        if [ ! -e "$folder/cut/$name/done" ]; then
            nice -n 10 "$top/driver/peep-table" cut "$folder/cut/$name" "$package"/*.s
            touch "$folder/cut/$name/done"
        fi
    done
}

# learnt NAME: learns the table NAME.peep from the windows NAME.windows.
learnt() { nice -n 10 "$folder/learner" < "$1.windows" > "$1.new" 2> "$1.log" && mv "$1.new" "$1.peep"; }

# learnt_in_parts NAME: learns the tables NAME/*.peep from the windows NAME.windows, several at a time.
learnt_in_parts() {
    rm -rf "$1"
    mkdir "$1"
    "$top/driver/peep-table" parts "$1.windows" "$1" $((1 + $(grep -c '^entry' "$1.windows") / 2500 + jobs))
    # shellcheck disable=SC2016 # the inner shell expands
    find "$1" -name '*.windows' | sed 's/\.windows$//' | xargs -P "$jobs" -I{} bash -c 'nice -n 10 "$0" < "$1.windows" > "$1.peep" 2> "$1.log"' "$folder/learner" {}
}

# rules NAME REGS LEFT BUDGET POOL [KNOWN]: learns the rules that remove an instruction from a window, as $folder/NAME/seen.peep; with the pool KNOWN only
# those of windows with a number that KNOWN lacks.
rules() {
    local room=$folder/$1 listing now
    mkdir -p "$room/windows"
    for listing in "$folder"/cut/*/*.s; do
        now=$room/windows/$(basename "$(dirname "$listing")")-$(basename "$listing")
        [ -s "$now" ] || nice -n 10 "$folder/harvest" windows "${@:2:4}" < "$listing" > "$now" 2> "$folder/harvest.log"
    done
    now=$room/seen.peep
    if [ ! -s "$now" ]; then
        "$top/driver/peep-table" windows "$room/seen.windows" "$room"/windows/*.s
        [ -z "${6:-}" ] || "$top/driver/peep-table" others "$room/seen.windows" "$6" "$room/seen.windows"
        learnt_in_parts "$room/seen"
        "$top/driver/peep-table" merge "$now" "$room"/seen/*.peep
    fi
}

# widened NAME: these rules and those of the same left sides under other masks, as $folder/NAME/wide.peep. It starts with the widest masks, since covered ones
# aren't tried.
widened() {
    local room=$folder/$1 now=$folder/$1/seen.peep items
    [ ! -s "$room/wide.peep" ] || return 0
    for items in 7 6 5 4 3 2 1; do
        "$top/driver/peep-table" widen "$now" "$room/wide$items.windows" "$items"
        grep -q '^entry' "$room/wide$items.windows" || continue
        learnt_in_parts "$room/wide$items"
        "$top/driver/peep-table" merge "$room/now$items.peep" "$now" "$room/wide$items"/*.peep
        now=$room/now$items.peep
    done
    cp "$now" "$room/wide.peep"
}

# shipped TABLE WINDOWS BYTES [CLAUSES]: learns windows again by themselves, so that fewer states are needed, and ships the entries with at most so many bytes
# of text, and so many clauses of their formulas, audited and with trimmed proofs.
shipped() {
    learnt "$2"
    "$top/driver/peep-table" filter "$2.peep" "$2.kept.peep" "$3"
    [ -z "${4:-}" ] || "$top/driver/peep-table" light "$2.kept.peep" "$2.kept.peep" "$2.heavy.peep" "$4"
    "$top/driver/peep-table" merge "$here/$1.peep" "$2.kept.peep"
    "$top/peep" trim "$here/$1.peep" "$here/$1.peep"
}

# families: raises the entries of the shipped tables to families, ships these as size-families, and removes what they cover from the tables. Families of the
# other pools are learnt again with the usual pool, with up to three numbers each: with only one, a right side may be found that can't be raised as widely.
families() {
    local room=$folder/families name
    mkdir -p "$room"
    for name in size size-rare size-numbers size-others; do
        [ -s "$room/$name.peep" ] || nice -n 10 "$top/driver/peep-table" raise "$here/$name.peep" "$room/$name.peep"
        "$top/driver/peep-table" families "$room/$name.peep" "$room/$name.families.peep"
    done
    "$top/driver/peep-table" instances "$room/again.windows" "$usual" 3 "$room/size-numbers.families.peep" "$room/size-others.families.peep"
    learnt "$room/again"
    "$top/driver/peep-table" filter "$room/again.peep" "$room/again.kept.peep"
    nice -n 10 "$top/driver/peep-table" raise "$room/again.kept.peep" "$room/again.raised.peep"
    "$top/driver/peep-table" families "$room/again.raised.peep" "$room/again.families.peep"
    "$top/driver/peep-table" merge "$room/merged.peep" "$room"/{size,size-rare,again}.families.peep
    pruned "$room/merged.peep" size-families
    for name in size size-rare size-numbers size-others; do
        "$top/driver/peep-table" uncovered "$room/$name.rest.peep" "$here/$name.peep" "$here/size-families.peep"
        pruned "$room/$name.rest.peep" "$name"
    done
}

# pruned FROM TABLE: ships a table without needless states, with trimmed proofs.
pruned() {
    nice -n 10 "$top/driver/peep-table" prune "$1" "$here/$2.peep"
    "$top/peep" trim "$here/$2.peep" "$here/$2.peep"
}

# used NAME RULES LEAST: the left sides and masks of the rules that apply to windows of at least LEAST listings.
used() { "$top/driver/peep-table" used "$folder/$1/used$3.windows" "$3" "$folder/$1/$2.peep" "$folder/$1"/windows/*.s; }

built harvest live_items/plain.rs
built learner learner/plain.rs
fetch
"$here/listings.py" --most "$most" --jobs "$jobs" learn "$folder/sources" "$folder/Os" "${core[@]}" -Os -ffunction-sections -fdata-sections
"$here/listings.py" --most "$most" --jobs "$jobs" learn "$folder/sources" "$folder/O2" "${core[@]}" -O2
cut_all
rules size 4 3 1000 "$usual"
widened size
used size wide 2
shipped size "$folder/size/used2" 5000 1000
used size wide 1
"$top/driver/peep-table" without "$folder/size/rest.windows" "$folder/size/used1.windows" "$here/size.peep"
shipped size-rare "$folder/size/rest" 20000
rules numbers 4 3 1000 "$second" "$usual"
used numbers seen 1
shipped size-numbers "$folder/numbers/used1" 5000
rules others 4 3 1000 "$third" "$usual"
used others seen 1
shipped size-others "$folder/others/used1" 5000
families
