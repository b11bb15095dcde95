#!/usr/bin/env bash
# Measures sweeps over one source of 1,000, 10,000 and 65,536 items of 400 octets: those that add
# all items, those that change a tenth of them, and those in which the source is quiet. It is a
# measurement and no test: it judges no output, and no time makes it fail.
#
# usage: bench/sources.sh [RUNS]     each row is run RUNS times, 5 if not given
#
# The program crates/bench is built first where that is needed, which proves it, and building is not
# measured. Needs awk.
#
# Columns:
#   items    the items that are held
#   what     what the sweeps do: add, change or quiet
#   one, us  the time of an item, or of a quiet sweep, in microseconds: the lowest wall time of all
#            runs, less that of runs that do it not once, over how many there are
#   ratio    the same over that of 1,000 items
#
# Then it measures the reading of lines, beside decoding the digits of their last words and reading
# the tags that these are. `bench/tag_lines.py` writes the lines into a temporary folder, which is
# removed at the end. Needs python3 too.
#
# Columns:
#   lines    the lines
#   octets   the octets that they have
#   lines ms the time that reading them takes: the lowest wall time of all runs
#   tags ms  that of their digits and tags alone
#   ratio    the one over the other; the goal is at most 2

set -u

top=$(dirname -- "$(readlink -f -- "${BASH_SOURCE[0]}")")/..
crate=$top/crates/bench
program=$crate/out/bench
runs=${1:-5}

if [[ ! $runs =~ ^[1-9][0-9]*$ ]] || [ $# -gt 1 ]; then
    echo "usage: bench/sources.sh [RUNS]" >&2
    exit 2
fi
(cd -- "$crate" && rt run -- sources 1000 100 10) </dev/null >&2
if [ ! -x "$program" ]; then
    echo "sources.sh: the program was not built" >&2
    exit 1
fi

folder=$(mktemp -d) || exit 1
trap 'rm -rf -- "$folder"' EXIT

# Prints the lowest wall time in microseconds of the program with these words, over a file.
lowest_over() {
    local input=$1 best='' start took
    shift
    for ((run = 0; run < runs; run++)); do
        start=${EPOCHREALTIME/[.,]/}
        "$program" "$@" <"$input" >/dev/null
        took=$((${EPOCHREALTIME/[.,]/} - start))
        if [ -z "$best" ] || [ "$took" -lt "$best" ]; then best=$took; fi
    done
    printf '%s' "$best"
}

# Prints that of sweeps over a source.
lowest() {
    lowest_over /dev/null sources "$1" "$2" "$3"
}

# Prints the rows of a source of that many items.
rows() {
    local items=$1 tenth=$(($1 / 10)) none added
    none=$(lowest 0 0 0)
    added=$(lowest "$items" 0 0)
    printf '%s\t%s\t%s\t%s\t%s\n' "$items" add "$items" "$none" "$added"
    printf '%s\t%s\t%s\t%s\t%s\n' "$items" change "$tenth" "$added" "$(lowest "$items" "$tenth" 0)"
    printf '%s\t%s\t%s\t%s\t%s\n' "$items" quiet 100000 "$added" "$(lowest "$items" 0 100000)"
}

for items in 1000 10000 65536; do
    rows "$items"
done | awk -F '\t' -v runs="$runs" '
    BEGIN {
        printf "sweeps, lowest time of %d runs\n\n", runs
        printf "%8s %-7s %10s %8s\n", "items", "what", "one, us", "ratio"
    }
    {
        one = ($5 - $4) / $3
        if ($1 == 1000) few[$2] = one
        printf "%8s %-7s %10.3f %8.2f\n", $1, $2, one, (few[$2] > 0 ? one / few[$2] : 0)
    }'

# Prints the row of that many lines, whose tags are small or large.
lines() {
    python3 "$top/bench/tag_lines.py" "$1" "$2" "$folder/lines" "$folder/digits" || exit 1
    printf '%s\t%s\t%s\t%s\n' "$1" "$(stat -c %s "$folder/lines")" \
        "$(lowest_over "$folder/lines" lines items "$1")" "$(lowest_over "$folder/digits" lines digits "$1")"
}

for words in "1000 small" "65536 small" "4000 large"; do
    lines $words
done | awk -F '\t' '
    BEGIN { printf "\n%8s %10s %10s %10s %8s\n", "lines", "octets", "lines ms", "tags ms", "ratio" }
    { printf "%8s %10s %10.2f %10.2f %8.2f\n", $1, $2, $3 / 1000, $4 / 1000, $3 / $4 }'
