#!/usr/bin/env bash
# Measures a book of 1,000, 10,000 and 65,536 records whose log is full: inventories, an answer of
# 100 events, and changes. It is a measurement and no test: it judges no output, and no time makes
# it fail.
#
# usage: bench/book.sh [RUNS]     each row is run RUNS times, 5 if not given
#
# The program crates/bench is built first where that is needed, which proves it, and building is not
# measured. Needs awk.
#
# Columns:
#   records  the records
#   what     what is done
#   times    how many times in one run, after a tenth of that
#   one, us  the time of one in microseconds: the lowest wall time of all runs, less that of runs
#            that do the tenth alone, over how many times more it was done
#
# What is done:
#   answer   the inventory of all records is asked for
#   targets  the inventory of 100 software identifiers is asked for
#   events   100 events are asked for
#   change   the first record is altered
#   rename   the first record gets another software identifier
#   first    the first record is deleted, and another is created
#   middle   the same with the record in the middle
#   last     the same with the last record
#   delete   the record of the lowest identifier is deleted
#   upper    the record of the lowest identifier in the upper half is deleted
#
# During the first tenth the allocator puts in order what making the book freed, so it is not
# counted. Of a deletion alone all are counted.
#
# A table and a line come after it: how much longer each work takes with 65,536 records than with
# 1,000, and how long it takes to delete all 65,536 in order.

set -u

top=$(dirname -- "$(readlink -f -- "${BASH_SOURCE[0]}")")/..
crate=$top/crates/bench
program=$crate/out/bench
runs=${1:-5}

if [[ ! $runs =~ ^[1-9][0-9]*$ ]] || [ $# -gt 1 ]; then
    echo "usage: bench/book.sh [RUNS]" >&2
    exit 2
fi
(cd -- "$crate" && rt run -- book 1000 events 2) </dev/null >&2
if [ ! -x "$program" ]; then
    echo "book.sh: the program was not built" >&2
    exit 1
fi

# Prints the lowest wall time in microseconds of a book of RECORDS records that does WHAT that many
# TIMES.
lowest() {
    local records=$1 what=$2 times=$3 best='' start took
    for ((run = 0; run < runs; run++)); do
        start=${EPOCHREALTIME/[.,]/}
        "$program" book "$records" "$what" "$times" >/dev/null
        took=$((${EPOCHREALTIME/[.,]/} - start))
        if [ -z "$best" ] || [ "$took" -lt "$best" ]; then best=$took; fi
    done
    printf '%s' "$best"
}

# Prints one row of a book of RECORDS records that does WHAT that many TIMES more than BEFORE.
row() {
    local none some
    none=$(lowest "$1" "$2" "$3")
    some=$(lowest "$1" "$2" "$(($3 + $4))")
    printf '%s\t%s\t%s\t%s\t%s\n' "$1" "$2" "$4" "$none" "$some"
}

works=('answer 20' 'targets 10000' 'events 20000' 'change 500000' 'rename 500000' 'first 200000'
    'middle 200000' 'last 200000')

{
    for records in 1000 10000 65536; do
        for work in "${works[@]}"; do
            read -r what times <<<"$work"
            row "$records" "$what" "$((times / 10))" "$times"
        done
    done
    row 65536 delete 0 65536
    row 65536 upper 0 32768
} | awk -F '\t' -v runs="$runs" '
    BEGIN {
        printf "a book, lowest time of %d runs\n\n", runs
        printf "%8s %-7s %6s %12s\n", "records", "what", "times", "one, us"
    }
    {
        one = ($5 - $4) / $3
        printf "%8s %-7s %6s %12.2f\n", $1, $2, $3, one
        if ($1 == 1000) { few[$2] = one; order[++works] = $2 }
        if ($1 == 65536) many[$2] = one
    }
    END {
        printf "\n65,536 records beside 1,000\n\n%-7s %8s\n", "what", "ratio"
        for (work = 1; work <= works; work++) {
            what = order[work]
            if (few[what] > 0) printf "%-7s %8.2f\n", what, many[what] / few[what]
        }
        printf "\nall 65,536 deleted in order: %.3f s\n", many["delete"] * 65536 / 1000000
    }'
