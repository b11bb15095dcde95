#!/usr/bin/env bash
# Measures a book on a shelf beside the same book alone, and 1, 2 and 4 threads that share it. It is
# a measurement and no test: it judges no output, and no time makes it fail.
#
# usage: bench/shelf.sh [RUNS]     each row is run RUNS times, 5 if not given
#
# The program crates/bench is built first where that is needed, which proves it, and building is not
# measured. Needs awk.
#
# Columns:
#   what     what is done
#   where    where it is done
#   times    how many times in all
#   one, us  the time of one in microseconds: the lowest wall time of all runs, less that of runs
#            that do it not once, over how many times it was done
#
# What is done:
#   change  a record is altered
#   read    the latest event is asked for
#   both    a record is altered, and what came after the last event is asked for, in turns
#   events  a record is altered, and the latest hundred events of 4096 are asked for, in turns
#
# Where: `alone` is the book itself. A number is that many threads, each with a pass of one shelf,
# which share what is done.

set -u

top=$(dirname -- "$(readlink -f -- "${BASH_SOURCE[0]}")")/..
crate=$top/crates/bench
program=$crate/out/bench
runs=${1:-5}

if [[ ! $runs =~ ^[1-9][0-9]*$ ]] || [ $# -gt 1 ]; then
    echo "usage: bench/shelf.sh [RUNS]" >&2
    exit 2
fi
(cd -- "$crate" && rt run -- shelf alone read 2) </dev/null >&2
if [ ! -x "$program" ]; then
    echo "shelf.sh: the program was not built" >&2
    exit 1
fi

# Prints the lowest wall time in microseconds of a book WHERE a TASK is done that many TIMES in each
# thread.
lowest() {
    local where=$1 task=$2 times=$3 best='' start took
    for ((run = 0; run < runs; run++)); do
        start=${EPOCHREALTIME/[.,]/}
        "$program" shelf "$where" "$task" "$times" >/dev/null
        took=$((${EPOCHREALTIME/[.,]/} - start))
        if [ -z "$best" ] || [ "$took" -lt "$best" ]; then best=$took; fi
    done
    printf '%s' "$best"
}

{
    for row in 'change alone 1' 'change 1 1' 'read alone 1' 'read 1 1' 'both 1 1' 'both 2 2' 'both 4 4' \
        'events 1 1' 'events 2 2' 'events 4 4'; do
        read -r task where threads <<<"$row"
        times=$((400000 / threads))
        if [ "$task" = events ]; then times=$((40000 / threads)); fi
        printf '%s\t%s\t%s\t%s\t%s\n' "$task" "$where" $((times * threads)) "$(lowest "$where" "$task" 0)" "$(lowest "$where" "$task" "$times")"
    done
} | awk -F '\t' -v runs="$runs" '
    BEGIN {
        printf "a shelf, lowest time of %d runs\n\n", runs
        printf "%-7s %-6s %8s %10s\n", "what", "where", "times", "one, us"
    }
    { printf "%-7s %-6s %8s %10.3f\n", $1, $2, $3, ($5 - $4) / $3 }'
