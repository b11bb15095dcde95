#!/usr/bin/env bash
# Measures sessions of a collector with a validator, by the cores of both ends in one program,
# without a link. It is a measurement and no test: it judges no output, and no figure makes it fail.
#
# usage: bench/sessions.sh [RUNS]     each row is run RUNS times, 5 if not given
#
# The program crates/bench is built first where that is needed, which proves it, and building is not
# measured. Needs awk and GNU time (/usr/bin/time).
#
# The first table has the first session over a book whose log is full: the validator asks for the
# inventory, with bodies, and its mirror takes it. Beside it the inventory is built and taken
# without a session: as octets, which are written and read again, and as a value.
#
# Columns:
#   records     the records
#   a piece     the octets of the pieces in which both ends hear
#   session ms  the lowest wall time of all runs, less that of making the book
#   octets ms   the same without a session, where the report is written as the value of an attribute and read again
#   ratio       the one over the other; the goal is at most 2 in pieces of 65536 octets
#   alone ms    the same without a session and without octets
#   ratio       the session over it
#   KiB         the peak memory of the session, the highest of all runs
#   alone KiB   the same without a session
#
# The second table has later sessions over such a book, each after that many alterations.
#
# Columns:
#   records  the records
#   events   the alterations before each session
#   times    how many sessions
#   one, us  the time of one session in microseconds, alterations included: the lowest wall time of
#            all runs, less that of runs without a later session, over how many there were
#
# The third table has idle turns of a collector with 16 subscriptions of 100 targets each, which
# matched nothing. Since they were taken the first record was altered 4096 times, which is none of
# their targets: at each turn the events are looked at once for each subscription.
#
# Columns:
#   records  the records
#   times    how many idle turns
#   one, us  the time of one in microseconds, as in the second table

set -u

top=$(dirname -- "$(readlink -f -- "${BASH_SOURCE[0]}")")/..
crate=$top/crates/bench
program=$crate/out/bench
runs=${1:-5}

if [[ ! $runs =~ ^[1-9][0-9]*$ ]] || [ $# -gt 1 ]; then
    echo "usage: bench/sessions.sh [RUNS]" >&2
    exit 2
fi
(cd -- "$crate" && rt run -- sessions alone 10) </dev/null >&2
if [ ! -x "$program" ]; then
    echo "sessions.sh: the program was not built" >&2
    exit 1
fi
kib=$(mktemp) || exit 1
trap 'rm -f -- "$kib"' EXIT

# Prints the lowest wall time in microseconds and the highest KiB of the program with these words.
measure() {
    local best='' most=0 start took
    for ((run = 0; run < runs; run++)); do
        start=${EPOCHREALTIME/[.,]/}
        /usr/bin/time -f %M -o "$kib" "$program" "$@" >/dev/null
        took=$((${EPOCHREALTIME/[.,]/} - start))
        if [ -z "$best" ] || [ "$took" -lt "$best" ]; then best=$took; fi
        if [ "$(<"$kib")" -gt "$most" ]; then most=$(<"$kib"); fi
    done
    printf '%s\t%s' "$best" "$most"
}

{
    for row in '1000 65536' '10000 65536' '65536 65536' '10000 1'; do
        read -r records piece <<<"$row"
        printf '%s\t%s\t%s\t%s\t%s\t%s\n' "$records" "$piece" "$(measure book "$records" change 0)" \
            "$(measure sessions first "$records" "$piece")" "$(measure sessions octets "$records")" "$(measure sessions alone "$records")"
    done
} | awk -F '\t' -v runs="$runs" '
    BEGIN {
        printf "first sessions, lowest time of %d runs\n\n", runs
        printf "%8s %8s %11s %10s %6s %9s %6s %8s %10s\n", "records", "a piece", "session ms", "octets ms", "ratio", "alone ms", "ratio", "KiB", "alone KiB"
    }
    {
        session = $5 - $3
        octets = $7 - $3
        alone = $9 - $3
        printf "%8s %8s %11.2f %10.2f %6.2f %9.2f %6.2f %8d %10d\n", $1, $2, session / 1000, octets / 1000, session / octets, alone / 1000, session / alone, $6, $10
    }'
echo
{
    for row in '1000 0 10000' '65536 0 10000' '1000 1 10000' '65536 1 10000' '1000 100 1000' '65536 100 1000' '1000 4096 20' '65536 4096 20'; do
        read -r records events times <<<"$row"
        printf '%s\t%s\t%s\t%s\t%s\n' "$records" "$events" "$times" \
            "$(measure sessions update "$records" "$events" 0)" "$(measure sessions update "$records" "$events" "$times")"
    done
} | awk -F '\t' -v runs="$runs" '
    BEGIN {
        printf "later sessions, lowest time of %d runs\n\n", runs
        printf "%8s %6s %6s %10s\n", "records", "events", "times", "one, us"
    }
    { printf "%8s %6s %6s %10.2f\n", $1, $2, $3, ($6 - $4) / $3 }'
echo
{
    for row in '1000 100' '65536 100'; do
        read -r records times <<<"$row"
        printf '%s\t%s\t%s\t%s\n' "$records" "$times" "$(measure sessions looks "$records" 0)" "$(measure sessions looks "$records" "$times")"
    done
} | awk -F '\t' -v runs="$runs" '
    BEGIN {
        printf "idle turns with 16 subscriptions, lowest time of %d runs\n\n", runs
        printf "%8s %6s %10s\n", "records", "times", "one, us"
    }
    { printf "%8s %6s %10.2f\n", $1, $2, ($5 - $3) / $2 }'
