#!/usr/bin/env bash
# Measures a feed of batches over 16 MiB. One batch of 16777216 octets comes in pieces of 1, 64 and
# 65536 octets. Then 2097152 batches of 8 octets each come in pieces of 64 and 65536 octets and in
# one piece. It is a measurement and no test: it judges no output, and no time or size makes it
# fail.
#
# usage: bench/batches.sh [RUNS]     each row is run RUNS times, 5 if not given
#
# The program crates/bench is built first where that is needed, which proves it, and building is not
# measured. Needs awk and GNU time (/usr/bin/time).
#
# Columns:
#   batches     one batch, or the many small ones
#   a piece     the octets of a piece
#   came        how many batches came
#   wall ms     the wall time, the lowest of all runs
#   over 65536  the same over that of pieces of 65536 octets of the same batches
#   KiB         the peak memory, the highest of all runs
#   an octet    the octets of that memory for each octet of input
#
# In each row the program makes its input first, which takes 16 MiB and is in the figures.

set -u

top=$(dirname -- "$(readlink -f -- "${BASH_SOURCE[0]}")")/..
crate=$top/crates/bench
program=$crate/out/bench
runs=${1:-5}

if [[ ! $runs =~ ^[1-9][0-9]*$ ]] || [ $# -gt 1 ]; then
    echo "usage: bench/batches.sh [RUNS]" >&2
    exit 2
fi
if [ ! -x /usr/bin/time ]; then
    echo "batches.sh: needs GNU time, /usr/bin/time" >&2
    exit 1
fi
(cd -- "$crate" && rt run -- batches 65536 large) </dev/null >&2
if [ ! -x "$program" ]; then
    echo "batches.sh: the program was not built" >&2
    exit 1
fi

kib=$(mktemp) || exit 1
trap 'rm -f -- "$kib"' EXIT

# Prints a line for pieces of SIZE octets of the batches KIND: kind, size, batches, microseconds,
# KiB.
measure() {
    local kind=$1 size=$2 best='' peak=0 batches='' start stop took used
    for ((run = 0; run < runs; run++)); do
        start=${EPOCHREALTIME/[.,]/}
        batches=$(/usr/bin/time -q -f %M -o "$kib" "$program" batches "$size" "$kind")
        stop=${EPOCHREALTIME/[.,]/}
        took=$((stop - start))
        used=$(<"$kib")
        if [ -z "$best" ] || [ "$took" -lt "$best" ]; then best=$took; fi
        if [ "$used" -gt "$peak" ]; then peak=$used; fi
    done
    printf '%s\t%s\t%s\t%s\t%s\n' "$kind" "$size" "$batches" "$best" "$peak"
}

{
    for size in 65536 64 1; do measure large "$size"; done
    for size in 65536 64 16777216; do measure small "$size"; done
} | awk -F '\t' -v runs="$runs" '
    BEGIN {
        printf "a feed over 16 MiB, lowest time and highest memory of %d runs\n\n", runs
        printf "%-7s %9s %8s %9s %10s %8s %10s\n", "batches", "a piece", "came", "wall ms", "over 65536", "KiB", "an octet"
    }
    $2 == 65536 { base = $4 }
    {
        printf "%-7s %9s %8s %9.1f %10.2f %8s %10.2f\n", $1, $2, $3, $4 / 1000, (base > 0 ? $4 / base : 0), $5, $5 * 1024 / 16777216
    }'
