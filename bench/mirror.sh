#!/usr/bin/env bash
# Measures `swid mirror ids` and `swid mirror full` beside `sha256sum`, which reads the same octets
# and computes one digest of all of them. It is a measurement and no test: it judges no output, and
# no time makes it fail. The goal is a ratio of at most 1.5 in the last row of the kind full, of
# 65,536 records with bodies of 1 KiB.
#
# usage: bench/mirror.sh [RUNS]     each of the two runs RUNS times on each input, in turns,
#                                   5 if not given; 8 times as often on an input below 8,000,000
#                                   octets, since the time of a few milliseconds spreads more
#
# The program is built first where that is needed, and building is not measured. The times are those
# of the program alone, without the start script and with its output thrown away. What its process
# took of the processors counts, so that other work on the machine counts for less.
# `bench/streams.py` writes the inputs into a temporary folder, which is removed at the end; the
# largest has 77 MB. Needs python3, awk, sha256sum and GNU time (/usr/bin/time).
#
# Rows:
#   ids N, full N  N records, and a sixteenth as many events over them
#   empty          an inventory without records
#   ids 65537      one record too many
#   smallest       an attribute of nearly 16 MiB with as many records as one can hold
#   churn          441,504 events over 65,536 records, all in one report
#   single         64 events over 65,536 records, each in a report of its own
#
# Columns:
#   input            the input
#   octets           its octets
#   swid ms          the processor time of `swid`, user and system, the lowest of all runs
#   sha256sum ms     that of `sha256sum`
#   ratio            the one over the other
#   ns an octet      the time of `swid` for each octet of input, which stays where the time grows as
#                    the input
#   peak KiB         its peak memory
#   memory an octet  the octets of that memory for each octet of input
#   status           its status
#   last answer      its answer to the last report

set -u

top=$(dirname -- "$(readlink -f -- "${BASH_SOURCE[0]}")")/..
program=$top/crates/swid/out/swid
runs=${1:-5}

if [[ ! $runs =~ ^[1-9][0-9]*$ ]] || [ $# -gt 1 ]; then
    echo "usage: bench/mirror.sh [RUNS]" >&2
    exit 2
fi
if [ ! -x /usr/bin/time ]; then
    echo "mirror.sh: needs GNU time, /usr/bin/time" >&2
    exit 1
fi
"$top/swid" mirror ids </dev/null >/dev/null
if [ $? -eq 70 ]; then
    echo "mirror.sh: the program was not built" >&2
    exit 1
fi

folder=$(mktemp -d) || exit 1
trap 'rm -rf -- "$folder"' EXIT
input=$folder/input
output=$folder/output

# The microseconds of processor time, user and system, that a command takes on the input.
microseconds() {
    python3 - "$input" "$@" <<'END'
import os, subprocess, sys

with open(sys.argv[1], "rb") as octets:
    process = subprocess.Popen(sys.argv[2:], stdin=octets, stdout=subprocess.DEVNULL)
    _, process.returncode, usage = os.wait4(process.pid, 0)
print(round((usage.ru_utime + usage.ru_stime) * 1_000_000))
END
}

# Writes the stream of the words after the kind, measures, and prints a line: name, octets,
# microseconds of both, KiB, status, last answer.
measure() {
    local name=$1 kind=$2 ours='' theirs='' took turns status
    python3 "$top/bench/streams.py" "${@:3}" "$input" || exit 1
    turns=$runs
    if [ "$(stat -c %s -- "$input")" -lt 8000000 ]; then turns=$((8 * runs)); fi
    for ((run = 0; run < turns; run++)); do
        took=$(microseconds "$program" mirror "$kind")
        if [ -z "$ours" ] || [ "$took" -lt "$ours" ]; then ours=$took; fi
        took=$(microseconds sha256sum)
        if [ -z "$theirs" ] || [ "$took" -lt "$theirs" ]; then theirs=$took; fi
    done
    /usr/bin/time -q -f %M -o "$folder/kib" "$program" mirror "$kind" <"$input" >"$output"
    status=$?
    printf '%s\t%s\t%s\t%s\t%s\t%s\t%s\n' "$name" "$(stat -c %s -- "$input")" "$ours" "$theirs" \
        "$(<"$folder/kib")" "$status" "$(grep '^took' "$output" | tail -n 1)"
}

all() {
    measure empty ids ids 0 0
    for kind in ids full; do
        for count in 1024 4096 16384 65536; do measure "$kind $count" "$kind" "$kind" "$count" $((count / 16)); done
    done
    measure 'ids 65537' ids ids 65537 0
    measure smallest ids smallest
    measure churn ids churn
    measure single ids single 64
}

all | awk -F '\t' -v runs="$runs" '
    function row(name, octets, ours, theirs, ratio, time, kib, memory, status, answer) {
        printf "%-10s %9s %9s %9s %6s %9s %9s %9s %6s  %s\n",
            name, octets, ours, theirs, ratio, time, kib, memory, status, answer
    }
    function an_octet(form, amount) { return $2 < 1000 ? "-" : sprintf(form, amount / $2) }
    BEGIN {
        printf "swid mirror and sha256sum, lowest processor time of %d runs each\n\n", runs
        row("", "", "swid", "sha256sum", "", "ns", "peak", "memory", "", "")
        row("input", "octets", "ms", "ms", "ratio", "an octet", "KiB", "an octet", "status", "last answer")
    }
    {
        row($1, $2, sprintf("%.1f", $3 / 1000), sprintf("%.1f", $4 / 1000), sprintf("%.2f", $3 / $4),
            an_octet("%.1f", $3 * 1000), $5, an_octet("%.2f", $5 * 1024), $6, $7)
    }'
