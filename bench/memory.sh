#!/usr/bin/env bash
# Measures the peak memory of `swid mirror full` over streams of 16 MiB, 128 MiB and 1 GiB, whose
# attributes have 1 MiB each, and its time beside that of `sha256sum` over the same octets. It is a
# measurement and no test: it judges no output, and no figure makes it fail. What is aimed at:
# memory that does not grow with the stream.
#
# usage: bench/memory.sh
#
# Each attribute is an inventory that stands in place of the one before, so the mirror stays as
# large. No stream is stored: `bench/streams.py mebibytes` makes it, and a pipe carries it to the
# program and to `sha256sum` in turn. Times are those of the processor, user and system, so that
# waiting for the pipe does not count. The program is built first where that is needed. Needs
# python3, awk, sha256sum and GNU time (/usr/bin/time).
#
# Columns:
#   MiB        the size of the stream
#   peak KiB   the peak memory of `swid`
#   swid s     its seconds
#   sha256sum  those of `sha256sum`
#   ratio      the one over the other
#   status     the status of `swid`
#   mirror     the first line of the mirror that it printed last

set -u

top=$(dirname -- "$(readlink -f -- "${BASH_SOURCE[0]}")")/..
program=$top/crates/swid/out/swid

if [ $# -ne 0 ]; then
    echo "usage: bench/memory.sh" >&2
    exit 2
fi
if [ ! -x /usr/bin/time ]; then
    echo "memory.sh: needs GNU time, /usr/bin/time" >&2
    exit 1
fi
"$top/swid" mirror full </dev/null >/dev/null
if [ $? -eq 70 ]; then
    echo "memory.sh: the program was not built" >&2
    exit 1
fi

folder=$(mktemp -d) || exit 1
trap 'rm -rf -- "$folder"' EXIT

# Runs the words after the first one on a stream of that many MiB, and prints what GNU time says:
# KiB, and seconds of user and of system. Their output and their status are left in the folder.
over() {
    python3 "$top/bench/streams.py" mebibytes "$1" /dev/stdout |
        { /usr/bin/time -q -f '%M %U %S' -o "$folder/time" "${@:2}" >"$folder/output"; echo $? >"$folder/status"; }
    cat -- "$folder/time"
}

{
    for mebibytes in 16 128 1024; do
        ours=$(over "$mebibytes" "$program" mirror full)
        status=$(<"$folder/status")
        answer=$(grep '^mirror' "$folder/output" | tail -n 1)
        echo "$mebibytes $ours $(over "$mebibytes" sha256sum) $status $answer"
    done
} | awk '
    BEGIN { printf "%6s %9s %8s %10s %6s %6s  %s\n", "MiB", "peak KiB", "swid s", "sha256sum", "ratio", "status", "mirror" }
    {
        ours = $3 + $4
        theirs = $6 + $7
        ratio = "-"
        if (theirs > 0) ratio = sprintf("%.2f", ours / theirs)
        printf "%6s %9s %8.2f %10.2f %6s %6s  %s %s %s %s\n", $1, $2, ours, theirs, ratio, $8, $9, $10, $11, $12
    }'
