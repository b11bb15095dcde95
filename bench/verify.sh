#!/usr/bin/env bash
# Measures `swid tag verify` beside `sha256sum`, which reads the same files and computes a digest of
# each. It is a measurement and no test: it judges no output, and no time makes it fail. The goal is
# a ratio of at most 1.3 in each row.
#
# usage: bench/verify.sh [RUNS]     each of the two runs RUNS times on each folder, in turns,
#                                   3 if not given
#
# The program is built first where that is needed, and building is not measured. The times are those
# of the program alone, without the start script and with its output thrown away.
# `bench/verify_files.py` writes the files, 1 GiB in each row, and the tag of them into a temporary
# folder, which is removed at the end. They were just written, so they are read from memory. Needs
# python3, awk, sha256sum and GNU time (/usr/bin/time).
#
# Columns:
#   files, octets  how many files, of which size
#   swid ms        the processor time of `swid`, user and system, the lowest of all runs
#   sha256sum ms   that of `sha256sum`
#   ratio          the one over the other
#   clock ratio    the same of the time by the clock
#   peak KiB       the peak memory of `swid`
#   status         its status, which is 0
#   same           how many files are the same, which is all of them

set -u -o pipefail

top=$(dirname -- "$(readlink -f -- "${BASH_SOURCE[0]}")")/..
program=$(readlink -f -- "$top")/crates/swid/out/swid
runs=${1:-3}

if [[ ! $runs =~ ^[1-9][0-9]*$ ]] || [ $# -gt 1 ]; then
    echo "usage: bench/verify.sh [RUNS]" >&2
    exit 2
fi
if [ ! -x /usr/bin/time ]; then
    echo "verify.sh: needs GNU time, /usr/bin/time" >&2
    exit 1
fi
"$top/swid" mirror ids </dev/null >/dev/null
if [ $? -eq 70 ]; then
    echo "verify.sh: the program was not built" >&2
    exit 1
fi

folder=$(mktemp -d) || exit 1
trap 'rm -rf -- "$folder"' EXIT

# The microseconds that a command takes in the folder of the files on the tag: of the processors,
# and by the clock.
microseconds() {
    (cd -- "$folder/files" && python3 - "$folder/tag" "$@") <<'END'
import os, subprocess, sys, time

with open(sys.argv[1], "rb") as octets:
    start = time.monotonic()
    process = subprocess.Popen(sys.argv[2:], stdin=octets, stdout=subprocess.DEVNULL)
    _, process.returncode, usage = os.wait4(process.pid, 0)
    took = time.monotonic() - start
print(round((usage.ru_utime + usage.ru_stime) * 1_000_000), round(took * 1_000_000))
END
}

# The lower of two numbers, of which the first may not be there yet.
lower() {
    if [ -z "$1" ] || [ "$2" -lt "$1" ]; then echo "$2"; else echo "$1"; fi
}

# Writes the files, measures, and prints a line: how many, their size, processor time of both, time
# by the clock of both, KiB, status, how many are the same.
measure() {
    local count=$1 size=$2 ours='' theirs='' ours_clock='' theirs_clock='' used clock status
    rm -rf -- "$folder/files"
    python3 "$top/bench/verify_files.py" "$count" "$size" "$folder/files" "$folder/tag" || exit 1
    for ((run = 0; run < runs; run++)); do
        read -r used clock < <(microseconds "$program" tag verify)
        ours=$(lower "$ours" "$used") ours_clock=$(lower "$ours_clock" "$clock")
        read -r used clock < <(microseconds find . -type f -exec sha256sum {} +)
        theirs=$(lower "$theirs" "$used") theirs_clock=$(lower "$theirs_clock" "$clock")
    done
    (cd -- "$folder/files" && /usr/bin/time -q -f %M -o "$folder/kib" "$program" tag verify <"$folder/tag" >"$folder/output")
    status=$?
    printf '%s\t%s\t%s\t%s\t%s\t%s\t%s\t%s\t%s\n' "$count" "$size" "$ours" "$theirs" "$ours_clock" "$theirs_clock" \
        "$(<"$folder/kib")" "$status" "$(grep -c '^file same ' "$folder/output")"
}

all() {
    measure 16 67108864
    measure 1024 1048576
    measure 16384 65536
}

all | awk -F '\t' -v runs="$runs" '
    function row(files, octets, ours, theirs, ratio, clock, kib, status, same) {
        printf "%6s %9s %9s %9s %6s %7s %9s %6s %6s\n", files, octets, ours, theirs, ratio, clock, kib, status, same
    }
    BEGIN {
        printf "swid tag verify and sha256sum, lowest times of %d runs each\n\n", runs
        row("", "", "swid", "sha256sum", "", "clock", "peak", "", "")
        row("files", "octets", "ms", "ms", "ratio", "ratio", "KiB", "status", "same")
    }
    {
        row($1, $2, sprintf("%.1f", $3 / 1000), sprintf("%.1f", $4 / 1000), sprintf("%.2f", $3 / $4), sprintf("%.2f", $5 / $6),
            $7, $8, $9)
    }'
