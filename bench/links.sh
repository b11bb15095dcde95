#!/usr/bin/env bash
# Measures the findings on a list of tags. It is a measurement and no test: it judges no output, and
# no time makes it fail.
#
# usage: bench/links.sh [RUNS]     each row is run RUNS times, 3 if not given
#
# The programs crates/bench and crates/swid are built first where that is needed, which proves them,
# and building is not measured. `bench/link_tags.py` and `bench/cbor_items.py` write the inputs into
# a temporary folder, which is removed at the end; they say what the shapes are. Needs python3, awk
# and GNU time (/usr/bin/time).
#
# The first table has 1,000, 3,000 and 10,000 tags of each shape. In `apart` each pair of tags is a
# finding, 50 million of them at last, which alone take 1.2 GB.
#
# Columns:
#   shape     the shape
#   tags      how many tags
#   findings  how many findings
#   read ms   the time of the processor, user and system, to read the tags, the lowest of all runs
#   all ms    the same to read and check them
#   us a tag  the microseconds of checking for each tag
#   growth    the same over those of 1,000 tags; it grows as the logarithm where the time grows as n
#             log n, and in `apart` with the findings
#   KiB       the peak memory, the highest of all runs
#
# Checking is what is left of the second time without the first. Where that is nothing for 1,000
# tags, `-` stands as growth.
#
# The second table has 64 MiB of tags, eight times one of 8 MiB, the most that is read of one. Its
# shapes take much memory for each octet. `swid links` reads them once.
#
# Columns:
#   shape     the shape
#   octets    the size of the input
#   KiB       the peak memory
#   an octet  the octets of that memory for each octet of input
#   status    the status of `swid links`: 4 where memory ran out

set -u -o pipefail

top=$(dirname -- "$(readlink -f -- "${BASH_SOURCE[0]}")")/..
crate=$top/crates/bench
program=$crate/out/bench
runs=${1:-3}

if [[ ! $runs =~ ^[1-9][0-9]*$ ]] || [ $# -gt 1 ]; then
    echo "usage: bench/links.sh [RUNS]" >&2
    exit 2
fi
if [ ! -x /usr/bin/time ]; then
    echo "links.sh: needs GNU time, /usr/bin/time" >&2
    exit 1
fi
(cd -- "$crate" && rt run -- links check) </dev/null >&2
if [ ! -x "$program" ]; then
    echo "links.sh: the program was not built" >&2
    exit 1
fi

"$top/swid" links </dev/null >/dev/null
swid=$top/crates/swid/out/swid
if [ ! -x "$swid" ]; then
    echo "links.sh: swid was not built" >&2
    exit 1
fi

folder=$(mktemp -d) || exit 1
trap 'rm -rf -- "$folder"' EXIT
input=$folder/input

# Runs a command on the input, and prints its microseconds of the processor and its KiB. Its output
# goes into a file.
once() {
    python3 - "$input" "$folder/output" /usr/bin/time -q -f %M -o "$folder/kib" "$@" <<'END'
import os, subprocess, sys

with open(sys.argv[1], "rb") as octets, open(sys.argv[2], "wb") as output:
    process = subprocess.Popen(sys.argv[3:], stdin=octets, stdout=output)
    _, process.returncode, usage = os.wait4(process.pid, 0)
print(round((usage.ru_utime + usage.ru_stime) * 1_000_000), end=" ")
END
    cat -- "$folder/kib"
}

# Runs a command as often as is asked for, and prints its lowest microseconds, its highest KiB, and
# the last line that it printed.
run() {
    local best='' peak=0 took used
    for ((turn = 0; turn < runs; turn++)); do
        read -r took used < <(once "$@")
        if [ -z "$best" ] || [ "$took" -lt "$best" ]; then best=$took; fi
        if [ "$used" -gt "$peak" ]; then peak=$used; fi
    done
    printf '%s\t%s\t%s\n' "$best" "$peak" "$(tail -n 1 "$folder/output")"
}

for shape in linked dangling fronts alike last turns apart; do
    for count in 1000 3000 10000; do
        python3 "$top/bench/link_tags.py" "$shape" "$count" "$input" || exit 1
        printf '%s\t%s\t%s\t%s\n' "$shape" "$count" "$(run "$program" links read)" "$(run "$program" links check)"
    done
done | awk -F '\t' -v runs="$runs" '
    BEGIN {
        printf "lowest time and highest memory of %d runs\n\n", runs
        printf "%-8s %6s %9s %9s %9s %9s %7s %9s\n", "shape", "tags", "findings", "read ms", "all ms", "us a tag", "growth", "KiB"
    }
    {
        each = ($6 - $3) / $2
        if ($2 == 1000) base = each
        printf "%-8s %6s %9s %9.1f %9.1f %9.2f %7s %9s%s\n", $1, $2, $8, $3 / 1000, $6 / 1000, each,
            (base > 0 ? sprintf("%.2f", each / base) : "-"), $7, ($5 == $2 ? "" : "  not read: " $5) ($8 == "" ? "  not checked" : "")
    }'

printf '\n%-16s %9s %9s %9s %7s\n' shape octets KiB 'an octet' status
for shape in tag-breaks tag-deep tag-directories tag-extras; do
    python3 "$top/bench/cbor_items.py" "$shape" 8 "$folder/tag" || exit 1
    for ((copy = 0; copy < 8; copy++)); do cat -- "$folder/tag"; done >"$input"
    /usr/bin/time -q -f %M -o "$folder/kib" "$swid" links <"$input" >"$folder/output"
    status=$?
    octets=$(stat -c %s -- "$input")
    kib=$(<"$folder/kib")
    printf '%-16s %9s %9s %9.1f %7s\n' "$shape" "$octets" "$kib" "$(awk "BEGIN { print $kib * 1024 / $octets }")" "$status"
done
