#!/usr/bin/env bash
# Measures the reader and the writer of CoSWID tags. It is a measurement and no test: it judges no
# output, and no time makes it fail.
#
# usage: bench/tags.sh [RUNS]     each row is run RUNS times, 3 if not given
#
# The program crates/bench is built first where that is needed, which proves it, and building is not
# measured. `bench/cbor_items.py` writes the inputs into a temporary folder, which is removed at the
# end; it says what the shapes are. Needs python3, awk, sha256sum and GNU time (/usr/bin/time).
#
# The first table has one tag of 1, 4 and 8 MiB of each shape, which is read (`read`), and written
# again too (`write`). 8 MiB is the most that is read of one. The input is held whole, and is in the
# figures.
#
# Columns:
#   shape     the shape
#   MiB       the size of the input
#   way       what was done
#   ms        the time of the processor, user and system, the lowest of all runs
#   ns/octet  that time for each octet
#   growth    the same over that of 1 MiB, which grows as the logarithm where the time grows as n
#             log n
#   KiB       the peak memory, the highest of all runs
#   an octet  the octets of that memory for each octet of input
#
# The second table has 50 MB of tags, which are read one after another (`read`), and written again
# too (`write`), beside `sha256sum` of the same octets, in the same time. The three are run in
# turns.

set -u

top=$(dirname -- "$(readlink -f -- "${BASH_SOURCE[0]}")")/..
crate=$top/crates/bench
program=$crate/out/bench
runs=${1:-3}

if [[ ! $runs =~ ^[1-9][0-9]*$ ]] || [ $# -gt 1 ]; then
    echo "usage: bench/tags.sh [RUNS]" >&2
    exit 2
fi
if [ ! -x /usr/bin/time ]; then
    echo "tags.sh: needs GNU time, /usr/bin/time" >&2
    exit 1
fi
(cd -- "$crate" && rt run -- tags read) </dev/null >&2
if [ ! -x "$program" ]; then
    echo "tags.sh: the program was not built" >&2
    exit 1
fi

folder=$(mktemp -d) || exit 1
trap 'rm -rf -- "$folder"' EXIT
input=$folder/input

# Runs a command on the input, and prints its microseconds, its KiB, and the last line that it
# printed.
once() {
    local TIMEFORMAT='%3U %3S' took user system
    took=$({ time /usr/bin/time -q -f %M -o "$folder/kib" "$@" <"$input" >"$folder/output" 2>"$folder/errors"; } 2>&1)
    read -r user system <<<"${took//[.,]/}"
    printf '%s\t%s\t%s\n' "$(((10#$user + 10#$system) * 1000))" "$(<"$folder/kib")" "$(tail -n 1 "$folder/output")"
}

# The lowest time and the highest memory of lines that `once` printed.
summary() {
    awk -F '\t' 'NR == 1 || $1 < best { best = $1 } $2 > peak { peak = $2 } END { printf "%d\t%d\t%s\n", best, peak, $3 }'
}

# Runs a command on the input as often as is asked for, and prints the summary.
run() {
    for ((turn = 0; turn < runs; turn++)); do once "$@"; done | summary
}

# Prints a line for each way to take one tag of a shape: shape, MiB, octets, way, microseconds, KiB,
# what it printed.
one_tag() {
    local shape=$1 size way
    for size in 1 4 8; do
        python3 "$top/bench/cbor_items.py" "tag-$shape" "$size" "$input" || exit 1
        for way in read write; do
            printf '%s\t%s\t%s\t%s\t%s\n' "$shape" "$size" "$(stat -c %s -- "$input")" "$way" "$(run "$program" tags "$way")"
        done
    done
}

for shape in extras files directories deep breaks; do one_tag "$shape"; done | awk -F '\t' -v runs="$runs" '
    BEGIN {
        printf "one tag, lowest time and highest memory of %d runs\n\n", runs
        printf "%-11s %4s %-6s %9s %9s %8s %9s %9s\n", "shape", "MiB", "way", "ms", "ns/octet", "growth", "KiB", "an octet"
    }
    $2 == 1 { base[$1, $4] = $5 / $3 }
    {
        printf "%-11s %4s %-6s %9.1f %9.1f %8.2f %9s %9.1f%s\n", $1, $2, $4, $5 / 1000, $5 * 1000 / $3,
            $5 / $3 / base[$1, $4], $6, $6 * 1024 / $3, ($7 == "" ? "  nothing printed" : "")
    }'

python3 "$top/bench/cbor_items.py" links 48 "$input" || exit 1
{
    for ((turn = 0; turn < runs; turn++)); do
        once sha256sum >>"$folder/sha256sum"
        for way in read write; do once "$program" tags "$way" >>"$folder/$way"; done
    done
    for way in sha256sum read write; do printf '%s\t%s\n' "$way" "$(summary <"$folder/$way")"; done
} | awk -F '\t' -v octets="$(stat -c %s -- "$input")" '
    BEGIN {
        printf "\n%d octets of tags\n\n%-10s %9s %9s %6s %9s\n", octets, "", "ms", "ns/octet", "ratio", "KiB"
    }
    $1 == "sha256sum" { theirs = $2 }
    { printf "%-10s %9.1f %9.1f %6.2f %9s\n", $1, $2 / 1000, $2 * 1000 / octets, $2 / theirs, $3 }'
