#!/usr/bin/env bash
# The host in C beside `tsreport` of Debian's tstools, over one file of two million packets as common multiplexers
# write it: host/tsreport.sh [ROUNDS]. The two run in turn, and the time is that of the processor, in the program and
# in the system. One line says the median of each, the ratio of the medians (below 1 the host is faster), and the
# least and the greatest ratio of a round.
set -uo pipefail
cd "$(dirname "$0")/.." || exit 1
export LC_ALL=C
rounds=${1:-9}
if [ $# -gt 1 ] || [[ ! $rounds =~ ^[1-9][0-9]{0,3}$ ]]; then
    echo "usage: host/tsreport.sh [ROUNDS]" >&2
    exit 2
fi
packets=2000000
library=target/staticlib/libsongpigeon.a
benchmark=target/host/release/benchmark
for built in "$library" "$benchmark"; do
    if [ ! -f "$built" ]; then
        echo "$built is not there: bash tests/host.sh builds it" >&2
        exit 1
    fi
done
bash host/tools.sh gcc tsreport
for tool in gcc tsreport; do
    if ! command -v "$tool" > /dev/null; then
        echo "$tool is not there and cannot be installed: no figure"
        exit 0
    fi
done

work=$(mktemp -d)
trap 'rm -rf "$work"' EXIT
"$benchmark" --write "$work/stream.ts" --packets "$packets" || exit 1
gcc -O2 -o "$work/example" host/example.c "$library" || exit 1

by_host() { "$work/example" < "$work/stream.ts"; }
by_tsreport() { tsreport "$work/stream.ts"; }

TIMEFORMAT='%3U %3S'
spent() { # COMMAND: adds its processor time, in milliseconds, to the file of its name
    if ! { time "$1" > /dev/null 2> "$work/err"; } 2> "$work/time"; then
        echo "$1 failed: $(tail -n 1 "$work/err")" >&2
        exit 1
    fi
    awk '{ printf "%.0f\n", ($1 + $2) * 1000 }' "$work/time" >> "$work/$1"
}

for ((k = 0; k < rounds; k++)); do
    spent by_host
    spent by_tsreport
done

median() { sort -n "$1" | awk '{ t[NR] = $1 } END { print (t[int((NR + 1) / 2)] + t[int((NR + 2) / 2)]) / 2 }'; }
paste "$work/by_host" "$work/by_tsreport" | awk -v rounds="$rounds" -v packets="$packets" \
    -v host="$(median "$work/by_host")" -v other="$(median "$work/by_tsreport")" '
    NR == 1 || $1 / $2 < least { least = $1 / $2 }
    NR == 1 || $1 / $2 > greatest { greatest = $1 / $2 }
    END {
        printf "%d packets, %d rounds: example.c %.0f ms, tsreport %.0f ms, ratio %.2f (%.2f to %.2f)\n", \
            packets, rounds, host, other, host / other, least, greatest
    }'
