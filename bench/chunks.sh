#!/usr/bin/env bash
# Milliseconds of processor time to decode and to encode a chunk of 1,000,000 int32 cells in each format, beside a plain copy of its
# bytes. What a program does once is taken off; each time is the least of three.
set -eu
program=${1:-bin/bench}
times=${2:-40}
TIMEFORMAT='%U %S'
least() {
    local k
    for k in 1 2 3; do
        { time "$program" chunks "$1" "$2" "$3" > /dev/null; } 2>&1
    done | awk '{ t = $1 + $2; if (NR == 1 || t < least) least = t } END { print least }'
}
each() {
    awk -v n="$times" -v a="$(least "$1" "$2" 0)" -v b="$(least "$1" "$2" "$times")" 'BEGIN { printf "%.1f", (b - a) / n * 1000 }'
}
for format in zarr_little zarr_big zarr_f zarr_f_ones n5 zarr3; do
    printf '%12s: decode %5s ms, encode %5s ms, copy %5s ms\n' "$format" "$(each "$format" decode)" "$(each "$format" encode)" "$(each "$format" copy)"
done
