#!/usr/bin/env bash
# Cells a second of processor time whose targets are made, in stacks of four layers and of 256 over some 1,000,000 cells: the least of
# five. What a program does once is taken off.
set -eu
program=${1:-bin/bench}
times=${2:-40}
TIMEFORMAT='%U %S'
least() {
    local k
    for k in 1 2 3 4 5; do
        { time "$program" stacks "$1" "$2" > /dev/null; } 2>&1
    done | awk '{ t = $1 + $2; if (NR == 1 || t < least) least = t } END { print least }'
}
for view in row square many grid; do
    awk -v view="$view" -v n="$times" -v a="$(least "$view" 0)" -v b="$(least "$view" "$times")" 'BEGIN {
        printf "%8s: %.4f s, %.1f million cells a second\n", view, (b - a) / n, n / (b - a)
    }'
done
