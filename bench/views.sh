#!/usr/bin/env bash
# Cells a second of processor time in which views of 1,000,000 cells are cut at chunk edges. What a program does once is taken off.
set -eu
program=${1:-bin/bench}
seconds() {
    local TIMEFORMAT='%U %S' out
    out=$( { time "$program" views "$1" "$2" > /dev/null; } 2>&1 )
    awk -v both="$out" 'BEGIN { split(both, s, " "); print s[1] + s[2] }'
}
while read -r view times; do
    once=$(seconds "$view" 0)
    all=$(seconds "$view" "$times")
    awk -v view="$view" -v n="$times" -v a="$once" -v b="$all" 'BEGIN {
        printf "%10s: %.4f s a cut, %.0f million cells a second\n", view, (b - a) / n, n / (b - a)
    }'
done << 'END'
contiguous 200
strided 100
indexed 20
oindex 20
vindex 20
random 10
END
