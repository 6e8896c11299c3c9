#!/usr/bin/env bash
# What a chunk of one cell costs to write and read back in a store in memory, among 10,000 and among 100,000 of them: microseconds of
# processor time, the least of five, and instructions where the machine counts them (valgrind). The growth of either is told.
set -eu
program=${1:-bin/tensor_run}
folder=$(mktemp -d)
trap 'rm -rf "$folder"' EXIT
TIMEFORMAT='%U %S'
script() {
    awk -v n="$1" 'BEGIN {
        printf "{\"open\":\"a\",\"spec\":{\"driver\":\"zarr\",\"kvstore\":{\"driver\":\"memory\",\"path\":\"x\"},"
        printf "\"metadata\":{\"chunks\":[1],\"dtype\":\"<i4\",\"shape\":[%d]},\"create\":true}}\n", n
        printf "{\"write\":\"a\",\"values\":[1"
        for (i = 2; i <= n; i++) printf ",%d", i
        printf "]}\n{\"read\":\"a\"}\n"
    }' > "$folder/$1.jsonl"
}
# runs of a script, one after another, so that each measure is of 100,000 chunks
runs() {
    local k
    for ((k = 0; k < $2; k++)); do
        "$program" "$folder/$1.jsonl" > "$folder/answers"
    done
    [ "$(wc -l < "$folder/answers")" = 3 ]
}
least() {
    local k
    for k in 1 2 3 4 5; do
        { time runs "$1" "$2"; } 2>&1
    done | awk '{ t = $1 + $2; if (NR == 1 || t < least) least = t } END { print least * 10 }'
}
counted() {
    valgrind --tool=none true 2> "$folder/log" || return 1
    valgrind --tool=callgrind --callgrind-out-file="$folder/calls" "$program" "$folder/$1.jsonl" 2> "$folder/log" > "$folder/answers"
    awk -v n="$1" '/Collected/ { print $NF / n }' "$folder/log"
}
tell() {
    awk -v unit="$1" -v a="$2" -v b="$3" 'BEGIN { printf "one-cell chunks: %.1f %s each among 10,000, %.1f among 100,000, %.3f times as much\n", a, unit, b, b / a }'
}
script 10000
script 100000
tell microseconds "$(least 10000 10)" "$(least 100000 1)"
if few=$(counted 10000); then
    tell instructions "$few" "$(counted 100000)"
fi
