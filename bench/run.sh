#!/usr/bin/env bash
# Seconds to write and read back one array of 10,000, 100,000 and 1,000,000 cells in chunks of 1,000, and their growth.
set -eu
program=${1:-bin/tensor_run}
folder=$(mktemp -d)
trap 'rm -rf "$folder"' EXIT
before=
for cells in 10000 100000 1000000; do
    awk -v n="$cells" 'BEGIN {
        printf "{\"open\":\"a\",\"spec\":{\"driver\":\"zarr\",\"kvstore\":{\"driver\":\"memory\",\"path\":\"x\"},"
        printf "\"metadata\":{\"chunks\":[1000],\"dtype\":\"<i4\",\"shape\":[%d]},\"create\":true}}\n", n
        printf "{\"write\":\"a\",\"values\":[1"
        for (i = 2; i <= n; i++) printf ",%d", i
        printf "]}\n{\"read\":\"a\"}\n"
    }' > "$folder/script.jsonl"
    start=$(date +%s.%N)
    "$program" "$folder/script.jsonl" > "$folder/answers"
    end=$(date +%s.%N)
    [ "$(wc -l < "$folder/answers")" = 3 ]
    awk -v n="$cells" -v a="$start" -v b="$end" -v before="$before" 'BEGIN {
        growth = before == "" ? "" : sprintf(", %.1f times as long", (b - a) / before)
        printf "%9d cells: %.3f s%s\n", n, b - a, growth
    }'
    before=$(awk -v a="$start" -v b="$end" 'BEGIN { print b - a }')
done
