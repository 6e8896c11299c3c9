#!/usr/bin/env bash
# Seconds of processor time of runs of 100,000 lines of one cell each, and of the checks of what they print, each the least of five.
#
# bench/check.sh PROGRAM
set -eu
program=$(readlink -f "${1:-bin/tensor_run}")
folder=$(mktemp -d)
trap 'rm -rf "$folder"' EXIT
cd "$folder"
python3 - <<'PY'
import json

METADATA = {"chunks": [100], "dtype": "<i4", "shape": [1000]}
OPEN = {"open": "a", "spec": {"driver": "zarr", "kvstore": {"driver": "memory", "path": "a"}, "metadata": METADATA, "create": True}}


def write(i):
    return {"write": "a", "steps": [{"at": i % 1000}], "values": i % 30000}


def read(i):
    return {"read": "a", "steps": [{"at": 7 * i % 1000}]}


def transaction(i):
    return {"begin": {"repeatable_read": True}}, read(i), write(i), {"commit": True}


LINES = {
    "writes": [write(i) for i in range(99999)],
    "reads": [write(0), *(read(i) for i in range(99998))],
    "writes and reads": [line for i in range(50000) for line in (write(i), read(i))][:-1],
    "transactions": [line for i in range(25000) for line in transaction(i)][:-1],
}
with open("names", "w") as names:
    for place, (name, lines) in enumerate(LINES.items()):
        names.write(f"{place} {name}\n")
        with open(f"{place}.jsonl", "w") as script:
            script.writelines(json.dumps(line) + "\n" for line in [OPEN, *lines])
PY
TIMEFORMAT='%U %S'
least() {
    local k
    for k in 1 2 3 4 5; do
        { time "$program" "$@" > last; } 2>&1
    done | awk '{ t = $1 + $2; if (NR == 1 || t < least) least = t } END { printf "%.2f", least }'
}
while read -r place name; do
    run=$(least "$place.jsonl")
    mv last answers
    check=$(least check answers "$place.jsonl")
    grep -q '"legal":true' last || { echo "$name: $(cat last)"; exit 1; }
    awk -v name="$name" -v run="$run" -v check="$check" 'BEGIN { printf "%s: run %s, check %s, %.1f times as long\n", name, run, check, check / run }'
done < names
