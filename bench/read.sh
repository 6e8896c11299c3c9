#!/usr/bin/env bash
# Bytes of memory at the peak for each cell of a read of 1,000,000 cells in files, in chunks of 100 by 100, beyond the answer's text and a run
# that only opens the array. The chunks that the cache keeps are counted in.
set -eu
program=$(readlink -f "${1:-bin/tensor_run}")
if [ ! -x /usr/bin/time ]; then
    echo "read: no /usr/bin/time here (Debian: apt-get install time), so memory isn't measured"
    exit
fi
folder=$(mktemp -d)
trap 'rm -rf "$folder"' EXIT
python3 - "$folder" <<'PY'
import json, sys

folder = sys.argv[1]
meta = {"chunks": [100, 100], "dtype": "<i4", "fill_value": 0, "shape": [1000, 1000]}


def spec(member):
    return json.dumps({"open": "a", "spec": {"driver": "zarr", "kvstore": {"driver": "file", "path": "a"}, "metadata": meta, member: True}}) + "\n"


rows = [[(i * 7919 + j * 104729) % 1000003 for j in range(1000)] for i in range(1000)]
for name, lines in ("written", [spec("create"), json.dumps({"write": "a", "values": rows})]), ("opened", [spec("open")]), ("read", [spec("open"), '{"read":"a"}']):
    with open(f"{folder}/{name}.jsonl", "w") as script:
        script.writelines(lines)
PY
peak() {
    /usr/bin/time -f %M -o "$folder/peak" "$program" --root "$folder/root" "$folder/$1.jsonl" > "$folder/answers"
    tail -n 1 "$folder/peak"
}
mkdir "$folder/root"
peak written > /dev/null
opened=$(peak opened)
read=$(peak read)
awk -v a="$opened" -v b="$read" -v text="$(stat -c %s "$folder/answers")" 'BEGIN {
    each = ((b - a) * 1024 - text) / 1000000
    printf "%.1f bytes of memory for each cell of a read of 1,000,000, beyond the text\n", each
    if (each > 24) print "falls short: not at most 24"
}'
