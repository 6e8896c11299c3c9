#!/usr/bin/env bash
# Seconds of processor time to read a `write` line of 1,000,000 numbers of 2 to 10 digits and to print the answer to a `read` of them,
# beside Python's `json.loads` and `json.dumps` of the same texts, each the least of five, what a program does once taken off; and the
# bytes of memory for each number at the peak, beyond the text.
set -eu
program=${1:-bin/bench}
times=${2:-10}
folder=$(mktemp -d)
trap 'rm -rf "$folder"' EXIT
python3 - "$folder/line" <<'PY'
import json, random, sys
random.seed(7)
numbers = [min(random.randrange(10 ** (d - 1), 10 ** d), 2 ** 32 - 1) for d in (random.randint(2, 10) for _ in range(1000000))]
open(sys.argv[1], 'w').write(json.dumps({'values': numbers, 'write': 'a'}, separators=(',', ':')) + '\n')
PY
TIMEFORMAT='%U %S'
least() {
    local k
    for k in 1 2 3 4 5; do
        { time "$program" lines "$1" "$2" < "$folder/line" > /dev/null; } 2>&1
    done | awk '{ t = $1 + $2; if (NR == 1 || t < least) least = t } END { print least }'
}
python() {
    python3 - "$folder/line" "$1" <<'PY'
import json, sys, time
text = open(sys.argv[1]).read()
value = json.loads(text)
answer = {'line': 1, 'origin': [0], 'values': value['values']}
def once():
    start = time.process_time()
    if sys.argv[2] == 'read':
        json.loads(text)
    else:
        json.dumps(answer, separators=(',', ':'))
    return time.process_time() - start
print(min(once() for _ in range(15)))
PY
}
peak() {
    python3 - "$program" "$1" "$2" "$folder/line" <<'PY'
import os, resource, subprocess, sys
subprocess.run([sys.argv[1], "lines", *sys.argv[2:4]], stdin=open(sys.argv[4]), stdout=subprocess.DEVNULL, check=True)
print(resource.getrusage(resource.RUSAGE_CHILDREN).ru_maxrss)
PY
}
for act in read print; do
    awk -v act="$act" -v n="$times" -v a="$(least "$act" 0)" -v b="$(least "$act" "$times")" -v p="$(python "$act")" 'BEGIN {
        t = (b - a) / n
        printf "%5s: %.4f s, Python %.4f s, %.2f times as fast\n", act, t, p, p / t
    }'
done
awk -v a="$(peak read 0)" -v b="$(peak read 1)" 'BEGIN { printf " read: %.1f bytes of memory for each number beyond the text\n", (b - a) * 1024 / 1000000 }'
