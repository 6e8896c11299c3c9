#!/usr/bin/env bash
# Seconds of processor time for 10,000 commits of one cell behind a history of 100 and of 100,000 events, and how many times as long they
# take behind the longer one. Runs without these commits and with them take turns, and the least of nine of either counts: the difference
# is what the commits take.
set -eu
exec python3 - "${1:-bin/bench}" "${2:-10000}" "${3:-9}" <<'PY'
import os, subprocess, sys

program, commits, runs = sys.argv[1], sys.argv[2], int(sys.argv[3])


def once(before, count):
    child = subprocess.Popen([program, "commits", before, count], stdout=subprocess.DEVNULL)
    _, status, used = os.wait4(child.pid, 0)
    child.returncode = os.waitstatus_to_exitcode(status)
    if child.returncode:
        sys.exit(f"{program} commits {before} {count}: status {child.returncode}")
    return used.ru_utime + used.ru_stime


def took(before):
    pairs = [(once(before, "0"), once(before, commits)) for _ in range(runs)]
    return min(b for _, b in pairs) - min(a for a, _ in pairs)


short, long = took("100"), took("100000")
print(f"{commits} commits of one cell: {short:.4f} s behind 100 events, {long:.4f} s behind 100,000, {long / short:.3f} times as long")
if not 0.9 <= long / short <= 1.1:
    print("falls short: not the same time within a tenth")
PY
