#!/usr/bin/env python3
"""Runs the merge gate and tells what it cost, crate by crate.

tools/costs.py

Runs `rt ci` at the top of the repository, whose output it hands on and with whose status it ends. Meanwhile it looks twice a second at the
checks that it runs (each is a process that names its crate) and adds up their processor time by crate: the proof, the proof of the tests, the
must-fail edits. Then it writes docs/costs.md, a line a crate in the order of crates.txt; a crate whose proof was kept from an earlier run has
`kept` there, and the page says how much was done in this run.
"""
import os
import re
import subprocess
import sys
import threading
import time

TICKS = os.sysconf("SC_CLK_TCK")
KINDS = ("proof", "tests", "edits")


def read_stat(number):
    """The fields of a process's stat behind its name, the parent's number second; none where it has ended."""
    try:
        with open(f"/proc/{number}/stat") as file:
            return file.read().rsplit(")", 1)[1].split()
    except (OSError, IndexError):
        return None


def is_below(number, top):
    """Whether a process was begun by another one, or by one that it began."""
    while number not in ("0", "1", top):
        fields = read_stat(number)
        if fields is None:
            return False
        number = fields[1]
    return number == top


def read_process(number, top):
    """The crate, the kind of check and the processor seconds of a process, where it is a check that another process began."""
    try:
        with open(f"/proc/{number}/cmdline", "rb") as file:
            words = file.read().decode(errors="replace").split("\0")
        if not words[0].endswith("/rattle") or "--crate-name" not in words:
            return None
        folder = os.readlink(f"/proc/{number}/cwd")
    except OSError:
        return None
    fields = read_stat(number)
    if fields is None or not is_below(number, top):
        return None
    crate = words[words.index("--crate-name") + 1]
    kind = "edits" if "/rt-edit-" in folder or "seed" in folder else "tests" if "--test" in words else "proof"
    return crate, kind, (int(fields[11]) + int(fields[12])) / TICKS


class Watch(threading.Thread):
    """The processor seconds of all checks of a gate that were seen, by crate and kind."""

    def __init__(self, gate):
        super().__init__(daemon=True)
        self.gate, self.seen, self.ended = str(gate), {}, threading.Event()

    def run(self):
        while not self.ended.wait(0.5):
            for number in filter(str.isdigit, os.listdir("/proc")):
                found = read_process(number, self.gate)
                if found:
                    crate, kind, seconds = found
                    self.seen[number, crate, kind] = seconds

    def sums(self):
        sums = {}
        for (_, crate, kind), seconds in self.seen.items():
            sums.setdefault(crate, dict.fromkeys(KINDS, 0.0))[kind] += seconds
        return sums


def page(names, sums, kept, minutes, verdict):
    """The page, a line a crate."""
    share = "from nothing" if not kept else f"in which {len(kept)} of the {len(names)} crates were kept from earlier runs"
    total = {kind: sum(it[kind] for it in sums.values()) / 60 for kind in KINDS}
    lines = [
        "# What the gate costs",
        "",
        "Written by `tools/costs.py`: seconds of the processor for each crate's proof, the proof of its tests, and its must-fail edits, in one",
        f"`rt ci` {share}, on {os.cpu_count()} processors. It took {minutes:.0f} minutes by the clock",
        f"and {sum(total.values()):.0f} of the processor: proofs {total['proof']:.0f}, tests {total['tests']:.0f}, edits {total['edits']:.0f}. Its last line: `{verdict}`.",
        "",
        "| crate | proof | tests | edits |",
        "|---|---|---|---|",
    ]
    for name in names:
        costs = sums.get(name, dict.fromkeys(KINDS, 0.0))
        cells = [f"{costs[kind]:.0f}" if costs[kind] >= 0.5 else "" for kind in KINDS]
        lines.append(f"| `{name}` | {' | '.join([cells[0] or 'kept', *cells[1:]] if name in kept else cells)} |")
    return "\n".join(lines) + "\n"


def main():
    top = os.path.dirname(os.path.dirname(os.path.abspath(__file__)))
    with open(f"{top}/crates.txt") as file:
        heads = [line.split("#")[0].partition(":")[0].split() for line in file]
    names, begun, kept, verdict = [head[0] for head in heads if head], time.monotonic(), set(), ""
    with subprocess.Popen(["rt", "ci"], cwd=top, stdout=subprocess.PIPE, text=True) as tool:
        watch = Watch(tool.pid)
        watch.start()
        for line in tool.stdout:
            sys.stdout.write(line)
            sys.stdout.flush()
            told = re.match(r"rt: (\w+) is kept: an earlier run", line)
            if told:
                kept.add(told[1])
            if re.match(r"\d+ passed, \d+ failed", line):
                verdict = line.strip()
    watch.ended.set()
    watch.join()
    minutes, sums = (time.monotonic() - begun) / 60, watch.sums()
    spent = sum(sum(it.values()) for it in sums.values()) / 60
    print(f"costs: {minutes:.0f} minutes by the clock, {spent:.0f} of the processor", file=sys.stderr)
    with open(f"{top}/docs/costs.md", "w") as file:
        file.write(page(names, sums, kept, minutes, verdict))
    sys.exit(tool.returncode)


if __name__ == "__main__":
    main()
