#!/usr/bin/env python3
"""Proves the crates of one program side by side, and builds it.

tools/build.py PROGRAM

In a folder of its own, outside of this one, stand the crates below the program alone, with their lines of crates.txt and without must-fail
edits, so that a plain `rt ci` there proves them as many at a time as there are processors. What passes is kept by the toolchain on this
machine, so that the gate, and a second call of this one, need not prove it again. Progress goes to standard error, a line a crate, with the
minutes that have passed. The program is copied to `bin/PROGRAM`; the whole output of `rt ci` stands in `build.log`.
"""
import os
import re
import shutil
import subprocess
import sys
import tempfile
import time


def read_lines(path):
    """The lines of crates.txt by crate, each with the names that it lists."""
    lines = {}
    with open(path) as file:
        for line in file:
            text = line.split("#")[0].strip()
            if text:
                head, _, names = text.partition(":")
                lines[head.split()[0]] = text, names.split()
    return lines


def crates_below(lines, program):
    """The program and all crates of the repository that it stands on."""
    found, left = {program}, [program]
    while left:
        for name in lines[left.pop()][1]:
            if name in lines and name not in found:
                found.add(name)
                left.append(name)
    return found


def lay_out(top, room, lines, names):
    """Lays the crates into a folder in which a plain `rt ci` proves them and tries no edit."""
    for name in names:
        source = f"{top}/crates/{name}"
        shutil.copytree(source, f"{room}/crates/{name}", ignore=without_edits(source))
    shutil.copy(f"{top}/HANDLES", f"{room}/HANDLES")
    with open(f"{room}/crates.txt", "w") as file:
        file.writelines(f"{text}\n" for name, (text, _) in lines.items() if name in names)


def without_edits(source):
    """What of a crate's own folder isn't copied. (A folder of proofs may be named `out` too.)"""
    return lambda folder, names: {"out", "must-fail"} & set(names) if folder == source else set()


def prove(room, log, total):
    """Runs the gate over the folder, tells of each crate as it ends, and returns whether all passed."""
    begun, done = time.monotonic(), 0
    how = {"cwd": room, "stdin": subprocess.DEVNULL, "stdout": subprocess.PIPE, "stderr": subprocess.STDOUT, "text": True}
    with open(log, "w") as file, subprocess.Popen(["rt", "ci"], **how) as tool:
        for line in tool.stdout:
            file.write(line)
            file.flush()
            told = re.match(r"rt: (\w+) (proved|is kept|NOT PROVED)", line)
            if told:
                done += 1
                minutes = (time.monotonic() - begun) / 60
                print(f"{minutes:5.1f} min, {done} of {total}: {told[1]} {told[2]}", file=sys.stderr, flush=True)
    return tool.returncode == 0


def main():
    if len(sys.argv) != 2:
        sys.exit(__doc__)
    top, program = os.path.dirname(os.path.dirname(os.path.abspath(__file__))), sys.argv[1]
    if not shutil.which("rt"):
        sys.exit(f"build: the Rattle toolchain's command rt is in no folder of PATH ({os.environ.get('PATH', '')})")
    lines = read_lines(f"{top}/crates.txt")
    if program not in lines:
        sys.exit(f"build: {program} is no crate of crates.txt")
    names, log = crates_below(lines, program), f"{top}/build.log"
    print(f"build: proving {len(names)} crates side by side; all that is said goes to {log}", file=sys.stderr, flush=True)
    with tempfile.TemporaryDirectory(prefix=f"{program}-") as room:
        lay_out(top, room, lines, names)
        if not prove(room, log, len(names)):
            sys.exit(f"build: the proof or the build failed: see {log}")
        os.makedirs(f"{top}/bin", exist_ok=True)
        shutil.copy(f"{room}/crates/{program}/out/{program}", f"{top}/bin/{program}.new")
        os.replace(f"{top}/bin/{program}.new", f"{top}/bin/{program}")


if __name__ == "__main__":
    main()
