#!/usr/bin/env python3
"""Counts the paths of crates.txt: the ways down from each crate to those that it stands on.

A way down from a crate goes from it to a crate that its line names, from there to one of that crate's line, and so on, over
crates of this repository; the way of no step counts as one. `rt` walks every one of them before its first proof, some
25,000 a second, so a list that names what a crate could get through another one that it names anyway costs minutes.

    tools/paths.py [FILE]     prints the number of FILE (crates.txt at the top of the repository, if none is named)

The status is 1 above 100,000 paths, or where the list names a crate twice or goes in a circle; 2 where FILE can't be read.
"""
import os
import sys

MOST = 100_000


def read_list(path):
    """Returns the crates that each crate of the list names, libraries of the toolchain among them."""
    below = {}
    with open(path, encoding="utf-8") as lines:
        for line in lines:
            head, _, names = line.partition("#")[0].partition(":")
            if not head.strip():
                continue
            crate = head.split()[0]
            if crate in below:
                raise ValueError(f"{crate} stands there twice")
            below[crate] = names.split()
    return below


def count_paths(below):
    """Returns the number of ways down from each crate."""
    paths, begun = {}, set()

    def count(crate):
        if crate not in paths:
            if crate in begun:
                raise ValueError(f"{crate} stands on itself")
            begun.add(crate)
            paths[crate] = 1 + sum(count(name) for name in below[crate] if name in below)
        return paths[crate]

    for crate in below:
        count(crate)
    return paths


def main():
    if len(sys.argv) > 2 or sys.argv[1:] in (["-h"], ["--help"]):
        print(__doc__.strip())
        return 0 if len(sys.argv) == 2 else 2
    top = os.path.dirname(os.path.dirname(os.path.abspath(__file__)))
    path = sys.argv[1] if len(sys.argv) == 2 else os.path.join(top, "crates.txt")
    try:
        paths = count_paths(read_list(path))
    except OSError as error:
        print(f"paths.py: {path}: {error.strerror}", file=sys.stderr)
        return 2
    except ValueError as error:
        print(f"paths.py: {path}: {error}", file=sys.stderr)
        return 1
    total = sum(paths.values())
    print(f"{total} paths from {len(paths)} crates; at most {MOST}")
    return 1 if total > MOST else 0


sys.exit(main())
