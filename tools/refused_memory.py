"""Runs the program with each of its allocations refused in turn, over some worked scripts.

refused_memory.py PROGRAM SHIM

For each row the allocations are counted. Then the program runs once for each of them with this one refused, and once with this one and all behind
it refused. One session runs after another over one store in memory, and a last session reads all that is there. After each run

- the program has ended by itself, within 20 seconds and with a status from 0 to 5;
- with a status below 5 it printed what it prints with ample memory;
- with status 5 it printed nothing, or a front part of the logs of sessions that end within their scripts by `memory` or by the script's end, and
  these logs are what the same scripts answer that end there. So the last session shows that the store holds what the answered commits left, and
  nothing of a line that is answered `memory`, but for an `open`, which may have made its array.

Then `check` is run so over what each row's scripts were answered, and over the same with another number read: it ends with the status and the line
that it has with ample memory, or with status 5 and no line.

Prints a line for each row, and each run that isn't so. The status is 1 where there was one.
"""

import json
import os
import re
import subprocess
import sys
import tempfile
import threading
from concurrent.futures import ThreadPoolExecutor


def opened(name, path, shape, chunks, dtype="<i4", **more):
    metadata = {"shape": shape, "chunks": chunks, "dtype": dtype}
    return {"open": name, "spec": {"driver": "zarr", "kvstore": {"driver": "memory", "path": path}, "metadata": metadata, "create": True, **more}}


def seen(name, path):
    return {"open": name, "spec": {"driver": "zarr", "kvstore": {"driver": "memory", "path": path}}}


def part(start, stop):
    return {"slice": {"start": start, "stop": stop}}


def quarter(k):
    """A session of the row of four: its own rows, and a read of all."""
    rows = {"slice": [{"start": 5 * k, "stop": 5 * k + 5}, {"start": 0, "stop": 20}]}
    return [
        opened("g", "g", [20, 20], [5, 5], open=True),
        {"begin": {"repeatable_read": True}},
        {"write": "g", "steps": [rows], "values": k + 1},
        {"read": "g", "steps": [{"slice": [{"start": 0, "stop": 20, "step": 3}, {"start": 0, "stop": 20, "step": 7}]}]},
        {"commit": True},
        {"read": "g", "steps": [rows]},
    ]


ROWS = {
    "first script": [
        [opened("a", "a", [3], [2]), {"write": "a", "values": [1, 2, 3]}, {"read": "a"}],
        [seen("a", "a"), {"read": "a"}],
    ],
    "two sessions on one array": [
        [
            opened("a", "a", [2], [2]),
            {"begin": {"repeatable_read": True}},
            {"write": "a", "steps": [{"at": 0}], "values": 5},
            {"read": "a", "steps": [{"at": 0}]},
            {"commit": True},
        ],
        [seen("a", "a"), {"write": "a", "steps": [{"at": 1}], "values": 6}, {"abort": True}],
        [seen("a", "a"), {"read": "a"}],
    ],
    "two write-only transactions": [
        [opened("a", "a", [4], [2]), {"begin": {}}, {"write": "a", "values": [1, 2, 3, 4]}, {"commit": True}],
        [seen("a", "a"), {"begin": {}}, {"write": "a", "steps": [part(1, 3)], "values": [8, 9]}, {"commit": True}],
        [seen("a", "a"), {"read": "a"}],
    ],
    "four sessions": [*map(quarter, range(4)), [seen("g", "g"), {"read": "g"}]],
}


class Row:
    def __init__(self, program, shim, room, sessions):
        self.program, self.shim, self.room = program, shim, room
        self.sessions = [[json.dumps(line) + "\n" for line in session] for session in sessions]
        self.opens = [["open" in line for line in session] for session in sessions]
        self.answered, self.turn = {}, threading.Lock()

    def run(self, counts, refused=0, on=False):
        """Runs so many lines of each session; tells the status, the lines that were printed, and the number of allocations."""
        with tempfile.TemporaryDirectory(dir=self.room) as folder:
            return self.ran(folder, ["--workers", "1", *self.scripts(folder, counts)], refused, on)

    def check(self, transcript, refused=0, on=False):
        """Checks a transcript of the row's sessions; tells the same."""
        with tempfile.TemporaryDirectory(dir=self.room) as folder:
            with open(f"{folder}/answers", "wb") as file:
                file.write(transcript)
            return self.ran(folder, ["check", f"{folder}/answers", *self.scripts(folder, map(len, self.sessions))], refused, on)

    def scripts(self, folder, counts):
        names = []
        for place, (session, count) in enumerate(zip(self.sessions, counts)):
            names.append(f"{folder}/{place}.jsonl")
            with open(names[-1], "w") as file:
                file.writelines(session[:count])
        return names

    def ran(self, folder, words, refused, on):
        with open(f"{folder}/count", "wb") as file:
            file.write(bytes(8))
        env = {**os.environ, "REFUSED": str(refused), "REFUSED_COUNT": f"{folder}/count", "LD_PRELOAD": self.shim}
        env.pop("REFUSED_ON", None)
        if on:
            env["REFUSED_ON"] = "1"
        try:
            ended = subprocess.run([self.program, *words], stdin=subprocess.DEVNULL, capture_output=True, env=env, timeout=20)
        except subprocess.TimeoutExpired:
            return None, [], 0
        with open(f"{folder}/count", "rb") as file:
            last = int.from_bytes(file.read(), sys.byteorder)
        return ended.returncode, ended.stdout.splitlines(keepends=True), last

    def plain(self, counts):
        """What so many lines of each session answer."""
        with self.turn:
            if counts not in self.answered:
                self.answered[counts] = self.run(counts)[1]
            return self.answered[counts]

    def is_so(self, status, lines):
        """Whether lines are what may be printed with this status."""
        if status is None or not 0 <= status <= 5:
            return False
        full = tuple(map(len, self.sessions))
        if status < 5:
            return lines == self.plain(full)
        return not lines or self.fits(lines, (), ())

    def fits(self, lines, counts, ends):
        """Whether lines are a front part of the logs of sessions, of which the first ones run so many lines, and end by `memory` where it is told."""
        place = len(counts)
        if place == len(self.sessions):
            return self.is_front(lines, counts, ends)
        # How many of the session's lines were answered: as many as come one behind the other.
        said, start = [json.loads(line) for line in lines], sum(counts[k] + (ends[k] == "not done") for k in range(place))
        answers = 0
        while start + answers < len(said) and said[start + answers]["line"] == answers + 1:
            answers += 1
        full = len(self.sessions[place])
        if answers and said[start + answers - 1] == {"line": answers, "memory": True}:
            ways = [(answers - 1, "not done")]
            if self.opens[place][answers - 1]:
                ways.append((answers, "done"))
        else:
            ways = [(answers, "")] if answers == full else [(full, "")]
        return any(self.fits(lines, (*counts, count), (*ends, end)) for count, end in ways)

    def is_front(self, lines, counts, ends):
        wanted, rest = [], self.plain(counts)
        for count, end in zip(counts, ends):
            log, rest = rest[:count], rest[count:]
            memory = b'{"line":%d,"memory":true}\n'
            if end == "done":
                log[-1] = memory % count
            if end == "not done":
                log.append(memory % (count + 1))
            wanted += log
        text, whole = b"".join(lines), b"".join(wanted)
        return whole.startswith(text)


def refused_each(name, pool, last, run, is_so):
    """Runs with each of so many allocations refused, alone and with all behind it; tells how many runs aren't so."""
    bad, statuses = 0, {}

    def tried(job):
        status, lines, _ = run(*job)
        return job, status, lines, is_so(status, lines)

    jobs = [(number, on) for number in range(1, last + 1) for on in (False, True)]
    for (number, on), status, lines, so in pool.map(tried, jobs):
        statuses[status] = statuses.get(status, 0) + 1
        if not so:
            bad += 1
            behind = " and all behind it" if on else ""
            print(f"{name}: allocation {number}{behind} refused: status {status}, {b''.join(lines).decode(errors='replace')!r}")
    told = ", ".join(f"{statuses[s]} ended with {s}" for s in sorted(statuses, key=str))
    print(f"{name}: {last} allocations, each refused alone and with all behind it: {told}")
    return bad


def refused_checks(name, pool, row, answers):
    """The same of checks: of the answers, which fit, and of the same with another number read, which don't."""
    bad = 0
    for kind, transcript, status in ("its check", answers, 0), ("a failing check", re.sub(rb'"values":\[*\d', rb"\g<0>7", answers), 1):
        ended, line, last = row.check(transcript)
        if ended != status:
            print(f"{name}, {kind}: with ample memory it ended with {ended}")
            bad += 1
            continue
        right = (ended, line)
        bad += refused_each(f"{name}, {kind}", pool, last, lambda *job: row.check(transcript, *job), lambda *told: told in (right, (5, [])))
    return bad


def main():
    program, shim = map(os.path.abspath, sys.argv[1:3])
    bad = 0
    with tempfile.TemporaryDirectory() as room, ThreadPoolExecutor(os.cpu_count()) as pool:
        for name, sessions in ROWS.items():
            row = Row(program, shim, room, sessions)
            full = tuple(map(len, row.sessions))
            status, lines, last = row.run(full)
            if status not in (0, 1):
                print(f"{name}: the run with ample memory ended with {status}")
                bad += 1
                continue
            row.answered[full] = lines
            bad += refused_each(name, pool, last, lambda *job: row.run(full, *job), row.is_so)
            bad += refused_checks(name, pool, row, b"".join(lines))
    return 1 if bad else 0


if __name__ == "__main__":
    sys.exit(main())
