"""Times of the program beside zarr-python, on the same scripts.

beside.py PROGRAM PYTHON [CASE..]. PYTHON is one that has zarr-python 2, or `none`. zarr-python is driven by the function `interpret` below,
which does the lines of a script one by one: it reads the line's JSON, does what it asks for, and prints a read's numbers as JSON. So both
sides do the same work on the same text, and their answers to reads are compared.

A time is processor time, user and system, the least of some runs (of one, where that takes more than 10 seconds on the clock), with what an
empty script takes taken off; the time on the clock stands beside it. An empty script runs before each of these runs, and the least of its
times counts, so that both are measured while the machine is alike. Peak memory is what the process had at most, as the system counts it.
The machine should be quiet: its load is printed.
"""

import gc
import hashlib
import json
import math
import os
import shutil
import subprocess
import sys
import tempfile
import time

# ---------------------------------------------------------------- zarr-python, by the same lines


def selection(steps):
    parts = []
    for step in steps:
        if "slice" in step:
            parts = [slice(p.get("start"), p.get("stop"), p.get("step")) for p in step["slice"]]
        else:
            at = step["at"]
            parts = at if isinstance(at, list) else [at]
    return tuple(parts) if parts else Ellipsis


def interpret(script, stores, synchronizer, out):
    import numpy
    import zarr

    names, turned = {}, set()
    with open(script) as lines:
        for number, text in enumerate(lines, 1):
            if not text.strip():
                continue
            line = json.loads(text)
            if "open" in line:
                spec = line["spec"]
                meta = spec["metadata"]
                n5 = spec["driver"] == "n5"
                if n5:
                    # zarr-python shows N5's dimensions the other way round
                    turned.add(line["open"])
                names[line["open"]] = zarr.open_array(
                    store=stores[spec["driver"], spec["kvstore"]["driver"]],
                    path=spec["kvstore"]["path"],
                    mode="a",
                    shape=meta["dimensions"][::-1] if n5 else meta["shape"],
                    chunks=meta["blockSize"][::-1] if n5 else meta["chunks"],
                    dtype=meta["dataType"] if n5 else meta["dtype"],
                    fill_value=0,
                    compressor=None,
                    synchronizer=synchronizer,
                )
            elif "write" in line:
                array = names[line["write"]]
                cut = selection(line.get("steps", []))
                values = line["values"]
                if line["write"] in turned:
                    cut = cut[::-1]
                if isinstance(values, list):
                    values = numpy.array(values, dtype=array.dtype)
                    values = values.T if line["write"] in turned else values
                array[cut] = values
            elif "read" in line:
                cut = selection(line.get("steps", []))
                shown = names[line["read"]]
                shown = shown[cut[::-1]].T if line["read"] in turned else shown[cut]
                out.write('"values":' + json.dumps(shown.tolist(), separators=(",", ":")) + "\n")


def do(words):
    """--do ROOT SCRIPT..: the scripts, each in a thread where there are several."""
    import io
    import threading

    import zarr

    root, scripts = words[0], words[1:]
    memory = zarr.storage.KVStore({})
    stores = {("zarr", "memory"): memory, ("zarr", "file"): zarr.DirectoryStore(root), ("n5", "file"): zarr.N5Store(root + "/n5")}
    if len(scripts) == 1:
        interpret(scripts[0], stores, None, sys.stdout)
        return
    synchronizer = zarr.ThreadSynchronizer()
    outs = [io.StringIO() for _ in scripts]
    threads = [threading.Thread(target=interpret, args=(s, stores, synchronizer, o)) for s, o in zip(scripts, outs)]
    for thread in threads:
        thread.start()
    for thread in threads:
        thread.join()
    for out in outs:
        sys.stdout.write(out.getvalue())


# ---------------------------------------------------------------- scripts


def number(i, j):
    return (i * 7919 + j * 104729) % 1000003


def row(i, columns):
    return "[" + ",".join(str(number(i, j)) for j in range(columns)) + "]"


def opened(shape, chunks, mount="memory", driver="zarr", shared=False, name="a"):
    if driver == "zarr":
        meta = {"chunks": chunks, "dtype": "<i4", "fill_value": 0, "shape": shape}
        path = name
    else:
        meta = {"blockSize": chunks, "dataType": "int32", "dimensions": shape}
        path = f"n5/{name}"
    spec = {"driver": driver, "kvstore": {"driver": mount, "path": path}, "metadata": meta, "create": True}
    if shared:
        spec["open"] = True
    return json.dumps({"open": "a", "spec": spec}) + "\n"


def whole(n, chunk, mount="memory", driver="zarr"):
    yield opened([n, n], [chunk, chunk], mount, driver)
    yield '{"write":"a","values":['
    for i in range(n):
        yield ("," if i else "") + row(i, n)
    yield "]}\n"
    yield '{"read":"a"}\n'


def rows(first, last, columns, total, chunk, shared=False, name="a"):
    yield opened([total, columns], [chunk, chunk], shared=shared, name=name)
    for i in range(first, last):
        yield '{"write":"a","steps":[{"slice":[{"start":%d,"stop":%d},{"start":0,"stop":%d}]}],"values":[%s]}\n' % (i, i + 1, columns, row(i, columns))
    for i in range(first, last):
        yield '{"read":"a","steps":[{"slice":[{"start":%d,"stop":%d},{"start":0,"stop":%d}]}]}\n' % (i, i + 1, columns)


def cells(n, name="a"):
    yield opened([1000, 1000], [100, 100], name=name)
    for k in range(n // 2):
        i, j = k * 7919 % 1000, k * 104729 % 997
        yield '{"write":"a","steps":[{"at":[%d,%d]}],"values":%d}\n' % (i, j, k)
        yield '{"read":"a","steps":[{"at":[%d,%d]}]}\n' % (j, i)


def written_cells(n):
    yield opened([1000, 1000], [100, 100])
    for k in range(n):
        yield '{"write":"a","steps":[{"at":[%d,%d]}],"values":%d}\n' % (k * 7919 % 1000, k * 104729 % 997, k)


def strided(n, chunk, mount="memory", driver="zarr", shared=False, name="a"):
    yield opened([n, n], [chunk, chunk], mount, driver, shared, name)
    cut = '"steps":[{"slice":[{"start":%d,"stop":%d,"step":%d},{"start":%d,"stop":%d,"step":%d}]}]'
    for k in range(10):
        yield '{"write":"a",' + cut % (k % 2, n, 2, k % 3, n, 3) + ',"values":%d}\n' % (k + 1)
        yield '{"read":"a",' + cut % (k, n, 20, k, n, 25) + "}\n"


def edge(n):
    yield opened([10], [n])
    for k in range(20):
        yield '{"write":"a","values":[%s]}\n' % ",".join(str(k + j) for j in range(10))
        yield '{"read":"a"}\n'


def ones(n):
    yield opened([n, n], [n // 8, n // 8])
    for k in range(10):
        yield '{"write":"a","values":%d}\n' % (k + 1)
    yield '{"read":"a","steps":[{"at":[0,0]}]}\n'


def staged(session, each, columns):
    yield opened([4 * each, columns], [100, 100], shared=True)
    yield '{"begin":{}}\n'
    for i in range(session * each, (session + 1) * each):
        yield '{"write":"a","steps":[{"at":%d,"dims":[0]}],"values":%s}\n' % (i, row(i, columns))
    yield '{"commit":true}\n'


def four(make):
    return [make(s) for s in range(4)]


# ---------------------------------------------------------------- cases: name, sizes, scripts of a size, cells of a size, wanted times, words

SQUARE = (250, 500, 1000)
CASES = [
    ("whole", "whole arrays, n by n", SQUARE, lambda n: [whole(n, n // 10)], lambda n: n * n, 3, []),
    ("files", "whole arrays in files, n by n", SQUARE, lambda n: [whole(n, n // 10, "file")], lambda n: n * n, 3, []),
    ("rows", "row by row, n rows of 1,000", SQUARE, lambda n: [rows(0, n, 1000, n, 100)], lambda n: n * 1000, 10, []),
    ("cells", "n single cells, written and read", (25000, 50000, 100000), lambda n: [cells(n)], lambda n: n, 10, []),
    ("strided", "strided views of n by n", (500, 1000, 2000), lambda n: [strided(n, 100)], lambda n: n * n, 10, []),
    ("sessions", "four sessions, each its rows of n by n", SQUARE, lambda n: four(lambda s: rows(s * n // 4, (s + 1) * n // 4, n, n, 50, shared=True)), lambda n: n * n, 10, ["--workers", "4"]),
    ("small", "chunks of 16 cells, n by n", SQUARE, lambda n: [whole(n, 4)], lambda n: n * n, 10, []),
    ("edge", "shape 10 in chunks of n, twenty times", (10000, 100000, 1000000), lambda n: [edge(n)], lambda n: n, 10, []),
    ("ones", "ten one-number writes of n by n", (512, 1024, 2048), lambda n: [ones(n)], lambda n: 10 * n * n, 10, []),
    ("n5", "N5 in files, strided views of n by n", SQUARE, lambda n: [strided(n, 50, "file", "n5")], lambda n: n * n, 10, []),
]
# by lines: name, sizes, scripts, lines of a size, words
LINES = [
    ("staged", "four sessions stage rows of one array on four workers, n rows each", (1000, 2000, 4000), lambda n: four(lambda s: staged(s, n, 500)), lambda n: 4 * n, ["--workers", "4"]),
    ("lines", "n lines of one cell", (25000, 50000, 100000), lambda n: [written_cells(n)], lambda n: n, []),
]

# by workers: name, sizes, scripts, how many times as fast by the clock four workers are to be as one
WORKERS = [
    ("own rows", "four sessions, each its rows of an array of its own", 500, lambda n: four(lambda s: rows(0, n, 1000, n, 100, name=f"a{s}")), 2.5),
    ("one rows", "four sessions, each its rows of one array", 2000, lambda n: four(lambda s: rows(s * n // 4, (s + 1) * n // 4, 1000, n, 100, shared=True)), 1.5),
    ("own strided", "four sessions, strided views of an array of its own each", 1000, lambda n: four(lambda s: strided(n, 100, name=f"a{s}")), 2.5),
    ("one strided", "four sessions, strided views of one array", 1000, lambda n: four(lambda s: strided(n, 100, shared=True)), 1.5),
    ("own cells", "four sessions, single cells of an array of its own each", 20000, lambda n: four(lambda s: cells(n, name=f"a{s}")), 2.5),
]

# ---------------------------------------------------------------- measuring


class Measure:
    def __init__(self, clock, processor, peak):
        self.clock, self.processor, self.peak = clock, processor, peak


TIME = "/usr/bin/time" if os.path.exists("/usr/bin/time") else None


def measured(words, room):
    """The command once: its times and its peak memory in KiB. Its output goes to room/answers."""
    if TIME:
        # of another process's own, since a child counts the memory of what started it
        words = [TIME, "-f", "%M", "-o", f"{room}/peak", *words]
    with open(f"{room}/answers", "wb") as out:
        start = time.perf_counter()
        child = subprocess.Popen(words, stdout=out)
        _, status, used = os.wait4(child.pid, 0)
        clock = time.perf_counter() - start
        child.returncode = os.waitstatus_to_exitcode(status)
    if child.returncode:
        raise SystemExit(f"{' '.join(words)}: status {child.returncode}")
    peak = int(open(f"{room}/peak").read().split()[-1]) if TIME else used.ru_maxrss
    return Measure(clock, used.ru_utime + used.ru_stime, peak)


def least(every):
    return Measure(min(m.clock for m in every), min(m.processor for m in every), max(m.peak for m in every))


def beside_empty(words, empty, room, times, root):
    """Some runs of a command, and before each of them one of the same command with an empty script. The least of either is kept."""
    every, none = [], []
    for _ in range(times):
        for runs, command in (none, empty), (every, words):
            shutil.rmtree(root, ignore_errors=True)
            os.mkdir(root)
            runs.append(measured(command, room))
        if every[0].clock > 10:
            break
    return least(every), least(none)


def values(room):
    """A sum over the numbers that reads gave."""
    seen = hashlib.sha256()
    count = 0
    with open(f"{room}/answers", "rb") as answers:
        for line in answers:
            at = line.find(b'"values":')
            if at >= 0:
                seen.update(line[at:].rstrip(b"}\n"))
                count += 1
    return count, seen.hexdigest()


class Bench:
    def __init__(self, program, python, room):
        self.program, self.python, self.room = program, python, room
        self.root = f"{room}/root"
        self.short = []
        self.nothing = f"{room}/nothing.jsonl"
        with open(self.nothing, "w") as file:
            file.write("\n")
        self.empty = self.ours([self.nothing], [], 5)[1]
        self.none = self.theirs([self.nothing], 3)[1] if python else None

    def put(self, scripts):
        files = []
        for k, script in enumerate(scripts):
            files.append(f"{self.room}/{k}.jsonl")
            with open(files[-1], "w") as file:
                file.writelines(script)
        return files

    def ours(self, files, words, times=3):
        """The program's times and those of an empty script."""
        command = [self.program, "--root", self.root, *words]
        return beside_empty([*command, *files], [*command, self.nothing], self.room, times, self.root)

    def theirs(self, files, times=3):
        """The same of zarr-python."""
        command = [self.python, "-W", "ignore", os.path.abspath(__file__), "--do", self.root]
        return beside_empty([*command, *files], [*command, self.nothing], self.room, times, self.root)

    def falls_short(self, text):
        self.short.append(text)

    def case(self, key, name, sizes, scripts, count, wanted, words):
        print(f"{name}")
        before = None
        for n in sizes:
            files = self.put(scripts(n))
            ours, empty = self.ours(files, words)
            time_of = max(ours.processor - empty.processor, 0.001)
            text = f"  n = {n:7d}: {time_of:8.3f} s ({ours.clock - empty.clock:.3f} on the clock), {ours.peak / 1024:6.0f} MiB"
            if before:
                text += f", {time_of / before[0] * before[1] / count(n):5.2f} times as long for each cell as before"
            before = (time_of, count(n))
            if self.python:
                mine = values(self.room)
                theirs, none = self.theirs(files)
                if values(self.room) != mine:
                    self.falls_short(f"{name}, n = {n}: the two sides read other numbers")
                their_time = max(theirs.processor - none.processor, 0.001)
                text += f"\n{'':15}zarr-python {their_time:8.3f} s ({theirs.clock - none.clock:.3f} on the clock), {theirs.peak / 1024:6.0f} MiB: {their_time / time_of:.1f} times as long"
            print(text, flush=True)
        bytes_each = max(ours.peak - empty.peak, 0) * 1024 / count(n)
        print(f"  {bytes_each:.1f} bytes of memory for each of {count(n):,} cells, beyond an empty run", flush=True)
        if bytes_each > 48:
            self.falls_short(f"{name}: {bytes_each:.1f} bytes a cell, and not at most 48")
        if self.python:
            if their_time < wanted * time_of:
                self.falls_short(f"{name}: {their_time / time_of:.1f} times as fast as zarr-python, and not {wanted} times")
            if ours.peak >= theirs.peak:
                self.falls_short(f"{name}: {ours.peak / 1024:.0f} MiB, and zarr-python {theirs.peak / 1024:.0f} MiB")

    def by_lines(self, key, name, sizes, scripts, lines, words):
        print(name)
        each = []
        for n in sizes:
            ours, empty = self.ours(self.put(scripts(n)), words, 5)
            time_of = max(ours.processor - empty.processor, 0.001)
            each.append(time_of / lines(n))
            print(f"  n = {n:7d}: {time_of:8.3f} s ({ours.clock - empty.clock:.3f} on the clock), {each[-1] * 1e6:.1f} microseconds a line, {ours.peak / 1024:6.0f} MiB", flush=True)
        # at twice the size, by the ends: between neighbours a line takes up to a tenth more or less from run to run
        growth = (each[-1] / each[0]) ** (1 / math.log2(sizes[-1] / sizes[0]))
        print(f"  {growth:.3f} times as long a line at twice the size", flush=True)
        if growth > 1.05:
            self.falls_short(f"{name}: {growth:.3f} times as long a line at twice the size, and not at most 1.05")


    def by_workers(self, key, name, n, scripts, wanted):
        """On one worker, on two and on four, by the clock. Several runs, since others' work shows in each.

        On one worker a session ends before the next begins, so the cache is one session's at a time; on four it is that of four. So each is
        timed with the cache as it is where nothing is said, and with one that holds the chunks of all four."""
        files = self.put(scripts(n))
        for cache, words, least in (("2^20", [], 1), ("2^24", ["--cache", "16777216"], wanted)):
            print(f"{name}, n = {n}, a cache of {cache} cells")
            first = None
            for workers in (1, 2, 4):
                ours, empty = self.ours(files, ["--workers", str(workers), *words], 5)
                clock = max(ours.clock - empty.clock, 0.001)
                first = first or clock
                print(f"  {workers} workers: {clock:8.3f} s on the clock, {ours.processor - empty.processor:.3f} s of the processor, {first / clock:.2f} times as fast as one, {ours.peak / 1024:6.0f} MiB", flush=True)
            if first < least * clock:
                self.falls_short(f"{name}, a cache of {cache} cells: four workers are {first / clock:.2f} times as fast as one, and not {least} times")


def main(words):
    program, python, chosen = words[0], words[1], words[2:]
    gc.freeze()
    load = os.getloadavg()
    print(f"load of this machine: {load[0]:.1f}, {load[1]:.1f}, {load[2]:.1f} over 1, 5 and 15 minutes, {os.cpu_count()} processors")
    with tempfile.TemporaryDirectory() as room:
        bench = Bench(program, None if python == "none" else python, room)
        print(f"an empty script: {bench.empty.processor:.3f} s, {bench.empty.peak / 1024:.0f} MiB", end="")
        print(f"; zarr-python {bench.none.processor:.3f} s, {bench.none.peak / 1024:.0f} MiB" if bench.none else "")
        for case in CASES:
            if not chosen or case[0] in chosen:
                bench.case(*case)
        for case in LINES:
            if not chosen or case[0] in chosen:
                bench.by_lines(*case)
        for case in WORKERS:
            if not chosen or case[0] in chosen or "workers" in chosen:
                bench.by_workers(*case)
        load = os.getloadavg()
        print(f"load at the end: {load[0]:.1f}, {load[1]:.1f}, {load[2]:.1f}")
        print(f"falls short in {len(bench.short)}:" if bench.short else "falls short in nothing")
        for text in bench.short:
            print(f"  {text}")


if sys.argv[1] == "--do":
    do(sys.argv[2:])
else:
    main(sys.argv[1:])
