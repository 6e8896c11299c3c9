"""Arrays in files, written by zarr-python and read by the program, and the other way round.

compare.py PROGRAM. What an array must hold is worked out in a plain NumPy array beside both; neither side's answer is the measure.
It prints a line for each group of arrays and one for each difference, and ends with 1 where there is one.
"""

import json
import os
import subprocess
import sys
import tempfile

import numpy
import zarr

SHAPE, CHUNKS = (5, 7), (2, 3)
TYPES = ["i1", "u1", "i2", "u2", "i4", "u4", "i8", "u8"]
NAMES = dict(zip(TYPES, "int8 uint8 int16 uint16 int32 uint32 int64 uint64".split()))
# Two slabs. With a fill they cut chunks anywhere, and both leave chunks that nothing writes: 0,2 and 2,0. Without a fill what a chunk holds
# beside the slab is undefined for zarr-python, so the slabs end at the edges of chunks there, and chunk 2,0 is one that nothing writes.
SLABS = {True: [((1, 4), (2, 6)), ((3, 5), (5, 7))], False: [((0, 4), (3, 7)), ((4, 5), (3, 7))]}
failed = False


def differs(text):
    global failed
    failed = True
    print(f"DIFFERENCE: {text}")


def numbers(dtype, slab, salt):
    """Numbers of the dtype for the cells of a slab, with its least and its greatest among them."""
    info = numpy.iinfo(dtype)
    (a, b), (c, d) = slab
    size = (b - a) * (d - c)
    many = [(k * 37 + salt) % 120 + 1 for k in range(size)]
    many[0], many[-1] = int(info.min) or 1, int(info.max)
    return numpy.array(many, dtype=dtype.newbyteorder("=")).reshape(b - a, d - c)


def steps(slab):
    return [{"slice": [{"start": a, "stop": b} for a, b in slab]}]


def run(program, folder, lines, status=0, may_refuse=False):
    """The answers to the lines, over the folder."""
    with tempfile.NamedTemporaryFile("w", suffix=".jsonl", delete=False) as file:
        for line in lines:
            file.write(json.dumps(line) + "\n")
    ended = subprocess.run([program, "--root", folder, file.name], stdout=subprocess.PIPE)
    os.unlink(file.name)
    answers = [json.loads(line) for line in ended.stdout.splitlines()]
    if ended.returncode != status or len(answers) != len(lines):
        differs(f"status {ended.returncode}, {len(answers)} answers to {len(lines)} lines")
    for line, answer in zip(lines, answers):
        if not may_refuse and not {"open", "values", "write", "commit"} & set(answer):
            differs(f"{json.dumps(line)[:120]} answers {json.dumps(answer)[:200]}")
    return answers


class Array:
    """One array of Zarr version 2, and the plain array beside it."""

    def __init__(self, code, order, big, fill, separator):
        mark = "|" if code.endswith("1") else ">" if big else "<"
        self.dtype = numpy.dtype(mark + code)
        info = numpy.iinfo(self.dtype)
        self.order, self.separator = order, separator
        self.fill = int(info.max) - 1 if fill else None
        self.text = mark + code
        self.path = f"{'big' if big else 'little'}_{code}_{order}_{'fill' if fill else 'null'}_{'dot' if separator == '.' else 'slash'}"
        self.slabs = SLABS[fill]
        self.plain = numpy.full(SHAPE, self.fill or 0, dtype=self.dtype.newbyteorder("="))
        self.known = numpy.zeros(SHAPE, dtype=bool) if self.fill is None else numpy.ones(SHAPE, dtype=bool)
        for salt, slab in enumerate(self.slabs):
            rows, columns = (slice(a, b) for a, b in slab)
            self.plain[rows, columns] = numbers(self.dtype, slab, salt)
            self.known[rows, columns] = True

    def spec(self, create):
        spec = {"driver": "zarr", "kvstore": {"driver": "file", "path": self.path}}
        spec["metadata"] = {
            "chunks": list(CHUNKS),
            "dimension_separator": self.separator,
            "dtype": self.text,
            "fill_value": self.fill,
            "order": self.order,
            "shape": list(SHAPE),
        }
        if create:
            spec["create"] = True
        return spec

    def values(self, slab):
        (a, b), (c, d) = slab
        return self.plain[a:b, c:d].tolist()

    def by_zarr(self, folder):
        made = zarr.open_array(
            f"{folder}/{self.path}",
            mode="w-",
            shape=SHAPE,
            chunks=CHUNKS,
            dtype=self.text,
            order=self.order,
            fill_value=self.fill,
            compressor=None,
            dimension_separator=self.separator,
        )
        for slab in self.slabs:
            rows, columns = (slice(a, b) for a, b in slab)
            made[rows, columns] = self.plain[rows, columns]

    def lines(self):
        lines = [{"open": "a", "spec": self.spec(True)}]
        return lines + [{"write": "a", "steps": steps(slab), "values": self.values(slab)} for slab in self.slabs]

    def seen_by_zarr(self, folder):
        seen = zarr.open_array(f"{folder}/{self.path}", mode="r")
        told = (seen.shape, seen.chunks, seen.dtype, seen.order, seen.fill_value)
        if told != (SHAPE, CHUNKS, self.dtype, self.order, self.fill):
            differs(f"{self.path}: zarr-python sees {told}")
        wrong = (seen[:] != self.plain) & self.known
        if wrong.any():
            differs(f"{self.path}: zarr-python reads {seen[:].tolist()} for {self.plain.tolist()}")
        return int((~self.known).sum())


def arrays():
    for code in TYPES:
        for order in "CF":
            for big in [False] if code.endswith("1") else [False, True]:
                for fill in (False, True):
                    yield Array(code, order, big, fill, "/" if code in ("i2", "u8") else ".")


def chunks_of(array):
    """The chunks that hold a cell of the slabs, by the rule of the grid."""
    cells = {(i, j) for (a, b), (c, d) in array.slabs for i in range(a, b) for j in range(c, d)}
    return {(i // CHUNKS[0], j // CHUNKS[1]) for i, j in cells}


def keys(folder, array):
    """The chunks that stand in the folder."""
    top = f"{folder}/{array.path}"
    names = [os.path.relpath(os.path.join(at, name), top) for at, _, files in os.walk(top) for name in files]
    return {tuple(map(int, name.replace("/", ".").split("."))) for name in names if not name.startswith(".")}


def zarr_then_program(program, folder):
    every = list(arrays())
    lines = []
    for array in every:
        array.by_zarr(folder)
        lines += [{"open": "a", "spec": array.spec(False)}, {"read": "a"}]
    answers = run(program, folder, lines)
    for array, answer in zip(every, answers[1::2]):
        if answer.get("values") != array.plain.tolist():
            differs(f"{array.path}: the program reads {answer.get('values')} for {array.plain.tolist()}")
    print(f"written by zarr-python, read by the program: {len(every)} arrays, {numpy.prod(SHAPE) * len(every)} cells")
    # the same folder, changed by the program, seen by zarr-python
    lines = []
    for array in every:
        array.plain[4, 6] = 5
        lines += [{"open": "a", "spec": array.spec(False)}, {"write": "a", "steps": [{"at": [4, 6]}], "values": 5}]
    run(program, folder, lines)
    for array in every:
        array.seen_by_zarr(folder)
    print(f"then changed by the program, read by zarr-python: {len(every)} arrays")


def program_then_zarr(program, folder):
    every = list(arrays())
    lines = [line for array in every for line in array.lines()]
    run(program, folder, lines)
    undefined = sum(array.seen_by_zarr(folder) for array in every)
    for array in every:
        if keys(folder, array) != chunks_of(array):
            differs(f"{array.path}: chunks {sorted(keys(folder, array))} are stored, not {sorted(chunks_of(array))}")
    print(f"written by the program, read by zarr-python: {len(every)} arrays, {numpy.prod(SHAPE) * len(every) - undefined} cells")
    print(f"  not compared: {undefined} cells of chunks that aren't stored, without a fill. The program reads 0 there; for zarr-python they are undefined")
    # the same folder, changed by zarr-python, seen by the program
    lines = []
    for array in every:
        array.plain[4, 6] = 6
        zarr.open_array(f"{folder}/{array.path}", mode="r+")[4, 6] = 6
        lines += [{"open": "a", "spec": array.spec(False)}, {"read": "a"}]
    answers = run(program, folder, lines)
    for array, answer in zip(every, answers[1::2]):
        if answer.get("values") != array.plain.tolist():
            differs(f"{array.path}: after zarr-python's change the program reads {answer.get('values')} for {array.plain.tolist()}")
    print(f"then changed by zarr-python, read by the program: {len(every)} arrays")


def n5_plain(code):
    """What the N5 arrays hold, by zarr-python's index vectors, and the slabs that write it. Cells beside them have 0."""
    dtype = numpy.dtype(code)
    slabs = SLABS[True]
    plain = numpy.zeros(SHAPE, dtype=dtype)
    for salt, slab in enumerate(slabs):
        rows, columns = (slice(a, b) for a, b in slab)
        plain[rows, columns] = numbers(dtype, slab, salt)
    return plain, slabs


def n5_spec(path, code):
    # the program has N5's own order of dimensions, zarr-python the other one
    metadata = {"blockSize": list(CHUNKS[::-1]), "dataType": NAMES[code], "dimensions": list(SHAPE[::-1])}
    return {"driver": "n5", "kvstore": {"driver": "file", "path": path}, "metadata": metadata}


def n5_seen(store, path, plain, who):
    seen = zarr.open_array(store=store, path=path, mode="r")
    if (seen.shape, seen.chunks) != (SHAPE, CHUNKS):
        differs(f"{path}: zarr-python sees the shape {seen.shape} in chunks of {seen.chunks}")
    try:
        values = seen[:]
    except Exception as error:
        differs(f"{path}, {who}: zarr-python reads it not at all: {type(error).__name__}: {error}")
        return
    if not (values == plain).all():
        differs(f"{path}, {who}: zarr-python reads {values.tolist()} for {plain.tolist()}")


def n5(program, folder):
    store = zarr.N5Store(f"{folder}/n5")
    zarr.group(store=store)
    lines, wanted = [], []
    for code in TYPES:
        plain, slabs = n5_plain(code)
        made = zarr.open_array(store=store, path=f"their_{code}", mode="w", shape=SHAPE, chunks=CHUNKS, dtype=code, compressor=None)
        for slab in slabs:
            rows, columns = (slice(a, b) for a, b in slab)
            made[rows, columns] = plain[rows, columns]
        lines += [{"open": "a", "spec": n5_spec(f"n5/their_{code}", code)}, {"read": "a", "steps": [{"transpose": [1, 0]}]}]
        wanted.append(plain)
    for code, plain, answer in zip(TYPES, wanted, run(program, folder, lines)[1::2]):
        if answer.get("values") != plain.tolist():
            differs(f"n5/their_{code}: the program reads {answer} for {plain.tolist()}")
    print(f"N5, written by zarr-python, read by the program: {len(TYPES)} arrays, dimensions the other way round")

    lines = []
    for code in TYPES:
        plain, slabs = n5_plain(code)
        lines += [{"open": "a", "spec": {**n5_spec(f"n5/our_{code}", code), "create": True}}]
        for (a, b), (c, d) in slabs:
            cut = [{"transpose": [1, 0]}, *steps(((a, b), (c, d)))]
            lines += [{"write": "a", "steps": cut, "values": plain[a:b, c:d].tolist()}]
    run(program, folder, lines)
    for code, plain in zip(TYPES, wanted):
        n5_seen(store, f"our_{code}", plain, "written by the program")
    print(f"N5, written by the program, read by zarr-python: {len(TYPES)} arrays")

    # both sides change both kinds of arrays
    lines = []
    for code, plain in zip(TYPES, wanted):
        for whose in ("their", "our"):
            lines += [{"open": "a", "spec": n5_spec(f"n5/{whose}_{code}", code)}, {"write": "a", "steps": [{"at": [6, 4]}], "values": 5}]
        plain[4, 6] = 5
    run(program, folder, lines)
    lines = []
    for code, plain in zip(TYPES, wanted):
        for whose in ("their", "our"):
            n5_seen(store, f"{whose}_{code}", plain, "changed by the program")
            zarr.open_array(store=store, path=f"{whose}_{code}", mode="r+")[0, 0] = 9
            lines += [{"open": "a", "spec": n5_spec(f"n5/{whose}_{code}", code)}, {"read": "a", "steps": [{"transpose": [1, 0]}]}]
        plain[0, 0] = 9
    answers = run(program, folder, lines)[1::2]
    for k, answer in enumerate(answers):
        if answer.get("values") != wanted[k // 2].tolist():
            differs(f"N5 {TYPES[k // 2]}, changed by zarr-python: the program reads {answer} for {wanted[k // 2].tolist()}")
    print(f"N5, then changed by both, read by both: {len(answers)} arrays")


def refused(program, folder):
    """What zarr-python writes by default is compressed, and floats are no whole numbers: both are refused by the member's name."""
    store = zarr.N5Store(f"{folder}/n5")
    zarr.group(store=store)
    zarr.open_array(f"{folder}/zipped", mode="w", shape=SHAPE, chunks=CHUNKS, dtype="<i4")
    zarr.open_array(f"{folder}/floats", mode="w", shape=SHAPE, chunks=CHUNKS, dtype="<f8", compressor=None)
    zarr.open_array(store=store, path="zipped", mode="w", shape=SHAPE, chunks=CHUNKS, dtype="<i4")
    zarr.open_array(store=store, path="floats", mode="w", shape=SHAPE, chunks=CHUNKS, dtype="<f8", compressor=None)
    wanted = []
    for driver, path, file, member in (
        ("zarr", "zipped", ".zarray", "compressor"),
        ("zarr", "floats", ".zarray", "dtype"),
        ("n5", "n5/zipped", "attributes.json", "compression"),
        ("n5", "n5/floats", "attributes.json", "dataType"),
    ):
        spec = {"driver": driver, "kvstore": {"driver": "file", "path": path}}
        why = {"key": f"file/{path}/{file}", "member": member, "why": "unsupported"}
        wanted.append(({"open": "a", "spec": spec}, {"bad_meta": why, "events": [], "line": len(wanted) + 1}))
    for (line, want), answer in zip(wanted, run(program, folder, [line for line, _ in wanted], status=1, may_refuse=True)):
        if answer != want:
            differs(f"{json.dumps(line)} answers {json.dumps(answer)} for {json.dumps(want)}")
    print(f"refused by the member that isn't supported: {len(wanted)} arrays with compressors or floats")


def main():
    program = sys.argv[1]
    if not zarr.__version__.startswith("2."):
        print(f"with_zarr_python: skipped, since this is written for zarr-python 2, and {zarr.__version__} is here")
        return
    print(f"zarr-python {zarr.__version__}, NumPy {numpy.__version__}")
    with tempfile.TemporaryDirectory() as folder:
        for name, part in (("theirs", zarr_then_program), ("ours", program_then_zarr), ("both", n5), ("refused", refused)):
            os.mkdir(f"{folder}/{name}")
            part(program, f"{folder}/{name}")
    print("there are differences" if failed else "no difference")
    sys.exit(1 if failed else 0)


main()
