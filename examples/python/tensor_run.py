"""Runs scripts of tensor_run, and gives their answers back as Python values.

The program is `$TENSOR_RUN`, or else `bin/tensor_run` of this repository. Arrays go in and out as NumPy arrays where NumPy is there, else as nested lists.
"""

import json
import os
import subprocess
import tempfile

try:
    import numpy
except ImportError:
    numpy = None

PROGRAM = os.environ.get("TENSOR_RUN") or os.path.join(os.path.dirname(os.path.abspath(__file__)), "..", "..", "bin", "tensor_run")
DTYPES = {"int8": "|i1", "uint8": "|u1", "int16": "<i2", "uint16": "<u2", "int32": "<i4", "uint32": "<u4", "int64": "<i8", "uint64": "<u8"}
DONE = ("open", "view", "values", "write", "begin", "commit", "abort", "resize", "resolve")


class Failed(Exception):
    """The program ended with this status and gave no answers."""


class Refused(Exception):
    """A line was refused; `answer` is what it was answered, and `asked` the line."""

    def __init__(self, asked, answer):
        super().__init__(f"{text_of(asked)[:200]} answers {text_of(answer)}")
        self.asked, self.answer = asked, answer


def text_of(line):
    return json.dumps(line, separators=(",", ":"))


def is_done(answer):
    """Whether the answer says that its line did what it asks for."""
    return any(name in answer for name in DONE)


def run(*scripts, root=None, workers=1):
    """Runs scripts beside each other, each a list of lines (dicts). Gives a list of answers (dicts) for each script, in its order."""
    with tempfile.TemporaryDirectory() as folder:
        files = []
        for number, script in enumerate(scripts):
            files.append(os.path.join(folder, f"{number}.jsonl"))
            with open(files[-1], "w", encoding="utf-8") as file:
                file.writelines(text_of(line) + "\n" for line in script)
        words = ["--root", root] if root is not None else []
        ended = subprocess.run([PROGRAM, *words, "--workers", str(workers), *files], capture_output=True, check=False)
    if ended.returncode > 1:
        raise Failed(f"status {ended.returncode}: {ended.stderr.decode().strip()}")
    answers = [json.loads(line) for line in ended.stdout.splitlines()]
    parted = []
    for script in scripts:
        parted.append(answers[: len(script)])
        answers = answers[len(script) :]
    return parted


def do(lines, root=None):
    """Runs one script of which each line has to be done. Gives its answers."""
    (answers,) = run(lines, root=root)
    for line, answer in zip(lines, answers):
        if not is_done(answer):
            raise Refused(line, answer)
    return answers


def spec(path, driver="zarr", **members):
    """The Spec of an array in the folder; `metadata`, `create` and the like come as members."""
    return {"driver": driver, "kvstore": {"driver": "file", "path": path}, **members}


def read(root, path, steps=(), driver="zarr"):
    """The cells of an array in a folder, or of the view that the steps cut out of it."""
    opened, got = do([{"open": "a", "spec": spec(path, driver)}, {"read": "a", "steps": list(steps)}], root)
    return numpy.array(got["values"], dtype=opened["dtype"]) if numpy else got["values"]


def write(root, path, values, steps=(), driver="zarr"):
    """Writes an array, a nested list, or one number for all cells, into an array in a folder. Gives the numbers of its events."""
    values = values.tolist() if hasattr(values, "tolist") else values
    return do([{"open": "a", "spec": spec(path, driver)}, {"write": "a", "steps": list(steps), "values": values}], root)[1]["commit"]


def make(root, path, shape, dtype, chunks, fill_value=0):
    """Makes a Zarr version 2 array in a folder, or takes one that is there and is so."""
    metadata = {"chunks": list(chunks), "dtype": DTYPES[dtype], "fill_value": fill_value, "shape": list(shape)}
    do([{"open": "a", "spec": spec(path, metadata=metadata, open=True, create=True)}], root)
