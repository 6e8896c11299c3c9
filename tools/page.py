"""Runs what stands in a page, as a reader would who pastes it.

page.py PAGE PROGRAM. Blocks of the page that begin with three backticks and a word are taken in order, in a new folder that has
the program as ./run and bin/tensor_run, and the repository's examples and tools:

    json NAME      lines of a script, written to the file NAME
    sh             commands of bash
    python         Python, in one run of names for the whole page
    text           what the block before it must print, to the byte

Blocks of other kinds are read past. A block with a further word, as `sh jq` or `python xarray`, is run only where that program or module is there, and so is the text behind it.
It prints the first line of each block that fails, and ends with 1 where there is one.
"""

import contextlib
import importlib.util
import io
import os
import re
import shutil
import subprocess
import sys
import tempfile
import traceback

TOP = os.path.dirname(os.path.dirname(os.path.abspath(__file__)))


def blocks(page):
    """The kind, the further word, the text and the first line's number of each block."""
    found = re.finditer(r"^```(\w+)(?: +(\S+))?\n(.*?)^```$", page, re.M | re.S)
    for block in found:
        yield block[1], block[2], block[3], page.count("\n", 0, block.start()) + 1


def furnish(folder, program):
    for name in ("examples", "tools", "docs"):
        os.symlink(os.path.join(TOP, name), os.path.join(folder, name))
    os.mkdir(os.path.join(folder, "bin"))
    os.symlink(program, os.path.join(folder, "bin", "tensor_run"))
    os.symlink(program, os.path.join(folder, "run"))


def is_there(kind, word):
    return word is None or (importlib.util.find_spec(word) if kind == "python" else shutil.which(word)) is not None


def run_python(text, names):
    said = io.StringIO()
    try:
        with contextlib.redirect_stdout(said):
            exec(compile(text, "the page", "exec"), names)
    except Exception:
        return said.getvalue(), traceback.format_exc()
    return said.getvalue(), None


def run_shell(text):
    ended = subprocess.run(["bash", "-c", text], stdout=subprocess.PIPE, stderr=subprocess.PIPE, text=True)
    return ended.stdout, ended.stderr or None


def main():
    page, program = sys.argv[1], os.path.abspath(sys.argv[2])
    with open(page, encoding="utf-8") as file:
        text = file.read()
    os.environ["TENSOR_RUN"] = program
    failed = ran = missed = 0
    said, passed_over = "", False
    names = {"__name__": "page"}
    sys.path.insert(0, os.path.join(TOP, "examples", "python"))
    sys.dont_write_bytecode = True
    with tempfile.TemporaryDirectory() as folder:
        furnish(folder, program)
        os.chdir(folder)
        for kind, word, body, line in blocks(text):
            wrong = None
            if kind == "json":
                with open(word, "w", encoding="utf-8") as file:
                    file.write(body)
                continue
            if kind == "text":
                if not passed_over and said != body:
                    wrong = f"prints\n{said}and not\n{body}"
            elif kind in ("sh", "python"):
                passed_over = not is_there(kind, word)
                if passed_over:
                    missed += 1
                    continue
                ran += 1
                said, wrong = run_python(body, names) if kind == "python" else run_shell(body)
            if wrong:
                failed += 1
                print(f"{page}:{line}: {body.splitlines()[0]}: {wrong}")
        os.chdir(TOP)
    left = f", {missed} were passed over for what isn't here" if missed else ""
    print(f"{os.path.basename(page)}: {ran} blocks were run{left}")
    sys.exit(1 if failed else 0)


main()
