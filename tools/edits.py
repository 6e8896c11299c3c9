#!/usr/bin/env python3
"""Has the prover try every must-fail edit, those too that the gate passes over.

An edit is a file `crates/CRATE/must-fail/NAME.edit` or `NAME.md`: a line `file: PATH`, then lines `old: TEXT` (which
stands once there) and `new: TEXT`. Edits of the bodies of different functions of a crate are made together in a copy
of it, and one check judges each function by itself. All others, those of specs/ and proofs/ among them, are tried one
by one over the whole crate. The libraries below a crate are those that a plain `rt ci` (or `rt check`) left in
`crates/*/out/rlib` of this checkout, so run that first.

A line an edit, parted by tabs: the crate, the edit, what came of it, the goals that aren't proved, the processor's
seconds. What may come of it: what the edit changes isn't proved any more (`refused`), or only since a proof names what
the edit took away, which says nothing of the contract (`form`), or for a limit of the prover's own (`limit`); it is
still proved, so a clause says too little, or the edit is no mistake (`passed`); an old text doesn't stand there once,
or what was edited doesn't compile (`bad`); a library below isn't there, or the check ended otherwise (`not-tried`).
The last line counts them. The status is 1 where one passed, was bad or wasn't tried.
"""
import argparse
import collections
import glob
import os
import re
import shutil
import subprocess
import sys
import tempfile
from concurrent.futures import ThreadPoolExecutor

from build import crates_below, read_lines, without_edits

TOP = os.path.dirname(os.path.dirname(os.path.abspath(__file__)))
KINDS = ("refused", "form", "limit", "passed", "bad", "not-tried")
HEAD = re.compile(r"( *)(?:pub(?:\([a-z ]+\))? )?(?:const |unsafe )*fn (\w+)")
BLOCK = re.compile(r"(?:pub(?:\([a-z ]+\))? )?(?:impl|trait)\b(.*)\{$")
# What a check says of a text that can't be read, of a proof that names what isn't there any more, and of a goal
ERROR = re.compile(r"(?m)^.*(?:\berror\[[\w-]+\]|\b(?:src|specs)/\S+: error: .*(?:is not in scope|has no )).*$")
GONE = re.compile(r"has no field|is not in scope|has no `|was not admitted|that depends on")
GOAL = re.compile(r"note: src/\S+: .*not proved.*?\(`([^`]+)`\)")


def owner_of(lines, at):
    """The name under which a method stands, its type's with its trait's behind it; None where that can't be told."""
    block = next((BLOCK.match(line) for line in reversed(lines[:at]) if line and line[0] not in " }"), None)
    words = block[1].split(" where ")[0] if block else ""
    while re.search(r"<[^<>]*>", words):
        words = re.sub(r"<[^<>]*>", "", words)
    trait, is_of_trait, of = words.strip().partition(" for ")
    return (of + trait.split("::")[-1] if is_of_trait else trait.split(":")[0]) or None


def line_like(lines, at, pattern):
    """The first line, from one on, that a pattern fits."""
    return next((it for it in range(at, len(lines)) if re.match(pattern, lines[it])), len(lines))


def function_at(path, text, offset):
    """The function in whose body a place of a file lies, which `rt fmt` laid out; None where it lies in none."""
    lines, at = text.split("\n"), text.count("\n", 0, offset)
    for first in range(at, -1, -1):
        head = HEAD.match(lines[first])
        body = head and line_like(lines, first, head[1] + r"(\S.*)?\{$")
        last = head and line_like(lines, body, head[1] + r"\}$")
        if head and body <= at <= last:
            module = re.sub(r"^(lib|main)$", "", path[len("src/") : -len(".rt")]).replace("/", "::")
            owner = owner_of(lines, first) if head[1] else module
            return None if owner is None else f"{owner}::{head[2]}".removeprefix("::")
    return None


def make(folder, pairs, texts):
    """Makes an edit's changes in the texts of a crate's files: the place of each; a ValueError where it can't."""
    places = []
    for path, old, new in pairs:
        if path not in texts:
            with open(f"{folder}/{path}", encoding="utf-8") as file:
                texts[path] = file.read()
        text = texts[path]
        if text.count(old) != 1:
            raise ValueError(f"its text stands {text.count(old)} times in {path}: {old.strip()}")
        places.append((path, text, text.index(old) + len(old) - len(old.lstrip())))
        texts[path] = text.replace(old, new)
    return places


class Edit:
    """An edit: its changes, the functions whose bodies they are in (none where one is elsewhere), and why it's bad."""

    def __init__(self, folder, file):
        self.name, self.pairs, self.functions, self.why = os.path.splitext(os.path.basename(file))[0], [], [], None
        with open(file, encoding="utf-8") as it:
            given = {}
            for key, words in re.findall(r"(?m)^(file|old|new): ?(.*)$", it.read()):
                given[key] = words
                if key == "new":
                    self.pairs.append((given["file"], given["old"], words))
        try:
            places = make(folder, self.pairs, {})
            found = {path.startswith("src/") and function_at(path, text, at) for path, text, at in places}
            self.functions = sorted(found) if all(found) else []
        except (ValueError, OSError) as error:
            self.why = str(error)


def rounds_of(folder, edits):
    """Parts edits into rounds that can be made together, in each of which no function is changed twice."""
    rounds = []
    for edit in edits:
        for others, texts, taken in [*rounds, ([], {}, set())]:
            trial = dict(texts)
            try:
                make(folder, edit.pairs, trial)
            except ValueError:
                continue
            if taken.isdisjoint(edit.functions):
                rounds += [] if others else [(others, texts, taken)]
                others.append(edit)
                texts.update(trial)
                taken.update(edit.functions)
                break
    return [edits for edits, _, _ in rounds]


class Crate:
    """A crate whose edits are tried over the libraries below it, in a folder of its own."""

    def __init__(self, lines, name, kit, libraries, room):
        self.name, self.folder, self.room = name, f"{TOP}/crates/{name}", f"{room}/{name}"
        below = sorted(crates_below(lines, name) - {name})
        rlibs = {it: f"{libraries or f'{TOP}/crates/{it}/out/rlib'}/{it}.rlib" for it in below}
        self.lacking = [it for it, rlib in rlibs.items() if not os.path.isdir(rlib)]
        root = "src/lib.rt" if os.path.exists(f"{self.folder}/src/lib.rt") else "src/main.rt"
        self.words = [f"{kit}/bin/rattle", "check", "--crate-name", name, root, "--jobs", "1", "--links", f"{name}="]
        for it in [*lines[name][1], "std"]:
            self.words += ["--extern", f"{it}={rlibs.get(it, f'{kit}/rlibs/{it}.rlib')}"]
        for folder in sorted({os.path.dirname(it) for it in rlibs.values()} | {f"{kit}/rlibs"}):
            self.words += ["-L", f"dependency={folder}"]
        self.words += ["--antt-project", f"{kit}/rattle/logic/antt-project.json", "--logic-built", f"{kit}/logic_built"]
        self.edits = [Edit(self.folder, it) for it in sorted(glob.glob(f"{self.folder}/must-fail/*.*"))]

    def check(self, edits, functions):
        """Checks these functions with edits made, or all if none is named: the status, what was said, the seconds."""
        copy, kept, texts = f"{self.room}/copy", f"{self.room}/kept", {}
        shutil.rmtree(copy, ignore_errors=True)
        shutil.copytree(self.folder, copy, ignore=without_edits(self.folder))
        os.makedirs(kept, exist_ok=True)
        for edit in edits:
            make(self.folder, edit.pairs, texts)
        for path, text in texts.items():
            with open(f"{copy}/{path}", "w", encoding="utf-8") as file:
                file.write(text)
        words = [*self.words, "--incremental", kept, *(word for it in functions for word in ("--only", it))]
        with open(f"{self.room}/said", "w+", encoding="utf-8", errors="replace") as said:
            child = subprocess.Popen(words, cwd=copy, stdin=subprocess.DEVNULL, stdout=said, stderr=said)
            _, status, used = os.wait4(child.pid, 0)
            child.returncode = os.waitstatus_to_exitcode(status)
            said.seek(0)
            return child.returncode, said.read(), used.ru_utime + used.ru_stime

    def judge(self, said, function):
        """What came of a function, and its goals that aren't proved; None where the check doesn't tell."""
        owner, _, last = function.rpartition("::")
        above = r"(?:\w+::)*" + f"{owner}::" if owner[:1].isupper() else f"{owner}::" if owner else ""
        own = re.compile(rf"{self.name}::{above}(?:fn::{last}::\S+|{last})")
        proof = re.compile(rf"(?:\./)?proofs/{above.replace('::', '/')}{last}/\S+: error: (?:`(.*?)`)?(.*)")
        goals, gone, notes, verdict = [], [], [], ""
        for line in said.split("\n"):
            note, error, told = GOAL.match(line), proof.match(line), re.match(r"fn (\S+): (.*)", line)
            if error:
                (gone if GONE.search(line) else goals).append(error[1] or error[2][:100])
            elif note:
                notes.append(note[1])
            elif told:
                # (the goals of a function, and of closures in it, are noted right before its line)
                goals += notes if own.fullmatch(told[1]) else []
                verdict = told[2] if own.fullmatch(told[1]) and "::fn::" not in told[1] else verdict
                notes = []
        if verdict.startswith("proved"):
            return "passed", []
        # (that it calls a function which isn't proved says nothing of its own proof)
        if goals or re.match("not proved|no proof", verdict) and not gone and "it calls" not in verdict:
            return "refused", goals or [verdict]
        return ("form", gone) if gone else ("limit", [verdict]) if verdict.startswith("could not tell") else None

    def try_together(self, edits):
        """Tries edits of different functions in one check: what came of each of which the check tells."""
        _, said, seconds = self.check(edits, [it for edit in edits for it in edit.functions])
        error, found = ERROR.search(said), {}
        for edit in edits:
            judged = [None] if error else [self.judge(said, it) for it in edit.functions]
            if all(judged) or "refused" in [it[0] for it in judged if it]:
                what, goals = min((it for it in judged if it), key=lambda it: KINDS.index(it[0]))
                found[edit] = what, goals, seconds / len(edits)
            elif error and len(edits) == 1:
                found[edit] = "bad", [error[0].strip()], seconds
        return found

    def try_alone(self, edit):
        """Tries an edit over the whole crate."""
        status, said, seconds = self.check([edit], [])
        if status == 0:
            return "passed", [], seconds
        if ERROR.search(said):
            return "bad", [ERROR.search(said)[0].strip()], seconds
        if status == 1 and "\nlogic=not-proved" in said:
            errors = re.findall(r"(?m)^(?:\./)?(proofs/\S+: error: .*)", said)
            goals = GOAL.findall(said) + [it[:120] for it in errors if not GONE.search(it)]
            return "refused" if goals else "form", goals or errors[:1], seconds
        return "limit" if status == 3 else "not-tried", [said.rstrip().rsplit("\n", 1)[-1]], seconds

    def try_all(self, tell):
        """Tries all edits of the crate, and tells what came of each."""
        left = [] if self.lacking else [it for it in self.edits if not it.why]
        for edit in self.edits:
            if edit not in left:
                why = edit.why or f"there is no library of {self.lacking[0]}"
                tell(self, edit, "bad" if edit.why else "not-tried", [why], 0)
        for edits in rounds_of(self.folder, [it for it in left if it.functions]):
            for edit, what in self.try_together(edits).items():
                tell(self, edit, *what)
                left.remove(edit)
        for edit in left:
            what = self.try_together([edit]) if edit.functions else {}
            tell(self, edit, *(what.get(edit) or self.try_alone(edit)))
        shutil.rmtree(self.room, ignore_errors=True)


def main():
    how = argparse.ArgumentParser(description=__doc__, formatter_class=argparse.RawDescriptionHelpFormatter)
    how.add_argument("crates", metavar="CRATE", nargs="*", help="the crates whose edits are tried (default: all)")
    how.add_argument("--jobs", type=int, default=2, metavar="N", help="checks at a time, each of another crate (2)")
    how.add_argument("--libraries", metavar="FOLDER", help="where the libraries below stand, as FOLDER/CRATE.rlib")
    asked, lines, counts = how.parse_args(), read_lines(f"{TOP}/crates.txt"), collections.Counter()
    for name in {*asked.crates} - {*lines}:
        sys.exit(f"edits: {name} is no crate of crates.txt")
    kit = os.path.dirname(subprocess.check_output(["rt", "doc"], text=True).split("\n")[0])

    def tell(crate, edit, what, goals, seconds):
        counts[what] += 1
        told = ", ".join(dict.fromkeys(goals))[:300]
        print(crate.name, edit.name, what, told, f"{seconds:.0f}", sep="\t", flush=True)

    with tempfile.TemporaryDirectory(prefix="edits-") as room, ThreadPoolExecutor(asked.jobs) as pool:
        chosen = [Crate(lines, it, kit, asked.libraries, room) for it in lines if it in (asked.crates or lines)]
        list(pool.map(lambda it: it.try_all(tell), chosen))
    print(f"{sum(counts.values())} edits:", ", ".join(f"{counts[it]} {it}" for it in KINDS))
    sys.exit(any(counts[it] for it in ("passed", "bad", "not-tried")))


if __name__ == "__main__":
    main()
