"""Tries the JSON Schema of a script's line on the examples.

schema.py. A line that the program takes must be one by the schema; of a line of `examples/errors/forms.jsonl`, all of which have one fault, the
schema must find a fault at the member that the program's answer names (`forms.out`). It prints each line for which that isn't so, and ends with 1 then.
"""

import glob
import json
import os
import sys

TOP = os.path.dirname(os.path.dirname(os.path.abspath(__file__)))

try:
    from jsonschema import Draft202012Validator, validators
except ImportError:
    print("tools/schema.py: skipped, since no jsonschema of Draft 2020-12 is here")
    sys.exit(0)


def is_whole(checker, value):
    """A number without a point: 1.0 is no whole number for the program, and is one for JSON Schema."""
    return isinstance(value, int) and not isinstance(value, bool)


def lines_of(name):
    """The lines that aren't blank, by their numbers, without those that are no JSON."""
    with open(name, encoding="utf-8") as file:
        for number, text in enumerate(file, 1):
            try:
                yield number, json.loads(text)
            except ValueError:
                continue


def places_of(errors):
    """The members at which a schema finds faults: missing and unknown ones by their own names, and those within parts of a choice too."""
    for error in errors:
        at = [str(part) for part in error.absolute_path]
        if error.validator == "required":
            yield "/".join([*at, *(name for name in error.validator_value if name not in error.instance)][: len(at) + 1])
        elif error.validator == "additionalProperties":
            yield from ("/".join([*at, name]) for name in error.instance if name not in error.schema.get("properties", {}))
        elif error.validator == "dependentRequired":
            yield from ("/".join([*at, name]) for name in error.instance)
        else:
            yield "/".join(at)
        yield from places_of(error.context)


def place_named(answer):
    """The member that an answer names, from the whole line on; None where it is no fault of the form."""
    if "events" in answer or answer.get("unsupported") == "kvstore/driver":
        # what a new array lacks, and which mounts there are, a schema can't know
        return None
    if "bad_line" in answer:
        return answer["bad_line"].replace("member:", "", 1) if answer["bad_line"].startswith("member:") else ""
    for name in ("bad_spec", "unsupported"):
        if name in answer:
            return "/".join(["spec", *filter(None, [answer[name]])])
    if "bad_step" in answer:
        return f"steps/{answer['bad_step']['step']}"
    return None


def is_found(wanted, found):
    """Whether a fault is found at a member or within it."""
    return any(at == wanted or wanted and at.startswith(f"{wanted}/") for at in found)


def main():
    with open(f"{TOP}/tools/script.schema.json", encoding="utf-8") as file:
        schema = json.load(file)
    Draft202012Validator.check_schema(schema)
    checker = Draft202012Validator.TYPE_CHECKER.redefine("integer", is_whole)
    judge = validators.extend(Draft202012Validator, type_checker=checker)(schema)
    failed = tried = faults = 0
    for name in sorted(glob.glob(f"{TOP}/examples/**/*.jsonl", recursive=True)):
        answers = {}
        if os.path.exists(name[:-6] + ".out"):
            answers = {answer["line"]: answer for _, answer in lines_of(name[:-6] + ".out")}
        for number, line in lines_of(name):
            tried += 1
            answer = answers.get(number, {})
            wanted = place_named(answer)
            found = set(places_of(judge.iter_errors(line)))
            if wanted is None and found:
                failed = 1
                print(f"{name}:{number}: the schema finds faults at {sorted(found)}")
            elif wanted is not None:
                faults += 1
                if not is_found(wanted, found):
                    failed = 1
                    print(f"{name}:{number}: the answer names {wanted!r}, and the schema {sorted(found)}")
    if faults < 40:
        failed = 1
    print(f"tools/schema.py: {tried} lines, of which {faults} have faults of their form")
    sys.exit(failed)


main()
