#!/usr/bin/env python3
"""Tells of a crate's edits that must fail whether a fact refuses each, or only a name that the edited code no longer has.

    cd crates/NAME && python3 ../../tools/edits.py [EDIT..]

rt must-fail calls both refused. It costs a check for each edit; the crate's files are put back afterwards.
"""
import glob
import os
import re
import subprocess
import sys

ERROR = re.compile(r":\d+:\d+: error|it is not proved that|^fn .*: no proof")
NAME = re.compile(r"has no field|\(nearest: |it calls `[^`]*`.*which (?:is|are) not proved|that can be named from here|declarations? that depends? on|is not in scope")


def read(path):
    with open(path, encoding="utf-8") as file:
        return file.read()


def write(texts):
    for path, text in texts.items():
        with open(path, "w", encoding="utf-8") as file:
            file.write(text)


def edited(edit):
    """The files as the edit leaves them, or what keeps it from being applied."""
    texts, path, old = {}, None, None
    for line in read(edit).split("\n"):
        if line.startswith("file: "):
            path = line[6:].strip()
        elif line.startswith("old: "):
            old = line[5:]
        elif line.startswith("new: "):
            text = texts.get(path) or read(path)
            if text.count(old) != 1:
                return None, f"{text.count(old)} times in {path}: {old}"
            texts[path] = text.replace(old, line[5:])
    return texts, None


def verdict(texts):
    """What a check says of the edited crate."""
    before = {path: read(path) for path in texts}
    try:
        write(texts)
        said = subprocess.run(["rt", "check"], stdout=subprocess.PIPE, stderr=subprocess.STDOUT, text=True).stdout
    finally:
        write(before)
    # the check of a crate below it may stand before its own
    crate = os.path.basename(os.getcwd())
    said = said[max(said.rfind(f"rt: chose --jobs {n} for {crate}\n") for n in range(1, 9)):] if f" for {crate}\n" in said else said
    if "logic=proved" in said:
        return "NOT REFUSED", ""
    errors = [line for line in said.split("\n") if ERROR.search(line)]
    facts = [line for line in errors if not NAME.search(line)]
    if facts:
        return "fact", facts[0]
    return ("NAMES ONLY", errors[0]) if errors else ("?", said[-300:])


def main():
    for edit in sorted(glob.glob("must-fail/*.edit")):
        name = os.path.basename(edit)[: -len(".edit")]
        if sys.argv[1:] and name not in sys.argv[1:]:
            continue
        texts, trouble = edited(edit)
        kind, line = ("BAD EDIT", trouble) if trouble else verdict(texts)
        print(f"{kind:12}{name}: {line[:240]}", flush=True)


main()
