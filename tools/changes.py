#!/usr/bin/env python3
"""changes.py COMMIT: what has changed since COMMIT, old beside new, as the last part of docs/DESIGN-PASS.md has it: ghost items of types, traits and impls, public functions with their clauses, definitions of specs/, and
the laws (lemmas outside a function's folder) that README.md or docs/ name. Spelling alone does not count: cond for if, eqb for ==, ltb and leb for nat_lt and nat_le, get_or for slice_index."""
import difflib
import re
import subprocess
import sys

commit = sys.argv[1]


def run(*command):
    return subprocess.run(command, capture_output=True, text=True, check=True).stdout


def files(at, pattern):
    names = run("git", "ls-tree", "-r", "--name-only", at, "crates").split() if at else run("git", "ls-files", "crates").split()
    return {n: run("git", "show", f"{at}:{n}") if at else open(n).read() for n in names if re.search(pattern, n)}


def plain(text):
    """without comments and spelling"""
    text = re.sub(r"(//|--) .*", "", text)
    text = re.sub(r"\bif (?=[^;]*? then )", "cond ", text) if " then " in text else text
    text = re.sub(r"\b(then|else)\b", " ", text)
    text = re.sub(r"\b(slice_index_or|slice_index|get_or)\b", "at", text)
    text = re.sub(r"\b(nat_lt|ltb)\b", "lt?", text)
    text = re.sub(r"\b(nat_le|leb)\b", "le?", text)
    text = re.sub(r"\beqb\b|==", " ", text)
    text = re.sub(r"\bif\b", "cond", text)
    text = re.sub(r"[\s()]+", " ", text)
    text = re.sub(r" 0(?= |;|$)", "", text)
    return text.strip()


def functions(texts):
    found = {}
    for name, text in texts.items():
        crate = name.split("/")[1]
        kind = ""
        lines = text.split("\n")
        for i, line in enumerate(lines):
            if re.match(r"impl\b", line):
                kind = re.sub(r"^impl(<.*?>)? ", "", line).split(" {")[0] + "::"
            if line.startswith("}"):
                kind = ""
            public = re.match(r' *pub (extern "C" )?fn ', line) or (" for " in kind and re.match(r" *fn ", line))
            if public:
                block = []
                for rest in lines[i:]:
                    if re.match(r" *\{$", rest) or rest.strip() == "{":
                        break
                    block.append(rest)
                    if rest.endswith("{") and not re.search(r"(requires|ensures)[^{]*\{$", rest):
                        break
                joined = "\n".join(block)
                found[crate, kind + re.search(r"fn (\w+)", line).group(1)] = joined.rstrip(" {")
    return found


def facts(texts):
    """The ghost items of structs, traits and impls, and the clauses of a trait's methods, by the head that they stand under."""
    found = {}
    for name, text in texts.items():
        head, lines = None, text.split("\n")
        for i, line in enumerate(lines):
            if re.match(r"(pub )?(struct|enum|trait|impl)\b", line):
                head = name.split("/")[1], line.removeprefix("pub ").rstrip(" {")
            elif line.startswith("}"):
                head = None
            elif head and re.match(r"    (pub )?ghost (?!use)", line):
                found[head] = found.get(head, "") + line.strip().rstrip(",;") + "\n"
            elif head and head[1].startswith("trait") and line.startswith("    fn "):
                end = next(j for j in range(i, len(lines)) if lines[j].endswith(";"))
                found[head] = found.get(head, "") + "\n".join(rest.strip() for rest in lines[i : end + 1]) + "\n"
    return {head: items for head, items in found.items() if "ghost" in items or "ensures" in items}


def definitions(texts):
    found = {}
    for name, text in texts.items():
        crate = name.split("/")[1]
        for block in re.split(r"\n\s*\n", re.sub(r"(?m)^use .*\n?", "", text)):
            body = re.sub(r"(?m)^\s*--.*\n?", "", block)
            head = re.search(r"(?m)^(?:abbrev |unfoldable )?pub (?:record |data )?(\S+)", body)
            if head:
                found[crate + "/" + name.split("/")[-1][:-5], head.group(1)] = body.strip("\n")
    return found


def laws(texts):
    found = {}
    for name, text in texts.items():
        crate = name.split("/")[1]
        for m in re.finditer(r"(?m)^( *)(?:pub )?([^\s:(){}]+)\s*:\s((?:.*)(?:\n\1 +.*)*)", text):
            found.setdefault((crate, m.group(2)), m.group(3))
    return found


def table(title, old, new, only=lambda key: True):
    print(f"### {title}\n")
    for key in sorted(set(old) | set(new)):
        if not only(key):
            continue
        before, after = old.get(key), new.get(key)
        if before is not None and after is not None and plain(before) == plain(after):
            continue
        print(f"`{key[0]}` `{key[1]}`" + (" is gone" if after is None else " is new" if before is None else ""))
        print("```diff")
        for line in difflib.ndiff((before or "").split("\n"), (after or "").split("\n")):
            if line[0] in "-+" and line[2:].strip():
                print(line)
        print("```\n")


SRC, SPECS, LAWS = r"/src/.*\.rt$", r"/specs/.*\.antt$", r"^crates/\w+/proofs/\w+\.antt$"
# Of the programs' crates those that promise something.
old, new = functions(files(commit, SRC)), functions(files("", SRC))
silent = {k for k in set(old) | set(new) if k[0].startswith("replay") and not re.search("requires|ensures", old.get(k, "") + new.get(k, ""))}
table("Type invariants, laws of traits and what conversions promise", facts(files(commit, SRC)), facts(files("", SRC)))
table("Public functions and conversions", old, new, lambda key: key not in silent)
table("Definitions", definitions(files(commit, SPECS)), definitions(files("", SPECS)))
pages = "".join(run("git", "show", f"{commit}:{p}") for p in run("git", "ls-tree", "-r", "--name-only", commit, "README.md", "docs").split() if p.endswith(".md") and not p.endswith("PORT.md"))
named = set(re.findall(r"`([A-Za-z_][\w'-]*)`", pages))
table("Laws that pages name", laws(files(commit, LAWS)), laws(files("", LAWS)), lambda key: key[1] in named)
