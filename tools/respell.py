#!/usr/bin/env python3
"""Brings the names of this repository's definitions and lemmas to snake case, once, after port.py: run it at the top.

A definition colorKnown becomes color_known, a lemma draw-alike becomes draw_alike. Types, facts and modules keep their capitals,
functions of src/ keep their names. Of two names that would fall together the lemma keeps its dash. What the borrow checker names
(the goals of a Proof.antt and the steps behind a dot) stays. Pages are respelled in their code spans, edits in their texts,
by the names that port.py turned too: those are found beside the declarations of the commit LANDED.
"""
import collections
import os
import re
import subprocess
import sys

LANDED = "a866acf54e6b985d1fa5248b43148cae0c1bf1dc"

TOKEN = re.compile(r"[^\s(){}.;,@\"«»`|]+")
DECLARED = re.compile(r"^(\s*)(?:abbrev |unfoldable )?(?:pub )?(?:abbrev |unfoldable )?([^\s:(){}.]+) :(?: (.*))?$")
LIST = re.compile(r"^(\s*)(?:pub )?(?:record|data|ruleset) ([^\s:(){}.]+)")
CODE = re.compile(r"`[^`\n]+`")


def files(top, *ends):
    for folder, dirs, names in os.walk(top):
        dirs[:] = sorted(d for d in dirs if d not in ("out", "target", ".git"))
        for n in sorted(names):
            if n.endswith(ends):
                yield os.path.join(folder, n)


def read(p):
    with open(p, encoding="utf-8") as f:
        return f.read()


def is_walk(p):
    return p.endswith(("/Proof.antt", "/Answers.antt", "/Invariants.antt"))


def snake(name):
    name = re.sub(r"([A-Z]+)([A-Z][a-z])", r"\1_\2", name)
    name = re.sub(r"([a-z0-9])([A-Z])", r"\1_\2", name)
    return name.replace("-", "_").lower() if not re.search(r"[^\x00-\x7f]", name) else name.replace("-", "_")


def declared(p):
    """The names that a file declares, each with whether the borrow checker named it."""
    found = {}
    for line in read(p).split("\n"):
        m = DECLARED.match(line)
        if m and not m[2].startswith("--"):
            made = is_walk(p) and ((m[3] or "").startswith(("tie.", "goal.")) or m[2].endswith(("-spec", "_spec")))
            found[m[2]] = found.get(m[2], False) or made
    return found


def order(text):
    return [m[2] for m in map(DECLARED.match, text.split("\n")) if m] + [m[2] for m in map(LIST.match, text.split("\n")) if m]


def turned_by_port(antt):
    """The names that port.py turned, by the declarations of LANDED, which stand in the same order."""
    found = {}
    for p in antt:
        if is_walk(p):
            continue
        was = subprocess.run(["git", "show", f"{LANDED}:{p}"], capture_output=True, text=True, encoding="utf-8").stdout
        old, new = order(was), order(read(p))
        if len(old) != len(new):
            print(f"not the same declarations: {p}")
            continue
        for a, b in zip(old, new):
            if a != b and found.setdefault(a, b) != b:
                print(f"turned two ways: {a} {b} {found[a]}")
    return found


def fields_of(p):
    """The fields of the records that a file declares."""
    inside = False
    for line in read(p).split("\n"):
        inside = bool(re.match(r"\s*(?:pub )?record ", line)) or inside and not re.match(r"\S", line)
        m = DECLARED.match(line)
        if inside and m and m[1]:
            yield m[2]


def main():
    antt = [p for p in files("crates", ".antt")]
    names, mine, kinds = collections.Counter(), collections.defaultdict(set), {}
    made = {}
    for p in antt:
        d = declared(p)
        made[p] = {n for n, m in d.items() if m}
        for n, m in d.items():
            if not m and not n[0].isupper():
                names[n] += 1
                mine[n].add(p)
    tokens = collections.defaultdict(set)
    for p in list(antt) + list(files("crates", ".rt")):
        for t in set(TOKEN.findall(read(p))):
            tokens[t].add(p)
    fields = collections.defaultdict(set)
    for p in files("crates", ".rt"):
        fields[p] = set(re.findall(r"\b([a-z_0-9]+):(?!:)", read(p)))
    table, taken = {}, {}
    # definitions in camel case first, then lemmas with dashes
    wanted = sorted((n for n in names if snake(n) != n), key=lambda n: ("-" in n, n))
    for n in wanted:
        new = snake(n)
        where = tokens[n]
        if "-" in n and (new in taken or names[new] or tokens[new] & where):
            continue
        if names[new]:
            lemma = new + "_lem"
            print(f"falls together: {n} and the lemma {new}, which becomes {lemma}")
            table[new] = lemma
            taken[lemma] = new
        if new in taken:
            print(f"falls together: {n} and {taken[new]}")
            continue
        if any(new in fields[p] for p in where if p.endswith(".rt")):
            print(f"a field or parameter: {n} {new} {[p for p in where if new in fields[p]]}")
        table[n] = new
        taken[new] = n
    print(len(table), "names")
    if "--check" in sys.argv:
        return
    ported = turned_by_port(antt)
    if "--list" in sys.argv:
        print(" ".join(f"{a}={b}" for a, b in table.items()))
        return
    respell(table, made, {a: table.get(b, b) for a, b in ported.items()} | table)


def turn(text, table, stay=frozenset(), steps=frozenset(), comment=None):
    """Turns each name of the table but those that stay. Behind a dot a name with a dash turns only if it is none of the borrow checker's steps;
    in a comment it turns in a code span alone, since it may be a plain word there."""
    out, end = [], 0
    for m in TOKEN.finditer(text):
        t, at = m[0], m.start()
        if t not in table or t in stay:
            continue
        if "-" in t:
            if steps is not None and at and text[at - 1] == "." and t not in steps:
                continue
            line = text[text.rfind("\n", 0, at) + 1:at]
            if comment and comment in line and line[line.index(comment):].count("`") % 2 == 0:
                continue
        out.append(text[end:at] + table[t])
        end = m.end()
    return "".join(out) + text[end:]


def respell(table, made, all_names):
    """`table` turns the code, `all_names` what port.py left: edits and pages."""
    changed = 0
    members = {n for p in made for n in fields_of(p)}
    for p in files("crates", ".antt", ".rt", ".edit"):
        old = read(p)
        if p.endswith(".antt"):
            new = turn(old, table, made.get(p, frozenset()), members if is_walk(p) else None, "--")
        elif p.endswith(".rt"):
            new = turn(old, table, comment="//", steps=None)
        else:
            new = turn(old, all_names, steps=None)
        changed += write(p, old, new)
    for p in list(files("docs", ".md")) + ["README.md", "crates.txt"]:
        if "/landings/" in p:
            continue
        old = read(p)
        new = CODE.sub(lambda m: turn(m[0], all_names, steps=None), old)
        changed += write(p, old, new)
    print(changed, "files")


def write(p, old, new):
    if new == old:
        return 0
    with open(p, "w", encoding="utf-8") as f:
        f.write(new)
    return 1


main()
