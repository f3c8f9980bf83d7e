#!/usr/bin/env python3
"""Brings this repository's own definitions and lemmas to today's spelling: words in snake case.

usage: tools/port_names.py [ROOT]          respells crates/ below ROOT
       tools/port_names.py ROOT --table    prints the names, old and new
       tools/port_names.py ROOT --force    respells also where two names fall together

Run once, on the tree that the kit's port.py has turned. `symbolName` becomes `symbol_name`. A dash in a lemma's name
stays where it joins a definition to one of the words of STD, as in `times-append`, and where the lemma has a level before its
colon, which this script does not read; elsewhere it is `_`. A lemma that would get the name of a definition ends in
`_lem`. Functions of src/, exported C names, strings, inputs and outputs keep their names. It stops where two names
would fall together in one .antt file, imports' paths and fields left out.
"""
import os
import re
import sys

ROOT = sys.argv[1] if len(sys.argv) > 1 else "."
WORD = r"A-Za-z0-9_'"
CAMEL = re.compile(rf"(?<![{WORD}\\])[a-z][a-z0-9]*[A-Z][A-Za-z0-9]*(?![{WORD}])")
DECLARED = re.compile(r"^(?:abbrev |unfoldable |pub |data |record )*([A-Za-z_][^\s:{(]*)\s+:\s+(\S+)", re.M)
# Also inside a module of a file.
INNER = re.compile(r"^ +(?:abbrev |unfoldable |pub )*([a-z][A-Za-z0-9_'\-]*)\s+:\s+(\S+)", re.M)
NOT_NAMES = {"gABI"}
# Names of std whose words a lemma's name may join by a dash.
STD = {"append", "length", "map", "add", "le", "lt", "foldl", "times"}
# Two names that would fall together: the lemma ends in _lem, as everywhere where it would have its function's name.
CHOSEN = {"longest_run": "longest_run_lem"}


def files(root, endings):
    for top in ("crates",):
        for folder, dirs, names in os.walk(os.path.join(root, top)):
            dirs[:] = sorted(d for d in dirs if d != "out")
            for n in sorted(names):
                if n.endswith(endings):
                    yield os.path.join(folder, n)


def snake(word):
    return re.sub(r"([a-z0-9])([A-Z])", lambda m: m[1] + "_" + m[2].lower(), word)


def dashed(name, known):
    parts = name.split("-")
    out = snake(parts[0])
    for left, right in zip(parts, parts[1:]):
        joins = right in STD and left in known
        out += ("-" if joins else "_") + snake(right)
    return out


def renames(root):
    camels, lemmas, own = set(), {}, set()
    for p in files(root, (".antt", ".rt")):
        t = open(p, encoding="utf-8").read()
        if p.endswith(".antt"):
            camels |= set(CAMEL.findall(t))
            inner = [] if p.endswith("Proof.antt") else INNER.findall(t)
            for name, kind in DECLARED.findall(t) + inner:
                if kind.startswith("tie.") or name.endswith("-spec"):
                    continue
                if "-" in name:
                    lemmas.setdefault(name, p)
                elif f"{os.sep}specs{os.sep}" in p or re.search(rf"^ *(abbrev|unfoldable) (pub )?{re.escape(name)} ", t, re.M):
                    own.add(name)
    known = own | STD
    table = {c: snake(c) for c in camels - NOT_NAMES}
    taken = own | set(table.values())
    for name in lemmas:
        new = dashed(name, known)
        table[name] = new + "_lem" if new in taken else new
    table.update(CHOSEN)
    return {a: b for a, b in table.items() if a != b}


def pattern(table):
    names = sorted(table, key=len, reverse=True)
    return re.compile(rf"(?<![{WORD}\-\\])(" + "|".join(map(re.escape, names)) + rf")(?![{WORD}\-])")


TOKEN = re.compile(r"[A-Za-z_][A-Za-z0-9_'\-]*")
STRING = re.compile(r'"(?:[^"\\\n]|\\.)*"')


def turned(text, table, rule, keep_strings):
    if not keep_strings:
        return rule.sub(lambda m: table[m[1]], text)
    out, at = [], 0
    for m in STRING.finditer(text):
        out.append(rule.sub(lambda k: table[k[1]], text[at:m.start()]))
        out.append(m[0])
        at = m.end()
    out.append(rule.sub(lambda k: table[k[1]], text[at:]))
    return "".join(out)


def main():
    table = renames(ROOT)
    if "--table" in sys.argv:
        print("\n".join(f"{a} {b}" for a, b in sorted(table.items())))
        return 0
    rule = pattern(table)
    clashes = []
    for p in files(ROOT, (".antt",)):
        t = open(p, encoding="utf-8").read()
        code = re.sub(r"--.*", "", t)
        code = re.sub(r"^use [^{\n]*", "", code, flags=re.M)
        tokens = set(TOKEN.findall(re.sub(r"\.[a-z][\w'\-]*|\b[a-z]\w* = ", " ", code)))
        here = {}
        for m in rule.finditer(code):
            here.setdefault(table[m[1]], set()).add(m[1])
        for new, olds in here.items():
            if len(olds) > 1 or new in tokens - set(table):
                clashes.append(f"{p}: {sorted(olds)} -> {new}")
    if clashes:
        print("\n".join(clashes))
        print(f"{len(clashes)} clashes; nothing was written")
        if "--force" not in sys.argv:
            return 1
    n = 0
    for p in list(files(ROOT, (".antt", ".rt"))):
        t = open(p, encoding="utf-8").read()
        new = turned(t, table, rule, p.endswith(".rt"))
        if new != t:
            open(p, "w", encoding="utf-8").write(new)
            n += 1
    print(f"{len(table)} names, {n} files")
    return 0


if __name__ == "__main__":
    raise SystemExit(main())
