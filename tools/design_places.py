#!/usr/bin/env python3
"""The places of docs/DESIGN-PASS.md in crates/*/src: one line for each, so that a count is a count of lines.

usage: tools/design_places.py POINT [FOLDER]

POINT is one of
    answers     1: enums with a case that refuses or that is nothing beside a case with a value, functions that answer a
                   refusal by itself, numbers in place of a kind or of a rule
    twins       2: functions whose bodies are the same but for names, types, numbers and constants, group by group
    loops       3: `while`, `loop`, and `for` over a range of numbers
    by_hand     4: types without derived equality and printing; functions that compare, convert or print by hand
    together    5: functions with six parameters or more; `requires` that stand three times or more
    buffers     6: a start or a place with a length beside it, and arrays with a count beside them
    steps       7: functions that take which step to run, and records of constants that choose it
    answered    8: answers in proofs/ (entries), lines that only rename a goal's record, and imports past std's own names

FOLDER is the top of a checkout; here, if none is given.
"""
import collections
import glob
import os
import re
import sys


def sources(kind="src/*.rt"):
    for path in sorted(glob.glob("crates/*/" + kind, recursive=True)):
        with open(path, encoding="utf-8") as f:
            yield path[len("crates/"):], f.read()


def line_of(text, at):
    return text.count("\n", 0, at) + 1


def functions(text):
    """name, parameters, what stands before the body, body, place of each function."""
    for m in re.finditer(r"\bfn (\w+)(?:<[^>(]*>)?\(", text):
        depth, i = 1, m.end()
        while depth:
            depth += {"(": 1, ")": -1}.get(text[i], 0)
            i += 1
        params = text[m.end():i - 1]
        body = re.compile(r"^( *)\{$|\{$|;$", re.M)
        b = body.search(text, i)
        if not b or text[b.start():b.end()].endswith(";"):
            continue
        start = text.index("{", b.start())
        depth, j = 1, start + 1
        while depth:
            depth += {"{": 1, "}": -1}.get(text[j], 0)
            j += 1
        yield m.group(1), params, text[i:start], text[start + 1:j - 1], m.start()


def names_of(params):
    return [p.split(":")[0].strip() for p in params.split(",") if ":" in p]


def answers():
    for path, text in sources():
        for m in re.finditer(r"^(?:pub(?:\(\w+\))? )?enum (\w+)[^{]*\{(.*?)^\}", text, re.M | re.S):
            cases = re.findall(r"^    (\w+)(.?)", m.group(2), re.M)
            empty = [n for n, more in cases if more == ","]
            full = [n for n, more in cases if more != ","]
            if "Refused" in full or (len(cases) == 2 and len(empty) == 1 and len(full) == 1):
                yield path, line_of(text, m.start()), "enum " + m.group(1)
        for m in re.finditer(r"-> Refusal\b", text):
            yield path, line_of(text, m.start()), "a refusal by itself"
        for m in re.finditer(r"pub struct Refusal\(pub u32\)|^    pub kind: u32,$|\brule: u8\b|Broken\(u8|fn \w*(?:kind|class_of|order_of)\w*\([^)]*: u8\)",
                             text, re.M):
            yield path, line_of(text, m.start()), "a number for a kind: " + m.group(0).strip()


def shape(body):
    words = re.findall(r"[A-Za-z_]\w*|[0-9][\w.]*|\S", re.sub(r"//.*", "", body))
    keep = {"if", "else", "while", "for", "loop", "match", "return", "let", "mut", "in", "as", "break", "true", "false", "self"}
    return tuple(w if w in keep or not re.match(r"\w", w) else "_" for w in words)


def twins():
    groups = collections.defaultdict(list)
    for path, text in sources():
        for name, params, _, body, at in functions(text):
            if len(shape(body)) >= 24 and "no_mangle" not in text[max(0, at - 60):at]:
                groups[shape(body)].append((path, line_of(text, at), "fn " + name))
    for n, group in enumerate(sorted(g for g in groups.values() if len(g) > 1)):
        for path, line, what in group:
            yield path, line, "group %d: %s" % (n + 1, what)


def loops():
    for path, text in sources():
        for m in re.finditer(r"^\s*(?:let \w+ = )?(?:'\w+: )?(while .*|loop) \{|^\s*(for \w+ in .*\.\..*) \{", text, re.M):
            yield path, line_of(text, m.end()), m.group(1) or m.group(2)


def by_hand():
    for path, text in sources():
        for m in re.finditer(r"((?:^#\[.*\]\n)*)^(?:pub(?:\(\w+\))? )?(?:struct|enum) (\w+)", text, re.M):
            if "repr(C)" not in m.group(1) and "PartialEq" not in m.group(1):
                yield path, line_of(text, m.end()), "type " + m.group(2)
        for name, params, head, body, at in functions(text):
            ladder = len(re.findall(r"if [^{]*(?:!=|==)[^{]*\{\s*return (?:true|false);", body))
            if ladder >= 2:
                yield path, line_of(text, at), "compares by hand: fn %s" % name
            elif re.search(r"-> (?:Class|Order|Align|Need|SegmentKind|u\d+|usize)\b", head) and \
                    len(re.findall(r"^\s*[\w:]+ => [\w:]+,$", body, re.M)) >= 2:
                yield path, line_of(text, at), "converts by hand: fn %s" % name
            elif re.match(r"put_(?:refusal|number|hidden)$", name):
                yield path, line_of(text, at), "prints by hand: fn %s" % name


def together():
    needs = collections.defaultdict(list)
    for path, text in sources():
        for name, params, head, _, at in functions(text):
            if len(names_of(params)) >= 6 and "no_mangle" not in text[max(0, at - 60):at]:
                yield path, line_of(text, at), "%d parameters: fn %s" % (len(names_of(params)), name)
            for clause in re.findall(r"requires (?:\w+ )?\{(.*?)\}\s*$", head, re.M):
                needs[" ".join(clause.split())].append((path, line_of(text, at), name))
    for clause, where in sorted(needs.items()):
        if len(where) >= 3:
            for path, line, name in where:
                yield path, line, "requires %s: fn %s" % (clause, name)


def buffers():
    for path, text in sources():
        for m in re.finditer(r"^( *)(?:pub )?(start|name|descriptor): \w+,?\s*(?:pub )?(len|namesz|descsz|size): \w+", text, re.M):
            yield path, line_of(text, m.start()), "%s with %s" % (m.group(2), m.group(3))
        for m in re.finditer(r"\bAt \{ start: usize, len: usize \}", text):
            yield path, line_of(text, m.start()), "start with len"


def steps():
    for path, text in sources():
        for m in re.finditer(r"^const \w+: (\w*Shape) =", text, re.M):
            yield path, line_of(text, m.start()), "a record of constants: " + m.group(1)
        for name, params, _, body, at in functions(text):
            if re.search(r"\bwhich: ", params) and "match " in body:
                yield path, line_of(text, at), "chooses: fn %s" % name
            if re.match(r"lowest_|least_|first_from", name) and re.search(r"\bwhile |\bfor ", body):
                yield path, line_of(text, at), "one search, another test: fn %s" % name


def answered():
    for path, text in sources("proofs/**/Answers.antt"):
        for m in re.finditer(r"^pub ([\w\-':]+) : goal", text, re.M):
            yield path, line_of(text, m.start()), "answer " + m.group(1)
        for m in re.finditer(r"^ *let [\w-]+ = c in$|^ *let [\w-]+ = (?:called|tested|read|told|at-loop|past) in$", text, re.M):
            yield path, line_of(text, m.start()), "renames: " + m.group(0).strip()
        for m in re.finditer(r"^use (?:mathlib|Prim|native|lib|borrow)\.\S+", text, re.M):
            yield path, line_of(text, m.start()), "imports: " + m.group(0)


def main():
    if len(sys.argv) < 2 or sys.argv[1] not in ("answers", "twins", "loops", "by_hand", "together", "buffers", "steps", "answered"):
        sys.exit(__doc__)
    if len(sys.argv) > 2:
        os.chdir(sys.argv[2])
    for path, line, what in globals()[sys.argv[1]]():
        print("%s:%d: %s" % (path, line, what))


main()
