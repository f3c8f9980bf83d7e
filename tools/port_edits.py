#!/usr/bin/env python3
"""The must-fail edits of crates/*/must-fail: which of them do not apply, and what each changes beside what it changed before.

usage: tools/port_edits.py                  lists each edit that does not apply in this tree, and why
       tools/port_edits.py COMMIT [NAME..]  prints, for each edit (of the crates NAME), the lines that it changes in COMMIT's
                                            tree and those that it changes in this one
       tools/port_edits.py COMMIT --differ  the same, only of those whose changed words differ

An edit applies where each `old:` text stands exactly once in its file; further pairs apply to what the earlier ones made.
Run at the top of the repository.
"""
import difflib
import glob
import re
import subprocess
import sys


def here(path):
    with open(path, encoding="utf-8") as f:
        return f.read()


def at(commit):
    def read(path):
        return subprocess.run(["git", "show", f"{commit}:{path}"], capture_output=True, text=True, check=True).stdout

    return read


def applied(path, read):
    """Returns the file that the edit names, its text, and its text with the edit, or raises ValueError with the reason."""
    crate = path.split("/must-fail/")[0]
    texts, name, old = {}, None, None
    for line in read(path).split("\n"):
        if line.startswith("file: "):
            name = f"{crate}/{line[6:].strip()}"
            if name not in texts:
                text = read(name)
                texts[name] = [text, text]
        elif line.startswith("old: "):
            old = line[5:]
        elif line.startswith("new:"):
            new = line[4:].removeprefix(" ")
            found = texts[name][1].count(old)
            if found != 1:
                raise ValueError(f"{found} times in {name}: {old}")
            texts[name][1] = texts[name][1].replace(old, new)
    if any(a == b for a, b in texts.values()):
        raise ValueError("it changes nothing")
    return texts


def changed(path, read):
    """Returns the lines that the edit takes away and puts in, each with its mark."""
    out = []
    for name, (before, after) in applied(path, read).items():
        for line in difflib.unified_diff(before.split("\n"), after.split("\n"), "", "", lineterm="", n=0):
            if line[:3] not in ("---", "+++", "@@ "):
                out.append(line)
    return out


def words(lines):
    """Returns the words by which the taken and the put lines differ, in a form in which spelling counts little."""
    def plain(sign):
        text = " ".join(l[1:] for l in lines if l[0] == sign)
        return re.findall(r"\w+|[^\w\s]", re.sub(r"([a-z0-9])([A-Z])", r"\1_\2", text).lower())

    a, b = plain("-"), plain("+")
    parts = difflib.SequenceMatcher(None, a, b, autojunk=False).get_opcodes()
    return [(" ".join(a[i:j]), " ".join(b[k:l])) for kind, i, j, k, l in parts if kind != "equal"]


def main(args):
    edits = sorted(glob.glob("crates/*/must-fail/*.edit"))
    if not args:
        bad = 0
        for path in edits:
            try:
                applied(path, here)
            except (ValueError, OSError) as why:
                bad += 1
                print(f"{path}: {why}")
        print(f"{len(edits)} edits, {bad} do not apply")
        return 1 if bad else 0
    before = at(args[0])
    names = [a for a in args[1:] if a != "--differ"]
    for path in edits:
        if names and path.split("/")[1] not in names:
            continue
        if subprocess.run(["git", "cat-file", "-e", f"{args[0]}:{path}"], capture_output=True).returncode:
            print(f"== {path}\n  new since then")
            continue
        a, b = changed(path, before), changed(path, here)
        if "--differ" in args and words(a) == words(b):
            continue
        print("\n".join([f"== {path}", *a, "  now", *b]))
    return 0


if __name__ == "__main__":
    raise SystemExit(main(sys.argv[1:]))
