#!/usr/bin/env python3
"""Spells the definitions and lemmas of this repository as today's Rattle does: words in snake case, a dash only between the
names of two functions or facts, and `_lem` after a lemma that would have its function's name.

usage: tools/spell.py [FOLDER [TABLE]]      FOLDER: a checkout of this repository, brought to today's Rattle; this one by default

TABLE has a row for each name: old, a tab, new. It is spelling.tsv beside this script by default; spelling-rest.tsv has the names
that were left, and is run after it. What turns: names in .antt files; in .rt files and must-fail
edits; in the code spans and code blocks of README.md and docs/. A name that a file imports from a library stays there.
It is run once, right after port.py: some old names are others' new ones.
"""

import os
import re
import sys

HERE = os.path.dirname(os.path.realpath(__file__))
WORD = re.compile(r'[^\s(){}.;,@"«»\[\]`]+')
USE = re.compile(r"^[ \t]*(?:pub )?(?:ghost )?use\s+([^\s;{]+?)(?:\.?\{([^}]*)\})?(?:\s+as\s+(\S+?))?\s*;?\s*$", re.M)
SPAN = re.compile(r"(^```.*?^```|`[^`\n]+`)", re.M | re.S)


def table(path):
    with open(path, encoding="utf-8") as f:
        return dict(line.rstrip("\n").split("\t") for line in f if line.strip())


def of_libraries(text, crates):
    """The names that the file imports from elsewhere than this repository's crates."""
    names = set()
    for m in USE.finditer(text):
        steps = m[1].rstrip(".").split(".")
        if "::" in m[1] or (steps[0] == "Rattle" and len(steps) > 1 and steps[1] in crates):
            continue
        for item in (m[2] or "").split(","):
            names.update(w.strip() for w in item.split(" as ") if w.strip())
    return names


def spelled(text, names, skip):
    def one(m):
        # a module of Rattle's, named after a function of src/
        of_function = re.match(r"\.[A-Z]", text[m.end() : m.end() + 2]) and is_rust(m[0])
        return m[0] if m[0] not in names or m[0] in skip or of_function else names[m[0]]

    return WORD.sub(one, text)


def is_rust(name):
    return re.fullmatch(r"[a-z0-9_]+", name) is not None


def main():
    root = sys.argv[1] if len(sys.argv) > 1 else os.path.dirname(HERE)
    names = table(sys.argv[2] if len(sys.argv) > 2 else os.path.join(HERE, "spelling.tsv"))
    of_clauses = {old: new for old, new in names.items() if not is_rust(old)}
    crates = set(os.listdir(os.path.join(root, "crates")))
    changed = 0
    paths = [os.path.join(root, "README.md")]
    for top in ("crates", "docs"):
        for folder, dirs, files in os.walk(os.path.join(root, top)):
            dirs[:] = [d for d in dirs if d != "out"]
            paths += [os.path.join(folder, f) for f in files]
    for path in sorted(paths):
        kind = path.rsplit(".", 1)[-1]
        if kind not in ("antt", "rt", "edit", "md"):
            continue
        with open(path, encoding="utf-8") as f:
            old = f.read()
        if kind == "md":
            new = SPAN.sub(lambda m: spelled(m[0], names, ()), old)
        elif kind == "edit":
            new = re.sub(r"(?m)^(old|new):.*$", lambda m: spelled(m[0], of_clauses, ()), old)
        elif kind == "rt":
            new = spelled(old, of_clauses, of_libraries(old, crates))
        else:
            new = spelled(old, names, of_libraries(old, crates))
        if new != old:
            changed += 1
            with open(path, "w", encoding="utf-8") as f:
                f.write(new)
    print(f"spell: {changed} files changed")


if __name__ == "__main__":
    main()
