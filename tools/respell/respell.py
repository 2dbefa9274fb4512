#!/usr/bin/env python3
"""Brings the repository's own names of definitions and lemmas to the spelling of today's Rattle: definitions and fields
in snake case, lemmas too, a dash only between two names of definitions.

usage: python3 tools/respell/respell.py [ROOT]      once, after port.py

names.txt, beside this file, has a line for each name, `old new`. A line `PATH old new` holds of that file alone.
It reads specs/, proofs/, the clauses and ghost items of src/ and the must-fail edits of every crate below ROOT/crates,
and in pages the names between backquotes.
"""

import glob
import os
import re
import sys

HERE = os.path.dirname(os.path.realpath(__file__))
TOKEN = re.compile(r"[^\s(){}\[\];,.@\"«»]+")
WORD = re.compile(r"(?<![\w'-])[a-z][\w']*(?![\w'-])")
QUOTED = re.compile(r"`[^`\n]+`")
PAGES = ["README.md", "docs/*.md", "host/*.md", "host/peers/*.md"]


def names():
    everywhere, single = {}, {}
    for line in open(os.path.join(HERE, "names.txt"), encoding="utf-8"):
        parts = line.split()
        if len(parts) == 2:
            everywhere[parts[0]] = parts[1]
        elif len(parts) == 3:
            single.setdefault(parts[0], {})[parts[1]] = parts[2]
    return everywhere, single


def turned(pattern, text, table):
    return pattern.sub(lambda m: table.get(m.group(0), m.group(0)), text)


def code(text, table, comment):
    """A file of definitions, proofs or code: outside comments each token, inside them words in camel case."""
    camel = {k: v for k, v in table.items() if "-" not in k and k.lower() != k}
    out = []
    for line in text.split("\n"):
        at = re.search(comment, line)
        at = at.start() if at else len(line)
        out.append(turned(TOKEN, line[:at], table) + turned(WORD, line[at:], camel))
    return "\n".join(out)


def quoted(text, table):
    return QUOTED.sub(lambda m: turned(TOKEN, m.group(0)[1:-1], table).join("``"), text)


def main(root):
    everywhere, single = names()
    found = []
    for ending, comment in (("specs/**/*.antt", r"(?<!\S)--(?!\S)"), ("proofs/**/*.antt", r"(?<!\S)--(?!\S)"), ("src/**/*.rt", r"//"), ("must-fail/*.edit", r"^#")):
        found += [(p, comment) for p in glob.glob(os.path.join(root, "crates", "*", ending), recursive=True)]
    pages = [p for page in PAGES for p in glob.glob(os.path.join(root, page))]
    changed = 0
    for path, comment in found + [(p, None) for p in pages]:
        old = open(path, encoding="utf-8").read()
        table = everywhere | single.get(os.path.relpath(path, root), {})
        new = code(old, table, comment) if comment else quoted(old, table)
        if new != old:
            open(path, "w", encoding="utf-8").write(new)
            changed += 1
    print(f"respell: {len(everywhere)} names, {changed} files changed")


main(sys.argv[1] if len(sys.argv) > 1 else ".")
