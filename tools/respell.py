#!/usr/bin/env python3
"""Brings the repository's own names to today's spelling: words in snake case, types and facts in camel case.

usage: python3 tools/respell.py [ROOT]      in a repository that port.py has turned and this script has not; ROOT is the folder to turn, else the current one

respell.tsv, beside this file, has a line for each name: the old spelling, a tab, the new one. A name is replaced where it stands as a whole word:
in the definitions, proofs and edits, and in the clauses of the sources. Program text, strings and names that the sources declare are left as they are.
In comments and pages only words in camel case, and words between backticks, are names; what is quoted there from a document or a paper stays.
The names that port.py itself turned are in the list too, for the pages and edits, which it leaves alone.
"""

import os
import re
import sys

HERE = os.path.dirname(os.path.realpath(__file__))
with open(os.path.join(HERE, "respell.tsv"), encoding="utf-8") as f:
    NAMES = dict(line.rstrip("\n").split("\t") for line in f)

# What ends a name in the language of proofs.
ENDS = r"\s(){}\[\];,.:«»⌜⌝λ→×=`\""
WORD = re.compile(f"[^{ENDS}]+")
CAMEL = re.compile(r"\b[a-z]+[A-Z][A-Za-z0-9]*\b")
QUOTED = re.compile(r"`[^`]*`")
STRING = re.compile(r'"(?:[^"\\]|\\.)*"')


def words(text):
    return WORD.sub(lambda m: NAMES.get(m.group(), m.group()), text)


def prose(text):
    parts = STRING.split(text)
    kept = STRING.findall(text) + [""]
    text = "".join(CAMEL.sub(lambda m: NAMES.get(m.group(), m.group()), a) + b for a, b in zip(parts, kept))
    return QUOTED.sub(lambda m: words(m.group()), text)


def proof_line(line):
    code, mark, comment = line.partition("-- ") if line.lstrip().startswith("--") else (line, "", "")
    return words(code) + mark + prose(comment)


def source_line(line):
    code, mark, comment = line.partition("//")
    parts = STRING.split(code)
    kept = STRING.findall(code) + [""]
    return "".join(words(a) + b for a, b in zip(parts, kept)) + mark + prose(comment)


def turn(path):
    with open(path, encoding="utf-8") as f:
        old = f.read()
    by = {".antt": proof_line, ".edit": proof_line, ".rt": source_line, ".md": prose}[os.path.splitext(path)[1]]
    new = "".join(by(line) for line in old.splitlines(keepends=True))
    if new != old:
        with open(path, "w", encoding="utf-8") as f:
            f.write(new)
    return new != old


def main():
    root = sys.argv[1] if len(sys.argv) > 1 else "."
    changed = 0
    for top, ends in (("crates", (".antt", ".edit", ".rt")), ("docs", (".md",)), ("README.md", (".md",))):
        top = os.path.join(root, top)
        files = [top] if os.path.isfile(top) else [os.path.join(d, f) for d, ds, fs in os.walk(top) if "/out" not in d for f in fs]
        for path in sorted(files):
            if path.endswith(ends):
                changed += turn(path)
    print(f"respell: {changed} files changed")


main()
