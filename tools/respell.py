#!/usr/bin/env python3
"""Respells the repository's own definitions and lemmas by tools/respelled.tsv.

usage: python3 tools/respell.py        at the top of the repository, once, after the toolchain's own script has turned the rest

A row of the table is an old name, a tab and the new one, and may have a third column: the files, parted by spaces, to which it is limited.
Whole words alone are turned, all at once. In texts of the logic that is the code, but for quoted text, and the code spans of comments; in
sources the names of definitions, which no name of the code is spelled like; in pages the code spans.
"""
import os
import re
import sys

WORD = re.compile(r'[^\s(){}.;,@"«»`]+')
QUIET = re.compile(r'"(?:[^"\\\n]|\\.)*"|--[^\n]*')
SPAN = re.compile(r"`[^`\n]*`")


def table(path):
    everywhere, limited = {}, []
    with open(path, encoding="utf-8") as f:
        for line in f:
            row = line.rstrip("\n").split("\t")
            if len(row) > 2:
                limited.append((row[0], row[1], set(row[2].split())))
            elif len(row) == 2:
                everywhere[row[0]] = row[1]
    return everywhere, limited


def words(text, names):
    return WORD.sub(lambda m: names.get(m[0], m[0]), text)


def bare(word):
    return re.fullmatch(r"[A-Za-z0-9_]+", word) is not None


def logic(text, names):
    """Code, and in comments the code spans and the names that only code is spelled like."""
    out, at = [], 0
    camel = {a: b for a, b in names.items() if bare(a) and re.search("[a-z0-9][A-Z]", a)}
    for m in QUIET.finditer(text):
        out.append(words(text[at : m.start()], names))
        quiet = m[0]
        if quiet.startswith("--"):
            quiet = SPAN.sub(lambda s: words(s[0], names), quiet)
            quiet = words(quiet, camel)
        out.append(quiet)
        at = m.end()
    out.append(words(text[at:], names))
    return "".join(out)


def source(text, names):
    plain = {a: b for a, b in names.items() if bare(a) and re.search("[a-z0-9][A-Z]", a)}
    return re.sub(r"[A-Za-z0-9_]+", lambda m: plain.get(m[0], m[0]), text)


def page(text, names):
    return SPAN.sub(lambda s: words(s[0], names), text)


def main():
    here = os.path.dirname(os.path.realpath(__file__))
    everywhere, limited = table(os.path.join(here, "respelled.tsv"))
    for folder, folders, files in os.walk("."):
        folders[:] = sorted(d for d in folders if d not in ("out", ".git", "target"))
        for name in sorted(files):
            path = os.path.join(folder, name)[2:]
            names = everywhere | {old: new for old, new, only in limited if path in only}
            if path.startswith("crates/") and name.endswith(".antt"):
                turn = logic
            elif path.startswith("crates/") and name.endswith(".rt"):
                turn = source
            elif name.endswith(".md") and not path.startswith("docs/PORT"):
                turn = page
            else:
                continue
            with open(path, encoding="utf-8") as f:
                text = f.read()
            turned = turn(text, names)
            if turned != text:
                with open(path, "w", encoding="utf-8") as f:
                    f.write(turned)
    return 0


if __name__ == "__main__":
    sys.exit(main())
