#!/usr/bin/env python3
"""Respells this repository's own definitions and lemmas, once: words in snake case, types and modules in camel case.

usage: python3 tools/respell.py     at the top of a checkout, right after the kit's port.py

tools/respell.tsv has a row for each name: the old spelling, the new one and, where the row is for some files alone, the
beginning of their paths. Names turn in specs/, proofs/, the clauses of src/, must-fail edits and the code spans of pages.
Functions of src/ keep their names: what stands right behind `c.` is Rattle's label of a call and stays.
"""
import os
import re

WORD = re.compile(r"[^\s(){}\[\],;.«»:`|]+")
CLAUSE = re.compile(r"^\s*(?:ghost\b|requires\b|ensures\b)")


def table(path):
    rows = []
    with open(path, encoding="utf-8") as f:
        for line in f:
            if line.strip() and not line.startswith("#"):
                rows.append((line.rstrip("\n").split("\t") + [""])[:3])
    return rows


def turned(text, names, plain):
    """The text with each word of the table turned; a word without a dash or a capital turns only where `plain` says so."""

    def one(m):
        word = m[0]
        if word not in names or text[max(0, m.start() - 2) : m.start()] == "c.":
            return word
        if not plain and re.fullmatch(r"[a-z_]+", word):
            return word
        return names[word]

    return WORD.sub(one, text)


def turned_lines(text, names, comment, plain):
    """Line by line: a comment's words turn only where they have a dash or a capital within, and are names of the table."""
    out = []
    for line in text.split("\n"):
        code, mark, said = line.partition(comment) if comment in line else (line, "", "")
        if mark and code.strip():  # a comment behind code: take the line as code
            code, mark, said = line, "", ""
        out.append(turned(code, names, plain(line)) + mark + spans(said, names))
    return "\n".join(out)


def spans(text, names):
    """Words of prose turn in code spans, and elsewhere only where they have a capital within."""
    text = re.sub(r"`[^`\n]*`", lambda m: turned(m[0], names, False), text)
    camel = {n: m for n, m in names.items() if re.search("[a-z][A-Z]", n)}
    return turned(text, camel, False)


def in_clause(text):
    """For each line of a source file, whether it is part of a clause or of a ghost item."""
    inside, depth, marks = False, 0, {}
    for line in text.split("\n"):
        if not inside and CLAUSE.match(line):
            inside, depth = True, 0
        marks[line] = marks.get(line, False) or inside
        if inside:
            depth += line.count("{") - line.count("}")
            if depth <= 0 and ("{" in line or ";" in line or "}" in line):
                inside = False
    return marks


def main():
    here = os.path.dirname(os.path.abspath(__file__))
    rows = table(os.path.join(here, "respell.tsv"))
    top = os.getcwd()
    for folder, dirs, files in os.walk(top):
        dirs[:] = [d for d in dirs if d not in (".git", "out", "target", "tools")]
        for name in files:
            path = os.path.join(folder, name)
            rel = os.path.relpath(path, top)
            names = {a: b for a, b, where in rows if rel.startswith(where)}
            if not name.endswith((".antt", ".rt", ".edit", ".md")) or rel.startswith("docs/PORT"):
                continue
            with open(path, encoding="utf-8") as f:
                old = f.read()
            if name.endswith(".antt"):
                new = turned_lines(old, names, "--", lambda line: True)
            elif name.endswith(".rt"):
                marks = in_clause(old)
                new = turned_lines(old, names, "//", lambda line: marks.get(line, False))
            elif name.endswith(".edit"):
                new = turned_lines(old, names, "//", lambda line: "theorems.rt" in old or "ensures" in line)
            else:
                new = re.sub(r"`[^`\n]*`", lambda m: turned(m[0], names, False), old)
            if new != old:
                with open(path, "w", encoding="utf-8") as f:
                    f.write(new)


if __name__ == "__main__":
    main()
