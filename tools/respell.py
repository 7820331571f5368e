#!/usr/bin/env python3
"""Spells the repository's own definitions and lemmas in snake case, by the table respell.tsv beside this file.

usage: python3 tools/respell.py [FOLDER]

FOLDER is the top of a checkout on which port.py ran (default: the one that this file stands in). A row of the table is an old name, a tab, a new one. Whole names
alone turn, all at once: in .antt files everywhere, in .rt files in clauses, `ghost use` items and comments, in the texts of .edit files likewise, in .md files in
code spans. In comments a name with a dash turns only in a code span. A name behind a dot in a function's proof is one that the check makes of the source, and
gets the source's spelling. Functions of src/, exported names, strings, inputs and outputs keep their names.
"""
import os
import re
import sys

HERE = os.path.dirname(os.path.realpath(__file__))
WORD = re.compile(r"[^\s(){}.;,@\"«»\[\]`]+")
SPAN = re.compile(r"`[^`\n]*`")
PLAIN = re.compile(r"(?<![\w'·-])[a-z][A-Za-z0-9]*[A-Z][A-Za-z0-9]*(?![\w'-])")
MODULE = re.compile(r"^\s*(?:pub )?(?:use|mod)\b|^\s*ghost use\b")
CLAUSE = re.compile(r"^\s*(?:requires|ensures|ghost use|ghost)\b")


def table():
    rows = {}
    with open(os.path.join(HERE, "respell.tsv"), encoding="utf-8") as f:
        for line in f:
            old, new = line.rstrip("\n").split("\t")
            rows[old] = new
    return rows


ROWS = table()


def code(text, line, proof):
    """The code of a line: every name, but for a module of the source called as a tactic is."""

    def turn(m):
        name = m.group()
        new = ROWS.get(name)
        if new is None:
            return name
        if name == "ground" and MODULE.match(line):
            return name
        if proof and "-" in name and m.start() > 0 and text[m.start() - 1] == ".":
            return name.replace("-", "_")
        return new

    return WORD.sub(turn, text)


def prose(text):
    """A comment: names in code spans, and outside them those whose capitals show that they are names."""
    out, at = [], 0
    for m in SPAN.finditer(text):
        out.append(plain(text[at : m.start()]))
        out.append(WORD.sub(lambda w: w.group() if w.group() == "ground" else ROWS.get(w.group(), w.group()), m.group()))
        at = m.end()
    out.append(plain(text[at:]))
    return "".join(out)


def plain(text):
    return PLAIN.sub(lambda w: ROWS.get(w.group(), w.group()), text)


def antt(text, proof):
    out = []
    for line in text.split("\n"):
        m = re.search(r"(?:^|\s)--", line)
        cut = m.start() if m else len(line)
        out.append(code(line[:cut], line, proof) + prose(line[cut:]))
    return "\n".join(out)


def rt(text):
    out = []
    depth = 0
    for line in text.split("\n"):
        if line.lstrip().startswith("//"):
            out.append(prose(line))
            continue
        if depth or CLAUSE.match(line):
            depth += line.count("{") - line.count("}")
            if line.rstrip().endswith(";") and "ghost use" in line:
                depth = 0
            out.append(code(line, line, False))
            depth = max(depth, 0)
        else:
            out.append(plain(line))
    return "\n".join(out)


def edit(text):
    kind = "specs" if re.search(r"(?m)^file: .*\.antt$", text) else "src"
    out = []
    for line in text.split("\n"):
        m = re.match(r"(old|new): ", line)
        if m and kind == "specs":
            out.append(m.group() + antt(line[m.end() :], False))
        elif m:
            out.append(m.group() + rt(line[m.end() :]))
        else:
            out.append(prose(line))
    return "\n".join(out)


def md(text):
    return SPAN.sub(lambda m: m.group() if " " in m.group() and "/" in m.group() else WORD.sub(lambda w: w.group() if w.group() == "ground" else ROWS.get(w.group(), w.group()), m.group()), text)


def turned(path, text):
    if path.endswith(".antt"):
        return antt(text, os.path.basename(path) == "Proof.antt")
    if path.endswith(".rt"):
        return rt(text)
    if path.endswith(".edit"):
        return edit(text)
    return md(text)


def main():
    root = sys.argv[1] if len(sys.argv) > 1 else os.path.dirname(HERE)
    count = 0
    for part in ("crates", "tests", "docs", "README.md", "rust/README.md", "examples"):
        top = os.path.join(root, part)
        places = [(os.path.dirname(top), [], [os.path.basename(top)])] if os.path.isfile(top) else os.walk(top)
        for folder, folders, files in places:
            folders[:] = [f for f in folders if f not in ("out", "target", ".git")]
            for name in files:
                if not name.endswith((".antt", ".rt", ".edit", ".md")) or name.startswith("PORT"):
                    continue
                path = os.path.join(folder, name)
                with open(path, encoding="utf-8") as f:
                    old = f.read()
                new = turned(path, old)
                if new != old:
                    with open(path, "w", encoding="utf-8") as f:
                        f.write(new)
                    count += 1
    print(f"respell: {count} files")


main()
