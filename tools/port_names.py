#!/usr/bin/env python3
"""Brings the repository's own definitions and lemmas to snake case, as the library spells its own.

usage: python3 tools/port_names.py [ROOT]     once, right after the library's port.py, at the top of the repository

port_names.tsv beside this file has a row for each name: old, new, and whether it is a record's field. Whole words turn alone:
in .antt files and in the clauses of .rt files, in must-fail edits, and in the code spans of comments and of Markdown pages.
Behind a dot only a field turns, or what stands behind a module's name: other names there are made from the source.
Names that were in snake case already turn in .antt files only, where a definition takes their spelling.
"""
import os
import re
import sys

HERE = os.path.dirname(os.path.realpath(__file__))
WORD = re.compile(r"[^\s(){}.;,@\"«»\[\]`]+")
SPAN = re.compile(r"`[^`\n]*`")


def rows():
    table, fields = {}, set()
    with open(os.path.join(HERE, "port_names.tsv"), encoding="utf-8") as f:
        for line in f:
            old, new, kind = line.rstrip("\n").split("\t")
            table[old] = new
            if kind == "field":
                fields.add(old)
    return table, fields


TABLE, FIELDS = rows()
DASHED = {w: TABLE[w] for w in TABLE if re.search(r"[a-z0-9][A-Z]|-|[a-z][ℕℤ]|[a-z]R$", w)}


def turn(text, table):
    """The text with each word of the table turned."""

    def one(m):
        word = m[0]
        if word not in table:
            return word
        if m.start() and text[m.start() - 1] == "." and word not in FIELDS:
            head = re.search(r"[^\s(){};,\"«»\[\]`.]*$", text[: m.start() - 1])[0]
            if not (head in ALIASES or re.match(r"[A-Z]", head) and not re.search(r"[-']", head)):
                return word
        return table[word]

    return WORD.sub(one, text)


ALIASES = set()


def comment(text, table):
    return SPAN.sub(lambda m: turn(m[0], table), text)


def split(text, start, table):
    """Code and comments by turns: a comment goes from its sign to the line's end."""
    out = []
    for line in text.split("\n"):
        m = re.search(start, line)
        code, rest = (line[: m.start()], line[m.start() :]) if m else (line, "")
        out.append(turn(code, table) + comment(rest, table))
    return "\n".join(out)


def one_file(path):
    with open(path, encoding="utf-8") as f:
        text = f.read()
    ALIASES.clear()
    ALIASES.update(m[1] for m in re.finditer(r"(?m)^use [\w.+]+ as ([\w]+)$", text))
    ALIASES.discard("tie")
    if path.endswith(".antt"):
        new = split(text, r"(^|(?<=[\s(){}.;,]))--(?=\s|$)", TABLE)
    elif path.endswith(".rt"):
        new = split(text, r"//", DASHED)
    elif path.endswith(".edit"):
        antt = ".antt" in text.split("\n", 1)[0]
        new = turn(text, TABLE if antt else DASHED)
    else:
        new = comment(text, DASHED)
    if new != text:
        with open(path, "w", encoding="utf-8") as f:
            f.write(new)
    return new != text


def main():
    root = sys.argv[1] if len(sys.argv) > 1 else "."
    changed = 0
    for folder, dirs, files in os.walk(root):
        dirs[:] = [d for d in dirs if d not in (".git", "out")]
        for f in sorted(files):
            if f.endswith((".antt", ".rt", ".edit", ".md")):
                changed += one_file(os.path.join(folder, f))
    print(f"{changed} files changed")


main()
