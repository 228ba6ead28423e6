#!/usr/bin/env python3
"""Brings the repository's own words of specs/ and proofs/ to the spelling of today's Rattle: words in snake case, types
and modules in camel case. The words stand in respell.tsv beside this file, old and new.

usage: python3 tools/respell.py [FOLDER]      once, right after port.py; FOLDER is the repository, here by default

Words are turned in .antt files, in the clauses of .rt files and in the texts of must-fail edits; in comments, README.md and
docs/ where they stand between backticks or have a capital inside. Functions of src/, exported names and strings stay.
"""
import os
import re
import sys

HERE = os.path.dirname(os.path.realpath(__file__))
ROOT = sys.argv[1] if len(sys.argv) > 1 else os.path.dirname(HERE)
WORD = re.compile(r"[A-Za-z_◌ℕℤ][\w'◌ℕℤ\-]*")

table = dict(l.rstrip("\n").split("\t") for l in open(os.path.join(HERE, "respell.tsv"), encoding="utf-8"))
# Lemmas that had a snake case name already, and would now have their function's.
lemmas = {old for old, new in table.items() if new == old + "_lem"}


def in_code(text, walk, imports=()):
    def turn(m):
        w = m.group(0)
        after_dot = text[max(0, m.start() - 1) : m.start()] == "."
        if w in lemmas:
            return table[w] if not (walk and (after_dot or w not in imports)) else w
        if walk and after_dot and table.get(w, "").endswith("_lem"):
            return w
        return table.get(w, w)

    return WORD.sub(turn, text)


def in_words(text):
    """In a comment or a page: between backticks, and words with a capital inside."""
    text = re.sub(r"`[^`\n]*`", lambda m: WORD.sub(lambda w: w.group(0) if w.group(0) in lemmas else table.get(w.group(0), w.group(0)), m.group(0)), text)
    return WORD.sub(lambda m: table[m.group(0)] if re.search(r"[a-z0-9][A-Z]", m.group(0)) and m.group(0) in table else m.group(0), text)


def lines(text, mark, code):
    out = []
    for l in text.split("\n"):
        at = l.find(mark)
        if at < 0:
            out.append(code(l))
        else:
            out.append(code(l[:at]) + in_words(l[at:]))
    return "\n".join(out)


def write(path, old, new):
    if old != new:
        with open(path, "w", encoding="utf-8") as f:
            f.write(new)


def main():
    for folder, dirs, files in os.walk(os.path.join(ROOT, "crates")):
        dirs[:] = sorted(d for d in dirs if d != "out")
        for f in sorted(files):
            p = os.path.join(folder, f)
            if not f.endswith((".antt", ".rt", ".edit")):
                continue
            text = open(p, encoding="utf-8").read()
            if f.endswith(".antt"):
                walk = "/proofs/" in p and not re.search(r"/proofs/[^/]*\.antt$", p)
                imports = set()
                for m in re.finditer(r"^use Rattle\.\w+\.specs[\w.]*\.\{([^}]*)\}", text, re.M):
                    imports |= {w for n in m.group(1).split(",") for w in n.split()}
                write(p, text, lines(text, "--", lambda l: in_code(l, walk, imports)))
            elif f.endswith(".rt"):
                # a word of a clause is no word of Rust where it has a dash or a capital inside
                write(p, text, lines(text, "//", lambda l: in_code(l, True)))
            else:
                keep = lambda l: in_code(l, True) if re.match(r"(old|new):", l) else in_words(l)
                write(p, text, "\n".join(keep(l) for l in text.split("\n")))
    for top in ("README.md", "docs"):
        p = os.path.join(ROOT, top)
        for q in [p] if top.endswith(".md") else sorted(os.path.join(p, f) for f in os.listdir(p) if f.endswith(".md")):
            text = open(q, encoding="utf-8").read()
            write(q, text, in_words(text))


main()
