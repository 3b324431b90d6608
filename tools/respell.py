#!/usr/bin/env python3
"""Respells the names of definitions and lemmas in snake case, in crates/, by tools/respell.txt.

usage: tools/respell.py [ROOT]   once, on a tree that has just been turned by the toolchain's own script

Each line of the table is an old name and its new one. In .antt files and in the clauses of .rt files a name is a whole word;
functions, strings and comments of .rt files keep their text.
"""
import os
import re
import sys

ROOT = os.path.abspath(sys.argv[1] if len(sys.argv) > 1 else os.path.join(os.path.dirname(os.path.abspath(__file__)), ".."))
HERE = os.path.dirname(os.path.abspath(__file__))
WORD = re.compile(r"(?<![\w'\-])[^\W\d][\w'\-]*")

# Names of a proof's own that would fall together with a definition: they are moved out of its way first.
FIRST = {
    "piece/proofs/Numbers.antt": {"of_map": "of_map_lem"},
    "piece/proofs/Fields.antt": {"of_map": "of_map_lem"},
    "piece/proofs/Maps.antt": {"of_map": "of_map_lem"},
    "piece/proofs/Laws.antt": {"of_map": "of_map_lem"},
    "book_builder/proofs/Seen.antt": {"of_map": "of_map_lem"},
    "stream/proofs/RunsOut.antt": {"on_step": "on_step_lem"},
    "stream/proofs/Torn.antt": {"on_step": "on_step_lem"},
}


def table(name):
    with open(os.path.join(HERE, name), encoding="utf-8") as f:
        return dict(line.split() for line in f if line.strip())


def respell(text, names):
    return WORD.sub(lambda m: names.get(m[0], m[0]), text)


def antt(text, names):
    return respell(text, names)


def rt(text, names):
    """The clauses and ghost imports alone: what stands in lines that begin with one of their words, and the lines that go on with them."""
    out, within = [], False
    for line in text.split("\n"):
        if re.match(r"\s*(ghost use|requires|ensures|ghost|#!?\[tactic)\b", line):
            within = True
        if within:
            code, sep, comment = line.partition("//")
            line = respell(code, names) + sep + comment
            if re.search(r"[;}\]]\s*$", code):
                within = False
        out.append(line)
    return "\n".join(out)


def rewrite(path, turn, names):
    with open(path, encoding="utf-8") as f:
        old = f.read()
    new = turn(old, names)
    if new != old:
        with open(path, "w", encoding="utf-8") as f:
            f.write(new)


def main():
    names = table("respell.txt")
    crates = os.path.join(ROOT, "crates")
    for folder, dirs, files in os.walk(crates):
        dirs[:] = sorted(d for d in dirs if d != "out")
        for name in sorted(files):
            path = os.path.join(folder, name)
            own = FIRST.get(os.path.relpath(path, crates).replace(os.sep, "/"))
            if own:
                rewrite(path, antt, own)
            if name.endswith(".antt"):
                rewrite(path, antt, names)
            elif name.endswith(".rt"):
                rewrite(path, rt, names)


main()
