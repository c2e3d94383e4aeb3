#!/usr/bin/env python3
"""Brings the repository's own definitions and lemmas to snake case.

usage: python3 tools/respell.py [--dry]      at the top of the repository, once, after the kit's port.py

Every name of crates/*/specs and crates/*/proofs that is in camel case with a small first letter (tableOf) gets underscores
(table_of), there, in the clauses of crates/*/src and in crates/*/must-fail. Types, modules, Rust names, strings and outputs stay.
It stops where two names of one file would fall together.
"""

import os
import re
import sys

# a name of antt, as a whole: letters, digits, _ - and '
NAME = re.compile(r"(?<![\w'-])[A-Za-z_][\w'-]*", re.U)
CAMEL = re.compile(r"(?:^|(?<=[-_]))[a-z][a-z0-9]*(?:[A-Z][a-z0-9]*)+(?=$|[-_'])")
STRING = re.compile(r'b?"(?:[^"\\]|\\.)*"', re.S)


# lemmas that would have the name of a definition that they speak of: the files that name them, the old name and the new one
APART = [
    (("ordered_lookup/proofs/HalvingLaws", "ordered_writer/proofs/keep_row/Proof", "plain/proofs/Rows", "plain/proofs/lookup/free_from/Proof"), "is_free", "is_free-row"),
    (("owner/proofs/Activating",), "left_by", "left_by-answer"),
    (("plain/proofs/TableLaws",), "head_ok", "head_ok-good"),
    (("promises/proofs/Alive",), "kept_by", "kept_by-gate"),
    (("promises/proofs/Alive",), "read_live", "read_live-of"),
    (("rows/proofs/RowLaws",), "kind_ok", "kind_ok-tomb"),
]


def set_apart(top):
    for where, old, new in APART:
        for w in where:
            p = os.path.join(top, "crates", w + ".antt")
            text = read(p)
            # comments of a file keep the names of functions
            out = re.sub(r"(?<![\w'.:`-])" + old + r"(?![\w'`-]|::)", new, text)
            if out == text:
                sys.exit(f"{p}: no {old}")
            with open(p, "w", encoding="utf-8") as f:
                f.write(out)


def snake(word):
    return re.sub(r"(?<!^)([A-Z])", lambda m: "_" + m.group(1).lower(), word)


def respelt(name):
    return CAMEL.sub(lambda m: snake(m.group(0)), name)


def files(top, ends):
    for folder, dirs, names in os.walk(os.path.join(top, "crates")):
        dirs[:] = sorted(d for d in dirs if d != "out")
        for n in sorted(names):
            if n.endswith(ends):
                yield os.path.join(folder, n)


def read(path):
    with open(path, encoding="utf-8") as f:
        return f.read()


def main():
    dry = "--dry" in sys.argv
    if not dry:
        set_apart(".")
    known = set()
    for p in files(".", ".antt"):
        known |= {m.group(0) for m in NAME.finditer(read(p)) if respelt(m.group(0)) != m.group(0)}
    clashes = []
    for p in files(".", (".antt", ".rt", ".edit")):
        text = read(p)

        def turn(part):
            return NAME.sub(lambda m: respelt(m.group(0)) if m.group(0) in known else m.group(0), part)

        if p.endswith(".rt"):
            out, at = "", 0
            for s in STRING.finditer(text):
                out += turn(text[at : s.start()]) + s.group(0)
                at = s.end()
            out += turn(text[at:])
        else:
            out = turn(text)
            seen = {}
            for m in NAME.finditer(text):
                # a part of a path or a field stands for no name of its own
                if text[m.start() - 1 : m.start()] in (".", "`", ":") or p.endswith(".edit"):
                    continue
                new = respelt(m.group(0)) if m.group(0) in known else m.group(0)
                seen.setdefault(new, set()).add(m.group(0))
            clashes += [(p, sorted(v)) for k, v in seen.items() if len(v) > 1]
        if out != text and not dry:
            with open(p, "w", encoding="utf-8") as f:
                f.write(out)
    for p, v in clashes:
        print("clash:", p, " ".join(v))
    print(len(known), "names,", len(clashes), "clashes")


main()
