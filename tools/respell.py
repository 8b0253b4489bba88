#!/usr/bin/env python3
"""Brings the definitions and lemmas of this repository to today's spelling: words in snake case, parts of a name still joined by a dash.

usage: tools/respell.py     at the top of the repository, once, after the kit's own port.py

It rewrites the names that a ghost item may cite: in specs/ and proofs/ every word, in src/ the ghost items, clauses and comments, in must-fail/ the
texts of edits, in README.md and docs/ what stands between backquotes (the notes in docs/landings keep what they said when they were written).
A Rust name has no capital after a small first letter, so none of them changes.
"""

import os
import re

# A word that another one of its own scope would fall together with goes by a name of its own.
OWN = {"oneBelow": "opening_one_below"}
OWN_IN = {"crates/algorithms/proofs": {"by_code": "all-by_code"}}

WORD = re.compile(r"(?<![\w'.])[^\W\d_][\w']*(?:-[\w']+)*|(?<=\.)[^\W\d_][\w']*(?:-[\w']+)*")
RUST_WORD = re.compile(r"(?<![\w'])[^\W\d_]\w*")
KEEP = {"neaA", "niaA", "sH", "sL"}


def part(p):
    if not re.match(r"[a-z]", p) or not re.search(r"[A-Z]", p) or re.search(r"[A-Z]{2}", p):
        return p
    return re.sub(r"(?<=[a-z0-9])([A-Z])", lambda m: "_" + m.group(1).lower(), p)


def name(w):
    if w in OWN:
        return OWN[w]
    return "-".join(p if p in KEEP else part(p) for p in w.split("-"))


def turned(text, own={}):
    return WORD.sub(lambda m: own.get(m.group(0)) or name(m.group(0)), text)


def turned_source(text):
    return RUST_WORD.sub(lambda m: m.group(0) if m.group(0).startswith("x") and re.match(r"0$", text[: m.start()][-1:]) else name(m.group(0)), text)


def turned_page(text):
    return re.sub(r"`[^`\n]+`", lambda m: turned(m.group(0)), text)


def rewrite(path, turn):
    with open(path, encoding="utf-8") as f:
        old = f.read()
    new = turn(old)
    if new != old:
        with open(path, "w", encoding="utf-8") as f:
            f.write(new)


def main():
    for folder, dirs, files in os.walk("crates"):
        dirs[:] = [d for d in dirs if d != "out"]
        for it in files:
            path = os.path.join(folder, it)
            own = next((v for k, v in OWN_IN.items() if path.startswith(k)), {})
            if it.endswith(".antt"):
                rewrite(path, lambda t: turned(t, own))
            elif it.endswith((".rt", ".edit")):
                rewrite(path, turned_source)
    for path in ["README.md", *(os.path.join("docs", f) for f in os.listdir("docs") if f.endswith(".md"))]:
        rewrite(path, turned_page)


main()
