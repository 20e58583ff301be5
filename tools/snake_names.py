#!/usr/bin/env python3
"""Brings the repository's own definitions and lemmas to snake case, in crates/ (specs, proofs, clauses, must-fail edits) and in the pages that name them.

usage: python3 tools/snake_names.py [ROOT]      once, after port.py

A name that begins with two or more small letters and has a capital further on, as `limitsOf`, becomes `limits_of`. Types, modules, variants and hypotheses of
two letters (`eP`) stay; so do functions of src/, strings, and what lies outside crates/, but for pages and slips that name definitions.
Where such a name would fall together with a lemma whose dash port.py has turned (`count-at` beside `countAt`), the lemma has its dash back: BACK.
"""
import glob
import os
import re
import sys

WORD = r"[A-Za-z_][\w'₀-₉′-]*"
CAMEL = re.compile(r"[a-z][a-z0-9_]+[A-Z]")
BACK = ["by_lines", "count_at", "counted_of", "cut_line", "cut_word", "from_row", "in_list", "in_order", "join_runs", "joined_in", "look_up", "part_in", "run_in", "same_bytes", "same_runs", "sign_at", "size_is", "turn_at"]
LEMMA = re.compile(r"(?<![\w.'′-])(" + "|".join(BACK) + r")(?![\w'′-])(?!\.)")


def snake(name):
    return re.sub(r"(?<=[a-z0-9])([A-Z]+)", lambda m: "_" + m[1].lower(), name)


def files(root):
    for kind in ("rt", "antt", "edit"):
        yield from sorted(glob.glob(os.path.join(root, "crates", "**", "*." + kind), recursive=True))


def pages(root):
    for kind in ("*.md", "docs/**/*.md", "bindings/*.md", "oracle/*.md", "oracle/slips/**/*"):
        yield from (p for p in sorted(glob.glob(os.path.join(root, kind), recursive=True)) if os.path.isfile(p))


def declared(root):
    found = set()
    for p in files(root):
        if p.endswith(".antt"):
            with open(p, encoding="utf-8") as f:
                text = re.sub(r"--.*", "", f.read())
            found.update(w for w in re.findall(WORD, re.sub(r'"[^"]*"', "", text)))
    return found


def main(root):
    words = declared(root)
    turns = {w: snake(w) for w in words if CAMEL.match(w)}
    clash = sorted(w for w, n in turns.items() if list(turns.values()).count(n) > 1)
    if clash:
        print("fall together:", clash)
        return 1
    for p in [*files(root), *pages(root)]:
        with open(p, encoding="utf-8", errors="surrogateescape") as f:
            old = f.read()
        new = LEMMA.sub(lambda m: m[1].replace("_", "-"), old) if p.endswith(".antt") else old
        new = re.sub(WORD, lambda m: turns.get(m[0], m[0]), new)
        if new != old:
            with open(p, "w", encoding="utf-8", errors="surrogateescape") as f:
                f.write(new)
    print(f"{len(turns)} names")
    return 0


if __name__ == "__main__":
    raise SystemExit(main(sys.argv[1] if len(sys.argv) > 1 else "."))
