#!/usr/bin/env python3
"""references.py, from the root: each `crate/Module`, `crate/edit` and `crate::function` that a document names, and that is not there."""
import glob
import os
import re

crates = {c for c in os.listdir('crates') if os.path.isdir(f'crates/{c}/src')}
there = set()
for c in crates:
    for f in glob.glob(f'crates/{c}/specs/*.antt') + glob.glob(f'crates/{c}/proofs/*.antt') + glob.glob(f'crates/{c}/must-fail/*.edit'):
        there.add((c, os.path.basename(f).split('.')[0]))
    for f in glob.glob(f'crates/{c}/src/*.rt'):
        there |= {(c, m[1]) for m in re.finditer(r'\bfn (\w+)', open(f, encoding='utf-8').read())}
for path in ['README.md'] + sorted(glob.glob('docs/**/*.md', recursive=True)):
    text = open(path, encoding='utf-8').read()
    for m in re.finditer(r'(?<![\w./-])([a-z_0-9]+)(?:/([A-Za-z]\w*)\b(?![/.]\w)|::([a-z]\w*))', text):
        if m[1] in crates and (m[1], m[2] or m[3]) not in there:
            print(f'{path}: {m[0]}')
