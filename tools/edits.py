#!/usr/bin/env python3
"""edits.py, from the root: each text that a must-fail edit replaces stands in its file exactly once; how many edits each public function has, and which have none in their own text (a constant or a private function may have it)."""
import collections
import glob
import os
import re


def replacements(edit):
    file = old = None
    for line in open(edit, encoding='utf-8'):
        line = line.rstrip('\n')
        if line.startswith('file: '):
            file = line[6:]
        elif line.startswith('old: '):
            old = line[5:]
        elif line.startswith('new:'):
            yield file, old, line[4:].removeprefix(' ')


bad = edits = 0
hits = collections.Counter()
public = []
for crate in sorted(os.listdir('crates')):
    texts = {}
    source = f'crates/{crate}/src/lib.rt'
    code = open(source, encoding='utf-8').read() if os.path.exists(source) else ''
    functions = [(m.start(), m[2], bool(m[1])) for m in re.finditer(r'^ *(pub (?:extern "C" )?)?(?:const )?fn (\w+)', code, re.M)]
    public += [(crate, name) for _, name, pub in functions if pub]
    for edit in sorted(glob.glob(f'crates/{crate}/must-fail/*.edit')):
        edits += 1
        texts.clear()
        changed = set()
        for file, old, new in replacements(edit):
            path = f'crates/{crate}/{file}'
            text = texts.get(path) or open(path, encoding='utf-8').read()
            if text.count(old) != 1:
                bad += 1
                print(f'{edit}: {text.count(old)} times: {old}')
            texts[path] = text.replace(old, new)
            if path == source and 'use ' not in old[:10]:
                changed |= {([name for at, name, _ in functions if at <= code.find(old)] or ['(a constant)'])[-1]}
        hits.update((crate, name) for name in changed)
counts = collections.Counter(min(hits[f], 2) for f in public)
print(f'{edits} edits, {bad} that do not fit; {len(public)} public functions: {counts[2]} with two or more in their own text, {counts[1]} with one, {counts[0]} with none:')
print(', '.join(f'{c}::{n}' for c, n in public if not hits[c, n]))
