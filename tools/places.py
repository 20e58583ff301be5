#!/usr/bin/env python3
"""Counts the places of each point of docs/DESIGN-PASS.md in crates/*/src, and with -v lists them.

    python3 tools/places.py [-v] [POINT..]

1 own enums, numbers for refusals and kinds, flags beside a value; 2 twins: functions of one text but for types, constants and their own names; 3 loops that count an index by hand; 4 equality, order, conversion and choice written by hand; 5 facts that stand in the contracts of three or more functions, and parameters that travel together; 6 buffers with a length beside them; 7 switches on a step, and tables of functions.
"""
import collections
import glob
import re
import sys

FILES = sorted(glob.glob('crates/*/src/**/*.rt', recursive=True))
TEXT = {f: open(f, encoding='utf-8').read() for f in FILES}
FN = re.compile(r'^( *)(?:pub )?(?:const )?fn (\w+)(.*?)\n\1\}\n', re.S | re.M)


def crate(f):
    return f.split('/')[1]


def functions():
    for f, t in TEXT.items():
        for m in FN.finditer(t):
            yield f, m.group(2), m.group(0)


def lines(pattern):
    for f, t in TEXT.items():
        for n, line in enumerate(t.split('\n'), 1):
            if re.search(pattern, line) and not line.lstrip().startswith('//'):
                yield f'{f}:{n}: {line.strip()}'


def enums():
    for f, t in TEXT.items():
        for m in re.finditer(r'^ *(?:pub )?enum (\w+) \{(.*?)^ *\}', t, re.S | re.M):
            variants = re.findall(r'^\s+(\w+(?:\([^)]*\))?),$', m.group(2), re.M)
            yield f'{crate(f)}::{m.group(1)} {{{", ".join(variants)}}}'


def code(text):
    """A function without its contract and its comments."""
    text = re.sub(r'//.*', '', text)
    text = re.sub(r'^ +(requires|ensures).*?(?=^ *(?:ensures|\{))', '', text, flags=re.S | re.M)
    return text


def twins():
    groups = collections.defaultdict(list)
    for f, name, text in functions():
        c = re.sub(rf'\b{name}\b', 'F', code(text))
        c = re.sub(r'\b(u8|u16|u32|u64|usize)\b', 'T', c)
        c = re.sub(r'\b\d+(u8|u16|u32|u64|usize)?\b', '0', c)
        c = re.sub(r'\b[A-Z][A-Z_0-9]+\b', 'K', c)
        c = re.sub(r'^pub ', '', c.strip())
        groups[re.sub(r'\s+', ' ', c)].append(f'{crate(f)}::{name}')
    return [' '.join(v) for v in groups.values() if len(v) > 1]


def facts():
    """Each conjunct of a `requires` that stands in three or more functions."""
    where = collections.defaultdict(set)
    for f, name, text in functions():
        for clause in re.findall(r'requires \{(.*?)\}\s*\n', text, re.S):
            for part in re.split(r' × (?![^()]*\))', re.sub(r'\s+', ' ', clause)):
                where[part.strip()].add(f'{crate(f)}::{name}')
    return [f'{len(v)} functions: {k}' for k, v in sorted(where.items(), key=lambda x: -len(x[1])) if len(v) > 2]


def together():
    """Runs of two or more parameters that stand in three or more functions."""
    groups = collections.Counter()
    for f, name, text in functions():
        head = text.split('{')[0].split('\n    requires')[0].split('\n    ensures')[0]
        m = re.search(r'\((.*)\)', head, re.S)
        if not m:
            continue
        ps = [re.sub(r'\s+', ' ', p).strip() for p in m.group(1).split(',') if ':' in p]
        for i in range(len(ps) - 1):
            groups[f'{ps[i]}, {ps[i + 1]}'] += 1
    return [f'{n} functions: {k}' for k, n in groups.most_common() if n > 2]


POINTS = {
    '1': [('own enums', lambda: list(enums())),
          ('refusals by a number', lambda: list(lines(r'(Refused|Stopped|Err)\((u8|\d+)|-> u8\b|refuse\('))),
          ('kinds by a number', lambda: list(lines(r'const (SPAIR|MSET|SET|LIT): |\bkind: (u8|usize)|fn kind\('))),
          ('a flag beside a value', lambda: list(lines(r'^\s+(pub )?\w+: bool,$')))],
    '2': [('groups of twins', twins)],
    '3': [('while and loop', lambda: list(lines(r"^\s*(let \w+ = )?('\w+: )?(while|loop)\b")))],
    '4': [('conversions', lambda: list(lines(r'fn (size|long|short)_\w+\(|fn (answer_of|numbers_of\w*)\(|fn (byte|narrow|wider)\('))),
          ('order, equality and choice', lambda: list(lines(r'fn (less|least|larger|either|better|same\w*|is_less)\b|enum Order\b')))],
    '5': [('facts in three or more contracts', facts), ('pairs of parameters in three or more functions', together)],
    '6': [('a buffer with a length beside it', lambda: list(lines(r'\w+: &(mut )?\[u\d+\], (n|m|rows|cols|many): usize')))],
    '7': [('steps by number and tables of functions', lambda: list(lines(r'\bfn\([^)]*\)( ->)?|match step|dyn |impl Fn')))],
}

if __name__ == '__main__':
    args = [a for a in sys.argv[1:] if a != '-v']
    for point in args or POINTS:
        for label, find in POINTS[point]:
            found = find()
            print(f'{point} {label}: {len(found)}')
            if '-v' in sys.argv:
                for x in found:
                    print('   ', x)
