#!/usr/bin/env python3
"""Writes the definitions' tests from the small queries: Samples.antt and Refusals.antt of crate samples from oracle/sample/small.txt,
Skipped.antt of crate samples from oracle/sample/skipped.txt (monomial pairs passed over),
Checks.antt of crate samples from oracle/sample/checks.txt (checks spent, and queries turned round),
Slips.antt of crate samples and Kept.antt of crate spec from oracle/sample/slips.txt (queries that tell the rules from a porter's slips).
Run from the repository's root; then `rt fmt` in crates/samples and crates/spec."""
import re

# the queries that stand in crate spec, since they refuse a must-fail edit of it that its other tests let pass: sorted_best_terms, structural_after_transport
KEPT = ['slip: sorted best terms', 'slip: transport first']

HEAD = '''use Rattle.std.specs.Prelude.{◌≡◌, refl, List, [], ◌∷◌}
use Prim.Native.String.{String}
use Rattle.spec.specs.Bytes.{text}
use Rattle.spec.specs.Merge.{program_of}
use Rattle.spec.specs.Asked.{Asked, asked, frame, answers, expected, hex}
'''
COUNTED = HEAD.replace('◌∷◌}', '◌∷◌, ℕ}')
DAMAGED = COUNTED.replace('use Prim.Native.String.{String}\n', '').replace('frame, answers, expected, hex', 'cut, answers, expected, hex, put')

def blocks(path):
    title, frame, answer = None, None, []
    for line in open(path, encoding='utf-8'):
        line = line.rstrip('\n')
        if line.startswith('#'):
            title = line[2:]
        elif line and line[0].isdigit():
            frame, answer = [int(x) for x in line.split()], []
        elif line.startswith('  '):
            answer.append(line[2:])
        elif frame is not None:
            yield title, frame, ''.join(a + '\\n' for a in answer)
            frame = None
    if frame is not None:
        yield title, frame, ''.join(a + '\\n' for a in answer)

def name(title):
    words, n = re.findall(r'[a-z0-9]+', title.lower()), ''
    while words and len(n) + len(words[0]) < 36:
        n = n + ('-' if n else '') + words.pop(0)
    return n

def num(bs):
    return int.from_bytes(bytes(bs), 'big')

def grouped(path):
    groups = {}
    for t, f, a in blocks(path):
        groups.setdefault(t, []).append((f, a))
    return groups

samples, refusals, sound = [], [], None
for t, qs in grouped('oracle/sample/small.txt').items():
    if t.startswith('sound: the image that'):
        sound = qs[0][0]
    (refusals if sound else samples).append((t, qs))

def queries(path, heading, head, groups):
    out = [heading, head]
    for t, qs in groups:
        n = name(t.replace("E: document 01's example", 'image E'))
        image = qs[0][0][:-8]
        assert all(f[:-8] == image for f, a in qs), t
        out += [f'-- {t}', f'abbrev {n}-image : String', f'{n}-image = "{bytes(image).hex()}"', '']
        out += [f'unfoldable {n} : List Asked', f'unfolding hex', f'{n} =']
        rows = [f'asked (frame {n}-image {num(f[-8:-6])} {num(f[-6:-4])} {num(f[-4:])}) "{a}"' for f, a in qs]
        out += ['    ' + ('∷ ' if i else '') + r for i, r in enumerate(rows)] + ['    ∷ []', '']
        out += [f'{n}-holds : answers {n} ≡ expected {n}', f'unfolding program_of text answers expected {n}', f'{n}-holds = refl', '']
    open(path, 'w', encoding='utf-8').write('\n'.join(out).rstrip() + '\n')

slips = grouped('oracle/sample/slips.txt').items()
skipped = grouped('oracle/sample/skipped.txt').items()
checks = grouped('oracle/sample/checks.txt').items()
queries('crates/samples/specs/Samples.antt', '-- Small queries for each feature, and budgets that cut in each phase: answers of the listed Rust with its own count of checks (oracle/sample/small.txt).', HEAD, samples)
queries('crates/samples/specs/Skipped.antt', "-- (02, Paper 7) Monomial pairs passed over: answers of the listed Rust with its own count of checks, the number of skipped pairs from the model (oracle/sample/skipped.txt).", HEAD, skipped)
queries('crates/samples/specs/Checks.antt', "-- (02, Paper 13) Checks that passed, and the two classes in either order: answers of the listed Rust with its own count of checks, the number of skipped pairs from the model (oracle/sample/checks.txt).", HEAD, checks)
queries('crates/samples/specs/Slips.antt', "-- Queries whose answer tells the rules from a porter's slip: answers of the listed Rust with its own count of checks (oracle/sample/slips.txt).", HEAD, [(t, qs) for t, qs in slips if t not in KEPT])
queries('crates/spec/specs/Kept.antt', "-- Two queries of crate samples' kind (oracle/sample/slips.txt) that stand here since they refuse a must-fail edit that no other test of this crate refuses.", COUNTED, [(t, qs) for t, qs in slips if t in KEPT])

out = ['-- A sound image, and a damaged one for each way to break a rule, refusals 2 to 11; images that break two rules show the order (oracle/sample/small.txt).', DAMAGED]
out += ['-- five classes over Lit, Plain2, SPair and MSet, and a query', 'unfoldable sound : List ℕ', 'unfolding hex', f'sound = hex "{bytes(sound).hex()}"', '']
tables = {}
for t, qs in refusals:
    for f, a in qs:
        key = a.split('\\n')[0].replace('refused ', '') if a.startswith('refused') else 'accepted'
        if len(f) == len(sound):
            d = [(i, x) for i, (x, y) in enumerate(zip(f, sound)) if x != y]
            if len(d) <= 24:
                e = 'put (' + ' ∷ '.join([f'({i}, {x})' for i, x in d] + ['[]']) + ') sound' if d else 'sound'
            else:
                e = f'hex "{bytes(f).hex()}"'
        elif f == sound[:len(f)]:
            e = f'cut {len(f)} sound'
        else:
            e = f'hex "{bytes(f).hex()}"'
        tables.setdefault(key, []).append((t, e, a))
for key, rows in tables.items():
    n = 'accepted' if key == 'accepted' else f'refused-{key}'
    out += [f'unfoldable {n} : List Asked', 'unfolding hex put sound', f'{n} =']
    for i, (t, e, a) in enumerate(rows):
        out += [f'    -- {t}', '    ' + ('∷ ' if i else '') + f'asked ({e}) "{a}"']
    out += ['    ∷ []', '', f'{n}-holds : answers {n} ≡ expected {n}', f'unfolding program_of text answers expected {n}', f'{n}-holds = refl', '']
open('crates/samples/specs/Refusals.antt', 'w', encoding='utf-8').write('\n'.join(out).rstrip() + '\n')
