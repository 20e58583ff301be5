#!/usr/bin/env python3
# texts.py: whether each text of slips.py stands once in its module, and each label once in all. From the repository's root; prints what does not.
import os
from slips import SLIPS

crates = os.path.join(os.path.dirname(os.path.abspath(__file__)), '../../crates')
beside = {'Terms': 'monomial_terms', 'Adding': 'child_list'}
labels = []
bad = 0
for module in SLIPS:
    whole = open(f"{crates}/{beside.get(module, 'spec')}/specs/{module}.antt", encoding='utf-8').read()
    for label, changes in SLIPS[module]:
        text = whole
        for old, new in changes:
            if text.count(old) != 1 or old == new:
                bad += 1
                print(f'{module}\t{label}\t{text.count(old)} times\t{old!r}')
            text = text.replace(old, new)
        if label in labels:
            bad += 1
            print(f'{module}\t{label}\tlabel stands twice')
        labels.append(label)
print(f'{len(labels)} slips, {bad} to mend')
raise SystemExit(bad > 0)
