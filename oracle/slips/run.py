#!/usr/bin/env python3
# run.py [LABEL | mod:MODULE ..]: tries slips of slips.py, each on a copy of crate spec that is checked against the test modules of crates spec and samples one after the other, and prints what refuses it; those of modules Terms and Adding on a copy of these definitions, of crates monomial_terms and child_list (with those of class_place between them), over crate spec as it is. From the repository's root; --jobs N at a time (2).
import os, queue, re, shutil, subprocess, sys, tempfile, threading

from slips import SLIPS

here = os.path.dirname(os.path.abspath(__file__))
crates = os.path.join(here, '../../crates')
definitions = 'Bytes Image Monomial Transport Action Pool System Pairs Graph Round Run Listing Merge Meaning'.split()
# groups of test modules, the quickest first; those of crate samples stand in the copy as modules of spec
samples = 'Samples Slips Bounds Refusals Limits Skipped Callers Checks'.split()
tests = [['Asked', 'Belonging', 'Lowest', 'Passed'], ['Asked', 'Edges', 'Found', 'Kept'], ['Asked', 'Skipped'], ['Asked', 'Checks'], ['Asked', 'Slips'], ['Asked', 'Refusals'], ['Asked', 'Limits', 'Bounds'], ['Asked', 'Callers'], ['Asked', 'Samples']]


# definitions beside crate spec, with the crate of each; they stand in one copy with their tests, over spec and with the type of the code that they name
beside = {'Terms': 'monomial_terms', 'Standing': 'class_place', 'Adding': 'child_list'}
beside_tests = ['Trials', 'Drawn']


# PASSED; REFUSED with the tests that fail; FORM where the definition itself no longer stands
def check(module, changes, group):
    folder = tempfile.mkdtemp()
    try:
        crate = 'child_list' if module in beside else 'spec'
        copy = f'{folder}/crates/{crate}'
        os.makedirs(copy + '/src')
        os.makedirs(copy + '/specs')
        # a repository of its own
        open(folder + '/crates.txt', 'w').write('spec:\nchild_list: spec\n' if module in beside else 'spec:\n')
        if module in beside:
            for part in ('src', 'specs'):
                shutil.copytree(f'{crates}/spec/{part}', f'{folder}/crates/spec/{part}')
        code = open(f'{crates}/{crate}/src/lib.rt', encoding='utf-8').read()
        open(copy + '/src/lib.rt', 'w', encoding='utf-8').write(re.search(r'pub enum Unadded \{.*?\n\}\n', code, re.S).group() if module in beside else code)
        modules = (list(beside) if module in beside else definitions) + group
        for m in modules:
            text = open(f"{crates}/{'samples' if m in samples else beside.get(m, crate)}/specs/{m}.antt", encoding='utf-8').read()
            if module in beside:
                text = text.replace('Rattle.monomial_terms.specs.', 'Rattle.child_list.specs.').replace('Rattle.class_place.specs.', 'Rattle.child_list.specs.')
            if m == module:
                for old, new in changes:
                    if text.count(old) != 1:
                        return 'BAD', [f'the text occurs {text.count(old)} times']
                    text = text.replace(old, new)
            open(f'{copy}/specs/{m}.antt', 'w', encoding='utf-8').write(text)
        open(copy + '/specs/Lib.antt', 'w', encoding='utf-8').write(''.join(f'pub mod {m}\n' for m in modules))
        try:
            done = subprocess.run(['rt', 'check'], cwd=copy, capture_output=True, text=True, timeout=600)
        except subprocess.TimeoutExpired:
            return 'TIMEOUT', []
        out = done.stdout + done.stderr
        errors = [(os.path.basename(f)[:-5], name) for f, name in re.findall(r'^(\S+\.antt):\d+:\d+: error: (?:`([^`]*)`)?', out, re.M)]
        if 'logic=proved' in out:
            return 'PASSED', []
        if not errors or any(m in definitions or m in beside for m, _ in errors):
            return 'FORM', [f'{m} {name}' for m, name in errors]
        return 'REFUSED', [f'{m} {name}' for m, name in errors]
    finally:
        shutil.rmtree(folder, ignore_errors=True)


def try_slip(module, changes):
    for group in [beside_tests] if module in beside else tests[:1] if module == 'Meaning' else tests:
        verdict, why = check(module, changes, group)
        if verdict != 'PASSED':
            break
    return verdict, why


words = sys.argv[1:]
jobs = 2
if '--jobs' in words:
    i = words.index('--jobs')
    jobs = int(words[i + 1])
    del words[i:i + 2]
todo = queue.Queue()
for module in definitions + list(beside):
    for label, changes in SLIPS.get(module, []):
        if not words or label in words or 'mod:' + module in words:
            todo.put((label, module, changes))


def work():
    while True:
        try:
            label, module, changes = todo.get_nowait()
        except queue.Empty:
            return
        verdict, why = try_slip(module, changes)
        print('\t'.join([verdict, module, label, ' | '.join(why)]), flush=True)


threads = [threading.Thread(target=work) for _ in range(jobs)]
for t in threads:
    t.start()
for t in threads:
    t.join()
