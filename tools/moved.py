#!/usr/bin/env python3
"""moved.py ROOT [w]: references to modules, types and functions that moved to another crate, and with w mends them; BAD where it cannot tell (a crate of the kit, or two crates that have the name)."""
import os,re,sys,collections
os.chdir(sys.argv[1]); write=len(sys.argv)>2
crates=[c for c in os.listdir('crates') if os.path.isdir('crates/'+c+'/src')]
mods=collections.defaultdict(set); types=collections.defaultdict(set); fns=collections.defaultdict(set)
for c in crates:
    p=f'crates/{c}/specs'
    if os.path.isdir(p):
        for x in os.listdir(p):
            if x.endswith('.antt') and x!='Lib.antt': mods[x[:-5]].add(c)
    for d,_,fs in os.walk(f'crates/{c}/src'):
        for x in fs:
            t=open(d+'/'+x).read()
            for m in re.finditer(r'^\s*(?:pub )?(?:enum|struct) (\w+)',t,re.M): types[m[1]].add(c)
            for m in re.finditer(r'^\s*pub (?:extern "C" )?(?:const )?fn (\w+)',t,re.M): fns[m[1]].add(c)
            for m in re.finditer(r'^\s*pub const (\w+)',t,re.M): fns[m[1]].add(c)
bad=[]
def one(kind,c,n,where,table,own):
    if c in table.get(n,()) : return c
    cand=table.get(n,set())-({own} if own==c else set())
    if len(cand)==1: return next(iter(cand))
    bad.append((where,kind,c,n,sorted(cand))); return c
for d,_,fs in os.walk('crates'):
    if '/must-fail' in d: continue
    for x in fs:
        if not x.endswith(('.rt','.antt')): continue
        q=d+'/'+x; me=d.split('/')[1]; t=open(q).read(); o=t
        def sp(m):
            c,n=m[1],m[2]
            if c not in crates: return m[0]
            k=one('mod',c,n,q,mods,me)
            return f'Rattle.{k}.specs.{n}'
        t=re.sub(r'Rattle\.(\w+)\.specs\.(?!declared\b|contracts\b)(\w+)',sp,t)
        def de(m):
            c,n=m[1],m[2]
            if c not in crates: return m[0]
            k=one('type',c,n,q,types,me)
            return f'Rattle.{k}.specs.declared.{n}'
        t=re.sub(r'Rattle\.(\w+)\.specs\.declared\.(\w+)',de,t)
        def pr(m):
            c,n=m[1],m[2]
            if c not in crates or c==me: return m[0]
            k=one('fn',c,n,q,fns,me)
            return f'Rattle.{k}.proofs.{n}.'
        t=re.sub(r'Rattle\.(\w+)\.proofs\.(\w+)\.(?=Reads|Met|Symbol|Statement)',pr,t)
        if x.endswith('.rt'):
            def us(m):
                c,n=m[1],m[2]
                if c not in crates: return m[0]
                k=one('use',c,n,q,{**fns,**types} if n not in fns or n not in types else fns,me)
                return m[0] if k==c else f'{m[0].split(c)[0]}{k}::{n}'
            t=re.sub(r'(?<![\w:.])(\w+)::(\w+)\b',lambda m: us(m),t)
        if t!=o:
            print('fixed',q)
            if write: open(q,'w').write(t)
for b in bad: print('BAD',*b)
