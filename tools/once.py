#!/usr/bin/env python3
"""once.py CRATE: writes crates/CRATE/proofs/Once.antt, the one-outcome theorems of the crate's public functions whose contract is one equation for the answer.
Functions that take a `&mut`, that answer with a part of what is lent, or whose contract has several clauses or parts are left out: their theorems are written by hand."""
import re, sys, os
crate = sys.argv[1]
src = ''.join(open(os.path.join(b, f), encoding='utf-8').read() for b, _, fs in os.walk(f'crates/{crate}/src') for f in sorted(fs))
fns = []
for m in re.finditer(r'^pub (?:extern "C" )?fn ([a-z_0-9]+)(<[^>]*>)?\((.*?)\)(.*?)^\{', src, re.M | re.S):
    name, lts, params, rest = m.groups()
    answer, *clauses = re.split(r'\bensures\b', rest)
    if '&mut' in params or '-> &' in answer or len(clauses) != 1 or ' × ' in clauses[0]:
        print('by hand:', name)
        continue
    fns.append((name, len(re.findall(r'&', params)) if not lts else lts.count("'")))
dash = lambda n: n.replace('_', '-')
out = ['-- Any two outcomes that a contract of this crate allows are equal.', 'use mathlib.Core.Path.{sym, ◌∙◌}', 'use Rattle.plate.proofs.Outcome.{OneAnswer}']
for n, _ in fns:
    out += [f'use Rattle.{crate}.proofs.{n}.Kinds as {dash(n)}-kinds', f'use Rattle.{crate}.proofs.{n}.Reads as {dash(n)}-reads']
for n, k in fns:
    d = dash(n)
    out += ['', f'pub {n}_once : OneAnswer {k} {d}-kinds.ps {d}-kinds.r {d}-reads.Post', f'{n}_once κs a x y s t p q = p ∙ sym q']
open(f'crates/{crate}/proofs/Once.antt', 'w', encoding='utf-8').write('\n'.join(out) + '\n')
