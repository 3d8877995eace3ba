#!/usr/bin/env python3
"""Counts the places in crates/*/src that docs/DESIGN-PASS.md speaks of, point by point: python3 tools/places.py [-l] [FOLDER].

With -l it also lists them. FOLDER is the top of a checkout; the default is the folder above this file."""
import collections
import glob
import os
import re
import sys

listing = '-l' in sys.argv
words = [w for w in sys.argv[1:] if w != '-l']
root = words[0] if words else os.path.dirname(os.path.dirname(os.path.abspath(__file__)))
files = sorted(glob.glob(os.path.join(root, 'crates/*/src/**/*.rt'), recursive=True))
text = {os.path.relpath(f, os.path.join(root, 'crates')): open(f).read() for f in files}
code = {f: re.sub(r'//[^\n]*', '', s) for f, s in text.items()}


def found(pattern, source=code, flags=re.M):
    return [(f, s.count('\n', 0, m.start()) + 1, m.group(0).strip().split('\n')[0]) for f, s in source.items() for m in re.finditer(pattern, s, flags)]


def say(point, what, places):
    print(f'{point}  {len(places):4}  {what}')
    if listing:
        for f, line, words in places:
            print(f'          {f}:{line}: {words[:110]}')


def loops():
    """Loops whose test reads a variable that the body steps by a constant."""
    places = []
    for f, s in code.items():
        for m in re.finditer(r'^( *)(while [^\n]*|loop )\{\n(.*?)^\1\}', s, re.M | re.S):
            stepped = re.findall(r'^\s*(\w+)(?:\.\w+)? [+-]= \d+;', m.group(3), re.M) + re.findall(r'^\s*([\w.]+) = \1 [+-] \d+;', m.group(3), re.M)
            tested = re.findall(r'\w+', m.group(2))
            if any(v.split('.')[0] in tested for v in stepped) or (m.group(2).startswith('loop') and stepped):
                places.append((f, s.count('\n', 0, m.start()) + 1, m.group(2)))
    return places


def functions():
    """Each function: file, line, name, parameters by name, the clauses that it requires."""
    for f, s in code.items():
        for m in re.finditer(r'^\s*(?:pub )?(?:unsafe )?(?:extern "C" )?fn (\w+)(?:<[^>]*>)?\(([^)]*)\)(.*?)^\s*\{\s*$', s, re.S | re.M):
            names = [p.split(':')[0].strip() for p in m.group(2).split(',') if ':' in p]
            clauses = [re.sub(r'\s+', ' ', c).strip().strip('()').strip() for r in re.findall(r'requires \{(.*?)\}\n', m.group(3), re.S) for c in r.split('×')]
            yield f, s.count('\n', 0, m.start()) + 2, m.group(1), names, clauses


def together(*names):
    return [(f, line, name) for f, line, name, params, _ in functions() if all(n in params for n in names)]


say(1, 'enums of the code', found(r'^(?:pub )?enum \w+'))
say(1, 'enums with a variant that is a refusal', found(r'^(?:pub )?enum \w+ \{[^}]*?(?:Refused|Back|Turned|Bad)\b', flags=re.M | re.S))
say(1, 'enums of the shape of Option', found(r'^(?:pub )?enum \w+ \{\n(?:\s*(?:None|NoneLeft|Nowhere|Done)\b,?\n\s*\w+[({][^}]*|\s*\w+[({].*?\n\s*(?:None|NoneLeft|Nowhere|Done)\b,?\n)\}', flags=re.M | re.S))
say(1, 'structs with a flag beside the value that it is about', found(r'^pub struct \w+ \{[^}]*?\bpub (?:step|outcome): ', flags=re.M | re.S))
say(1, 'refusals by a number', found(r'(?:number: |Bad\()\d+|judged?\w*\([^;]*, \d+\);'))
say(2, 'functions that say that they do the same as another', found(r'^ *// (?:Does the same|The same for|Does what)[^\n]*', text))
say(2, 'functions named for a size', found(r'^ *(?:pub )?fn \w+_(?:small|large)\b'))
say(3, 'loops by while or loop', found(r'^ *(?:while |loop \{)[^\n]*'))
say(3, 'loops that count an index by hand', loops())
say(4, 'functions that compare, copy or choose the larger by hand', found(r'^ *(?:pub )?fn (?:same_bytes|all_same|same_table|deeper|copy|copy_digits|write_table|key_width|past_feed)\b[^\n]*'))
for names in [('m', 'n', 'cells'), ('m', 'n'), ('s', 'at'), ('s', 'header'), ('keys', 'lens'), ('cells', 'marks', 'out')]:
    say(5, 'functions that take ' + ', '.join(names), together(*names))
clauses = collections.Counter(c for *_, cs in functions() for c in set(cs))
often = [(c, k) for c, k in clauses.most_common() if k >= 3 and len(c) > 6]
print(f'5  {len(often):4}  clauses that stand in the contracts of three functions or more ({sum(k for _, k in often)} in all)')
if listing:
    for c, k in often:
        print(f'          {k:3}  {c}')
say(6, 'structs with two arrays or more', found(r'^pub struct \w+ \{[^}]*?: \[[^}]*?: \[', flags=re.M | re.S))
say(6, 'functions that take a count beside a slice', [(f, line, name) for f, line, name, params, _ in functions() if 'count' in params or 'len' in params])
say(7, 'functions that take a switch', [(f, line, name) for f, line, name, params, _ in functions() if 'choice' in params or 'layout' in params])
say(7, 'places that branch on it', found(r'match (?:choice|layout)\b'))
answers = [f for f in glob.glob(os.path.join(root, 'crates/*/proofs/**/Answers.antt'), recursive=True)]
print(f'8  {len(answers):4}  files of answers, with {sum(open(f).read().count(" : goal.") for f in answers)} answers')
lines = sum(len(open(f).readlines()) for f in glob.glob(os.path.join(root, 'crates/*/proofs/**/*.antt'), recursive=True))
print(f'8  {lines:4}  lines of proofs')
