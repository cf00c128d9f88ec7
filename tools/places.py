#!/usr/bin/env python3
"""The places that docs/DESIGN-PASS.md counts, of the tree that it stands in or of another. usage: tools/places.py [--list] [TOP]

1  enums of the shape of Option or Result: two variants of which one has a value and the other none or a refusal, or a last variant that is a refusal's
2  twins: functions, in one file or two, whose text is the same but for names of types, numbers and constants; structs of one value and `next`
3  loops: `while` and `loop` (a `while` without an index is one of them; the page says which)
4  by hand: from_.., to number or flag, equality, least, one-line casts
5  facts: a `requires` that three functions of a crate or more have; two parameters that stand first in three functions of a crate or more
6  an array beside a count in one struct, and functions that take an array by value
7  enums without values that a function of the same crate only switches on
8  answers: `pub X : goal.X` of proofs/*/Answers.antt"""
import collections, glob, os, re, sys
args = [a for a in sys.argv[1:] if a != '--list']
show = '--list' in sys.argv
os.chdir(args[0] if args else os.path.dirname(os.path.dirname(os.path.abspath(__file__))))
found = collections.defaultdict(list)
files = sorted(f for f in glob.glob('crates/*/src/**/*.rt', recursive=True))
FN = re.compile(r'(?m)^( *)((?:pub(?:\(crate\))? )?(?:extern "C" )?fn (\w+)[^;]*?)\n\1\{\n(.*?)\n\1\}', re.S)
alike = collections.defaultdict(list)
requires = collections.defaultdict(list)
firsts = collections.defaultdict(list)
for f in files:
    crate = f.split('/')[1]
    t = open(f, encoding='utf8').read()
    t = re.sub(r'(?m)//.*$', '', t)
    for m in re.finditer(r'(?:pub(?:\(crate\))? )?enum (\w+) \{(.*?)\n\}', t, re.S):
        vs = [re.sub(r'\s+', ' ', v).strip() for v in re.split(r',\n(?=    \w)', m[2]) if v.strip()]
        names = [re.match(r'\w+', v)[0] for v in vs]
        has = [v != n for v, n in zip(vs, names)]
        bad = {'Refused', 'Lacks', 'TooLarge', 'NoHeader', 'Malformed', 'Nothing', 'Bad'}
        if len(vs) == 2 and any(has) or any(has) and set(names) & bad: found[1].append(f'{f} {m[1]}')
        if not any(has) and len(vs) == 3 and re.search(r'fn \w+\([^)]*: ' + m[1] + r'\b', t) and not m[1].endswith('Refusal'): found[7].append(f'{f} {m[1]}')
    for m in re.finditer(r'struct (\w+) \{(.*?)\n\}', t, re.S):
        fs = re.findall(r'(\w+): ([^,\n]+)', m[2])
        if len(fs) == 2 and fs[1][0] == 'next': alike['struct of a value and next: ' + fs[1][1]].append(f'{f} {m[1]}')
        if any(x[1].startswith('[') for x in fs) and any(x[0] in ('count', 'len', 'used') for x in fs): found[6].append(f'{f} {m[1]}')
    for m in re.finditer(r'(?m)^ *(?:\'\w+: )?(while|loop)\b.*$', t): found[3].append(f'{f} {m[0].strip()}')
    for m in FN.finditer(t):
        name, sign, body = m[3], m[2], m[4]
        if name.startswith('from_') or name in ('id', 'flag', 'bits', 'number', 'number_of', 'refusal_number', 'same_bytes', 'least', 'wide', 'size', 'flag_number', 'writable', 'class_number', 'digit'):
            found[4].append(f'{f} {name}')
        if re.search(r'\w: \[\w+(?:; )', sign): found[6].append(f'{f} {name}: an array by value')
        for r in re.findall(r'requires \{ (.*) \}', sign):
            for x in re.split(r' × ', r): requires[(crate, x.strip('() '))].append(f'{f} {name}')
        ps = re.search(r'\(([^)]*)\)', sign)
        two = re.findall(r'(\w+): (&?(?:mut )?[\w\[\]]+)', ps[1])[:2]
        if len(two) == 2: firsts[(crate, tuple(two))].append(f'{f} {name}')
        if body.count('\n') >= 3:
            key = re.sub(r'\b(0x[0-9a-fA-F_]+|\d[\d_]*|[A-Z]\w*|u8|u16|u32|u64|usize)\b', '#', re.sub(r'\s+', ' ', sign.split('ensures')[0] + body).replace(name, 'F'))
            alike[key].append(f'{f} {name}')
for k, v in alike.items():
    if len(v) > 1: found[2].append(' | '.join(v))
for k, v in requires.items():
    if len(v) > 2: found[5].append(f'{k[0]}: {k[1]}: {len(v)} functions')
for k, v in firsts.items():
    if len(v) > 2: found[5].append(f'{k[0]}: {", ".join(a + ": " + b for a, b in k[1])}: {len(v)} functions')
for f in sorted(glob.glob('crates/*/proofs/**/Answers.antt', recursive=True)):
    n = len(re.findall(r'(?m)^pub [^\n]* : goal\.', open(f, encoding='utf8').read()))
    found[8] += [f] * n
for n in range(1, 9):
    print(n, len(found[n]))
    if show and n < 8:
        for x in found[n]: print('   ', x)
