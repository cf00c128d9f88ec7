#!/usr/bin/env python3
"""Old and new side by side: public functions (arguments, answer, clauses), types, ghost members, definitions of specs/, statements of proofs/.

usage: tools/sides.py OLD NEW [RESPELLED]   three trees; RESPELLED is OLD with the own enums of docs/DESIGN-PASS.md's table respelled: what is NEW's there, word by
word, is counted and not listed"""
import collections, glob, os, re, sys
old, new = sys.argv[1], sys.argv[2]
mid = sys.argv[3] if len(sys.argv) > 3 else old
squeeze = lambda s: re.sub(r'\s+', ' ', s).replace('( ', '(').replace(', )', ')').replace(' )', ')').strip().rstrip(',')


def functions(top):
    out = {}
    for f in sorted(glob.glob(f'{top}/crates/*/src/**/*.rt', recursive=True)):
        crate = f.split('/crates/')[1].split('/')[0]
        if os.path.exists(f'{top}/crates/{crate}/src/main.rt'):
            continue
        t = re.sub(r'(?m)^ *//.*\n', '', open(f, encoding='utf8').read())
        where = crate + ' ' + f.split('/src/')[1][:-3]
        kind, lines = None, t.split('\n')
        impl = ''
        i = 0
        while i < len(lines):
            l = lines[i]
            m = re.match(r'(?:pub(?:\(crate\))? )?(?:impl|trait)\b(.*?) \{', l)
            if m:
                impl = squeeze(m[1]) + ' '
            if l == '}':
                impl = ''
            m = re.match(r' *pub (?:extern "C" )?fn (\w+)', l) or (impl.count(' for ') or re.match(r'pub trait', l)) and re.match(r' {4}fn (\w+)', l)
            if m:
                head = []
                while i < len(lines) and not re.match(r' *\{$', lines[i]):
                    if re.search(r'[{;]$', lines[i]) and not re.search(r'\{ .* \}', lines[i]):
                        head.append(lines[i].rstrip('{ ')); break
                    head.append(lines[i]); i += 1
                out[f'{where} {impl}{m[1]}'] = squeeze(' '.join(head))
            m = re.match(r' *ghost (\w+)[:=] ?(.*)', l) or re.match(r' *ghost (\w+) = (.*)', l)
            if m and ' use ' not in l:
                out[f'{where} {impl}ghost {m[1]}'] = squeeze(l)
            m = re.match(r'pub (struct|enum) (\w+)', l)
            if m:
                body = []
                while i < len(lines):
                    body.append(lines[i])
                    if lines[i] == '}' or lines[i].endswith(';'):
                        break
                    i += 1
                out[f'{where} {m[1]} {m[2]}'] = squeeze(' '.join(body))
            i += 1
    return out


def blocks(top, kind):
    "definitions with their bodies; of proofs the statements alone"
    out = {}
    for f in sorted(glob.glob(f'{top}/crates/*/{kind}/**/*.antt', recursive=True)):
        name = os.path.basename(f)
        t = open(f, encoding='utf8').read()
        t = re.sub(r'(?m)^ *--.*\n', '', t)
        where = f.split('/crates/')[1].split('/')[0] + ' ' + f.split(f'/{kind}/')[1][:-5]
        # answers to goals; Answers.antt of a crate's own has lemmas
        if kind == 'proofs' and (name == 'Invariants.antt' or '.Goals as goal' in t):
            continue
        for b in re.split(r'\n(?=(?:  )*(?:abbrev |unfoldable |pub |record |data |pattern )*[^\s(){}]+ (?:\{|\(|:))', '\n' + t):
            m = re.match(r'\s*((?:abbrev |unfoldable |pub |record |data |pattern )*)([^\s(){}:]+) ', b)
            if not m or m[2] in ('use', 'module', 'where', 'infixr', 'infixl', 'let'):
                continue
            if kind == 'proofs' and not ('pub' in m[1] or 'abbrev' in m[1]):
                continue
            text = b
            if kind == 'proofs' and 'abbrev' not in m[1] and 'record' not in m[1]:
                # up to the first clause
                text = re.split(r'\n\s*(?:unfolding |' + re.escape(m[2]) + r'(?: |$))', b)[0]
            key, n = f'{where} {m[2]}', 1
            while key + (f' ({n})' if n > 1 else '') in out:
                n += 1
            out[key + (f' ({n})' if n > 1 else '')] = squeeze(text)
    return out


for title, of in (('Functions and types', functions), ('Definitions (specs/)', lambda t: blocks(t, 'specs')), ('Statements (proofs/)', lambda t: blocks(t, 'proofs'))):
    a, m, b = of(old), of(mid), of(new)
    same = sum(1 for k in a if a[k] == b.get(k))
    table = [k for k in a if a[k] != b.get(k) and m.get(k) == b.get(k)]
    rest = [k for k in a if k in b and a[k] != b[k] and m.get(k) != b[k]]
    gone = [k for k in a if k not in b]
    come = [k for k in b if k not in a]
    print(f'\n### {title}\n\n{len(a)} before, {len(b)} now: {same} the same word by word, {len(table)} by the table alone, {len(rest)} otherwise, {len(gone)} not under their name, {len(come)} new.\n')
    if title.startswith('Functions'):
        print('By the table alone: ' + ', '.join(f'`{k}`' for k in table) + '.\n')
    if title.startswith('Statements'):
        words = set(re.findall(r"[\w'-]+", ' '.join(open(f, encoding='utf8').read() for f in ['README.md'] + glob.glob('docs/*.md') if not re.search('PORT|DESIGN', f))))
        says = lambda k: k.startswith('theorems_') or ' Theorems ' in k or re.sub(r' \(\d+\)$', '', k).split()[-1] in words
        print('Helper lemmas that differ otherwise, by name: ' + ', '.join(f'`{k}`' for k in rest if not says(k)) + '.\n\nTheorems, and what README or docs/ name:\n')
        rest = [k for k in rest if says(k)]
    for k in rest:
        print(f'- `{k}`\n  - old: `{m.get(k, a[k])}`\n  - new: `{b[k]}`')
    print('\nNot under their name: ' + ', '.join(f'`{k}`' for k in gone) + '.')
    if not title.startswith('Statements'):
        print('\nNew:\n')
        for k in come:
            print(f'- `{k}`: `{b[k]}`')
    else:
        print('\nNew: ' + ', '.join(f'`{k}`' for k in come) + '.')
