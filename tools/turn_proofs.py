#!/usr/bin/env python3
"""Turns a crate's proofs/F/Proof.antt of the older form (`returns-2 : tie.Need-returns-2`, `c.before.before.step.field`) to Answers.antt and Invariants.antt.

usage: tools/turn_proofs.py CRATE NAMES TABLE [FUNCTION..]

CRATE is the crate's folder, after the kit's port.py and tools/respell.py, over libraries that are proved. NAMES is the names.json that
`rt check --generated FOLDER --old-names` writes there: each goal's, step's and place's old and new name. TABLE is what `tools/respell.py --table` printed.
Answers that are `search rules` are left out. A lemma over a place is bound by a `let` in each answer that uses it. What it could not turn it says (BAD); then
rt check, and by hand. It goes by the text, and proves nothing."""
import json, os, re, sys
W = r'[^\s(){}.;,@"«»\[\]\\]+'
norm = lambda s: s.replace('-', '_').lower() if s[:1].isupper() and '-' in s and not re.match(r'(At|After|In|Then|Else|Start|Past|Arm|Joined)\b', s) else s.replace('-', '_')
CHAIN = re.compile(r'(?<![^\s(){};,\[])((?:%s)(?:\.(?:%s))*)' % (W, W))
QUIET = re.compile(r'"(?:[^"\\\n]|\\.)*"|(?<![^\s(){}.;,@"«»])--[^\n]*')

CALLEES = {}
def tuple_of(p, names):
    if len(names) == 1: return p + '.' + names[0]
    return '(' + p + '.' + names[0] + ', ' + tuple_of(p, names[1:]) + ')'
def load_callees(root):
    import glob
    for src in glob.glob(root + '/*/src/**/*.rt', recursive=True):
        crate = src[len(root) + 1:].split('/')[0]
        txt = re.sub(r'//[^\n]*', '', open(src).read())
        for m in re.finditer(r'\bfn (\w+)\(([^)]*)\)(.*?)\n\s*\{', txt, re.S):
            ps = [x for x in re.sub(r'\[[^\]]*\]', 'A', m[2]).split(',') if x.strip()]
            muts = [x.split(':')[0].strip() for x in ps if '&mut' in x]
            cl = re.findall(r'ensures (\w+) \{', m[3])
            CALLEES[(crate, m[1])] = (muts, cl)

def callee(path):
    if not path: return None
    s = path.split('::')
    return CALLEES.get((s[0], s[-1]))

PARAMS = []
def argname(x):
    x = norm(x)
    if x == 'decreases' and 'measured' in PARAMS: return 'measured'
    m = re.fullmatch(r't(\d+)', x)
    if m and PARAMS and x not in PARAMS and int(m[1]) <= len(PARAMS): return PARAMS[int(m[1]) - 1]
    return {'upid_type_number': 'upid_type'}.get(x, re.sub(r'_lem$', '', x))

RESPELL = {}
def fields(parts):
    return parts[:2] + [RESPELL.get(x, x) if '-' in x and i > 0 else x for i, x in enumerate(parts[2:])]

class Fn:
    def __init__(self, mod, js):
        self.js = js; self.mod = mod
        self.places = js['places']; self.newname = js['places_by_name']
        self.index = {norm(p[0]): i for i, p in enumerate(self.places)}
        self.parent = {}
        for i, p in enumerate(self.places):
            self.parent[i] = self.index.get(norm(p[1])) if p[1] is not None else None
        self.needs = {}
        self.needplace = {}
        self.at = js['asked_at']
        for i, (o, n) in enumerate(js['needs']):
            self.needs[norm(o)] = n
            if i < len(self.at): self.needplace[norm(o)] = self.index.get(norm(self.at[i][0]))
        self.typed = js.get('typed') or []
        self.arms = js.get('arms') or []

    def need(self, old, name=None):
        o = norm(old)
        for c in (o, re.sub(r'^(overflow|nonzero)_', '', o), re.sub(r'^slice_bounds_', 'part_', o), re.sub(r'^(offset_bounds|bounds)_', '', o), norm(name or '')):
            if c in self.needs: return c
        return None

def split_top(s):
    """the parts of a tuple (a, b, ..), or None"""
    s = s.strip()
    if not (s.startswith('(') and s.endswith(')')): return None
    d = 0; parts = []; cur = ''
    for i, ch in enumerate(s):
        if ch in '([{': d += 1
        if ch in ')]}':
            d -= 1
            if d == 0 and i < len(s) - 1: return None
        if ch == ',' and d == 1: parts.append(cur); cur = ''; continue
        if d >= 1 and not (d == 1 and ch == '(' and i == 0): cur += ch
    if cur.strip(): parts.append(cur)
    return [x.strip() for x in parts] if len(parts) > 1 else None

def final(e):
    """(lets, last expression)"""
    d = 0; i = 0; last = 0
    for m in re.finditer(r'[(\[{]|[)\]}]|(?<![^\s()])in(?=\s)', e):
        if m[0] in '([{': d += 1
        elif m[0] in ')]}': d -= 1
        elif d == 0: last = m.end()
    return e[:last], e[last:]

def as_record(e, names):
    lets, x = final(e)
    idx = ['0', '1'] if len(names) == 2 else ['1.' * i + '0' for i in range(len(names) - 1)] + ['.'.join(['1'] * (len(names) - 1))]
    if x.strip().startswith('record'): return e
    if x.strip().startswith('search') or x.strip().startswith('?'): return e
    parts = split_top(x)
    while parts and len(parts) < len(names) and split_top(parts[-1]): parts = parts[:-1] + split_top(parts[-1])
    if parts and len(parts) == len(names):
        return lets + ' record { ' + '; '.join(f'{n} = {p}' for n, p in zip(names, parts)) + ' }'
    one = re.sub(r'\s+', ' ', x.strip())
    m = re.match(r'rw (\((?:[^()]|\((?:[^()]|\((?:[^()]|\([^()]*\))*\))*\))*\)|[^\s()]+) (.*)$', one)
    if m:
        inner = m[2]
        if not re.fullmatch(r'\(.*\)', inner) or split_top(inner): inner = '(' + inner + ')'
        tp = split_top(m[2])
        while tp and len(tp) < len(names) and split_top(tp[-1]): tp = tp[:-1] + split_top(tp[-1])
        if tp: return lets + ' record { ' + '; '.join(f'{n} = rw {m[1]} ({p})' for n, p in zip(names, tp)) + ' }'
        return lets + ' record { ' + '; '.join(f'{n} = rw {m[1]} {inner}.{i}' for n, i in zip(names, idx)) + ' }'
    return lets + ' record { ' + '; '.join(f'{n} = ({one}).{i}' for n, i in zip(names, idx)) + ' }'

class Conv:
    def __init__(self, fn, goalplace):
        self.fn = fn; self.gp = goalplace; self.bad = []

    def step(self, p, field, rest):
        """field of the own step of place p (or of Start). returns new chain or None"""
        fn = self.fn
        # arms of this place or of those below on the way to the goal: find by old step name + path
        q = self.gp
        on_way = []
        while q is not None:
            on_way.append(q); q = fn.parent[q]
        for q in on_way:
            a = fn.arms[q] if q < len(fn.arms) else None
            if not a: continue
            for newf, oldstep, path in a[2]:
                if norm(oldstep).lower() == norm(field).lower() and [norm(x) for x in rest[:len(path)]] == [norm(x) for x in path] and path:
                    return ['c', a[0], newf] + rest[len(path):]
        for q in on_way:
            a = fn.arms[q] if q < len(fn.arms) else None
            if not a: continue
            for newf, oldstep, path in a[2]:
                if norm(oldstep).lower() == norm(field).lower() and not path:
                    return ['c', a[0], newf] + rest
        # what the type of a variable says
        if re.match(r'(shared_slice_known|slice_known|mut_slice_known|known)', norm(field)) and rest and rest[0] == 'given':
            for var, st in (fn.typed[self.gp] if self.gp is not None and self.gp < len(fn.typed) else []):
                if norm(st) == norm(field):
                    return ['c', 'type_inv', var] + rest[1:]
            for pl in fn.places:
                if norm(pl[2][0]) == norm(field):
                    return ['c', pl[2][1]] + rest
        pl = fn.places[p]
        if norm(pl[2][0]).lower() == norm(field).lower():
            r = list(rest)
            if r and '-' in r[0] and re.match(r'(if|match|loop|for)', norm(field)) and not re.search(r'-(is|own|index|item|fits|iterator|\d+)$', r[0]) and not re.match(r'(if|in|then|else)-', r[0]): r[0] = r[0].replace('-', '_')
            info = callee(pl[3])
            if pl[3] and 'wrapping_' in pl[3] and r[:1] == ['ensures'] and r[1:2] != ['value']: r[1:1] = ['value']
            if info and r[:1] == ['new'] and len(r) > 1 and r[1].isdigit() and int(r[1]) < len(info[0]): r[1] = info[0][int(r[1])]
            if info and len(info[1]) > 1 and r[:1] == ['ensures']:
                n = len(info[1])
                idx = [['0'], ['1']] if n == 2 else [['1'] * i + ['0'] for i in range(n - 1)] + [['1'] * (n - 1)]
                if len(r) == 1: return ['!' + tuple_of('.'.join(['c', pl[2][1], 'ensures']), info[1])]
                for k, ix in enumerate(idx):
                    if r[1:1 + len(ix)] == ix: r[1:1 + len(ix)] = [info[1][k]]; break
                else:
                    if r[1:] == ['1'] * len(r[1:]): return ['!' + tuple_of('.'.join(['c', pl[2][1], 'ensures']), info[1][len(r) - 1:])]
            for o, n in pl[4]:
                if r and r[0] == o: r[0] = n; break
            return ['c', pl[2][1]] + r
        return None

    def chain(self, parts, env):
        """parts: list of names; returns new string or None if it is not ours"""
        head = parts[0]
        if head not in env: return None
        kind = env[head]
        if kind[0] == 'text':
            parts = kind[1] + parts[1:]; head = parts[0]; kind = env[head]
        if kind[0] == 'args':
            return '.'.join([kind[1]] + [x if i else argname(x) for i, x in enumerate(parts[1:])])
        p = kind[1]; i = 1
        parts = [x.replace('upid_type_number', 'upid_type') for x in parts]
        while i < len(parts) and parts[i] == 'before':
            p2 = self.fn.parent.get(p)
            if p2 is not None: p = p2
            i += 1
        if i == len(parts): return ('place', p)
        f = parts[i]; rest = parts[i+1:]
        olds = {norm(pl[2][0]).lower() for pl in self.fn.places}
        if norm(f).lower() not in olds and norm(re.sub(r'_lem$', '', f)) in olds: f = re.sub(r'_lem$', '', f)
        if f == 'args':
            return '.'.join(['c', 'args'] + ([argname(rest[0])] + rest[1:] if rest else []))
        if norm(f) in ('requires', 'type_inv', 'utf8', 'ranges', 'lifetimes', 'well_formed', 'decreases'):
            return '.'.join(['c', norm(f)] + rest)
        # search from p upwards to be lenient
        for q in (p, self.gp):
            while q is not None:
                r = self.step(q, f, rest)
                if r: return r[0][1:] if r[0].startswith('!') else '.'.join(fields(r))
                q = self.fn.parent[q]
        self.bad.append('.'.join(parts))
        return None

    def body(self, text, env):
        """rewrites an expression; handles 'let x = chain in' as alias"""
        out = []; pos = 0
        # process sequentially, lets included
        tok = re.compile(r'(let\s+)(%s)(\s*=\s*)((?:%s)(?:\.(?:%s))*)(\s+in\b[ \n]*)' % (W, W, W))
        while pos < len(text):
            m = tok.search(text, pos)
            end = m.start() if m else len(text)
            out.append(self.simple(text[pos:end], env))
            if not m: break
            var, ch = m[2], m[4]
            parts = ch.split('.')
            r = self.chain(parts, env)
            if isinstance(r, tuple):
                env[var] = r
                # drop the let, keep layout
            elif parts[0] in env and env[parts[0]][0] in ('place', 'text') and parts[-1] == 'given' and not (r or '').startswith('c.type_inv'):
                full = env[parts[0]][1] + parts[1:] if env[parts[0]][0] == 'text' else parts
                # the head may be rebound: keep the place
                if env[full[0]][0] == 'place':
                    key = '\0' + str(env[full[0]][1]); env[key] = env[full[0]]
                    env[var] = ('text', [key] + full[1:])
            else:
                new = r if r is not None else ch
                if r and (r == 'c.args'):
                    env[var] = ('args', var)
                    out.append(m[1] + var + m[3] + new + m[5])
                else:
                    env.pop(var, None)
                    out.append(m[1] + var + m[3] + new + m[5])
            pos = m.end()
        return ''.join(out)

    def simple(self, text, env):
        def one(m):
            parts = m[1].split('.')
            r = self.chain(parts, env)
            if r is None: return m[1]
            if isinstance(r, tuple): return 'c'
            return r
        res = []; last = 0
        for q in QUIET.finditer(text):
            res.append(CHAIN.sub(one, text[last:q.start()])); res.append(q[0]); last = q.end()
        res.append(CHAIN.sub(one, text[last:]))
        return ''.join(res)

def blocks(text):
    """top-level items: (comment, head lines, name)"""
    out = []; cur = []
    for line in text.split('\n'):
        if line.strip() == '':
            if cur: out.append(cur); cur = []
        else: cur.append(line)
    if cur: out.append(cur)
    return out

def convert(path, fn, modpath):
    text = open(path, encoding='utf-8').read()
    # helpers from a place: `f : tie.P → T` as `f : (c : tie.P) → T`; those that give a place are nothing
    for m in list(re.finditer(r'(?m)^(?:abbrev )?(%s) : (tie\.[A-Z][^\n→]*?) → (.*)\n\1 (%s) = (.*)$' % (W, W), text)):
        if m[3].startswith('tie.'):
            text = text.replace(m[0] + '\n', '')
            text = re.sub(r'\(' + re.escape(m[1]) + r' (%s(?:\.%s)*)\)' % (W, W), r'\1', text)
        else:
            text = text.replace(m[0], f'{m[1]} : ({m[4]} : {m[2]}) → {m[3]}\n{m[1]} {m[4]} = {m[5]}')
    bl = blocks(text)
    header = bl[0]
    comment = [l for l in header if l.startswith('--')]
    uses = [l for l in header if not l.startswith('--')]
    # merge multi-line uses
    inv, ans, helpers, bad, dropped = [], [], [], [], []
    uses = [u for u in uses if not re.search(r'\.Statement\.|\.Tie as tie', u)]
    rest = bl[1:]
    names_inv = {}
    # maps for invariant / decreases names
    loopmap = {norm(l[0][0]): l for l in fn.js['loops']}
    for b in rest:
        cm = [l for l in b if l.startswith('--')]
        b2 = [l for l in b if not l.startswith('--')]
        if not b2: helpers.append(('C', b)); continue
        sig = b2[0]; k = 1
        while k < len(b2) and b2[k].startswith(' '): sig += '\n' + b2[k]; k += 1
        m = re.match(r'((?:abbrev |pub |unfoldable )*)(%s)((?: \{[^}]*\})*)((?: \([^)]*\))*) :\s*(.*)' % W, sig, re.S)
        if not m:
            helpers.append(('H', b)); continue
        name, typ = m[2], m[5]
        body = b2[k:]
        if 'statement M' in typ or 'tie.close' in '\n'.join(b2): continue
        mi = re.match(r'tie\.(invariant|decreases)-(\S+)$', typ.strip())
        if mi:
            l = loopmap.get(norm(mi[2]))
            if not l:
                bad.append('no loop ' + mi[2]); helpers.append(('H', b)); continue
            newn = f"{mi[1]}-{l[0][1]}"
            vars_ = l[1]; ch = fn.js['changed'][fn.js['loops'].index(l)]
            names = [('initial.' + v if c else v) for v, c in zip(vars_, ch)] + [v for v, c in zip(vars_, ch) if c]
            unf = [x for x in body if x.startswith('unfolding')]
            cl = '\n'.join(x for x in body if not x.startswith('unfolding'))
            m2 = re.match(re.escape(name) + r'((?: (?!=)%s)*)\s*=' % W, cl)
            if not m2:
                bad.append('clause of ' + name); helpers.append(('H', b)); continue
            params = m2[1].split()
            e = cl[m2.end():]
            if len(params) != len(names): bad.append(f'params of {name}: {params} and {names}')
            sub = {p: 'l.' + n for p, n in zip(params, names)}
            sub.pop('_', None)
            e = CHAIN.sub(lambda x: x[0] if re.match(r' = ', x.string[x.end():x.end() + 3]) and re.search(r'[{;]\s*$', x.string[:x.start()]) else '.'.join([sub.get(x[1].split('.')[0], x[1].split('.')[0])] + x[1].split('.')[1:]), e)
            inv.append('\n'.join(cm + [f'abbrev pub {newn} : goal.{newn}'] + unf + [f'{newn} l =' + e]))
            continue
        mn = re.match(r'tie\.Need-(\S+)', typ.strip())
        if mn:
            key = fn.need(mn[1], name)
            new = fn.needs.get(key)
            if new is None:
                # settled goals and the like
                bad.append('no need ' + mn[1] + ' (' + name + ')')
                e = '\n'.join(body)
                if not re.search(r'=\s*(search rules|omega arith)\s*$', e) and not name.startswith('slice-aggregate'): helpers.append(('N', b))
                continue
            gp = fn.needplace.get(key)
            unf = [x for x in body if x.startswith('unfolding')]
            cl = '\n'.join(x for x in body if not x.startswith('unfolding'))
            if re.fullmatch(re.escape(name) + r'(?: (?!=)%s)*\s*=\s*search rules' % W, cl.strip()) and not unf:
                dropped.append(new); continue
            m2 = re.match(re.escape(name) + r'((?: (?!=)%s)*)\s*=' % W, cl)
            if not m2 or cl.count('\n' + name + ' ') :
                bad.append('clauses of ' + name); helpers.append(('H', b)); continue
            params = m2[1].split()
            e = cl[m2.end():]
            cv = Conv(fn, gp)
            env = {}
            cpar = [p for p in params if p not in ('κs', 'κ')]
            if cpar: env[cpar[0]] = ('place', gp)
            e = cv.body(e, env)
            bad += [f'{name}: {x}' for x in cv.bad]
            asked = {norm(k): v for k, v in (fn.js.get('asked') or {}).items()}.get(key)
            if asked: e = as_record(e, asked)
            cname = cpar[0] if cpar else '_'
            if cname != 'c' and cname != '_': bad.append(f'{name}: parameter {params}')
            ans.append('\n'.join(cm + [f'pub {new} : goal.{new}'] + unf + [f'{new} ' + ' '.join([cname if cname == "_" else "c"] + cpar[1:]) + ' =' + e]))
            continue
        # helper
        t = '\n'.join(b2)
        tm = re.search(r'tie\.([A-Z]%s)((?: invariant-\S+| decreases-\S+)*)' % W.replace('\\]', '\\]'), t)
        if tm and not tm[1].startswith('Need'):
            pl = fn.index.get(norm(tm[1].rstrip(')')))
            pm = re.search(r'\((%s) : tie\.' % W, t)
            if pl is not None and pm:
                cv = Conv(fn, pl)
                t = re.sub(r'tie\.([A-Z][^\s()]*)((?: (?:invariant|decreases)-[^\s()]+)*)', lambda x: 'goal.' + (fn.newname[fn.index[norm(x[1])]] if norm(x[1]) in fn.index else x[1]), t)
                env = {pm[1]: ('place', pl)}
                # clause param may differ
                parts = re.split(r'(?m)^(?=%s (?!:))' % re.escape(name), t, maxsplit=1)
                s0 = cv.body(parts[0], dict(env))
                s1 = ''
                if len(parts) > 1:
                    m3 = re.match(re.escape(name) + r'((?: (?!=)%s)*)\s*=' % W, parts[1])
                    if m3:
                        ps = m3[1].split()
                        if ps and ps[0] != pm[1]: env = {ps[0]: ('place', pl)}
                        s1 = cv.body(parts[1], env)
                    else: s1 = parts[1]
                bad += [f'{name}: {x}' for x in cv.bad]
                if pm[1] != 'c': bad.append(f'{name}: parameter {pm[1]}')
                helpers.append(('T', (cm + [s0 + s1])))
                continue
        if 'tie.' in t: bad.append('helper ' + name + ' has tie')
        helpers.append(('P', b))
    return comment, uses, inv, ans, helpers, bad, dropped, rest

def main():
    if len(sys.argv) < 4 or sys.argv[1] in ('-h', '--help'):
        print(__doc__)
        return
    crate, names, only = sys.argv[1], sys.argv[2], sys.argv[4:]
    with open(sys.argv[3], encoding='utf-8') as f:
        RESPELL.update(line.rstrip('\n').split(' ', 1) for line in f)
    cn = os.path.basename(os.path.abspath(crate))
    load_callees(os.path.dirname(os.path.abspath(crate)))
    d = json.load(open(names))
    for mod, js in sorted(d.items()):
        m = re.match(r'Rattle-(\w+)-proofs\.(.*)\.Lts(.*)$', mod)
        if not m or m[3]: 
            if m: print('SKIP', mod)
            continue
        path = m[2].replace('.', '/')
        if only and not any(o in path for o in only): continue
        f = f'{crate}/proofs/{path}/Proof.antt'
        if not os.path.exists(f): continue
        if js['stem']: print('CYCLE', path, js['stem'])
        fn = Fn(mod, js)
        global PARAMS
        PARAMS = []
        import glob
        for src in glob.glob(crate + '/src/**/*.rt', recursive=True):
            mm = re.search(r'\bfn ' + path.split('/')[-1] + r'\(([^)]*)\)', open(src).read())
            if mm: PARAMS = [x.split(':')[0].replace('mut ', '').strip() for x in re.sub(r'\[[^\]]*\]', '', mm[1]).split(',') if x.strip()]
        try:
            comment, uses, inv, ans, helpers, bad, dropped, rest = convert(f, fn, m[2])
        except Exception as ex:
            import traceback; traceback.print_exc()
            print('FAILED', path, ex); continue
        modname = f'Rattle.{cn}.proofs.{m[2]}'
        folder = os.path.dirname(f)
        order = []
        htext = ['\n'.join(b) for k, b in helpers if k != 'C']
        usetext = '\n'.join(uses)
        # helpers over a place are bound where they are used
        inl = []
        for k, b in helpers:
            if k != 'T': continue
            lines = [x for x in b if not x.startswith('--')]
            h = '\n'.join(lines)
            unf = re.findall(r'(?m)^unfolding (.*)$', h)
            h = re.sub(r'(?m)^unfolding .*\n', '', h)
            mm = re.match(r'(?:abbrev )?(%s) : \((?:%s) : goal\.[^\s()]+\)(.*?)\n\1 (?:%s)((?: (?!=)%s)*) =\s*(.*)$' % (W, W, W, W), h, re.S)
            if not mm or re.search(r'\n  where\b', h) or re.search(r'(?m)^' + re.escape(mm[1]) + ' ', mm[4]):
                bad.append('helper stays: ' + h.split(' ')[0]); continue
            name, ty, ex, bo = mm[1], re.sub(r'\s+', ' ', mm[2]).strip(), mm[3].split(), re.sub(r'\s*\n\s*', ' ', mm[4])
            ty = re.sub(r'^→\s*', '', ty)
            if ex: bo = 'λ ' + ' '.join(ex) + '. ' + bo
            inl.append((name, ty, bo, ' '.join(unf).split()))
            htext.remove('\n'.join(b))
        def uses(n2): return r'(?<![^\s(){};,.])' + re.escape(n2) + r' c(?![^\s(){};,])'
        fin = []
        for x in ans:
            need = set(); todo = [x]
            while todo:
                y = todo.pop()
                for n2, t2, b2, u2 in inl:
                    if n2 not in need and re.search(uses(n2), y): need.add(n2); todo += [t2, b2]
            if need:
                def put(s):
                    for n2 in need:
                        s = re.sub(r'\(' + re.escape(n2) + r' c\)|' + uses(n2), lambda _: n2, s)
                    return s
                lets = ''.join(f'\n    let {n2} : {put(t2)} = {put(b2)} in' for n2, t2, b2, u2 in inl if n2 in need)
                us = [w for n2, t2, b2, u2 in inl if n2 in need for w in u2]
                mm = re.match(r'((?:--[^\n]*\n)*pub \S+ : \S+\n)(unfolding [^\n]*\n)?((?:(?!=)\S+ )+=)(.*)$', x, re.S)
                have = (mm[2] or '').split()[1:]
                us = have + [w for w in dict.fromkeys(us) if w not in have]
                body = put(mm[4])
                x = mm[1] + ('unfolding ' + ' '.join(us) + '\n' if us else '') + mm[3] + lets + (body if body.startswith('\n') else '\n   ' + body)
            fin.append(x)
        ans = fin
        # helpers that invariants name go with them
        invtext = '\n'.join(inv)
        hinv = []
        for h in list(htext):
            mm = re.match(r'(?:--[^\n]*\n)*((?:abbrev |pub |unfoldable )*)(%s)' % W, h)
            if mm and inv and re.search(r'(?<![^\s(){};,])' + re.escape(mm[2]) + r'(?![^\s(){}.;,])', invtext) and 'goal.' not in h and 'tie.' not in h:
                hinv.append((mm[2], h)); htext.remove(h)
        if inv:
            t = '\n'.join(comment) + '\n' + usetext + f'\nuse {modname}.Given as goal\n\n'
            for nme, h in hinv:
                if not re.match(r'(?:--[^\n]*\n)*(abbrev |unfoldable )*pub ', h):
                    h = re.sub(r'^((?:--[^\n]*\n)*)((?:abbrev |unfoldable )*)', r'\1\2pub ', h)
                t += h + '\n\n'
            t += '\n\n'.join(inv) + '\n'
            open(folder + '/Invariants.antt', 'w').write(t)
        opened = [re.sub(r'\bc\.[^\s(){},;]*-own\.keys\d+', lambda z: '(opened ' + z[0] + ')', a) for a in ans]
        if opened != ans: usetext += '\nuse borrow.Enum.Refused.{opened}'
        ans = opened
        if ans or htext:
            t = '\n'.join(comment) + '\n' + usetext
            if hinv: t += f'\nuse {modname}.Invariants.{{{", ".join(n for n, _ in hinv)}}}'
            t += f'\nuse {modname}.Goals as goal\n\n'
            # keep order: helpers before answers by default; interleave by original order
            items = []
            pos = {}
            orig = open(f, encoding='utf-8').read()
            for x in ans + htext: items.append(x)
            seq = []
            origblocks = ['\n'.join(b) for b in blocks(orig)[1:]]
            # helpers first unless they cite answers
            t += '\n\n'.join(htext + ans) + '\n'
            open(folder + '/Answers.antt', 'w').write(t)
        os.remove(f)
        if bad: print(path, 'BAD:', '; '.join(bad))
main()
