#!/usr/bin/env python3
"""Brings the wrong programs that are kept as files (crates/*/must-fail/*.edit, crates/*/tried/*.edit, wrong/*.diff) to the spelling of today's sources.

  tools/turn_edits.py prepare SCRATCH      makes in SCRATCH a repository of what had landed, src/ and specs/ alone, in which each edited version of a file stands
                                           beside the file; then the kit's port.py is run there, without its rt fmt, and rt fmt in a copy of it
  tools/turn_edits.py write SCRATCH FORMATTED TABLE
                                           reads how the versions came out, respells them as the files were (TABLE: what tools/respell.py --table says on the tree
                                           that port.py wrote), and writes the edits and diffs anew
  tools/turn_edits.py verify               that each edit fits, none is gone, and no old spelling is left

An edit is taken from the commit LANDED, so that `write` can run again. Edits of plain Rust keep their texts; their comments alone are turned. What BY_HAND lists is
left as it stands in the tree."""
import collections
import difflib
import importlib.util
import json
import os
import re
import subprocess
import sys

ROOT = os.path.dirname(os.path.dirname(os.path.abspath(__file__)))
LANDED = "26ecacd897b9447c6c9c96a7d22ddd7765263faf"
# words of comments: a word of the kit, and a theorem that had its name no longer when the tree landed
SAID = {"getD": "get_or", "a-canonical-item-over-c-is-written-back": "the_items_of_a_canonical_section_over_c_are_written_back"}
OLD = re.compile(r"(?<![\w'.])[a-z][\w']*(?:[A-Z]|-)[\w'-]*|[«»⌜⌝·′]|(?<=\S) \.[a-z]|_[+*≡≤<&|∷]+_|the-variants")
EDIT = re.compile(r"crates/([^/]+)/(must-fail|tried)/[^/]+\.edit$")
TOKEN = re.compile(r"\s+|[\w'′₀-₉«»⟨⟩-]+|.", re.S)
WORD = r'[^\s(){}.;,@"«»]+'
QUIET = re.compile(r'"(?:[^"\\\n]|\\.)*"|(?<![^\s(){}.;,@"«»])--[^\n]*|\{-.*?-\}', re.S)
MARKS = r"(?:(?:pub|abbrev|unfoldable|pattern|axiom|data|record)\s+)*"
DECLARED = re.compile(rf"(?m)^ *{MARKS}({WORD})((?: \{{[^{{}}\n]*\}})*)((?: \([^()\n]*\))*) :")
# two values exchanged in one file, by a text that stands between
BY_HAND = {"crates/header/tried/tier_and_length_exchanged.edit", "crates/header/tried/version_and_index_exchanged.edit", "crates/section/tried/crc_tested_after_length.edit"}


def git(*words, at=ROOT, data=None):
    run = subprocess.run(["git", "-C", at, *words], capture_output=True, text=True, input=data, check=True)
    return run.stdout


def read(path):
    with open(path, encoding="utf-8") as f:
        return f.read()


def write(path, text):
    with open(path, "w", encoding="utf-8") as f:
        f.write(text)


def landed():
    """{path: text} of crates/ and wrong/ as they landed"""
    out = {}
    ls = [line.split("\t") for line in git("ls-tree", "-r", LANDED, "crates", "wrong").splitlines()]
    want = [(m.split()[2], p) for m, p in ls if re.search(r"\.(rt|antt|edit|diff)$", p)]
    run = subprocess.run(["git", "-C", ROOT, "cat-file", "--batch"], input="".join(h + "\n" for h, _ in want).encode(), capture_output=True, check=True).stdout
    at = 0
    for _, p in want:
        end = run.index(b"\n", at)
        size = int(run[at:end].split()[2])
        out[p] = run[end + 1 : end + 1 + size].decode()
        at = end + 2 + size
    return out


def pairs(text):
    """[[file, old, new]]"""
    out, file, old = [], None, None
    for line in text.split("\n"):
        if line.startswith("file: "):
            file = line[6:]
        elif line.startswith("old: "):
            old = line[5:]
        elif line.startswith("new:"):
            out.append([file, old, line[5:] if line.startswith("new: ") else line[4:]])
    return out


def is_plain(text):
    """whether the texts are plain Rust, which kept its spelling"""
    raw = "\n".join(line for line in text.split("\n") if not line.startswith("#"))
    return "file: specs" not in raw and not re.search(r"[^\x00-\x7f]|ghost|ensures|requires", raw)


def mark(file, n):
    base, ext = os.path.splitext(file)
    return f"{base}{'Zq' if ext == '.antt' else '_zq'}{n}{ext}"


def prepare(scratch):
    import tempfile

    os.makedirs(scratch)
    tree = landed()
    for p, t in tree.items():
        if re.match(r"crates/[^/]+/(src|specs)/", p) and p.endswith((".rt", ".antt")):
            os.makedirs(os.path.dirname(f"{scratch}/{p}"), exist_ok=True)
            write(f"{scratch}/{p}", t)
    write(f"{scratch}/crates.txt", git("show", LANDED + ":crates.txt"))
    index = []

    def version(who, crate, file, text):
        name = mark(file, len(index))
        write(f"{scratch}/crates/{crate}/{name}", text)
        index.append({"who": who, "crate": crate, "file": file, "version": name})

    for p in sorted(p for p in tree if EDIT.match(p)):
        if is_plain(tree[p]):
            continue
        crate, texts = EDIT.match(p)[1], {}
        for file, old, new in pairs(tree[p]):
            t = texts.get(file, tree[f"crates/{crate}/{file}"])
            assert t.count(old) == 1, (p, old)
            texts[file] = t.replace(old, new)
        for file, t in texts.items():
            version(p, crate, file, t)
    with tempfile.TemporaryDirectory() as d:
        subprocess.run(f"git -C '{ROOT}' archive {LANDED} crates | tar x -C '{d}'", shell=True, check=True)
        git("init", "-q", at=d)
        git("add", "-A", at=d)
        for p in sorted(p for p in tree if p.startswith("wrong/")):
            git("apply", "-", at=d, data=tree[p])
            for f in git("diff", "--name-only", at=d).split():
                if "/proofs/" not in f:
                    _, crate, file = f.split("/", 2)
                    version(p, crate, file, read(f"{d}/{f}"))
            git("checkout", "-q", ".", at=d)
            git("clean", "-fdq", at=d)
    write(f"{scratch}/index.json", json.dumps(index, indent=0))
    print(f"{len(index)} versions")


def respell():
    spec = importlib.util.spec_from_file_location("respell", f"{ROOT}/tools/respell.py")
    text = read(f"{ROOT}/tools/respell.py").rsplit("\nmain()", 1)[0]
    module = importlib.util.module_from_spec(spec)
    exec(compile(text, spec.origin, "exec"), module.__dict__)
    return module


def declared():
    """the names that today's specs/ and files of lemmas declare"""
    out = set()
    for p in git("ls-files", "crates").splitlines():
        if p.endswith(".antt") and not re.search(r"/proofs/.*/(Proof|Answers|Invariants)\.antt$", p) and os.path.exists(f"{ROOT}/{p}"):
            out |= {m[1] for m in DECLARED.finditer(QUIET.sub(" ", read(f"{ROOT}/{p}")))}
    return out


class Comments:
    """turns the names of comments: what specs/ and files of lemmas declared; names of goals stay"""

    def __init__(self, names, tree, module):
        self.names, self.today, self.old, self.snake = names, declared(), set(), module.snake
        for p, t in tree.items():
            if p.endswith(".antt") and not re.search(r"/proofs/.+/Proof\.antt$", p):
                self.old |= {m[1] for m in DECLARED.finditer(QUIET.sub(" ", t))}

    def one(self, m):
        w = m[0]
        if w in SAID:
            return SAID[w]
        if not re.search(r"[a-z][A-Z]|\w-\w|′", w) or re.match(r"returns-\d+$", w) or w[0].isupper() or w not in self.old:
            return w
        return self.names.get(w) or (self.snake(w) if self.snake(w) in self.today else w)

    def turn(self, line):
        if re.match(r"#? ?rule:", line):
            return line
        return re.sub(r"[\w'′₀-₉-]+", self.one, line).replace("′", "'")


def tokens(line):
    return TOKEN.findall(line)


def spots(line):
    """offsets where a piece may begin or end"""
    out, at = [0], 0
    for t in tokens(line):
        at += len(t)
        out.append(at)
    return out


def carried(old_line, a, b, line):
    """where the piece [a, b) of a line that landed stands in the line as it reads today"""
    x, y = tokens(old_line), tokens(line)
    at, i, j = 0, None, None
    for n, t in enumerate(x):
        if i is None and at + len(t) > a:
            i = n
        at += len(t)
        if j is None and at >= b:
            j = n + 1
    lo = hi = None
    for tag, i1, i2, j1, j2 in difflib.SequenceMatcher(None, x, y, autojunk=False).get_opcodes():
        if lo is None and i1 <= i < i2:
            lo = j1 + (i - i1) if tag == "equal" else j1
        if i1 < j <= i2:
            hi = j1 + (j - i1) if tag == "equal" else j2
    s = [0]
    for t in y:
        s.append(s[-1] + len(t))
    lo, hi = 0 if lo is None else lo, len(y) if hi is None else hi
    return s[lo], s[max(hi, lo)]


def piece(text, o, v, hint=None):
    """(old, new): a part of the line o, standing once in the text, and what it becomes in v; hint: a part that should be in it"""
    cuts, cuts_v = spots(o), set(spots(v))
    pre = 0
    for c in cuts:
        if o[:c] == v[:c] and c in cuts_v:
            pre = c
    post = 0
    for c in reversed(cuts):
        k = len(o) - c
        if k <= min(len(o), len(v)) - pre and o[c:] == v[len(v) - k :] and len(v) - k in cuts_v:
            post = k
    lo, hi = pre, len(o) - post
    if hint:
        lo, hi = min(lo, hint[0]), max(hi, hint[1])
    while lo > 0 and o[lo - 1] == "(" and o[lo:hi].count(")") > o[lo:hi].count("("):
        lo -= 1
    while lo > 0 and (hi - lo < 8 or o[lo - 1] not in " (" or o[lo:hi][:1] in ", "):
        lo = [c for c in cuts if c < lo][-1]
    while True:
        old = o[lo:hi]
        trim = old != old.strip() and (lo > 0 or hi < len(o))
        if old.strip() and text.count(old) == 1 and not (trim and (old[-1:] == " " or (old[0] == " " and lo > 0))):
            return old, v[lo : len(v) - (len(o) - hi)]
        a, b = [c for c in cuts if c < lo], [c for c in cuts if c > hi]
        if not a and not b:
            return None
        if b and (hi - pre <= len(o) - post - lo or not a or old[-1:] == " "):
            hi = b[0]
        else:
            lo = a[-1]


def turned_pairs(text, o, v, landed_pairs, landed_text):
    """([(old, new)], why not): text is today's, o and v the file and its edited version as both were turned"""
    is_same = text == o
    o, v = o.split("\n"), v.split("\n")
    out, why = [], None
    whole = [("replace", 0, len(o), 0, len(v))] if len(o) == len(v) else difflib.SequenceMatcher(None, o, v, autojunk=False).get_opcodes()
    for tag, i1, i2, j1, j2 in whole:
        if tag == "equal":
            continue
        if i2 - i1 != j2 - j1:
            why = f"{i2 - i1} lines become {j2 - j1}"
            # one line for one: the lines behind stay where they are
            return out, why + ": " + " / ".join(o[i1:i2]) + " => " + " / ".join(v[j1:j2])
        for x, y in zip(o[i1:i2], v[j1:j2]):
            if x == y:
                continue
            hint = None
            best = 0
            for old, new in landed_pairs:
                for line in landed_text.split("\n"):
                    if old in line:
                        r = difflib.SequenceMatcher(None, tokens(line), tokens(x), autojunk=False).ratio()
                        if r > best:
                            best, hint = r, carried(line, line.index(old), line.index(old) + len(old), x)
            got = None
            for h in (hint if best > 0.3 else None, None):
                got = piece(text, x, y, h)
                if got:
                    break
            if not got:
                return out, f"the line stands {text.count(x)} times: {x}"
            text = text.replace(*got)
            out.append(got)
    if is_same and text != "\n".join(v):
        return out, "the pairs make another text"
    return out, None


def main_write(scratch, formatted, table):
    names = dict(line.split() for line in read(table).splitlines())
    module, tree = respell(), landed()
    comments = Comments(names, tree, module)
    # what a wrong library declares itself
    old = set().union(*({m[1] for m in DECLARED.finditer(QUIET.sub(" ", t))} for p, t in tree.items() if p.endswith(".antt")))
    for it in json.loads(read(f"{scratch}/index.json")):
        if it["file"].endswith(".antt"):
            for m in DECLARED.finditer(QUIET.sub(" ", read(f"{scratch}/crates/{it['crate']}/{it['version']}"))):
                w = m[1]
                if w not in old and w not in names and w[0].islower() and re.search(r"[A-Z]|-|′", w):
                    names[w] = module.snake(w)
                    print("own:", w, names[w])

    def turned(crate, file, at, top=scratch):
        p, text = f"{ROOT}/crates/{crate}/{file}", read(f"{top}/crates/{crate}/{at}")
        return module.antt(text, names, p) if file.endswith(".antt") else module.rt(text, names)

    versions = collections.defaultdict(dict)
    for it in json.loads(read(f"{scratch}/index.json")):
        versions[it["who"]][it["crate"], it["file"]] = it["version"]
    left, origin = [], {}
    for p in sorted(p for p in tree if EDIT.match(p) and p not in BY_HAND):
        crate, text = EDIT.match(p)[1], tree[p]
        head = [comments.turn(line) for line in text.split("\n") if line.startswith("#")]
        body = [line.replace("#[no_mangle]", "#[unsafe(no_mangle)]") for line in text.split("\n") if not line.startswith("#")]
        if p in versions:
            body, file_said = [], None
            for (c, file), at in versions[p].items():
                if (c, file) not in origin:
                    origin[c, file] = turned(c, file, file)
                o, v = origin[c, file], turned(c, file, at)
                today = read(f"{ROOT}/crates/{c}/{file}")
                got, why = turned_pairs(today, o, v, [x[1:] for x in pairs(text) if x[0] == file], tree[f"crates/{c}/{file}"])
                if not got and not why:
                    why = "nothing differs"
                if why:
                    left.append(f"{p}: {why}")
                if file != file_said:
                    body.append(f"file: {file}")
                for old, new in got:
                    body += [f"old: {old}", f"new: {new}".rstrip() if not new else f"new: {new}"]
            body.append("")
        write(f"{ROOT}/{p}", "\n".join(head + body))
    proofs = []
    for p in sorted(p for p in tree if p.startswith("wrong/") and p not in BY_HAND):
        head, first, rest = tree[p].partition("diff --git ")
        head = "".join(comments.turn(line) + "\n" for line in head.splitlines())
        before = {}
        for (c, file), at in versions[p].items():
            path = f"{ROOT}/crates/{c}/{file}"
            text, why = merged(read(path), turned(c, file, file, formatted), turned(c, file, at, formatted))
            before[path] = read(path)
            write(path, text)
            if why:
                left.append(f"{p}: {c}/{file}: {why}")
        said = git("diff", "--no-ext-diff", "--src-prefix=a/", "--dst-prefix=b/", "--", *before)
        for path, text in before.items():
            write(path, text)
        write(f"{ROOT}/{p}", head + said)
        for part in re.split(r"(?m)^(?=diff --git )", first + rest):
            m = re.search(r"^\+\+\+ b/(crates/[^/]+/proofs/.*)", part, re.M)
            if m:
                proofs.append((p, m[1], sum(line[:1] == "+" for line in part.split("\n")) - 1, sum(line[:1] == "-" for line in part.split("\n")) - 1))
    with open(f"{ROOT}/docs/wrong-proofs-left.txt", "w", encoding="utf-8") as f:
        f.write(f"The proof parts of wrong/*.diff that are still to be turned: `git show {LANDED[:8]}:wrong/NAME.diff` has each as it was.\nfile, lines added, lines taken away\n")
        last = None
        for p, file, more, less in proofs:
            f.write(("" if p == last else f"\n{p}\n") + f"  {file} +{more} -{less}\n")
            last = p
    for line in left:
        print("left:", line)
    print(f"{len(versions)} turned by their versions, {len(left)} left")


def merged(today, o, v):
    """today's file with what makes v of o, or what is in the way"""
    import tempfile

    head, tactic, _ = today.partition("#![tactic(auto)]\n\n")
    o, v = (head + tactic + t[len(head) :] if t.startswith(head) else t for t in (o, v))
    with tempfile.TemporaryDirectory() as d:
        for name, text in (("today", today), ("o", o), ("v", v)):
            write(f"{d}/{name}", text)
        run = subprocess.run(["git", "merge-file", "-p", "today", "o", "v"], cwd=d, capture_output=True, text=True)
        return run.stdout, f"{run.returncode} conflicts" if run.returncode else None


def fits(p, text):
    """what is wrong with an edit as it stands, or None"""
    texts = {}
    for file, old, new in pairs(text):
        at = f"{ROOT}/crates/{EDIT.match(p)[1]}/{file}"
        t = texts.get(file) or read(at)
        if t.count(old) != 1 or old == new:
            return f"the old text stands {t.count(old)} times in {file}: {old}"
        texts[file] = t.replace(old, new)
    return None if texts else "no pair"


def verify():
    tree, wrong, goals = landed(), [], collections.Counter()
    today = git("ls-files", "--cached", "--others", "--exclude-standard", "crates", "wrong").splitlines()
    kept = {p for p in tree if EDIT.match(p) or p.startswith("wrong/")}
    here = {p for p in today if (EDIT.match(p) or p.startswith("wrong/")) and os.path.exists(f"{ROOT}/{p}")}
    wrong += [f"{p}: gone" for p in sorted(kept - here)] + [f"{p}: new" for p in sorted(here - kept)]
    for p in sorted(kept & here):
        text = read(f"{ROOT}/{p}")
        if p.endswith(".edit"):
            why = fits(p, text)
            wrong += [f"{p}: {why}"] if why else []
            old = pairs(tree[p])
            if [x[0] for x in old] != [x[0] for x in pairs(text)]:
                wrong.append(f"{p}: {len(old)} pairs, and {len(pairs(text))} today")
        elif subprocess.run(["git", "-C", ROOT, "apply", "--check", p], capture_output=True).returncode:
            wrong.append(f"{p}: can't be applied")
        if len([x for x in text.split("\n") if re.match("#|rule:", x)]) != len([x for x in tree[p].split("\n") if re.match("#|rule:", x)]):
            wrong.append(f"{p}: another number of comments")
        head = p.endswith(".diff")
        for line in text.split("\n"):
            head = head and not line.startswith("diff --git ")
            if re.match(r"(# ?)?rule:|diff --git |index ", line):
                continue
            for m in OLD.finditer(line):
                if head or line.startswith("#"):
                    goals[m[0]] += 1
                elif line[:1] != " ":
                    wrong.append(f"{p}: {m[0]} in {line}")
    for line in wrong:
        print(line)
    print("left in comments, as names of goals or as words:", " ".join(f"{w}({n})" for w, n in sorted(goals.items())))
    print(f"{sum(p.endswith('.edit') for p in here)} edits, {sum(p.endswith('.diff') for p in here)} wrong libraries, {len(wrong)} remarks")
    return 1 if wrong else 0


if __name__ == "__main__":
    if sys.argv[1:2] == ["prepare"]:
        prepare(sys.argv[2])
    elif sys.argv[1:2] == ["write"]:
        main_write(*sys.argv[2:5])
    elif sys.argv[1:2] == ["verify"]:
        sys.exit(verify())
    else:
        sys.exit(__doc__)
