#!/usr/bin/env python3
"""rooms.py ROOT [ROOM..]: crates become modules of rooms, in the tree at ROOT (all rooms, or those named).

It knows no function and no file by name: what is moved and rewritten follows from the tree, so it can be run anew on any
later main. Nothing but names and paths changes. It says what it could not do; where it says nothing all is done, `rt fmt`
too. It stages nothing: `git -C ROOT checkout . && git -C ROOT clean -fdq crates` takes it back."""
import os, re, shutil, subprocess, sys

ROOMS = {  # room: (the crate that becomes its root, {absorbed crate: module})
    'wire': ('wire', {'number': 'number'}),
    'label': ('label', {'length': 'length'}),
    'sheet': ('sheet', {'layout': 'layout'}),
    'item': ('item', {'kind': 'code', 'decode': 'decode', 'short': 'short', 'laying': 'laying'}),
    'v8': ('codes', {'part': 'part', 'frame': 'frame'}),
    'judge': ('judge', {'scan': 'scan'}),
    'strict': ('strict', {'piece': 'piece', 'table': 'table'}),
    'write': ('write', {'counts': 'counts', 'plain': 'plain'}),
    'write_v7': ('write_v7', {'v7': 'codes'}),
    'read': ('read', {'measure': 'measure'}),
    'timeline': ('timeline', {'seconds': 'seconds'}),
    'abi': ('abi', {'held': 'held'}),
}
if len(sys.argv) < 2:
    sys.exit(__doc__)
HOME = os.path.dirname(os.path.abspath(sys.argv[0]))
os.chdir(sys.argv[1])
only = sys.argv[2:]
if set(only) - set(ROOMS):
    sys.exit('no such room: ' + ' '.join(set(only) - set(ROOMS)))

def is_crate(c): return os.path.isdir('crates/%s/src' % c)
def read(p):
    with open(p, encoding='utf-8') as f: return f.read()
def write(p, t):
    if os.path.dirname(p): os.makedirs(os.path.dirname(p), exist_ok=True)
    with open(p, 'w', encoding='utf-8') as f: f.write(t)
def move(a, b):
    assert not os.path.exists(b), b
    os.makedirs(os.path.dirname(b), exist_ok=True)
    shutil.move(a, b)

MOVE, RENAME = {}, {}        # absorbed crate: (room, module); crate: its new name
for room, (root, parts) in ROOMS.items():
    if (only and room not in only) or not is_crate(root): continue
    if root != room:
        if is_crate(room): sys.exit('there is a crate %s already' % room)
        RENAME[root] = room
    for a, m in parts.items():
        if is_crate(a): MOVE[a] = (room, m)
if not MOVE and not RENAME: sys.exit('nothing to move: the rooms are there')
FULL = {a: '%s::%s' % v for a, v in MOVE.items()}    # crate: its path
FULL.update(RENAME)
ORDER = [re.sub(r':.*', '', l) for l in read('crates.txt').split('\n') if ':' in l and not l.startswith('#')]
OLD = {l.split(':')[0]: l.split(':')[1].split() for l in read('crates.txt').split('\n') if ':' in l and not l.startswith('#')}

# ---------------------------------------------------------------- the files
for a, b in RENAME.items():
    move('crates/' + a, 'crates/' + b)

def specs_of(c):
    d = 'crates/%s/specs' % c
    return sorted(f[:-5] for f in os.listdir(d) if f.endswith('.antt') and f != 'Lib.antt') if os.path.isdir(d) else []
def edits_of(c):
    d = 'crates/%s/must-fail' % c
    return sorted(os.listdir(d)) if os.path.isdir(d) else []

SPEC, EDIT = {}, {}          # (crate, spec file): its name in the room; (crate, edit): the same
taken = {r: set(specs_of(r)) for r, _ in MOVE.values()}
held_edits = {r: set(edits_of(r)) for r, _ in MOVE.values()}
for a in [c for c in ORDER if c in MOVE]:
    room, m = MOVE[a]
    for s in specs_of(a):
        n = s if s not in taken[room] else m.capitalize() + s
        assert n not in taken[room], (a, n)
        taken[room].add(n)
        SPEC[(a, s)] = n
    for e in edits_of(a):
        n = e if e not in held_edits[room] else m + '_' + e
        assert n not in held_edits[room], (a, n)
        held_edits[room].add(n)
        EDIT[(a, e)] = n

for a in [c for c in ORDER if c in MOVE]:
    room, m = MOVE[a]
    A, R = 'crates/' + a, 'crates/' + room
    move(A + '/src/lib.rt', '%s/src/%s.rt' % (R, m))
    for f in sorted(os.listdir(A + '/proofs')) if os.path.isdir(A + '/proofs') else []:
        move('%s/proofs/%s' % (A, f), '%s/proofs/%s' % (R, m + '.antt' if f == 'Lib.antt' else m + '/' + f))
    lib = R + '/specs/Lib.antt'
    if os.path.exists(A + '/specs/Lib.antt'):
        text = read(A + '/specs/Lib.antt')
        for s in specs_of(a):
            text = re.sub(r'\bmod %s\b' % s, 'mod ' + SPEC[(a, s)], text)
            move('%s/specs/%s.antt' % (A, s), '%s/specs/%s.antt' % (R, SPEC[(a, s)]))
        os.remove(A + '/specs/Lib.antt')
        write(lib, (read(lib) if os.path.exists(lib) else '') + text)
    for e in edits_of(a):
        t = read('%s/must-fail/%s' % (A, e))
        t = re.sub(r'^file: src/lib\.rt', 'file: src/%s.rt' % m, t, flags=re.M)
        t = re.sub(r'^file: specs/(\w+)\.antt', lambda k: 'file: specs/%s.antt' % SPEC.get((a, k[1]), k[1]), t, flags=re.M)
        t = re.sub(r'^file: proofs/(?!Lib\.antt)', 'file: proofs/%s/' % m, t, flags=re.M)
        os.remove('%s/must-fail/%s' % (A, e))
        write('%s/must-fail/%s' % (R, EDIT[(a, e)]), t)
    left = [os.path.join(d, f) for d, _, fs in os.walk(A) for f in fs]
    assert not left, left
    shutil.rmtree(A)

MODULES = {}                 # room: its modules
for room, m in MOVE.values():
    MODULES.setdefault(room, []).append(m)
for room, ms in MODULES.items():
    lib = 'crates/%s/src/lib.rt' % room
    t = read(lib)
    head = re.match(r'(?://[^\n]*\n)*', t).group()
    write(lib, head + ''.join('pub mod %s;\n' % m for m in sorted(ms)) + '\n' + t[len(head):])

# ---------------------------------------------------------------- the names in them
def antt(t, here):
    """paths of antt, in the crate or room `here`"""
    def path(k):
        c, own, rest = k[1], k[2], k[3]
        if c not in MOVE and c not in RENAME and c != here: return k[0]
        room, m = MOVE[c] if c in MOVE else (RENAME.get(c, c), None)
        kind = re.match(r'\.(specs|proofs)\b', rest)
        if not kind: return 'Rattle·' + room + own + rest
        kind, rest = kind[1], rest[kind.end():]
        if m and kind == 'proofs': rest = '.' + m + rest
        elif m:
            s = re.match(r'\.(\w+)', rest)
            if s and s[1] == 'declared': rest = '.declared.' + m + rest[s.end():]
            elif s: rest = '.' + SPEC.get((c, s[1]), s[1]) + rest[s.end():]
        return 'Rattle·%s%s.%s%s' % (room, '·' + kind if here == room else '', kind, rest)
    return re.sub(r'Rattle·([a-z][a-z0-9_]*)(·specs|·proofs)?((?:\.[\w]+)*)', path, t)

NAMES = '|'.join(sorted(set(MOVE) | set(RENAME) | {r for r, _ in MOVE.values()}, key=len, reverse=True))
PATH = re.compile(r'(?<![\w:/·])(%s)::(?=\w)' % NAMES)

def said(t):
    """paths in words: comments and documents"""
    t = re.sub(r'\bcrate (`?)(%s)\b(?!::)' % '|'.join(MOVE), lambda k: 'module ' + k[1] + FULL[k[2]], t) if MOVE else t
    if 'kind' in MOVE: t = t.replace('as `kind` has it too', 'as `code` has it too')
    return PATH.sub(lambda k: FULL.get(k[1], k[1]) + '::', t)

def code(t, here, module, imports, want):
    """paths in code. `module` is None at a crate's root; imports are modules that are named in it already, or None where
    any may be brought; want gathers those to bring"""
    def path(k):
        c = k[1]
        room, m = MOVE[c] if c in MOVE else (RENAME.get(c, c), None)
        using = re.match(r'\s*(pub )?use $', t[t.rfind('\n', 0, k.start()) + 1:k.start()])
        if not m:
            return 'super::' if module and room == here else room + '::'
        whole = '' if here == room and not module else 'super::' if here == room else room + '::'
        if using or (imports is not None and m not in imports): return whole + m + '::'
        if whole: want.add('use %s%s;' % (whole, m))
        return m + '::'
    def either(k): return said(k[0]) if k[0].startswith('//') else path(k)
    return re.sub(r'//[^\n]*|' + PATH.pattern, either, t)

def bring(t, want):
    """`use` lines more, and each block of them in order again"""
    lines = t.split('\n')
    blocks, i = [], 0
    while i < len(lines):
        j = i
        while j < len(lines) and re.match(r'use ', lines[j]): j += 1
        if j > i: blocks.append((i, j)); i = j
        else: i += 1
    if want and not blocks:
        i = next(n for n, l in enumerate(lines) if l and not l.startswith('//') and not l.startswith('pub mod'))
        lines[i:i] = sorted(want)
    for n, (i, j) in reversed(list(enumerate(blocks))):
        lines[i:j] = sorted(set(lines[i:j]) | (set(want) if n == 0 else set()), key=lambda l: (not l.startswith('use super'), l.rstrip(';')))
    return '\n'.join(lines)

files = sorted(os.path.join(d, f) for d, _, fs in os.walk('crates') for f in fs)
files.sort(key=lambda p: p.endswith('.edit'))    # sources first: an edit names what its source brings
for p in files:
    here = p.split('/')[1]
    modules = MODULES.get(here, [])
    if p.endswith('.antt'):
        t = read(p); u = said(antt(t, here))
    elif p.endswith('.rt'):
        t = read(p)
        module = os.path.basename(p)[:-3]
        module = module if module in modules else None
        want = set()
        u = antt(code(t, here, module, None, want), here)
        if u != t or want: u = bring(u, want)
    elif p.endswith('.edit'):
        t = read(p)
        f = re.search(r'^file: (\S+)', t, flags=re.M)[1]
        u = antt(t, here)
        if f.endswith('.rt'):
            module = os.path.basename(f)[:-3]
            source = read('crates/%s/%s' % (here, f))
            imports = set(re.findall(r'^use [\w:]*?(\w+);', source, flags=re.M)) | set(re.findall(r'^pub mod (\w+);', source, flags=re.M))
            u = '\n'.join(code(l, here, module if module in modules else None, imports, set()) if re.match(r'(old|new): ', l) else said(l)
                          for l in u.split('\n'))
    else: continue
    if u != t: write(p, u)

# ---------------------------------------------------------------- crates.txt
def new(c): return MOVE[c][0] if c in MOVE else RENAME.get(c, c)
deps = {}
for c, ds in OLD.items():
    here = deps.setdefault(new(c), [])
    for d in map(new, ds):
        if d != new(c) and d not in here: here.append(d)
def closed(c, seen):
    for d in deps.get(c, []):
        if d not in seen: seen.add(d); closed(d, seen)
    return seen
for c in deps: assert c not in closed(c, set()), 'a cycle through ' + c
out, lines, done = [], read('crates.txt').split('\n'), set()
waiting = []                 # (line, name): rooms whose crates stand further down
def put(c):
    out.append(c); done.add(c)
    for w in [w for w in waiting if closed(w, set()) & set(deps) <= done]:
        waiting.remove(w); put(w)
for l in lines:
    if ':' not in l or l.startswith('#'): out.append(l); continue
    c = l.split(':')[0]
    if c in MOVE: continue
    c = new(c)
    if closed(c, set()) & set(deps) <= done: put(c)
    else: waiting.append(c)
assert not waiting, waiting
order = [c for c in out if c in deps]
rank = lambda d: (order.index(d), '') if d in order else (len(order), d)
write('crates.txt', '\n'.join(('%s: %s' % (c, ' '.join(sorted(closed(c, set()), key=rank)))).rstrip() if c in deps else c for c in out))

# ---------------------------------------------------------------- documents
def rewrapped(t):
    """a paragraph at 120 columns, by unfinished/rewrap.py where it is at hand"""
    p = os.path.join(HOME, '..', 'rewrap.py')
    if not os.path.exists(p): return t
    space = {'__name__': 'rewrap', '__file__': p}
    exec(compile(read(p).split("if __name__")[0].split('\nfor ')[0], p, 'exec'), space)
    return space['rewrap'](t)
def document(p, turn):
    if not os.path.exists(p): return
    out = []
    for b in read(p).split('\n\n'):
        u = turn(b)
        if u != b and not b.lstrip('\n').startswith('|'): u = rewrapped(u)
        out.append(u)
    write(p, '\n\n'.join(out))

BARE = re.compile(r'`(%s)`' % '|'.join(FULL))
# names of crates that are a definition's, a program's or a command's name too
SHARED = {'codes', 'layout', 'v7', 'plain', 'measure'}

def promises(t):
    t = re.sub(r'`crates/(%s)`' % '|'.join(FULL), lambda k: '`%s`' % FULL[k[1]], t)
    def name(k):
        tells = t.startswith(': ', k.end())
        if k[1] in ('codes', 'layout') and not tells: return k[0]
        return '`%s`' % FULL[k[1]]
    return said(BARE.sub(name, t))

def decisions(t):
    """item by item: which of the shared names are crates is seen by the company that they keep"""
    out = []
    for i in re.split(r'(?m)^(?=\d+\. |- |## )', t):
        if i.startswith('47. '): out.append(i); continue
        company = sum(k[1] not in SHARED for k in BARE.finditer(i))
        def name(k):
            alone = k[1] in SHARED and k[1] != 'layout' and company < 4
            if alone and not re.search(r'\bof\s+$', i[:k.start()]) and not re.match(r'\s+stays\s+the\s+first\s+pass', i[k.end():]): return k[0]
            return '`%s`' % FULL[k[1]]
        u = said(BARE.sub(name, i))
        if 'table' in MOVE: u = re.sub(r'stands in crates of their own:', 'stands in one crate:', u)
        if len(MOVE) > 4: u = re.sub(r'\bleaf(\s+)crates(\s+)have none \(', r'leaf\1modules\2have none (', u)
        out.append(u)
    return ''.join(out)

def performance(t):
    return said(re.sub(r'`laying`', lambda k: '`%s`' % FULL.get('laying', 'laying'), t))

def cells(names):
    """the crates of a list, each with its modules"""
    out = []
    for c in names:
        c = new(c)
        if c not in out: out.append(c)
    def one(c):
        ms = MODULES.get(c, [])
        return '`%s`' % c + (' (module%s %s)' % ('s' * (len(ms) > 1), ', '.join('`%s`' % m for m in ms)) if ms else '')
    return ', '.join(map(one, out))

def architecture(t):
    def row(k):
        names = re.findall(r'`(\w+)`', k[2])
        return k[1] + cells(names) + ' |' if names and set(names) & (set(FULL) | set(MODULES)) else k[0]
    if t.lstrip('\n').startswith('| room '):
        t = re.sub(r'(?m)^(\|[^|\n]*\|[^|\n]*\| )([^|\n]*) \|$', row, t)
        t = t.replace('| room | holds | crates |', '| room | holds | crates, with their modules |')
    return said(t)

def readme(t):
    """a row for a room: what its root is for, then each module, in the words of the rows that were there"""
    if '| `crates/' not in t: return t
    rows, words = t.split('\n'), {}
    touched = set(FULL) | set(MODULES)
    out = []
    for l in rows:
        k = re.match(r'\| ((?:`crates/\w+`(?:, )?)+) \| (.*) \|$', l)
        names = re.findall(r'`crates/(\w+)`', k[1]) if k else []
        if not set(names) & touched: out.append((None, l)); continue
        said_of = k[2].split('; ', len(names) - 1) if len(names) > 1 else [k[2]]
        assert len(said_of) == len(names), 'README: as many words as crates: ' + l
        if len(names) == 2 and ': ' in said_of[0]:   # "one item: what its bytes say; what it does": the room is of it all
            whole, first = said_of[0].split(': ', 1)
            if MOVE.get(names[0], [''])[0] == names[1]: said_of = [first, whole + ': ' + said_of[1]]
        for c, s in zip(names, said_of):
            words[c] = s
            if c not in MOVE: out.append((new(c), None))
    back = {new(c): c for c in words if c not in MOVE}
    res = []
    for room, l in out:
        if room is None: res.append(l); continue
        parts = [words[back[room]]] if room in back else []
        parts += ['`%s`: %s' % (m, words[a]) for m in MODULES.get(room, []) for a in MOVE if MOVE[a] == (room, m) and a in words]
        res.append('| `crates/%s` | %s |' % (room, '; '.join(parts)))
    return '\n'.join(res)

document('docs/PROMISES.md', promises)
document('docs/DECISIONS.md', decisions)
document('docs/PERFORMANCE.md', performance)
document('docs/ARCHITECTURE.md', architecture)
document('README.md', readme)

if shutil.which('rt'):       # `use` lines in its order
    subprocess.run(['rt', 'fmt'], check=True)

# ---------------------------------------------------------------- what is left to say
for p in files:              # each edit still applies, by rt's rule: its old text stands in its source once
    if not p.endswith('.edit'): continue
    texts, f, old = {}, None, None
    for l in read(p).split('\n'):
        if l.startswith('file: '): f = 'crates/%s/%s' % (p.split('/')[1], l[6:])
        elif l.startswith('old: '): old = l[5:]
        elif l.startswith('new:'):
            text = texts.get(f) or (read(f) if os.path.exists(f) else '')
            if text.count(old) != 1: print('%s: its old text stands %d times in %s: %s' % (p, text.count(old), f, old))
            texts[f] = text.replace(old, re.sub('^ ', '', l[4:]), 1)
GONE = re.compile(r'crates/(%s)\b' % '|'.join(FULL))
LEFT = re.compile(r'(?<![\w:/·])(%s)::(?=\w)' % '|'.join(FULL))
for d, ds, fs in os.walk('.'):
    ds[:] = [x for x in ds if x not in ('.git', 'target', 'unfinished', 'changes', 'testdata')]
    for f in fs:
        p = os.path.join(d, f)
        if not f.endswith(('.md', '.rs', '.py', '.c', '.h', '.toml', '.rt', '.antt', '.edit', 'Makefile', 'run', 'crates.txt')): continue
        with open(p, encoding='utf-8', errors='replace') as h: t = h.read()
        for n, l in enumerate(t.split('\n'), 1):
            if GONE.search(l) or (f.endswith('.md') and LEFT.search(l)): print('%s:%d: names a crate that is gone: %s' % (p, n, l.strip()[:120]))
