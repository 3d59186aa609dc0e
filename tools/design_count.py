#!/usr/bin/env python3
"""Counts the places of issue 45's points 1 to 8 in crates/*/src: tools/design_count.py [FOLDER] [--list]

A place that stays has a line `// Stays (N): reason` on one of the five lines above it, or within it; it is counted as kept. The rules are
plain text rules over formatted code; --list prints each place. Point 8 counts answers and lemma lines in crates/*/proofs.
"""
import collections, difflib, itertools, pathlib, re, sys

args = [a for a in sys.argv[1:] if not a.startswith('--')]
TOP = pathlib.Path(args[0] if args else '.')
LIST = '--list' in sys.argv

ABSENT = r'(Nowhere|Absent|NoRow|NoCall|Bad|Wrong|Unknown|NotShown|Refused|Denied|Declined|NoSession|NotOpened|None|Nothing)'
SCALAR = {'u8', 'u16', 'u32', 'u64', 'usize', 'bool', 'i32', 'i64'}


class Item:
    def __init__(self, path, line, kind, name, text, above):
        self.path, self.line, self.kind, self.name, self.text, self.above = path, line, kind, name, text, above

    def kept(self, n):
        """by a line above it or within it, or at the head of its file"""
        head = re.match(r'(?:(?://|ghost use|use|pub use|\s).*\n)*', self.path.read_text()).group(0)
        return bool(re.search(r'// Stays \(' + str(n) + r'\)', '\n'.join(self.above) + '\n' + self.text + '\n' + head))


def items(path):
    lines = path.read_text().split('\n')
    out, i = [], 0
    while i < len(lines):
        m = re.match(r'(\s*)(?:pub(?:\([a-z]+\))? )?(?:unsafe )?(?:extern "C" )?(fn|enum|struct|const|impl|trait) ?(?:<[^>]*> )?(\w+)?', lines[i])
        if not m or (m.group(2) in ('impl', 'trait')):
            i += 1
            continue
        start, depth, j = i, 0, i
        while True:
            code = re.sub(r'//.*|"(?:\\.|[^"\\])*"|\'(?:\\.|[^\'\\])\'', '', lines[j])
            depth += code.count('{') - code.count('}') + code.count('(') - code.count(')') + code.count('[') - code.count(']')
            if depth == 0 and (code.rstrip().endswith((';', '}')) and not re.match(r'\s*(requires|ensures)\b', code) or j == len(lines) - 1):
                break
            j += 1
            if j >= len(lines):
                j -= 1
                break
        out.append(Item(path, start + 1, m.group(2), m.group(3), '\n'.join(lines[start:j + 1]), lines[max(0, start - 5):start]))
        i = j + 1
    return out


def split_fn(item):
    """head, clauses, body of a function"""
    lines = item.text.split('\n')
    clauses, head, body, where = [], [], [], 'head'
    for line in lines:
        if where == 'head' and re.match(r'\s*(requires|ensures)\b', line):
            where = 'clauses'
        if where == 'clauses' and re.match(r'\s*\{\s*$', line):
            where = 'body'
            continue
        if where == 'head':
            head.append(line)
            if re.search(r'\{\s*$', line):
                where = 'body'
        elif where == 'clauses':
            clauses.append(line)
        else:
            body.append(line)
    return '\n'.join(head), clauses, '\n'.join(body[:-1])


def params(head):
    m = re.search(r'\((.*)\)(?: -> .*)?\s*\{?\s*$', head.replace('\n', ' '))
    if not m:
        return []
    return [p.strip() for p in re.split(r',(?![^<\[(]*[>\])])', m.group(1)) if p.strip()]


def tokens(text):
    text = re.sub(r'//.*', '', text)
    t = re.findall(r'b?"(?:\\.|[^"\\])*"|b?\'(?:\\.|[^\'\\])\'|\w+|[^\w\s]', text)
    out = []
    for x in t:
        if re.match(r'b?["\']', x):
            x = 'S'
        elif re.match(r'\d', x):
            x = 'N'
        elif x in SCALAR or re.match(r'[A-Z]', x):
            x = 'T'
        out.append(x)
    return out


found = collections.defaultdict(list)
every = []
for path in sorted(TOP.glob('crates/*/src/**/*.rt')):
    every += items(path)
fns = [i for i in every if i.kind == 'fn']

# 1: own enums with an absent or refused variant; runs of numbered constants; numbers for refusals, flags; a bool beside values
for i in every:
    if i.kind == 'enum':
        v = re.findall(r'^\s+(\w+)(?=[\s(,{])', re.sub(r'//.*', '', i.text), re.M)
        if len(v) <= 4 and any(re.fullmatch(ABSENT, x) for x in v) and not re.search(r'(Error|Refusal)$', i.name):
            found[1].append((i, 'enum ' + i.name))
    if i.kind == 'struct' and re.search(r': bool\b', i.text) and re.search(r': (?!bool)\w', i.text):
        found[1].append((i, 'a flag in struct ' + i.name))
runs = collections.defaultdict(list)
for i in every:
    m = re.match(r'(?:pub )?const \w+: (?:u32|usize) = (\d+);', i.text)
    if m and int(m.group(1)) < 20:
        runs[i.path].append((int(m.group(1)), i))
for path, l in runs.items():
    if len(l) >= 3:
        found[1] += [(i, f'constant {n} of a run') for n, i in l]
for i in fns:
    head, _, body = split_fn(i)
    if re.search(r'-> (u8|u16|u32|usize)\b', head) and re.search(r'refusal|^flag$|^bit$|_cas$', i.name):
        found[1].append((i, 'a number for a refusal or a flag: ' + i.name))

# 2: functions and structs whose tokens are nearly those of another one, types, numbers and texts apart
big = [(i, tokens(split_fn(i)[2])) for i in fns]
big = [(i, t) for i, t in big if len(t) >= 16 and i.name not in ('from', 'try_from', 'fmt') and not re.match(r'\s*match self', split_fn(i)[2])]
twin = {}
for (a, s), (b, t) in itertools.combinations(big, 2):
    if abs(len(s) - len(t)) > 0.25 * max(len(s), len(t)):
        continue
    m = difflib.SequenceMatcher(None, s, t, autojunk=False)
    if m.quick_ratio() >= 0.85 and m.ratio() >= 0.85:
        for x, y in ((a, b), (b, a)):
            twin.setdefault((x.path, x.line), (x, y))
for x, y in twin.values():
    found[2].append((x, f'{x.name} is like {y.path.parts[-3]}::{y.name}'))
arrays = [i for i in fns if re.fullmatch(r'\s*\[0(?:u\d+)?; \w+\]\s*', split_fn(i)[2])]
found[2] += [(i, f'{i.name}: zeros of a size') for i in arrays if len(arrays) > 1]

# 3: loops that count or go on by hand
for i in fns:
    lines = i.text.split('\n')
    for k, line in enumerate(lines):
        if re.match(r'\s*(while\b|loop \{)', line):
            j = Item(i.path, i.line + k, 'loop', i.name, line, lines[max(0, k - 4):k])
            found[3].append((j, f'{i.name}: {line.strip()}'))

# 4: a function that only casts, or only maps variants to constants or to each other; text printed by hand
for i in fns:
    head, _, body = split_fn(i)
    b = re.sub(r'//.*', '', body).strip()
    if re.fullmatch(r'\w+(?:\.\w+)* as \w+', b):
        found[4].append((i, f'{i.name}: a cast'))
    m = re.fullmatch(r'match [^{]+\{(.*)\}', b, re.S)
    if m:
        arms = re.split(r'=>', m.group(1))[1:]
        rest = [re.split(r',\s*(?=[\w_])|\}\s*(?=[A-Z_])', a)[0].strip(' ,\n}') for a in arms]
        if len(arms) >= 2 and i.name not in ('from', 'try_from', 'fmt') and all(re.fullmatch(r'[\w:]+|(?:\w+::)*[A-Z]\w*\(\w+\)|b?"[^"]*"', r) for r in rest):
            found[4].append((i, f'{i.name}: a match that copies, compares or converts'))
    if re.match(r'(put|print)(_|$)', i.name or '') and re.search(r'out: &mut \[u8\],\s+at: usize', head):
        found[4].append((i, f'{i.name}: prints into a lent buffer'))

# 5: a fact in three contracts or more; parameters that travel together through three functions or more
facts = collections.defaultdict(list)
pairs = collections.defaultdict(list)
for i in fns:
    head, clauses, _ = split_fn(i)
    seen = set()
    for c in clauses:
        m = re.match(r'\s*requires\s*\w*\s*\{(.*)\}\s*$', c)
        if m:
            for part in re.split(r' × ', m.group(1)):
                seen.add(part.strip().strip('()').strip())
    for s in seen:
        facts[s].append(i)
    ps = params(head)
    for a, b in itertools.combinations(ps, 2):
        if 'self' not in a and 'self' not in b:
            pairs[(a, b)].append(i)
for s, l in sorted(facts.items()):
    if len(l) >= 3:
        found[5].append((l[0], f'fact in {len(l)} contracts: {s}'))
groups = {}
for (a, b), l in pairs.items():
    if len(l) >= 3:
        key = tuple(sorted((str(x.path), x.line) for x in l))
        groups.setdefault(key, [set(), l])[0].update((a, b))
for names, l in groups.values():
    if len(names) >= 3 or (len(names) == 2 and len(l) >= 4 and any('[' in n for n in names) and any(n.endswith(': usize') for n in names)):
        found[5].append((l[0], f'together in {len(l)} functions: ' + ', '.join(sorted(names))))

# 6: a lent buffer with a length or place beside it; parallel arrays; words with named places
for i in fns:
    ps = params(split_fn(i)[0])
    for a, b in zip(ps, ps[1:]):
        if re.search(r'\[u\d+\]$', a) and re.fullmatch(r'(n|m|f|at|held|from|count|length): usize', b):
            found[6].append((i, f'{i.name}: {a}, {b}'))
    kinds = collections.Counter(re.sub(r'^.*?: ', '', p) for p in ps if re.search(r'\[\w+(; \d+)?\]$', p))
    for t, n in kinds.items():
        if n >= 3:
            found[6].append((i, f'{i.name}: {n} parallel {t}'))

# 7: a match on a number, or a chain of tests of one, that chooses which function runs
for i in fns:
    body = split_fn(i)[2]
    m = re.search(r'match \w+(?:\.\w+)? \{', body)
    if m and len(re.findall(r'^\s*(?:\d+|\d+\.\.=\d+|[A-Z_]+)(?: \| \d+)* =>.*\(', body, re.M)) >= 3:
        found[7].append((i, f'{i.name}: match on a number'))
    if len(re.findall(r'if \w+(?:\.\w+)? == [A-Z]+ \{\s*return \w+', body)) >= 3:
        found[7].append((i, f'{i.name}: a chain of tests'))

titles = {1: 'own Option or Result, flags, numbers for kinds', 2: 'twins', 3: 'loops counted by hand', 4: 'derives, conversions, printing by hand',
          5: 'facts repeated, parameters together', 6: 'buffers with a length, parallel arrays', 7: 'switches on which step to run'}
for n in range(1, 8):
    kept = sum(1 for i, _ in found[n] if i.kept(n))
    print(f'{n} {titles[n]}: {len(found[n])} places, {kept} of them kept with a reason')
    if LIST:
        for i, what in found[n]:
            print(f'    {i.path}:{i.line} {"kept " if i.kept(n) else ""}{what}')
answers = lines = 0
for p in TOP.glob('crates/*/proofs/**/*.antt'):
    t = p.read_text()
    lines += t.count('\n')
    if p.name == 'Answers.antt':
        answers += len(re.findall(r'^(?:abbrev )?(?:pub )?[\w\'-]+ : goal\.', t, re.M)) or len(re.findall(r': goal\.', t))
print(f'8 proofs: {answers} answers, {lines} lines of proofs')
