#!/usr/bin/env python3
"""Counts the places of older forms in the sources: design_places.py [-v] [POINT ..], at the top of the repository. Points 1 to 8 are those of
docs/DESIGN-PASS.md. With -v each place is printed. It goes by the text of crates/*/src/*.rt (point 8: of crates/*/proofs), so it finds forms, and says
nothing of what they mean."""
import collections, glob, itertools, os, re, sys

verbose = '-v' in sys.argv
points = [int(a) for a in sys.argv[1:] if a.isdigit()] or [1, 2, 3, 4, 5, 6, 7, 8]
files = sorted(glob.glob('crates/*/src/**/*.rt', recursive=True))
texts = {f: open(f, encoding='utf-8').read() for f in files}


def bare(text):
    """The text with comments and strings blanked, at the same places."""
    blank = lambda m: ''.join('\n' if c == '\n' else ' ' for c in m.group(0))
    return re.sub(r'//[^\n]*|b?"(?:\\.|[^"\\])*"', blank, text)


code = {f: bare(t) for f, t in texts.items()}
short = lambda f: f.replace('crates/', '').replace('/src/', '/')
line = lambda t, i: t.count('\n', 0, i) + 1


def block(text, at):
    """The text between the brace at a place and the one that closes it."""
    depth = 0
    for i in range(at, len(text)):
        depth += {'{': 1, '}': -1}.get(text[i], 0)
        if depth == 0:
            return text[at + 1:i]
    return text[at + 1:]


Function = collections.namedtuple('Function', 'file line name params result clauses body')


def functions():
    for f, t in code.items():
        for m in re.finditer(r'(?m)^[ \t]*(?:pub )?(?:const )?fn ([a-z_0-9]+)(?:<[^>]*>)?\(', t):
            depth, i = 1, m.end()
            while depth:
                depth += {'(': 1, ')': -1}.get(t[i], 0)
                i += 1
            params = [p.strip() for p in re.split(r',(?![^<\[(]*[>\])])', t[m.end():i - 1]) if p.strip()]
            j = i
            result = re.match(r'\s*->\s*([^\n{]+)', t[j:])
            if result:
                j += result.end()
            clauses = []
            while True:
                c = re.match(r'\s*(requires|ensures|where|ghost)\b[^{\n]*', t[j:])
                if not c:
                    break
                k = t.index('{', j + c.start())
                b = block(t, k)
                clauses.append((c.group(1), b.strip()))
                j = k + len(b) + 2
            k = re.match(r'\s*\{', t[j:])
            if not k:
                continue
            yield Function(f, line(t, m.start()), m.group(1), params, result.group(1).strip() if result else '', clauses, block(t, j + k.end() - 1))


FUNCTIONS = list(functions())
found = []


def place(f, l, what):
    found.append(f'{short(f)}:{l}: {what}')


def enums():
    for f, t in code.items():
        for m in re.finditer(r'(?m)^[ \t]*(?:pub )?enum ([A-Za-z]+)\s*\{', t):
            yield f, line(t, m.start()), m.group(1), [v.strip() for v in re.split(r',(?![^({]*[)}])', block(t, m.end() - 1)) if v.strip()]


def option_like():
    """1a: own enums of the shape of Option or Result: two cases, one of which carries nothing, or a case that carries a refusal's number."""
    for f, l, name, cases in enums():
        carries = [bool(re.search(r'[({]', c)) for c in cases]
        if len(cases) == 2 and any(carries) and (not all(carries) or any(c.startswith('Refused') for c in cases)):
            place(f, l, f'enum {name} {{ {", ".join(cases)} }}')
        elif any(re.match(r'Refused\(', c) for c in cases):
            place(f, l, f'enum {name} {{ {", ".join(cases)} }}')


def number_codes():
    """1b: refusals as numbers: constants of refusals that are plain numbers, and functions that answer one of them, or 0, as a u8."""
    for f, t in code.items():
        if '/refusal/' in f:
            for m in re.finditer(r'pub const ([A-Z_]+): u8', t):
                place(f, line(t, m.start()), f'const {m.group(1)}: u8')
    for x in FUNCTIONS:
        if x.result in ('u8', 'u64') and re.search(r'\b[Rr]efusal::[A-Z_]+', x.body):
            place(x.file, x.line, f'fn {x.name} -> {x.result}')


def flags():
    """1c: a flag with a value beside it: structs with a field of type bool beside the value that it speaks of."""
    for f, t in code.items():
        for m in re.finditer(r'(?m)^[ \t]*(?:pub )?struct ([A-Za-z]+)(?:<[^>]*>)?\s*\{', t):
            fields = re.findall(r'(?:pub )?([a-z_0-9]+): ([^,\n]+)', block(t, m.end() - 1))
            for n, ty in fields:
                if ty.strip() == 'bool' and re.match(r'(is_|has_)?(understood|more|failed|rows|found|given|known|seen|open|opened|there|some|any|borders|named|valid|good|taken)', n):
                    place(f, l := line(t, m.start()), f'struct {m.group(1)}: {n}: bool')


def skeleton(body):
    toks = re.findall(r"[A-Za-z_][A-Za-z_0-9]*|\d[\w]*|[^\s\w]", body)
    keep = {'if', 'else', 'match', 'return', 'let', 'mut', 'while', 'for', 'in', 'loop', 'as', 'true', 'false', 'self', 'break'}
    return tuple(t if t in keep or not re.match(r'[A-Za-z_0-9]', t) else 'n' for t in toks)


def twins():
    """2: functions with the same body but for names, types and constants, of 40 words or more; each group of k counts k - 1 places."""
    groups = collections.defaultdict(list)
    for x in FUNCTIONS:
        s = skeleton(x.body)
        if len(s) >= 40:
            groups[s].append(x)
    for s, xs in sorted(groups.items(), key=lambda g: -len(g[0])):
        for x in xs[1:]:
            place(x.file, x.line, f'fn {x.name}, as {xs[0].name} of {short(xs[0].file)}:{xs[0].line} ({len(s)} words)')


def counted_loops():
    """3a: loops that count an index by hand: a `while` whose test names a variable to which its body adds 1."""
    for f, t in code.items():
        for m in re.finditer(r'\bwhile ([^{]*)\{', t):
            b = block(t, m.end() - 1)
            if any(re.search(r'\b' + v + r' (?:\+|-)= 1;', b) for v in set(re.findall(r'[a-z_]+', m.group(1)))):
                place(f, line(t, m.start()), 'while ' + ' '.join(m.group(1).split()))


def other_loops():
    """3b: other `while` and `loop`."""
    for f, t in code.items():
        for m in re.finditer(r'\b(?:while ([^{]*)|loop )\{', t):
            b = block(t, m.end() - 1)
            if m.group(1) is None or not any(re.search(r'\b' + v + r' (?:\+|-)= 1;', b) for v in set(re.findall(r'[a-z_]+', m.group(1)))):
                place(f, line(t, m.start()), 'while ' + ' '.join((m.group(1) or 'loop').split()))


def by_hand():
    """4: predicates that are a match of true and false, chains of `if .. { return true; }`, conversions from numbers, fields copied one by one."""
    for x in FUNCTIONS:
        if x.result == 'bool' and re.match(r'\s*match [^{]*\{(\s*[^=]*=> (true|false),?)+\s*\}\s*$', x.body):
            place(x.file, x.line, f'fn {x.name}: a match of true and false')
        elif x.result == 'bool' and re.search(r'if [^{]*\{\s*return (true|false);\s*\}', x.body):
            place(x.file, x.line, f'fn {x.name}: if .. return true or false')
        for m in re.finditer(r'\{((?:\s*[a-z_0-9]+: ([a-z_]+)\.[a-z_0-9]+,)+[^{}]*)\}', x.body):
            same = re.findall(r'([a-z_0-9]+): ([a-z_]+)\.\1\b', m.group(1))
            if len(same) >= 3:
                place(x.file, x.line, f'fn {x.name}: {len(same)} fields copied one by one')
    for f, t in code.items():
        for m in re.finditer(r'([a-z_0-9]+): \1\b(?=[,\s}])', t):
            place(f, line(t, m.start()), f'{m.group(0)}')


def together():
    """5: facts that stand in the `requires` of three functions or more of a crate; three parameters or more that travel together through four functions or
    more of a crate, the longest such lists."""
    facts = collections.defaultdict(list)
    lists = collections.defaultdict(set)
    for x in FUNCTIONS:
        crate = x.file.split('/')[1]
        for kind, c in x.clauses:
            if kind == 'requires':
                facts[(crate, ' '.join(c.split()))].append(x)
        ps = [p for p in x.params if ':' in p]
        for k in range(3, len(ps) + 1):
            for some in itertools.combinations(ps, k):
                lists[(crate, some)].add((x.file, x.line, x.name))
    for (crate, c), xs in sorted(facts.items()):
        if len(xs) >= 3:
            place(xs[0].file, xs[0].line, f'requires {c}: {len(xs)} functions')
    many = {k: v for k, v in lists.items() if len(v) >= 4}
    for (crate, some), xs in sorted(many.items()):
        if not any(c == crate and set(some) < set(o) and len(v) >= len(xs) for (c, o), v in many.items()):
            x = sorted(xs)[0]
            place(x[0], x[1], f'{", ".join(some)}: {len(xs)} functions')


def buffers():
    """6: a buffer with a place beside it that is handed on (`out: &mut [u8], at: usize`, answering the next place); structs of like fields a, b, c, ..;
    a length or count beside an array in a struct."""
    for x in FUNCTIONS:
        s = ', '.join(x.params)
        if x.result == 'usize' and re.search(r'&mut \[u8\], (at|used): usize|(at|used): usize, [a-z]+: &mut \[u8\]', s):
            place(x.file, x.line, f'fn {x.name}: a buffer and a place in it')
    for f, t in code.items():
        for m in re.finditer(r'(?m)^[ \t]*(?:pub )?struct ([A-Za-z]+)(?:<[^>]*>)?\s*\{', t):
            b = block(t, m.end() - 1)
            if re.search(r'\ba: ([A-Za-z0-9]+),[^}]*\bb: \1,[^}]*\bc: \1', b):
                place(f, line(t, m.start()), f'struct {m.group(1)}: fields a, b, c, ..')
            if re.search(r': \[[^\]]+\]', b) and re.search(r'\b(length|count|used|size): (usize|u\d+)', b):
                place(f, line(t, m.start()), f'struct {m.group(1)}: an array and a length')


def switches():
    """7: functions that are handed an enum without values, or a bool, to choose what they run at each step."""
    plain = {n for f, l, n, cases in enums() if all(re.match(r'[A-Z][A-Za-z0-9]*$', c) for c in cases)} - {'Kind', 'Profile', 'Borders', 'Rate', 'Verdict'}
    for x in FUNCTIONS:
        for p in x.params:
            m = re.match(r'[a-z_]+: ([A-Z][A-Za-z]+)$', p)
            if m and m.group(1) in plain:
                place(x.file, x.line, f'fn {x.name}: {p}')


def proofs():
    """8: answers: files, and answers of four lines or more that stand in two files or more."""
    groups = collections.defaultdict(list)
    for f in sorted(glob.glob('crates/*/proofs/**/Answers.antt', recursive=True)):
        t = open(f, encoding='utf-8').read()
        for b in re.split(r'\n\s*\n', t):
            ls = [l for l in b.split('\n') if l.strip() and not l.startswith(('use ', '--'))]
            body = [re.sub(r'\b[a-z_]*returns[\w\-]*|goal\.[\w\-]+', '', l) for l in ls]
            if len(ls) >= 4:
                groups[tuple(x.strip() for x in body)].append((f, ls[0]))
    for b, xs in groups.items():
        for f, l in xs[1:]:
            found.append(f'{f}: as in {xs[0][0]} ({len(b)} lines)')


PARTS = [(1, option_like), (1, number_codes), (1, flags), (2, twins), (3, counted_loops), (3, other_loops), (4, by_hand), (5, together), (6, buffers), (7, switches), (8, proofs)]
for point, part in PARTS:
    if point in points:
        found.clear()
        part()
        print(f'{point}  {len(found):4}  {part.__doc__.split(chr(10))[0].strip()}')
        if verbose:
            for p in found:
                print('         ' + p)
