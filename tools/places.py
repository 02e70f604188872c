#!/usr/bin/env python3
"""Where the sources still have a form that an older Rattle wanted, by the points of docs/DESIGN-PASS.md.

    python3 tools/places.py             # how many places of each point crates/*/src has
    python3 tools/places.py -v [POINT]  # and which
    python3 tools/places.py -c COMMIT   # the same of a commit

It reads the sources as text and finds what looks like such a place; whether one is, a reader says. A place beside which a line
`// Kept (WHY): ..` stands is counted as kept. Files of proofs are counted by point 8 (answers, and lemmas whose name stands nowhere else).
"""
import collections
import difflib
import pathlib
import re
import subprocess
import sys
import tempfile

TABLES = {'base', 'ready', 'delayed', 'held', 'way', 'until', 'ceiling', 'waiter', 'clock', 'started'}
HEAD = re.compile(r'^[ \t]*(?:pub(?:\([a-z]+\))?[ \t]+)?(?:extern "C" )?fn[ \t]+(\w+)', re.M)
KEPT = re.compile(r'//.*Kept \((C|promise|rule|speed|proof|plain)\)')
Function = collections.namedtuple('Function', 'file line name head params answer clauses body comment')


def closing(text, at):
    """The index behind the brace that closes the one at `at`."""
    depth = 0
    for i in range(at, len(text)):
        depth += {'{': 1, '}': -1}.get(text[i], 0)
        if depth == 0:
            return i + 1
    return len(text)


def functions(file, text):
    for m in HEAD.finditer(text):
        at = m.end()
        brace = text.index('{', at)
        clauses = []
        while re.search(r'\b(requires|ensures)\*?(\s+\w+)?\s*$', text[at:brace]):
            end = closing(text, brace)
            clauses.append(' '.join(text[brace:end].split()))
            at, brace = end, text.find('{', end)
        head = text[m.end():text.index('{', m.end())]
        end = closing(text, brace)
        above = text[:m.start()].rstrip('\n').split('\n')
        comment = []
        while above and re.match(r'\s*(//|#\[)', above[-1]):
            comment.insert(0, above.pop())
        params = re.sub(r'\s+', ' ', head[head.find('('):head.rfind(')') + 1] if '->' not in head else head[head.find('('):head.index('->')])
        answer = head.split('->', 1)[1].split('requires')[0].split('ensures')[0].strip() if '->' in head else ''
        yield Function(file, text.count('\n', 0, m.start()) + 1, m.group(1), head, params, answer, clauses, text[brace:end], '\n'.join(comment))


def near(text, at):
    """Whether a reason stands beside a place: in its line, or in the comment above the item or the statement."""
    lines = text[:at].count('\n')
    all_lines = text.split('\n')
    block = [all_lines[lines]]
    i = lines - 1
    while i >= 0 and re.match(r'\s*(//|#\[)', all_lines[i]):
        block.append(all_lines[i])
        i -= 1
    return any(KEPT.search(line) for line in block)


def found(files):
    """(point, what, place, kept) of each place."""
    all_functions = []
    for file, text in files.items():
        crate = file.split('/')[1]
        here = list(functions(file, text))
        all_functions += here
        line = lambda at: f'{file}:{text.count(chr(10), 0, at) + 1}'

        def kept(at, f=None):
            return near(text, at) or bool(f and (KEPT.search(f.comment) or KEPT.search(f.body)))
        # 1: a number for a refusal, a kind or a stage; a flag beside values; an enum of the shape of Option or Result; 0 for nobody
        for m in re.finditer(r'^\s*(?:pub(?:\(crate\))? )?(code|kind|stage|way): u(?:8|32|64)\b', text, re.M):
            if not re.search(r'fn \w+[^{}]*$', text[:m.start()]):
                yield 1, 'number for a refusal or kind', f'{line(m.start(1))} {m.group(1)}', kept(m.start(1)) or struct_kept(text, m.start(1))
        for m in re.finditer(r'^\s*(?:pub(?:\(crate\))? )?(valid|whole|shown|headed): bool', text, re.M):
            if not re.search(r'fn \w+[^{}]*$', text[:m.start()]):
                yield 1, 'flag beside values', f'{line(m.start(1))} {m.group(1)}', kept(m.start(1)) or struct_kept(text, m.start(1))
        for m in re.finditer(r'^(?:pub )?enum (\w+) \{', text, re.M):
            body = text[m.end():closing(text, m.end() - 1)]
            variants = re.findall(r'^    (\w+)(\(.*\))?', body, re.M)
            if 2 <= len(variants) <= 3 and any(p for _, p in variants) and (any(not p for _, p in variants) or any(v in ('Refused', 'Failed') for v, _ in variants)):
                yield 1, 'enum of the shape of Option or Result', f'{line(m.start())} {m.group(1)}', kept(m.start())
        for m in re.finditer(r'^(?:pub )?const (\w+): u8 = \d+;', text, re.M):
            if m.group(1) in ('FOR_OPEN', 'FOR_ENTRY', 'READY', 'DELAYED', 'WAITING', 'FIRST_LINE', 'SETTING_UP', 'DRAWING', 'OVER'):
                yield 1, 'constant for a kind', f'{line(m.start())} {m.group(1)}', kept(m.start())
        for f in here:
            says = f.comment + f.name
            if f.answer in ('u8', 'u32') and (re.search(r'\b1[0-8]\b|refus|fault|number of the|0 for no|0 where no|for nobody|nobody: 0', f.comment) or re.search(r'choose\([^;]*\b(1[0-8]|[2-9])\b', f.body) or re.search(r'fault|refusal|code', f.name)):
                yield 1, 'function that answers a number for a refusal, a kind or nobody', f'{file}:{f.line} {f.name}', bool(KEPT.search(f.comment) or KEPT.search(f.body))
        # 3: loops that count by hand
        for m in re.finditer(r'\bwhile\b[^{]*\{', text):
            body = text[m.end():closing(text, m.end() - 1)]
            owner = [f for f in here if f.line <= text.count('\n', 0, m.start()) + 1]
            if re.search(r'\b\w+ [+-]= (1|2|8|16|RECORD_BYTES)\b', body):
                yield 3, 'loop that counts by hand', f'{line(m.start())} {owner[-1].name if owner else ""}', kept(m.start(), owner[-1] if owner else None)
        # 4: equality, order, conversion by hand
        for f in here:
            flat = re.sub(r'\s+', ' ', f.body)
            if re.match(r'same|alike', f.name) or re.fullmatch(r'\{ if (\w+) < (\w+) \{ (\w+) \} else \{ (\w+) \} \}', flat) or re.fullmatch(r'\{ if \w+ \{ 1 \} else \{ 0 \} \}', flat):
                yield 4, 'equality, least or flag by hand', f'{file}:{f.line} {f.name}', bool(KEPT.search(f.comment) or KEPT.search(f.body))
            if re.fullmatch(r'\{ \w+ as u\d+ \}', flat):
                yield 4, 'conversion by hand', f'{file}:{f.line} {f.name}', bool(KEPT.search(f.comment) or KEPT.search(f.body))
            for m in re.finditer(r'\bas u(?:8|16|32|64)\b', f.body):
                start = text.index(f.body) + m.start()
                yield 4, 'cast where From or TryFrom stands', f'{line(start)} {f.name}', kept(start, f)
            for m in re.finditer(r'\bif (\d+|usize::MAX) < (\w+) \{\s*return \1;', f.body):
                yield 4, 'equality, least or flag by hand', f'{file}:{f.line} {f.name}', bool(KEPT.search(f.comment) or KEPT.search(f.body))
        # 5: parameters that travel together
        for f in here:
            names = set(re.findall(r'(\w+): ', f.params))
            if len(names & TABLES) >= 4:
                yield 5, 'four tables or more as parameters', f'{file}:{f.line} {f.name}', bool(KEPT.search(f.comment) or KEPT.search(f.body)) or crate_kept(files, crate, 'tables')
            elif len(names) >= 7:
                yield 5, 'seven parameters or more', f'{file}:{f.line} {f.name}', bool(KEPT.search(f.comment) or KEPT.search(f.body))
        facts = collections.defaultdict(list)
        for f in here:
            for clause in f.clauses[:-1] if len(f.clauses) > 1 else []:
                facts[clause].append(f)
        for clause, those in facts.items():
            if len(those) >= 3:
                yield 5, 'fact in three contracts or more', f'{file} {clause[:70]}: {", ".join(f.name for f in those)}', all(KEPT.search(f.comment) or KEPT.search(f.body) for f in those[:1])
        # 6: a buffer with its length beside it, parallel arrays
        for m in re.finditer(r'^(?:pub(?:\(crate\))? )?struct (\w+) \{', text, re.M):
            body = text[m.end():closing(text, m.end() - 1)]
            if re.search(r': \[u8; \d+\]', body) and re.search(r'\b(count|len): usize', body):
                yield 6, 'buffer with a length beside it', f'{line(m.start())} {m.group(1)}', kept(m.start())
            if re.search(r'times: \[u64; 32\]', body) and re.search(r'ages: \[u8; 32\]', body):
                yield 6, 'parallel arrays', f'{line(m.start())} {m.group(1)}', kept(m.start())
        for m in re.finditer(r'^(?:pub )?struct (\w+)\(\[u8; \d+\], usize\);', text, re.M):
            yield 6, 'buffer with a length beside it', f'{line(m.start())} {m.group(1)}', kept(m.start())
        # 7: a switch on which step to run: a match that calls the one function or the other, by a number
        for f in here:
            if re.search(r'match (op|table|word|&word\[\.\.n\]) \{', f.body) and len(re.findall(r'=> \w+[\w:]*\(', f.body)) >= 3:
                yield 7, 'switch on which step to run', f'{file}:{f.line} {f.name}', bool(KEPT.search(f.comment) or KEPT.search(f.body))
    yield from twins(all_functions)


def struct_kept(text, at):
    """A reason above the struct that a field stands in."""
    start = [m.start() for m in re.finditer(r'^(?:pub(?:\(crate\))? )?struct \w+', text[:at], re.M)]
    return bool(start) and near(text, start[-1])


def crate_kept(files, crate, what):
    """A reason that the crate gives once, at its head."""
    head = files.get(f'crates/{crate}/src/lib.rt', '').split('\n#![', 1)[0]
    return bool(re.search(r'Kept \(\w+\):.*' + what, head))


def words(f):
    text = re.sub(r'//.*', '', f.params + '->' + f.answer + f.body)
    return re.findall(r'\w+|[^\w\s]', text)


def twins(all_functions):
    """Functions that differ in a type, a size, a constant or a name alone, by their words."""
    rows = []
    for f in all_functions:
        w = words(f)
        if len(w) >= 30:
            rows.append((f, w, ['N' if re.fullmatch(r'\d\w*|u8|u16|u32|u64|usize|[A-Z_]{3,}', x) else x for x in w]))
    seen = set()
    for i, (f, w, n) in enumerate(rows):
        for g, v, m in rows[i + 1:]:
            if abs(len(n) - len(m)) > 0.12 * max(len(n), len(m)):
                continue
            if len(set(n) & set(m)) < 0.6 * min(len(set(n)), len(set(m))):
                continue
            if difflib.SequenceMatcher(None, n, m, autojunk=False).ratio() >= 0.88 and (f.file, f.name, g.file, g.name) not in seen:
                seen.add((f.file, f.name, g.file, g.name))
                kept = any(KEPT.search(x.comment) or KEPT.search(x.body) for x in (f, g))
                yield 2, 'pair of functions that are alike', f'{f.file}:{f.line} {f.name} / {g.file}:{g.line} {g.name}', kept


def proofs(root):
    """Answers, and lemmas whose name stands nowhere else."""
    files = {p: p.read_text() for p in sorted(root.glob('crates/*/proofs/**/*.antt')) + sorted(root.glob('crates/*/specs/**/*.antt'))}
    answers = sum(len(re.findall(r'^pub [\w-]+ :', t, re.M)) for p, t in files.items() if p.name == 'Answers.antt')
    yield 8, 'answers in files Answers.antt', str(answers), False
    everything = collections.Counter(w for t in files.values() for w in re.findall(r'[\w-]+', t))
    source = '\n'.join(p.read_text() for p in root.glob('crates/*/src/**/*.rt')) + '\n'.join(p.read_text() for p in root.glob('docs/*.md'))
    for p, t in files.items():
        if p.name in ('Answers.antt', 'Invariants.antt', 'Single.antt', 'Measures.antt') or 'must-fail' in str(p) or '/proofs/' not in str(p):
            continue
        for name in re.findall(r'^(?:pub )?([\w-]+) :(?!:)', t, re.M):
            own = len(re.findall(r'(?<![\w-])' + re.escape(name) + r'(?![\w-])', t))
            clauses = len(re.findall(r'^(?:pub )?' + re.escape(name) + r'(?![\w-])', t, re.M))
            if everything[name] == clauses and not re.search(r'\b' + re.escape(name) + r'\b', source):
                yield 8, 'lemma that nothing cites', f'{p.relative_to(root)} {name}', False


def main():
    arguments = sys.argv[1:]
    root = pathlib.Path(__file__).resolve().parent.parent
    with tempfile.TemporaryDirectory() as other:
        if arguments[:1] == ['-c']:
            archive = subprocess.run(['git', '-C', str(root), 'archive', arguments[1], 'crates', 'docs'], capture_output=True, check=True).stdout
            subprocess.run(['tar', '-x', '-C', other], input=archive, check=True)
            root, arguments = pathlib.Path(other), arguments[2:]
        files = {str(p.relative_to(root)): p.read_text() for p in sorted(root.glob('crates/*/src/**/*.rt'))}
        rows = list(found(files)) + list(proofs(root))
    verbose = '-v' in arguments
    only = [int(x) for x in arguments if x.isdigit()]
    counts = collections.Counter((p, what, bool(k)) for p, what, _, k in rows)
    answers = next(place for p, what, place, _ in rows if what == 'answers in files Answers.antt')
    for p, what in sorted({(p, what) for p, what, _ in counts}):
        if only and p not in only:
            continue
        n = answers if what.startswith('answers') else counts[p, what, False] + counts[p, what, True]
        print(f'{p}  {what}: {n}' + (f', of these kept with a reason {counts[p, what, True]}' if counts[p, what, True] else ''))
        if verbose:
            for q, w, place, k in rows:
                if (q, w) == (p, what):
                    print('     ' + place + ('  (kept)' if k else ''))


main()
