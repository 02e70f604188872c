#!/usr/bin/env python3
"""Spells the repository's own definitions and lemmas in snake case, its own types in camel case, as the rest of today's Rattle is spelled.

    python3 tools/port_names.py            # once, at the top, behind the kit's own script; writes in place
    python3 tools/port_names.py --look     # writes nothing: what would be turned, and which names would fall together

It ran once, in the commit that docs/PORT.md names. It goes by text: a name is what specs/ and proofs/ declare. Where a file takes a name of the same spelling
from a library, the name stays there. A word behind a dot stays, unless it is a field of a record of ours or ends a path into a crate of ours.
"""
import collections
import pathlib
import re
import sys

ROOT = pathlib.Path(__file__).resolve().parent.parent
WORD = r'[^\s(){}.;,@"«»`\[\]]+'
DECLARED = re.compile(r'(?m)^ *(?:(?:pub|abbrev|unfoldable) )*(' + WORD + r')(?: \{[^{}\n]*\})* +:(?=\s)(.*)$')
GROUPED = re.compile(r'(?m)^ *(?:(?:pub|abbrev|unfoldable) )*(' + WORD + r'(?: ' + WORD + r')+) +:(?=\s)')
RECORD = re.compile(r'(?m)^ *(?:pub )?record (\S+)[^\n]*where\n((?:[ \t]+[^\n]*\n|\n)+)')
FIELD = re.compile(r'(?m)^ +(?:pub )?(' + WORD + r') :')
ALIAS = re.compile(r'(?m)^ *(?:pub |ghost |unfoldable )*use Rattle\.\w+\.(?:specs|proofs)\.\S+ as (\w+)')
USE = re.compile(r'(?m)^ *(?:pub |ghost |unfoldable )*use ([^\s;{]+)(\{[^}]*\})?')


def snake(name):
    return re.sub(r'(?<=[a-z0-9])[A-Z]', lambda found: '_' + found[0].lower(), name).replace('-', '_')


def is_old(name):
    """A dash, or a capital within a word that begins small."""
    return '-' in name or (name[:1].islower() and re.search(r'[a-z0-9][A-Z]', name))


def camel(name):
    head, *rest = name.split('-')
    return head + ''.join(part[:1].upper() + part[1:] for part in rest)


def is_type(kind):
    return kind.strip().endswith(('Type 0', 'Type 1'))


def sources():
    return sorted(ROOT.glob('crates/*/specs/*.antt')) + sorted(ROOT.glob('crates/*/proofs/**/*.antt'))


def is_of_function(path):
    return path.parent.name != 'proofs' and 'proofs' in path.parts


def of_record_types(text):
    """The fields of record types written in place: record { NAME : TYPE; .. }."""
    fields = set()
    for found in re.finditer(r'record \{', text):
        deep, end = 1, found.end()
        while deep and end < len(text):
            deep += (text[end] == '{') - (text[end] == '}')
            end += 1
        fields |= set(re.findall(r'(?:^|[;\n])\s*(' + WORD + r') :(?=\s)', text[found.end() : end - 1]))
    return fields


def declarations():
    """The names with a dash that our files declare, each with its new spelling; the fields of our records."""
    names, fields, local = {}, set(), collections.defaultdict(dict)
    for path in sources():
        text = path.read_text()
        for record in RECORD.finditer(text):
            fields |= set(FIELD.findall(record[2]))
        fields |= of_record_types(text)
        for found in DECLARED.finditer(text):
            name, kind = found[1], found[2]
            if not is_old(name) or not re.match(r'[A-Za-z]', name):
                continue
            new = camel(name) if name[0].isupper() and is_type(kind) else snake(name)
            if is_of_function(path):
                local[path][name] = new
            else:
                names[name] = new
    return names, {f for f in fields if is_old(f)}, local


def taken_from_libraries(text):
    taken = set()
    for found in USE.finditer(text):
        head = found[1].split('.')
        if head[0] == 'Rattle' and len(head) > 1 and (ROOT / 'crates' / head[1]).is_dir():
            continue
        taken |= {w for w in re.findall(WORD, found[2] or '') if is_old(w)}
    return taken


# The names by which the file at work calls modules of ours.
OF_FILE = set()


def turn(text, names, fields, stay, of_function=False):
    """Each word of text that is a name of ours, turned."""

    aliases = OF_FILE

    def word(found):
        it, before = found[0], text[: found.start()]
        if not is_old(it):
            return it
        if before.endswith('.'):
            path = re.search(r'[^\s(){};,@"]*$', before)[0]
            ours = re.match(r'Rattle\.(\w+)\.(specs|proofs)\.\w+\.$', path) or path[:-1] in aliases
            if it in fields and not (of_function and it.endswith(('-is', '-fits'))):
                return snake(it)
            if not ours:
                return it
        if it in stay:
            return it
        return names.get(it) or (snake(it) if it in fields else it)

    return re.sub(WORD, word, text)


def turn_antt(text, names, fields, stay, of_function):
    OF_FILE.clear()
    OF_FILE.update(ALIAS.findall(text))
    lines = []
    for line in text.split('\n'):
        cut = re.search(r'(^|\s)--(\s|$)', line)
        code, comment = (line[: cut.start()], line[cut.start() :]) if cut else (line, '')
        comment = re.sub(r'`[^`\n]*`', lambda f: turn(f[0], names, fields, stay), comment)
        lines.append(turn(code, names, fields, stay, of_function) + comment)
    return '\n'.join(lines)


CLAUSE = re.compile(r'(?m)^(\s*(?:pub )?(?:requires|ensures|ghost)\b.*)$')


def turn_rt(text, names, fields, stay):
    """Clauses and the imports of clauses: a line that begins with requires, ensures or ghost, and those behind it until its braces close."""
    OF_FILE.clear()
    OF_FILE.update(ALIAS.findall(text))
    out, deep, inside = [], 0, False
    for line in text.split('\n'):
        if not inside and CLAUSE.match(line):
            inside, deep = True, 0
        if inside:
            code, slash, comment = line.partition('//')
            deep += code.count('{') - code.count('}')
            out.append(turn(code, names, fields, stay) + slash + comment)
            inside = deep > 0
        else:
            cut = line.find('//')
            if cut >= 0:
                line = line[:cut] + re.sub(r'`[^`\n]*`', lambda f: turn(f[0], names, fields, stay), line[cut:])
            out.append(line)
    return '\n'.join(out)


# What the kit's script turned in the files, turned in an edit's text as well.
SPELLED = [
    (re.compile(r'\((\w+) \.(\w+)\)'), r'\1.\2'),
    (re.compile(r'(?<=[\w\')]) \.(?=[\w])'), '.'),
    (re.compile(r'\bgetD\b'), 'get_or'),
    (re.compile(r'Rattle·(\w+)·specs\.specs\.'), r'Rattle.\1.specs.'),
    (re.compile(r'Rattle·(\w+)\.'), r'Rattle.\1.'),
]


def spelled(line):
    for old, new in SPELLED:
        line = old.sub(new, line)
    return line


def turn_edit(text, names, fields):
    out, file = [], ''
    for line in text.split('\n'):
        if line.startswith('file: '):
            file = line[6:]
        if line.startswith('# Refused at:') or (line.startswith(('old: ', 'new: ')) and file.endswith('.antt')):
            line = turn(line if line.startswith('#') else line[:5] + spelled(line[5:]), names, fields, set())
        elif line.startswith(('old: ', 'new: ')) and re.search(r'\b(requires|ensures|ghost)\b|≡', line):
            line = turn(line, names, fields, set())
        out.append(line)
    return '\n'.join(out)


# Two names that would have fallen together with another: file, old, new.
APART = [
    ('crates/judge_verdict/specs/Verdict.antt', 'number-of', 'verdict-number'),
    ('crates/judge_verdict/proofs/Numbers.antt', 'number-of', 'verdict-number'),
    ('crates/judge_verdict/proofs/Words.antt', 'number-of', 'verdict-number'),
    ('crates/judge_call/proofs/Theorems.antt', 'number-of', 'verdict-number'),
    ('crates/judge_verdict/must-fail/differs_as_agrees.edit', 'number-of', 'verdict-number'),
    ('docs/JUDGE.md', '`number-of`', '`verdict-number`'),
    ('docs/JUDGE-C.md', '`number-of`', '`verdict-number`'),
    ('docs/DECISIONS.md', 'and a refusal its own, 15 or 17 (`number-of`)', 'and a refusal its own, 15 or 17 (`verdict-number`)'),
    ('docs/EVIDENCE.md', '`Says`; `number-of`', '`Says`; `verdict-number`'),
    ('docs/EVIDENCE.md', '`Verdict`: `number-of`', '`Verdict`: `verdict-number`'),
    ('crates/generator_menu/proofs/Tied.antt', 'sum-of', 'worths-sum'),
]


def set_apart():
    for name, old, new in APART:
        path = ROOT / name
        text = path.read_text()
        path.write_text(re.sub(r"(?<![\w'-])" + re.escape(old) + r"(?![\w'-])", new, text))


def turned_before(names):
    """The words that edits and pages still have in the spelling that the kit's script turned in the files."""
    known = set()
    for path in sources():
        known |= set(DECLARED.findall(path.read_text()) and [found[1] for found in DECLARED.finditer(path.read_text())])
    known |= set(names.values())

    class Turned(dict):
        def get(self, word, other=None):
            if word in names:
                return names[word]
            if is_old(word) and word[:1].islower() and snake(word) in known:
                return snake(word)
            return other

    return Turned()


def with_tactics():
    """The line by which the check tries its tactics, behind the comment at the head of each crate's root file."""
    for path in sorted(ROOT.glob('crates/*/src/*.rt')):
        text = path.read_text()
        if path.name not in ('lib.rt', 'main.rt') or '#![tactic' in text:
            continue
        head = re.match(r'(?://[^\n]*\n)*', text)[0]
        path.write_text(head + '#![tactic(auto)]\n\n' + text[len(head) :].lstrip('\n'))


def main():
    look = '--look' in sys.argv
    if not look:
        set_apart()
        with_tactics()
    names, fields, local = declarations()
    print(f'names: {len(names)}, fields: {sorted(fields)}, of functions: {sum(len(v) for v in local.values())}')
    print('with a capital:', sorted((k, v) for k, v in names.items() if k[0].isupper()))
    together = 0
    plain = collections.defaultdict(set)
    for path in sources():
        for found in DECLARED.finditer(path.read_text()):
            plain[found[1]].add(path)
    for old, new in sorted(names.items()):
        if new in plain:
            print(f'falls together: {old} and {new}, which {", ".join(str(p.relative_to(ROOT)) for p in plain[new])} declares')
    for path in sources():
        text = path.read_text()
        own = local.get(path, {})
        here = {**names, **own}
        stay = taken_from_libraries(text)
        if is_of_function(path):
            stay = stay | {w for w in re.findall(r'(?m)^(?:abbrev )?(' + WORD + r') : tie\.', text)}
        words = set(re.findall(WORD, re.sub(r'(?m)(^|\s)--.*$', '', text)))
        for old in sorted(w for w in words if w in here and w not in stay):
            if here[old] in words:
                together += 1
                print(f'falls together in {path.relative_to(ROOT)}: {old}, {here[old]}')
        new = turn_antt(text, here, fields, stay, is_of_function(path))
        if new != text and not look:
            path.write_text(new)
    for path in sorted(ROOT.glob('crates/*/src/**/*.rt')):
        text = path.read_text()
        new = turn_rt(text, names, fields, taken_from_libraries(text))
        if new != text and not look:
            path.write_text(new)
    anew = turned_before(names)
    for path in sorted(ROOT.glob('crates/*/must-fail/*.edit')):
        text = path.read_text()
        new = turn_edit(text, anew, fields)
        if new != text and not look:
            path.write_text(new)
    for path in [ROOT / 'README.md', *sorted((ROOT / 'docs').rglob('*.md'))]:
        text = path.read_text()
        new = re.sub(r'`[^`\n]*`', lambda f: turn(f[0], anew, fields, set()), text)
        if new != text and not look:
            path.write_text(new)
    print(f'fall together in a file: {together}')


main()
