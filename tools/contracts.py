#!/usr/bin/env python3
"""Holds the sources under crates/ to four rules that no proof can hold them to.

    python3 tools/contracts.py        # counts, or each function that breaks a rule, and status 1

  - every public function has an `ensures`: none lacks a contract on its answer;
  - no public function has a `requires`: no caller has to check first; and so with the functions that a public trait declares;
  - no body has over 40 lines, and none has two loops: they are read by people;
  - every public function has its statement that no second answer meets its contract (tools/one_answer.py), or stands among the
    exceptions of docs/EVIDENCE.md, "One answer"; and of each that a public trait declares that page says whether it has one.

It reads the sources as text. What a contract says, and that the code meets it, is the toolchain's to prove.
"""
import collections
import pathlib
import re
import sys

from braces import closing, code
from one_answer import missing

LONGEST = 40
HEAD = re.compile(r'^[ \t]*(pub(?:\([a-z]+\))?[ \t]+)?(?:(?:const|unsafe|safe|final)[ \t]+)*(?:extern[ \t]+)?fn[ \t]+(\w+)', re.M)
# `ensures {`, `ensures low {`, `ensures* {`; and of a ghost parameter `ghost n: {`
CLAUSE = re.compile(r'\b(requires|ensures|ghost)\*?(?:\s+\w+)?\s*:?\s*$')
TRAIT = re.compile(r'^[ \t]*pub[ \t]+(?:unsafe[ \t]+)?trait[ \t]+(\w+)[^{]*\{', re.M)
IMPL = re.compile(r'^impl\b[^{]*?(\w+)(?:<[^{]*>)?\s*\{', re.M)
# `path`: modules, type and name, as the proofs spell it (walk.feed, Kernel.step). `signature`: from the name to the first clause.
# `length`: how many lines lie between its first and its last.
Function = collections.namedtuple('Function', 'path line length public clauses signature body')


def clauses_at(text, at):
    """Of a function whose name ends here: its clauses, the brace behind them, and whether it is declared only and has no body there."""
    clauses = set()
    while True:
        brace = text.find('{', at)
        if brace < 0:
            return clauses, len(text), True
        declared = ';' in re.sub(r'\[[^\]]*\]', '', text[at:brace])
        clause = CLAUSE.search(text[at:brace])
        if declared or not clause:
            return clauses, brace, declared
        clauses.add(clause.group(1))
        at = closing(text, brace)


def declared_functions(source):
    """Of each function that a public trait declares: the trait, its name, and its clauses."""
    text = code(source)
    for trait in TRAIT.finditer(text):
        for head in HEAD.finditer(text, trait.end(), closing(text, trait.end() - 1)):
            yield trait.group(1), head.group(2), clauses_at(text, head.end())[0]


def declared_faults(trait, name, clauses):
    """Which of the rules on clauses such a function breaks."""
    if 'ensures' not in clauses:
        yield f'{trait}.{name} of a public trait has no `ensures`: say what it answers'
    if 'requires' in clauses:
        yield f'{trait}.{name} of a public trait has a `requires`: have the types say it'


def functions(source, modules):
    """The functions with a body of a source that stands for these modules."""
    text = code(source)
    owners = [(m.end() - 1, closing(text, m.end() - 1), m.group(1)) for m in IMPL.finditer(text)]
    for head in HEAD.finditer(text):
        clauses, brace, declared = clauses_at(text, head.end())
        if declared:
            continue
        owner = [name for start, end, name in owners if start < head.start() < end]
        yield Function(
            path='.'.join(modules + owner + [head.group(2)]),
            line=text.count('\n', 0, head.start(2)) + 1,
            length=text.count('\n', head.start(2), closing(text, brace)),
            public=(head.group(1) or '').strip() == 'pub',
            clauses=clauses,
            signature=text[head.end():text.index('{', head.end())],
            body=text[brace:closing(text, brace)],
        )


def modules_of(path):
    """The modules for which the source of this path stands, below a crate's folder (src/lib.rt: none)."""
    return [part for part in (*path.parts[1:-1], path.stem) if part not in ('lib', 'main', 'mod')]


def faults(function):
    """Which of the rules on one function alone it breaks."""
    if function.public and 'ensures' not in function.clauses and function.path != 'main':
        yield 'is public and has no `ensures`: say what it answers'
    if function.public and 'requires' in function.clauses:
        yield 'is public and has a `requires`: answer every input, or make it private'
    lines = function.body.count('\n') + 1
    if lines > LONGEST:
        yield f'has {lines} lines, and {LONGEST} is the most: take it apart'
    if len(re.findall(r'\b(?:while|loop|for)\b', function.body)) > 1:
        yield 'has more than one loop: give each a function'


def main():
    root = pathlib.Path(__file__).resolve().parent.parent
    count, public, declared, broken = 0, collections.defaultdict(list), [], []
    for path in sorted(root.glob('crates/*/src/**/*.rt')):
        below = path.relative_to(root).parts
        modules = modules_of(pathlib.PurePath(*below[2:]))
        for trait, name, clauses in declared_functions(path.read_text()):
            broken += [f'{path.relative_to(root)}: {said}' for said in declared_faults(trait, name, clauses)]
            declared.append('::'.join([below[1], *modules, trait, name]))
        for function in functions(path.read_text(), modules):
            count += 1
            place = f'{path.relative_to(root)}:{function.line}: {function.path}'
            broken += [f'{place} {said}' for said in faults(function)]
            if function.public:
                public[below[1]].append((place, function))
    if count == 0:
        print('tools/contracts.py: no function found under crates/: are the sources there?', file=sys.stderr)
        return 1
    unstated, stated = missing(root, public, declared)
    for said in broken + unstated:
        print(said, file=sys.stderr)
    if broken or unstated:
        return 1
    all_public = sum(map(len, public.values()))
    print(f'contracts: {count} functions, {all_public} public, each of these with `ensures` and none with `requires`')
    print(f'no second answer: {stated} of the {all_public} have their statement; the other {all_public - stated} are exceptions of docs/EVIDENCE.md')
    return 0


if __name__ == '__main__':
    sys.exit(main())
