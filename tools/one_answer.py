"""Which public functions have no statement that no second answer meets their contract. For tools/contracts.py.

A crate's proofs/Single states it of its function f as `f_single` (`m_f_single` for f of a module m, where two modules have an f), by
`OneAnswer`, or by `OneEnd` where f was lent something to change, over the clauses of f itself (crate one_answer, proofs/Law). What is
seen of an end then has the answer, where there is one, and the contents of each thing lent. That it holds is the toolchain's to prove.
"""
import collections
import re

# functions' clauses brought in, one or several from one module, each with or without another name
BROUGHT = re.compile(r'^use Rattle\.\w+\.specs\.contracts\.((?:\w+\.)*)(?:([\w-]+(?: as [\w-]+)?)|\{([^}]*)\})$', re.M)
# a statement over such a name, with what is seen of an end; of a generic function it is of every type, and of all that the function knows of it
STATED = re.compile(
    r'^  pub ([\w-]+)_single :\s+(?:(?:[({][\w ]+ : (?:RattleType|Ghosts \w+\.Denot|Dict)[)}]\s+)+→\s+)?'
    r'(OneAnswer|OneEnd) 𝓤 (?:([\w-]+)\.ended \(\3\.clauses|\(([\w-]+)\.ended( [\w ]+)\)\s+\(\4\.clauses\5) 𝓛 mem run\)(.*?)^  \1_single ', re.M | re.S)
Statement = collections.namedtuple('Statement', 'name kind seen')


def statements(proofs):
    """Of each function that the file Single of these proofs speaks of, as the proofs spell it (Kernel.step, walk.feed): its statement."""
    single, listed = proofs / 'Single.antt', proofs / 'Lib.antt'
    if not single.exists() or not re.search(r'^(?:pub )?mod Single$', listed.read_text(), re.M):
        return {}
    text, paths = single.read_text(), {}
    for module, one, several in BROUGHT.findall(text):
        for brought in [one] if one else [word.strip() for word in several.split(',') if word.strip()]:
            name, _, other = brought.partition(' as ')
            paths[other or name.split('.')[-1]] = module + name
    return {paths.get(m.group(3) or m.group(4)): Statement(m.group(1), m.group(2), m.group(6)) for m in STATED.finditer(text)}


def names(path):
    """The names that a function's statement may have: its own, or with its module's or type's before it, in snake case."""
    words = [re.sub(r'(?<=[a-z0-9])(?=[A-Z])', '_', word).lower() for word in path.split('.')]
    return {words[-1], '_'.join(words[-2:])}


def fault(function, stated):
    """What is wrong with the statement of a function, or nothing."""
    if stated is None or stated.name not in names(function.path):
        return 'has no statement in proofs/Single that no second answer meets its contract'
    lent = len(re.findall(r"&\s*(?:'\w+\s+)?mut\b", function.signature))
    if stated.kind == 'OneAnswer':
        return 'is lent something to change, and its statement is of the answer alone' if lent else None
    if len(re.findall(r'\be(?:\.\d+)*\.now\b', stated.seen)) != lent:
        return 'is stated to have one end, and what is seen of it is not each thing that it was lent to change'
    if '->' in function.signature and not re.search(r'λ κs r e\..*\br\b', stated.seen, re.S):
        return 'is stated to have one end, and its answer is not seen'
    return None


def exceptions(evidence):
    """The functions that docs/EVIDENCE.md gives a reason for, as crate::module::function."""
    section = evidence.read_text().split('\n## One answer\n', 1)[1].split('\n## ', 1)[0]
    return {name for line in section.splitlines() if line.startswith('- ') for name in re.findall(r'`(\w+(?:::\w+)+)`', line)}


def missing(root, public, declared):
    """What is wrong, for each of the public functions (a list for each crate) and each name of one that a public trait declares, and how many
    of the first have their statement. Of a declared one there are no clauses to state it of: docs/EVIDENCE.md says why there is one answer."""
    excepted, broken, count = exceptions(root / 'docs/EVIDENCE.md'), [], 0
    for name in declared:
        if name not in excepted:
            broken.append(f'{name} is declared by a public trait, and docs/EVIDENCE.md, "One answer", does not say whether it has one answer')
        excepted.discard(name)
    for crate, found in public.items():
        stated = statements(root / 'crates' / crate / 'proofs')
        for place, function in found:
            name = f'{crate}::{function.path.replace(".", "::")}'
            if name in excepted:
                excepted.discard(name)
                continue
            said = fault(function, stated.get(function.path))
            count += said is None
            broken += [f'{place} {said}'] if said else []
    broken += [f'docs/EVIDENCE.md: {name} is an exception of "One answer", and no public function' for name in sorted(excepted)]
    return broken, count
