#!/usr/bin/env python3
"""Holds every must-fail edit to the fact that it names: a lemma, a function, or a goal of a function, of its line `# Refused at: NAME, NAME..`, is what refuses it.

    python3 tools/refusals.py LOG [CRATE..]        # LOG is what `rt ci` or `rt must-fail` printed: a count, or each edit that is refused elsewhere, and status 1
    python3 tools/refusals.py --whole CRATE..      # tries the edits of these crates by `rt check`, on a copy, some seconds each, and holds all the names to what it prints
    python3 tools/refusals.py --places CRATE..     # the same, and prints where each is refused, for the line of a new edit; it judges nothing

That an edit is refused at all is the toolchain's to show. But a proof breaks for many reasons, and an edit that falls to another one guards nothing. `rt ci` prints
the first error of each edit and keeps no other: that is to be at one of the names. `rt check` prints all: each of the names is to be among them then. An error
counts only where a fact fails:
  - one that follows from another does not count: what it uses was not proved;
  - one of shape does not: a name, a field, a case or an argument that is not there, a limit of the prover, and every error in specs/ and src/, where no fact is
    proved. Nor may such a one be the first.
An error in proofs/F/Answers.antt, or another file there, is of function F and of a goal of it. It is named as `F`, as `GOAL`, or as `F (GOAL)`.
"""
import pathlib
import re
import shutil
import subprocess
import sys
import tempfile

from contracts import functions, modules_of
from refused_at import LINE, named

ROOT = pathlib.Path(__file__).resolve().parent.parent
SAID = re.compile(r'^(?:rt: )?must-fail (\w+)/(\S+\.edit): (.*)$', re.M)
REFUSED = re.compile(r'refused, as it must be(?: \((only[^:]*)[^)]*\))?(?:: (.*))?$')
ERROR = re.compile(r'(?:\./)?((?:src|specs|proofs)/\S+?):(\d+):\d+: error: (?:`([^`]+)`: )?')
# what a search of the check's own does not prove, with the goal
OPEN = re.compile(r'note: (?:\./)?(src/\S+?):(\d+):\d+: it is not proved that .*?\(`([^`]+)`\)')
FUNCTION = re.compile(r'fn \w+::(\S+): not proved')
FOLLOWS = re.compile(r'`[^`]+` was not admitted|was not admitted \(')
SHAPE = re.compile(
    r'is not in scope|that can be named|has no field|has no `|is not a field of|missing field|has no clause for|has no case for|no clause covers|is already declared'
    r'|is applied to an argument|needs a function|which binds|a dimension \(.*\) is expected|not a structural call'
    r'|stopped at the step limit|stopped after copying|antt ran out of|outgrew the memory limit'
)


def parts(name):
    """The words of a name, in which a function stands with its module or without, and with a goal or without."""
    return set(re.findall(r'[^\s:./()]+', name))


class Place:
    """Where a fact fails: the lemma, or the function and its goal."""

    def __init__(self, name, goal=None, shape=False, line=''):
        self.text = f'{name} ({goal})' if name and goal else name or goal or ''
        self.shape, self.line = shape, line

    def is_named(self, name):
        return parts(name) <= parts(self.text)


def function_at(text, path, line):
    """The function of this source in which a line stands, as the source names it (in_place::draw), or the next below it."""
    found = [f for f in functions(text, modules_of(path)) if line <= f.line + f.length]
    return found[0].path.replace('.', '::') if found else ''


def place(said, texts):
    """The place of an error, or nothing; `texts` gives a file of the edited crate."""
    error, opened, function = ERROR.match(said), OPEN.match(said), FUNCTION.match(said)
    if function:
        return Place(function.group(1))
    if opened:
        path, line, goal = opened.groups()
        return Place(function_at(texts(path), pathlib.PurePath(path), int(line)), goal, line=said)
    if not error or FOLLOWS.match(said, error.end()):
        return None
    part, *inside = error.group(1).split('/')
    shape = part != 'proofs' or not error.group(3) or SHAPE.search(said, error.end())
    return Place('::'.join(inside[:-1]), error.group(3), bool(shape), said) if inside[1:] else Place(error.group(3) or '', None, bool(shape), said)


def texts_of(edit, changed):
    """Gives the files of the edited crate: `changed` has those that the edit changes."""
    def text(path):
        file = edit.parent.parent / path
        return changed[path] if path in changed else file.read_text() if file.is_file() else ''
    return text


def made(edit):
    """The files that the edit changes, by their path, as it leaves them; tools/edits.py tells where one cannot be made."""
    texts, name, old = {}, None, None
    for line in edit.read_text().split('\n'):
        if line.startswith('file: '):
            name = line[6:]
            texts.setdefault(name, (edit.parent.parent / name).read_text())
        elif line.startswith('old: '):
            old = line[5:]
        elif line.startswith('new:'):
            texts[name] = texts[name].replace(old, line[4:].removeprefix(' '))
    return texts


def told_by_log(edit, said):
    """The first place of the line that the log has of the edit, or why it has none."""
    refused = REFUSED.match(said or '')
    if said is None:
        return [], 'the log has no line of it'
    if not refused:
        return [], f'it is not refused: {said[:300]}'
    if refused.group(1):
        return [], f'it is refused, but {refused.group(1)}: {said[-160:]}'
    found = place(refused.group(2) or '', texts_of(edit, made(edit)))
    return ([found], None) if found else ([], f'the log does not say where: {said[:300]}')


def told_by_check(edit, room):
    """All places at which `rt check` refuses the edit, made on the copy of the crates in `room`."""
    crate, changed = room / 'crates' / edit.parent.parent.name, made(edit)
    for path, text in changed.items():
        (crate / path).write_text(text)
    ended = subprocess.run(['rt', 'check'], cwd=crate, stdin=subprocess.DEVNULL, stdout=subprocess.PIPE, stderr=subprocess.STDOUT, check=False, text=True, errors='replace')
    for path in changed:
        shutil.copyfile(edit.parent.parent / path, crate / path)
    if ended.returncode == 0:
        return [], 'it is not refused: rt check proves the crate with it'
    said = re.split(r'\n(?! )', ended.stdout)  # a message goes on in lines that are set in
    found = [p for p in (place(message, texts_of(edit, changed)) for message in said) if p]
    return (found, None) if found else ([], f'rt check says no place: {ended.stdout[-300:]}')


def fault(edit, found, why, whole):
    """What is wrong with where the edit is refused, or nothing."""
    names = named(edit)
    if not names:
        return f'it has no line `{LINE}NAME`'
    if why:
        return why
    if found[0].shape:
        return f'its first error is of shape, and of no fact: {found[0].line[:300]}'
    facts = [p for p in found if not p.shape]
    places = ', '.join(dict.fromkeys(p.text for p in facts))
    missing = [name for name in names if not any(p.is_named(name) for p in facts)]
    if whole:
        return f'it is not refused at {", ".join(missing)}, but at: {places}' if missing else None
    return f'it is refused first at {places}, and names {", ".join(names)}' if len(missing) == len(names) else None


def copied(room):
    """The sources of all crates, at the top of a repository of their own."""
    (room / '.git').mkdir()
    for name in ('crates.txt', 'HANDLES'):
        if (ROOT / name).exists():
            shutil.copy(ROOT / name, room)
    for part in ROOT.glob('crates/*/*'):
        if part.name in ('src', 'specs', 'proofs'):
            shutil.copytree(part, room / part.relative_to(ROOT))


def tries(edits, only_places):
    """What is wrong with each edit, by trying it. With `only_places` it prints where each is refused."""
    with tempfile.TemporaryDirectory(prefix='refusals.') as room:
        room = pathlib.Path(room)
        copied(room)
        for edit in edits:
            found, why = told_by_check(edit, room)
            if only_places:
                print(f'{edit.relative_to(ROOT)}: {why or ", ".join(dict.fromkeys(p.text + " (shape)" * p.shape for p in found))}', flush=True)
            else:
                yield edit, fault(edit, found, why, True)


def of_log(edits, log):
    """What is wrong with each edit, by what `rt ci` or `rt must-fail` printed."""
    said = {(crate, name): text for crate, name, text in SAID.findall(log.read_text(errors='replace'))}
    for edit in edits:
        found, why = told_by_log(edit, said.get((edit.parent.parent.name, edit.name)))
        yield edit, fault(edit, found, why, False)


def main(how, *crates):
    by_check = how in ('--whole', '--places')
    edits = [edit for edit in sorted(ROOT.glob('crates/*/must-fail/*.edit')) if not (crates or by_check) or edit.parent.parent.name in crates]
    if not edits:
        print('tools/refusals.py: no edit found under crates/*/must-fail/: are the crates there, and named?', file=sys.stderr)
        return 1
    faults = 0
    for edit, why in tries(edits, how == '--places') if by_check else of_log(edits, pathlib.Path(how)):
        if why:
            faults += 1
            print(f'{edit.relative_to(ROOT)}: {why}', file=sys.stderr)
    if not faults and how != '--places':
        print(f'refusals: {len(edits)} edits, each refused at a fact that it names' + (', the first that rt prints' if not by_check else ', and at each'))
    return 1 if faults else 0


if __name__ == '__main__':
    sys.exit(main(*sys.argv[1:]) if sys.argv[1:] else __doc__)
