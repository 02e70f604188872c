#!/usr/bin/env python3
"""Looks at every must-fail edit before the gate spends its time: does each text that an edit would replace stand in its file, once, and does it say where it is refused?

    python3 tools/edits.py        # a count, or each edit that cannot be made or does not say, and status 1

The toolchain asks the same when it tries an edit, which is late in a gate: a line that was renamed would be told only there, and `rt ci` passes all the same.
An edit is pairs of lines `old: TEXT`, `new: TEXT` behind a line `file: NAME`, made one after another. That the edited crate is refused is the toolchain's to show,
and that it is refused where the edit says is shown by tools/refusals.py, of what the toolchain prints.
"""
import pathlib
import re
import sys

from refused_at import LINE, named


def fault(edit):
    """Why the edit cannot be made, or that it does not say where it is refused, or nothing."""
    if not named(edit):
        return f'it has no line `{LINE}NAME`. Name the lemma or function that refuses it'
    if not re.fullmatch(r'[A-Za-z0-9_-][A-Za-z0-9_.-]*\.edit', edit.name):
        return 'the toolchain reads no edit of this name: letters, digits, _, - and ., and .edit behind them'
    texts, name, old, pairs, before = {}, None, None, 0, {}
    for line in edit.read_text().split('\n'):
        if line.startswith('file: '):
            name = line[6:]
            path = edit.parent.parent / name
            if not path.is_file():
                return f'there is no file {name}'
            if not name.startswith(('src/', 'specs/', 'proofs/')):
                return f'{name} is not below src/, specs/ or proofs/'
            before[name] = texts.setdefault(name, path.read_text()) if name not in before else before[name]
        elif line.startswith('old: '):
            old = line[5:]
        elif line.startswith('new:'):
            if name is None or not old:
                return 'a `new:` has no `file:` and `old:` before it'
            count = texts[name].count(old)
            if count != 1:
                return f'its text stands {count} times in {name}, and not once: {old.strip()}. Name the line as it stands today'
            texts[name] = texts[name].replace(old, line[4:].removeprefix(' '))
            old, pairs = None, pairs + 1
    if not pairs:
        return 'it has no pair of `old:` and `new:`'
    return 'it changes nothing' if texts == before else None


def main():
    root = pathlib.Path(__file__).resolve().parent.parent
    edits = sorted(path for path in root.glob('crates/*/must-fail/*') if path.suffix != '.md')
    faults = [(edit, fault(edit)) for edit in edits]
    for edit, why in faults:
        if why:
            print(f'{edit.relative_to(root)}: {why}.', file=sys.stderr)
    if not edits:
        print('tools/edits.py: no edit found under crates/*/must-fail/: are the crates there?', file=sys.stderr)
        return 1
    if any(why for _, why in faults):
        return 1
    print(f'edits: {len(edits)}, each text stands in its file once, and each says where it is refused')
    return 0


sys.exit(main())
