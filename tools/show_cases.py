#!/usr/bin/env python3
"""Makes the stored inputs of crates/show_cases and, by the second program, what must be printed for them.

    python3 tools/show_cases.py            write crates/show_cases/data/NN.show, NN.line, NN.far and crates/show_cases/stdout
    python3 tools/show_cases.py --check    compare them with what is stored; exit status 1 on a difference

Of NN.show all lines are shown, of NN.line line NN alone, and of NN.far line NN00. What is printed is what second/bin/show2 prints; without the lines of the
states it must be what second/bin/walk2 prints. second/build makes both, and make_input. The cases together must reach all that `wanted` names, else nothing is
written. The example of docs/SHOW.md is held to show2 as well.
"""
import re
import sys

from stored_cases import ROOT, run, serve

CRATE = ROOT / 'crates' / 'show_cases'
PAGE = ROOT / 'docs' / 'SHOW.md'
CLOCK = 2**64 - 1
# The most that show may come to read at a time: an input of three pieces and more is longer than three of these.
PIECE = 4096
TASKS = range(1, 32)


# ---- The inputs

def text(*lines):
    return '\n'.join(lines + ('',)).encode('latin-1')


SAMPLE = (ROOT / 'crates' / 'walk' / 'stdin').read_bytes()
# All tasks sleep until one time, and then until four times in turn; they are woken one by one, and some delay again.
ALL = [f'create {t} {t % 15 + 1}' for t in TASKS] + ['start']
SAME = text(*ALL, *['delay 7'] * 31, 'delay 9', 'advance 7', *['wake'] * 32)
TIED = text(*ALL, *(f'delay {t % 4 + 3}' for t in TASKS), 'wake', 'advance 4', *['wake', 'wake', 'delay 5', 'delay 6'] * 9, 'advance 2', *['wake'] * 14)
# Seven objects; one is held in each way, with a waiter and without, and its holder is preempted.
OBJECTS = text('create 1 2', 'create 2 2', 'create 3 2', 'create 4 2', 'create 5 9', *(f'object {o} {o + 1}' for o in range(1, 8)), 'start', 'delay 5', 'entry 3 0',
               'entry 7 0', 'open 3', 'advance 5', 'wake', 'delay 9', 'closep 3 0', 'entry 7 1', 'advance 4', 'wake', 'delay 20', 'done 7 1', 'closef 3', 'open 1',
               'closef 1', 'open 6', 'closep 6 1', 'entry 6 1', 'done 6 0', 'delay 9', 'entry 3 1', 'done 3 1')
# Exceptions: shown at once, pending for one task, for two, and shown by a delay, a Wake, and an entry that waits.
FAILED = text('create 1 3', 'create 2 3', 'create 3 3', 'create 4 9', 'object 1 5', 'object 2 4', 'start', 'delay 5', 'entry 1 0', 'entry 2 0', 'open 1', 'failp 1 0',
              'open 1', 'failf 1', 'entry 1 1', 'faile 1 0', 'open 1', 'failw 1 1', 'open 2', 'failw 2 1', 'x', 'create 5 5', 'advance 5', 'open 1', 'wake', 'open 1',
              'delay 9', 'failp 1 1', 'delay 8', 'entry 1 0', 'open 1', 'failw 1 0', 'failw 1 1', 'open 1', 'failw 1 1', 'delay 7', 'delay 6')
# Each refusal that a run meets, and lines that are none.
REFUSED = text('wake', 'create 32 1', 'create 1 16', 'create 1 3', 'create 1 4', 'object 8 1', 'object 1 4', 'object 1 5', 'object 2 2', '', 'start ', 'start', 'start',
               'create 2 2', 'open 3', 'open 2', 'closep 1 1', 'open 1', 'open 1', 'delay 4', 'entry 1 1', 'done 1 1', 'closef 1', 'failp 1 1', 'advance 00', 'advance 3',
               f'advance {CLOCK}', 'delay 9', 'delay 10', 'open 1', 'x' * 70, 'closef\t1', '\xffwake', 'wake\r', 'wake')
QUEUED = text('create 1 3', 'create 2 3', 'object 1 3', 'start', 'entry 1 0', 'entry 1 0', 'delay 5')
# The last tick, until which two sleep.
LAST = text('create 1 1', 'create 2 9', 'start', f'delay {CLOCK}', f'delay {CLOCK}', f'advance {CLOCK - 1}', 'wake', 'advance 1', 'wake', 'wake', 'delay 0')
# Two tasks that delay and are woken; some thousand lines in small blocks, so that pieces end within a line, and no last line end.
TURNS = ['create 1 3', 'create 2 5', 'start'] + [line for i in range(330) for line in (f'delay {2 * i + 2}', f'delay {2 * i + 2}', 'advance 2', 'wake', 'wake')]
LONG = text(*TURNS)[:-1]


def whole():
    """What is shown line by line."""
    yield SAMPLE
    yield from (b'', b'\n', b'start', SAMPLE[:-1])
    yield from (SAME, OBJECTS, FAILED, REFUSED, QUEUED, LAST, LONG)
    yield from (run('make_input', 'walk', str(n)) for n in MADE)


# Numbers of make_input: short ones, for variety.
MADE = (1, 7, 11)


def lines():
    """One line of each: the number of the file."""
    yield from ((n, SAMPLE) for n in (1, 9, 16, 17))
    yield from ((n, TIED) for n in (62, 63, 64, 70, 77, 85, 99))
    yield 2, b'\n'                      # a line too many
    yield 3, b'\n\nstart'               # the last line has no line end
    yield 4, SAMPLE + b'x' * 9000       # what stands behind is not looked at
    yield 5, b'x' * 13000 + b'\n' + SAMPLE


def far():
    """One line far behind: the number of the file times 100."""
    yield 16, LONG
    yield 17, LONG                      # a line too many
    yield 88, run('make_input', 'walk', str(FAR))


FAR = 63


# ---- What they reach

def blocks(printed):
    """The rows, each with the lines below it."""
    found = []
    for line in printed.decode().split('\n')[1:-1]:
        if line.startswith(' '):
            found[-1][1].append(line)
        else:
            found.append((line.split(), []))
    return found


def block_shows(row, state):
    """The names of what one block shows."""
    yield f'op {row[1]} code {row[2]}'
    for line in state:
        words = line.split()
        pairs = [tuple(map(int, w.split('/'))) for w in words if '/' in w]
        if words[0] == 'started':
            yield line[1:]
        elif words[0] in ('tasks', 'delay'):
            yield f'{words[0]}: {len(pairs)}'
            if words[0] == 'delay' and len({until for _, until in pairs}) < len(pairs):
                yield 'delay: a tie'
        elif words[0] == 'ready':
            yield f'ready: {len(pairs)}'
        elif words[0] == 'pending':
            yield f'pending: {len(words) - 1}'
        elif words[0] == 'object':
            yield f'object {words[1]}'
            yield f'way {words[7]}, waiters {len(words) - 9}'
            if int(words[5]) != pairs_front(state) and words[5] != '0':
                yield 'a preempted holder'
        else:
            yield f'{words[0]}: age {words[6]}'
            if words[4] == str(CLOCK):
                yield f'{words[0]}: the last tick'


def pairs_front(state):
    """The first of the ready line."""
    return int(next(line for line in state if line.startswith(' ready ')).split()[1].split('/')[0])


def reached(kind, given, only, printed):
    """The names of what an input and its output show."""
    found = blocks(printed)
    names = {name for row, state in found for name in block_shows(row, state)}
    tests = {
        'no input': not given,
        'no last line end': given and not given.endswith(b'\n'),
        'a line that is not there': only and not found,
        'more than three pieces': len(given) > 3 * PIECE and found,
        'a line behind three pieces': only and found and len(b'\n'.join(given.split(b'\n')[:only])) > 3 * PIECE,
        'a thousand lines': len(found) > 1000,
    }
    return names | {f'{kind}: {name}' for name, so in tests.items() if so}


def wanted():
    refusals = {0: (14,), 1: (0, 3, 4, 5), 2: (0, 4, 5), 3: (0, 3), 4: (0, 7, 8), 5: (0, 2), 6: (0, 13), 7: (0, 6, 7, 8, 10), 8: (0, 9), 9: (0,), 10: (0, 8, 12),
                11: (0, 9), 12: (0, 9), 13: (0,), 14: (0,), 15: (0, 9)}
    names = {f'op {op} code {code}' for op, codes in refusals.items() for code in codes}
    names |= {'started 0 exception 0', 'started 1 exception 0', 'started 1 exception 1', 'a preempted holder', 'delay: a tie'}
    names |= {f'tasks: {n}' for n in (0, 1, 31)} | {f'delay: {n}' for n in range(32)} | {f'ready: {n}' for n in (1, 2, 31, 32)}
    names |= {f'pending: {n}' for n in range(3)} | {f'object {n}' for n in range(1, 8)} | {f'way {way}, waiters {n}' for way in range(3) for n in range(2)}
    names |= {f'registers: age {n}' for n in range(32)} | {f'table: age {n}' for n in range(1, 31)} | {'registers: the last tick', 'table: the last tick'}
    names |= {f'show: {name}' for name in ('no input', 'no last line end', 'more than three pieces', 'a thousand lines')}
    return names | {f'{kind}: {name}' for kind in ('line', 'far') for name in ('no last line end', 'a line that is not there', 'a line behind three pieces')}


# ---- The files

def shown(given, only):
    """What show prints of an input, or of one line of it."""
    rows = run('walk2', given=given).split(b'\n')
    if not only:
        said = run('show2', given=given)
    elif only < len(rows) - 1:
        said = run('show2', str(only), given=given)
        rows = [rows[0], rows[only], b'']
    else:
        said = run('show2', str(only), given=given, status=2)
        rows = [rows[0], b'']
    if [line for line in said.split(b'\n') if not line.startswith(b' ')] != rows:
        sys.exit('show_cases: the rows that show2 prints are not those of walk2')
    return said


def test_example():
    """The page's example: its script, and what is printed for it."""
    found = re.search(r'    \$ cat script\n(.*?)    \$ \./run show script (\d+)\n(.*?)\n\n', PAGE.read_text(), re.S)
    if not found:
        sys.exit('show_cases: there is no example in docs/SHOW.md, in the form that is looked for')
    script, printed = (re.sub('^    ', '', part, flags=re.M) for part in found.group(1, 3))
    if shown(script.encode(), int(found.group(2))).decode() != printed + '\n':
        sys.exit('show_cases: the example of docs/SHOW.md is not what show2 prints')


def made():
    test_example()
    cases = [('show', n, 0, given) for n, given in enumerate(whole())]
    cases += [('line', n, n, given) for n, given in lines()] + [('far', n, 100 * n, given) for n, given in far()]
    files, printed, seen = {}, {}, set()
    for kind, number, only, given in cases:
        name = f'{number:02}.{kind}'
        files[CRATE / 'data' / name] = given
        said = shown(given, only)
        seen |= reached(kind, given, only, said)
        printed[number, ('show', 'line', 'far').index(kind)] = b'file ' + name.encode() + b'\n' + said
    missing = wanted() - seen
    if missing:
        sys.exit('show_cases: no input reaches ' + ', '.join(sorted(missing)))
    files[CRATE / 'stdout'] = b''.join(printed[key] for key in sorted(printed))
    return files


serve(__doc__, CRATE, made, 'inputs')
