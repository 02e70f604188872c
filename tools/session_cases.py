#!/usr/bin/env python3
"""Makes the stored inputs of crates/session_cases and, by the second program, what must be printed for them.

    python3 tools/session_cases.py            write crates/session_cases/data/NN.walk, NN.draw and crates/session_cases/stdout
    python3 tools/session_cases.py --check    compare them with what is stored; exit status 1 on a difference

The inputs are the odd ones below and some of second/bin/make_input, by their numbers; what is printed for them is what second/bin/walk2 and draw2
print. second/build makes these three. The cases together must reach all that `reached` names, else nothing is written.
"""
import sys

from stored_cases import ROOT, run, serve

CRATE = ROOT / 'crates' / 'session_cases'
CLOCK = 2**64 - 1
# The most that walk or draw may come to read at a time: an input of three pieces and more is longer than three of these.
PIECE = 4096
# Draws about each full lot, since draw writes 384 at a time; and some longer ones.
COUNTS = (383, 384, 385, 768, 769, 1001, 2000, 2001, 3000)
# Where a decimal gets one digit more: each power of ten that 64 bits hold with its neighbours, 0, 9 and 10 among them; and the last number.
EDGES = sorted({10**k + d for k in range(20) for d in (-1, 0, 1)} | {CLOCK})

# Numbers of make_input. The first of each were chosen so that every refusal of every op that some input shows is among them; the others for variety.
MADE = {
    'walk': (81, 337, 129, 239, 362, 1, 3, 9, 10, 11, 12, 13, 19, 26, 35, 43, 53, 102, 104, 113, 117, 141, 199, 249),
    'draw': (25, 96, 230, 242, 234, 86, 48, 200, 122, 165, 307, 2, 3, 5, 6, 7, 8, 9, 12, 21, 24, 26, 32, 40, 50, 53),
}


# ---- The odd inputs

def text(*lines):
    return '\n'.join(lines + ('',)).encode('latin-1')


def walks():
    document = text('create 1 3', 'create 2 5', 'create 3 3', 'object 1 4', 'start', 'delay 10', 'open 1', 'advance 10', 'wake', 'open 1', 'delay 20',
                    'closep 1 1', 'entry 1 0', 'entry 1 0', 'open 1', 'closep 1 1')
    yield document
    yield document[:-1]                                  # a last line without a line end counts
    yield b''                                            # no input at all
    yield b'\n'                                          # one empty line
    yield b'\n\nstart\n\nadvance 7'
    # bytes that are ordinary, and blanks that are no single blanks
    yield text('start\r', 'start\0', '\xffstart', '\r', '\0', '\xff', '\t', ' start', 'start ', 'advance  1', 'advance\t1', 'Start', 'start', 'wake\r', 'wake')
    # decimals, and operands too few, too many, too large
    yield text('create 255 3', 'create 256 3', 'create 01 3', 'create 1 00', 'create +1 3', 'create -1 3', 'create  3', 'create 1', 'create 1 3 0', 'create 1 3',
               'object 8 4', 'object 1 255', 'object 1 256', 'object 1 4', 'start 0', 'start', 'wake 0', 'open', 'open 0', 'entry 1 2', 'entry 1 256', 'closep 1 1',
               f'advance {CLOCK + 1}', 'advance 99999999999999999999', 'advance 100000000000000000000', 'advance', 'advance 1')
    # lines of 64 bytes, of 65 and of many more are each one line; what stands behind 64 or 129 of its bytes is no line of its own
    yield text('start', *('advance ' + '0' * n for n in (55, 56, 57, 120, 121, 122, 4088, 9000)), 'x' * 64 + 'advance 1', 'x' * 129 + 'advance 1', 'advance 2')
    # the end of the clock
    yield text('create 1 1', 'start', f'advance {CLOCK - 1}', 'advance 2', f'delay {CLOCK}', 'wake', 'advance 1', 'advance 1', 'advance 0', 'wake', f'delay {CLOCK}',
               f'advance {CLOCK}', f'delay {CLOCK + 1}')
    # the end of an entry, while a task of higher, of equal and of lower base waits
    ends = ('entry 1 1', 'done 1 0', 'entry 1 0', 'entry 1 1', 'done 1 2', 'done 1 1', 'done 1 1', 'entry 1 1', 'done 1 1', 'delay 9', 'delay 9', 'wake')
    yield text('create 1 5', 'create 2 3', 'object 1 6', 'start', 'entry 1 0', *ends)
    yield text('create 1 3', 'create 2 3', 'object 1 3', 'start', 'entry 1 0', *ends)
    yield text('create 1 2', 'create 2 3', 'object 1 3', 'start', 'delay 1', 'entry 1 0', 'advance 1', 'wake', *ends)
    # barriers of `done`, in and out of their range, and its lines of bad form
    yield text('create 1 3', 'object 1 4', 'done 1', 'done 1 2', 'done 1 0', 'done 1 1', 'start', 'done 1 1', 'open 1', 'done 1 1', 'closef 1', 'entry 1 1', 'done',
               'done 1', 'done 1 ', 'done 1 0 0', 'done 1 00', 'done 1 +1', 'done 1 256', 'done 1 255', 'done 256 1', 'done 8 1', 'done 2 1', 'done 1 1', 'done 1 1')
    # bodies that end in an exception: the words in their forms, and each refusal
    words = ('failp 1', 'failp 1 1', 'failp 1 0', 'failf 1', 'failf 1 0', 'faile 1', 'faile 1 1', 'faile 1 0', 'failw', 'failw 1 1', 'failw 1 0', 'fail 1 1')
    yield text('create 1 3', 'object 1 4', *words, 'closep 1 1', 'closef 1', 'start', *words, 'failp 1 2', 'failp 0 1', 'failp 8 1', 'failp 7 1', 'failf 8', 'failf 7', 'faile 1 2', 'faile 7 1',
               'failw 1 2', 'failw 7 1', 'failp 256 1', 'failp 1 00', 'failf 01', 'faile 1 256', 'failw 1 1 1', 'open 1', 'faile 1 1', 'failp 1 1', 'entry 1 1',
               'failp 1 1', 'failf 1', 'failw 1 1', 'faile 1 0', 'delay 5', *words)
    # a task of higher, of equal and of lower base waits
    fails = tuple(line for word in ('failp', 'failw', 'faile') for line in ('entry 1 0', 'entry 1 1' if word == 'faile' else 'open 1', word + ' 1 0',
                  'entry 1 1' if word == 'faile' else 'open 1', word + ' 1 1', 'delay 9', 'wake', 'delay 9', 'advance 9', 'wake', 'wake')) + ('open 1', 'failf 1')
    yield text('create 1 5', 'create 2 3', 'object 1 6', 'start', *fails)
    yield text('create 1 3', 'create 2 3', 'object 1 3', 'start', *fails)
    yield text('create 1 2', 'create 2 3', 'object 1 3', 'start', 'delay 1', 'entry 1 0', 'advance 1', 'wake', *fails[1:])
    # 31 tasks asleep, in ties of time and priority, and woken
    tasks = range(1, 32)
    yield text(*(f'create {i} {i % 15 + 1}' for i in tasks), 'create 32 1', 'create 31 1', 'start', *(f'delay {i % 4 + 3}' for i in tasks), 'delay 9', 'wake',
               *(['advance 2'] + ['wake'] * 10) * 4)


def first(seed='1', span='100', weights='10 10 10 10 10 10 10 10', count='3'):
    return f'seed {seed} span {span} weights {weights} count {count}'


def first_lines():
    """Bad first lines, by the number that document 01 gives them."""
    return {
        14: [
            '', ' ', 'seed', first() + ' ', ' ' + first(), first().upper(), first()[5:], first(seed=''), first(seed=' 1'), first(span=''), first(span='4294967296'),
            first(span='01'), first(span='-1'), first(weights='10 10 10 10 10 10 10'), first(weights='10 10 10 10 10 10 10 10 10'),
            first(weights='10 10 10 10 10 10 10 4294967296'), first(weights='10 10 10 10 10 10 10 00'), first(count='0'), first(count='100001'), first(count='03'),
            first(count=''), first() + ' 1', first() + '\r', first(seed='7' * 75), 'x' * 129, 'x' * 3000, first(seed='0', span='0', count='0'),
        ],
        17: [  # the seed's word
            first(seed='0'), first(seed='-1647531835'), first(seed='4294967296'), first(seed='01'), first(seed='x'), first(seed='1\r'), first(seed='\0'), first(seed='\xff'),
            first(seed='12345678901'), first(seed='7' * 74), first(seed='0', span='0', weights='101 0 0 0 0 0 0 0'),
        ],
        18: [
            first(span='0'), first(span='1000001'), first(span='4294967295'), first(weights='101 10 10 10 10 10 10 10'), first(weights='10 10 10 10 10 10 10 101'),
            first(weights='10 0 10 10 10 10 10 10'),
        ],
    }


SETUP = ('create 1 3', 'create 2 5', 'create 3 3', 'object 1 4', 'start')


def draws():
    yield text(first(count='1'), *SETUP)                                         # document 01's case
    yield text(first(), *SETUP)[:-1]                                             # the start is the last line, without a line end
    yield text(first(), *SETUP, 'create 4 1', 'advance 5')                       # behind an accepted start no line is read
    yield text(first(), 'wake', '', 'creat 1 2', 'create 99 1', *SETUP)          # refused and malformed setup lines count
    # closings by an exception are refused as setup lines, and never drawn
    yield text(first(), 'failp 1 1', 'failf 1', 'faile 1 1', 'failw 1 0', 'failw 1 2', 'failf 1 0', *SETUP)
    for lines in first_lines().values():
        for line in lines:
            yield text(line, *SETUP)
    # entries and their ends alone, with barriers of both kinds while a task waits
    yield text(first(seed='9', weights='0 1 0 0 0 0 100 100', count='30'), 'create 1 3', 'create 2 3', 'object 1 3', 'start')
    # the largest that is fair, and no start
    yield text(first(seed='4294967295', span='1000000', weights='100 100 100 100 100 100 100 100', count='100000'))


# Three pieces of lines that are no commands, of many lengths.
FILLING = ['x' * (i % 120 + 1) for i in range(220)]


def long_inputs(kind):
    """Inputs of more than three pieces, and draws of more than one write."""
    if kind == 'walk':
        # all that counts stands behind three pieces; each row is of all before it; pieces that end where a line of 16 bytes does, and no last line end
        yield text(*FILLING, *SETUP, *('delay 10', 'open 1', 'advance 10', 'wake', 'closep 1 1') * 3)
        yield text(*SETUP, *(line for i in range(550) for line in (f'delay {i + 1}', 'advance 1', 'wake')))
        yield text('x' * 9, 'start', *['advance 1000000'] * 800)[:-1]
        return
    yield text(first(seed='5', count='9'), *FILLING, *SETUP, 'advance 5')
    spread = [f'create {i} {i % 15 + 1}' for i in range(1, 32)] + [f'object {i} {15 - i}' for i in range(1, 8)]
    yield text(first(seed='6', count='60'), *(line for word in spread for line in (word, *['x' * 110] * 3)), 'start')
    for count in COUNTS:
        yield text(first(seed=str(count), weights='10 10 10 20 20 10 20 20', count=str(count)), *SETUP)


def edges(kind):
    """Every edge of the decimals: as walk's clock, and as a value of draw's, which is refused before the start and shown as given."""
    if kind == 'walk':
        return text('start', *(f'advance {b - a}' for a, b in zip(EDGES, EDGES[1:])))
    return text(first(), *(f'delay {n}' for n in EDGES), *SETUP)


# ---- What they reach

def behind(given):
    """The numbers, from 0, of the lines that begin behind three pieces; of draw the setup lines begin with line 1, and their rows with 0."""
    lines = given[:3 * PIECE].count(b'\n') + 1
    return range(lines - given.startswith(b'seed'), given.count(b'\n'))


def reached(kind, given, printed):
    """The names of what an input and its output show."""
    rows = [line.split() for line in printed.decode().split('\n')[1:-1]]
    code = 2 if kind == 'walk' else 5
    found = {f'op {row[1]} code {row[code]}' for row in rows} | {f'op {row[1]} releases' for row in rows if row[code + 2] != '0'}
    found |= {f'byte {b}' for b in (0, 13, 255) if bytes([b]) in given}
    lines = given.split(b'\n')
    tests = {
        'no input': not given,
        'no last line end': given and lines[-1],
        'a line over 64 bytes': any(len(line) > 64 for line in lines),
        'a line over 4096 bytes': any(len(line) > 4096 for line in lines),
        '31 tasks': sum(row[1] == '1' and row[code] == '0' for row in rows) == 31,
        'counts behind three pieces': any(rows[n][code] == '0' for n in behind(given) if n < len(rows)),
        'the last tick': any(row[-1] == str(CLOCK) for row in rows),
        'the edges of the decimals': {str(n) for n in EDGES} <= {row[-1 if kind == 'walk' else 4] for row in rows},
    }
    drawn = {f'{count} draws' for count in COUNTS if kind == 'draw' and b' count %d\n' % count in given and rows[-1][5] == '0'}
    return {f'{kind}: {name}' for name in found | drawn} | {f'{kind}: {name}' for name, seen in tests.items() if seen}


def wanted():
    refusals = {1: (0, 3, 4, 5), 2: (0, 3, 4, 5), 3: (0, 3), 4: (0, 2, 7, 8), 5: (0, 2), 6: (0, 2, 13), 7: (0, 2, 4, 6, 7, 8, 10), 8: (0, 2, 4, 6, 7, 9),
                9: (0, 2, 4, 6, 7, 9), 10: (0, 2, 4, 6, 7, 8, 10, 12), 11: (0, 2, 4, 6, 7, 9), 0: (14,)}
    refusals |= {op: refusals[8] for op in (12, 13, 14, 15)}
    names = {f'walk: op {op} code {code}' for op, codes in refusals.items() for code in codes}
    names |= {f'draw: op {op} code 0' for op in range(1, 12)} | {f'draw: op 0 code {code}' for code in (2, 14, 17, 18)}
    both = ['op 5 releases', 'op 8 releases', 'op 11 releases', 'no input', 'no last line end', 'a line over 64 bytes', '31 tasks', 'byte 0', 'byte 13', 'byte 255', 'the edges of the decimals',
            'counts behind three pieces']
    names |= {f'draw: {count} draws' for count in COUNTS} | {f'walk: op {op} releases' for op in (12, 14, 15)} | {f'draw: op {op} code 2' for op in (12, 13, 14, 15)}
    return names | {f'{kind}: {name}' for kind in ('walk', 'draw') for name in both} | {'walk: a line over 4096 bytes', 'walk: the last tick'}


# ---- The files

def test_first_lines():
    """The second program too must give each the number by which it stands here."""
    for number, lines in first_lines().items():
        for line in lines:
            said = run('draw2', given=text(line)).split(b'\n')[1]
            if said != b'0 0 0 0 0 %d 0 0 0' % number:
                sys.exit(f'session_cases: the second program says {said.decode()} of the first line {line!r}, which is to be {number}')


def made():
    test_first_lines()
    files, printed, seen = {}, {}, set()
    for kind, odd in (('walk', walks()), ('draw', draws())):
        inputs = list(odd) + [run('make_input', kind, str(number)) for number in MADE[kind]] + [edges(kind)] + list(long_inputs(kind))
        if len(inputs) > 100:
            sys.exit(f'session_cases: {len(inputs)} inputs of {kind}, and the names of crates/session_cases/src/main.rt have two digits')
        for i, given in enumerate(inputs):
            name = f'{i:02}.{kind}'
            files[CRATE / 'data' / name] = given
            said = run(kind + '2', given=given)
            seen |= reached(kind, given, said)
            printed[i, kind != 'walk'] = b'file ' + name.encode() + b'\n' + said
    missing = wanted() - seen
    if missing:
        sys.exit('session_cases: no input reaches ' + ', '.join(sorted(missing)))
    files[CRATE / 'stdout'] = b''.join(printed[key] for key in sorted(printed))
    return files


serve(__doc__, CRATE, made, 'inputs')
