#!/usr/bin/env python3
"""Makes the stored tapes of crates/judge_cases and, by the second program, what must be printed for them.

    python3 tools/judge_cases.py            write crates/judge_cases/data/NNN.tape and crates/judge_cases/stdout
    python3 tools/judge_cases.py --check    compare them with what is stored; exit status 1 on a difference

The tapes are those below, made by hand with their verdicts, and some of second/bin/make_tape, by their numbers; what is printed for them is what
second/bin/judge2 prints. second/build makes these two. The tapes together must reach all that `wanted` names, else nothing is written.
"""
import re
import struct
import sys

from stored_cases import DOCUMENT, HEADER, ROOT, WALK, changed, header, record, run, serve, walk

CRATE = ROOT / 'crates' / 'judge_cases'

# Numbers of make_tape. The first were chosen so that every refusal of every op that some tape shows is among them; the others for variety.
MADE = (327, 470, 1303, 1849, 658, 1909, 379, 319, 1658, 614, 446, 1496, 305, 3, 7, 22, 33, 45, 53, 61, 63)
# A tape of that many right command records, so that it is longer than what any program reads in one piece: its number, and their count.
LONG = (49, 4200)
# The same of more than two pieces of 64 KiB, and the record of its third piece that is spoilt in two more.
LONGER, SPOILT = (49, 8600), 8501


# ---- Tapes made by hand

def agrees(count, seed=1):
    return f'seed {seed}\nagrees: {count} command records\n'


def refused(number, record_number, seed=1):
    return f'seed {seed if record_number or number == 17 else 0}\nrefused {number} at record {record_number}, byte {16 * record_number}\n'


def differs(number, command, tape, rules):
    said = [f'code {code}, running {running}, released {released}' for code, running, released in (tape, rules)]
    return f'seed 1\ndiffers at record {number}, byte {16 * number}: {command}; tape: {said[0]}; rules: {said[1]}\n'


def whole_tapes():
    yield DOCUMENT, agrees(16)
    for seed in (1, 2147483648, 4294967295):
        yield header(seed), agrees(0, seed)
    # operands that the op has no place for: 4 before Start and after, and the state goes on
    unused = [(1, 4, 4, 9), (2, 2, 4, 2**56), (3, 0, 0, 1), (3, 1, 0, 0), (4, 1, 0, 9), (4, 0, 1, 9), (5, 0, 0, 2**32), (5, 255, 0, 0), (5, 0, 255, 0), (6, 1, 0, 0),
              (6, 0, 1, 0), (7, 1, 1, 0), (7, 1, 0, 1), (8, 1, 1, 1), (9, 1, 1, 0), (9, 1, 0, 1), (10, 1, 0, 1), (11, 1, 1, 1), (11, 1, 0, 1), (12, 1, 1, 1), (13, 1, 1, 0),
              (13, 1, 0, 1), (14, 1, 1, 1), (15, 1, 0, 2**63)]
    tape = HEADER + b''.join(record(*command, 4, 0, 0) for command in unused) + walk(1, 5) + b''.join(record(*command, 4, 2, 0) for command in unused) + walk(6, 16)
    yield tape, agrees(16 + 2 * len(unused))


def torn_tapes():
    yield b'', refused(15, 0)
    for length in (1, 8, 15):
        yield HEADER[:length], refused(15, 0)
    for left in range(1, 16):
        yield DOCUMENT[:16 * (left + 1) + left], refused(15, left + 1)
    yield DOCUMENT + b'\n', refused(15, 17)
    yield DOCUMENT + bytes(16), refused(15, 17)
    # the last byte of record 6 is lost: its delay takes half of the next mark, and is still a delay; record 7 has no mark
    yield DOCUMENT[:111] + DOCUMENT[112:], refused(15, 7)


def bad_headers():
    behind = walk(1, 3)
    for place in range(8):
        yield changed(HEADER + behind, (place, 5)), refused(15, 0)
    yield header(1, edition=0) + behind, refused(15, 0)
    yield header(1, edition=3) + behind, refused(15, 0)
    for seed in (0, 2**32, 2**32 + 1, 2**63, 2**64 - 1):
        yield header(seed) + behind, refused(17, 0, seed)
    yield header(0, edition=3), refused(15, 0)                                   # 17 is of a header else right
    yield behind, refused(15, 0)


def bad_records():
    yield DOCUMENT[:48] + HEADER + DOCUMENT[48:], refused(15, 3)                 # a second header
    yield HEADER + header(0), refused(15, 1)
    for number, place, byte in ((1, 0, 0x53), (5, 1, 0), (16, 2, 0), (6, 2, 16), (7, 2, 255), (8, 5, 14), (9, 5, 255), (10, 6, 32), (11, 7, 32)):
        yield changed(DOCUMENT, (16 * number + place, byte)), refused(15, number)


def wrong_answers():
    close = 'closep 1 1 (op 8, a 1, b 1, value 0)'
    for answer in ((1, 3, 1), (0, 1, 1), (0, 3, 0), (11, 31, 1), (13, 3, 31), (0, 1, 3), (9, 0, 0)):
        yield DOCUMENT[:-16] + record(8, 1, 1, 0, *answer), differs(16, close, answer, (0, 3, 1))
    yield HEADER + record(5, 0, 0, 0, 13, 31, 31) + walk(1, 4), differs(1, 'wake (op 5, a 0, b 0, value 0)', (13, 31, 31), (2, 0, 0))
    # an operand that the op has no place for is seen in the brackets only
    yield HEADER + walk(1, 5) + record(4, 1, 2, 7, 0, 1, 0), differs(6, 'delay 7 (op 4, a 1, b 2, value 7)', (0, 1, 0), (4, 2, 0))
    yield HEADER + record(3, 255, 254, 2**64 - 1, 0, 0, 0), differs(1, f'start (op 3, a 255, b 254, value {2**64 - 1})', (0, 0, 0), (4, 0, 0))
    # Queue and Clock, passed over
    yield HEADER + walk(1, 13) + record(10, 1, 0, 0, 0, 0, 0), differs(14, 'entry 1 0 (op 10, a 1, b 0, value 0)', (0, 0, 0), (12, 3, 0))
    yield (HEADER + walk(1, 8) + record(6, 0, 0, 2**64 - 10, 0, 1, 0),
           differs(9, f'advance {2**64 - 10} (op 6, a 0, b 0, value {2**64 - 10})', (0, 1, 0), (13, 1, 0)))
    # a record is lost
    yield HEADER + walk(1, 5) + walk(7, 16), differs(6, 'open 1 (op 7, a 1, b 0, value 0)', (0, 1, 0), (10, 2, 0))


def ends_of_entries():
    """Task 1 waits on object 1, and task 3, of the same base, came through its entry."""
    entered = HEADER + walk(1, 13) + record(10, 1, 1, 0, 0, 3, 0)
    # barrier 0 leaves the waiter; 1 releases it, and it runs when the other sleeps
    ends = ((11, 1, 2, 0, 4, 3, 0), (11, 1, 255, 0, 4, 3, 0), (11, 1, 0, 0, 0, 3, 0), (10, 1, 0, 0, 12, 3, 0), (10, 1, 1, 0, 0, 3, 0), (11, 1, 1, 0, 0, 3, 1),
            (11, 1, 1, 0, 9, 3, 0), (4, 0, 0, 20, 0, 1, 0))
    yield entered + b''.join(record(*fields) for fields in ends), agrees(14 + len(ends))
    for barrier, tape, rules in ((1, (0, 3, 0), (0, 3, 1)), (1, (0, 1, 1), (0, 3, 1)), (0, (0, 3, 1), (0, 3, 0)), (2, (0, 3, 1), (4, 3, 0))):
        yield entered + record(11, 1, barrier, 0, *tape), differs(15, f'done 1 {barrier} (op 11, a 1, b {barrier}, value 0)', tape, rules)


def exceptions():
    """The same waiter. Ops 12 to 15 move tasks as closep, closef, done and closep do; a record carries no exception, so none is judged."""
    closings = ((12, 1, 0, 0, 0, 3, 0), (13, 1, 0, 0, 0, 3, 0), (15, 1, 0, 0, 0, 3, 0), (15, 1, 1, 0, 0, 3, 1))
    opened = record(7, 1, 0, 0, 0, 3, 0)
    yield HEADER + b''.join(record(op, 1, 0, 0, 2, 0, 0) for op in range(8, 16)), agrees(8)
    yield HEADER + walk(1, 13) + b''.join(opened + record(*fields) for fields in closings) + record(4, 0, 0, 20, 0, 1, 0), agrees(13 + 2 * len(closings) + 1)
    entered = HEADER + walk(1, 13) + record(10, 1, 1, 0, 0, 3, 0)
    refusals = ((12, 1, 1, 0, 9, 3, 0), (13, 1, 0, 0, 9, 3, 0), (15, 1, 1, 0, 9, 3, 0), (14, 1, 2, 0, 4, 3, 0), (14, 2, 1, 0, 6, 3, 0))
    yield entered + b''.join(map(lambda fields: record(*fields), refusals)) + record(14, 1, 1, 0, 0, 3, 1), agrees(14 + len(refusals) + 1)
    for op, word, tape in ((12, 'failp 1 1', (0, 1, 1)), (13, 'failf 1', (0, 3, 1)), (15, 'failw 1 1', (0, 3, 0))):
        b = 0 if op == 13 else 1
        rules = (0, 3, b)
        yield HEADER + walk(1, 13) + opened + record(op, 1, b, 0, *tape), differs(15, f'{word} (op {op}, a 1, b {b}, value 0)', tape, rules)
    yield entered + record(14, 1, 1, 0, 0, 3, 0), differs(15, 'faile 1 1 (op 14, a 1, b 1, value 0)', (0, 3, 0), (0, 3, 1))
    # 14 ends no open
    yield HEADER + walk(1, 13) + opened + record(14, 1, 1, 0, 0, 3, 1), differs(15, 'faile 1 1 (op 14, a 1, b 1, value 0)', (0, 3, 1), (9, 3, 0))


def first_comes_first():
    wrong, said = record(3, 0, 0, 0, 0, 1, 0), differs(5, 'start (op 3, a 0, b 0, value 0)', (0, 1, 0), (0, 2, 0))
    bad = changed(WALK[5], (2, 16))
    yield HEADER + walk(1, 4) + wrong + bad, said
    yield HEADER + walk(1, 4) + wrong + WALK[5][:7], said
    yield HEADER + walk(1, 4) + bad + wrong, refused(15, 5)
    yield HEADER + walk(1, 4) + changed(wrong, (1, 0x57)), refused(15, 5)
    yield HEADER + walk(1, 4) + wrong[:15], refused(15, 5)


def by_hand():
    for tapes in (whole_tapes, torn_tapes, bad_headers, bad_records, wrong_answers, ends_of_entries, exceptions, first_comes_first):
        yield from tapes()


# ---- What they reach

ANSWER = 'code (\\d+), running (\\d+), released (\\d+)'
DIFFERENCE = re.compile(f'differs at record (\\d+), .* \\(op (\\d+), .*\\); tape: {ANSWER}; rules: {ANSWER}')


def difference(verdict):
    """The names of what a difference shows, and how many command records are right."""
    number, op, *answers = map(int, DIFFERENCE.fullmatch(verdict).groups())
    tape, rules = answers[:3], answers[3:]
    parts = ' and '.join(name for name, x, y in zip(('code', 'running', 'released'), tape, rules) if x != y)
    return {'differs in ' + parts, f'differs at op {op}', f'differs with tape code {tape[0]}', f'differs with rules code {rules[0]}'}, number - 1


def reached(tape, printed):
    """The names of what a tape and its verdict show."""
    verdict = printed.decode().split('\n')[1]
    words = verdict.replace(',', '').split()
    if words[0] == 'agrees:':
        names, right = {'agrees'}, int(words[1])
    elif words[0] == 'refused':
        names, right = {' '.join(words[:2]) + (' at record 0' if words[4] == '0' else ' behind')}, int(words[4]) - 1
    else:
        names, right = difference(verdict)
    names.add(f'{len(tape) % 16} bytes over')
    names |= {f'over {size} bytes' for size in (4096, 65536) if len(tape) > size and right * 16 > size}
    names |= {f'{words[0]} behind 131072 bytes'} if right * 16 > 131072 else set()
    for number in range(1, right + 1):
        op, a, b, code, running, released, value = struct.unpack('<6BQ', tape[16 * number + 2:16 * number + 16])
        names |= {f'op {op} code {code}', f'running {running}'} | ({f'op {op} releases', f'released {released}'} if released else set())
    return names


def wanted():
    codes = {1: (0, 3, 4, 5), 2: (0, 3, 4, 5), 3: (0, 3, 4), 4: (0, 2, 4, 7, 8), 5: (0, 2, 4), 6: (0, 2, 4, 13), 7: (0, 2, 4, 6, 7, 8, 10), 8: (0, 2, 4, 6, 7, 9),
             9: (0, 2, 4, 6, 7, 9), 10: (0, 2, 4, 6, 7, 8, 10, 12), 11: (0, 2, 4, 6, 7, 9)}
    codes |= {op: codes[8] for op in (12, 13, 14, 15)}
    names = {f'op {op} code {code}' for op in codes for code in codes[op]} | {f'op {op} releases' for op in (5, 8, 11, 12, 14, 15)}
    names |= {f'running {task}' for task in range(32)} | {f'released {task}' for task in range(1, 32)} | {f'{over} bytes over' for over in range(16)}
    names |= {f'differs at op {op}' for op in codes} | {f'differs with tape code {code}' for code in range(14)}
    names |= {f'differs with rules code {code}' for code in (0, 2, 3, 4, 5, 6, 7, 8, 9, 10, 12, 13)}
    names |= {'differs in ' + parts for parts in ('code', 'running', 'released', 'code and running', 'code and released', 'running and released',
                                                  'code and running and released')}
    names |= {f'{verdict} behind 131072 bytes' for verdict in ('agrees:', 'differs', 'refused')}
    return names | {'agrees', 'refused 15 at record 0', 'refused 15 behind', 'refused 17 at record 0', 'over 4096 bytes', 'over 65536 bytes'}


# ---- The files

def test_by_hand():
    """The second program too must say of each what stands here."""
    for tape, verdict in by_hand():
        said = run('judge2', given=tape).decode()
        if said != verdict:
            sys.exit(f'judge_cases: the second program says {said!r} of the tape {tape.hex()}, which is to be {verdict!r}')


def long_tapes():
    """A right one of more than one piece, one of more than two; that with another running task, and without its mark, at a record of the third piece."""
    yield run('make_tape', str(LONG[0]), 'right', str(LONG[1]))
    tape = run('make_tape', str(LONGER[0]), 'right', str(LONGER[1]))
    yield tape
    yield changed(tape, (16 * SPOILT + 6, tape[16 * SPOILT + 6] ^ 1))
    yield changed(tape, (16 * SPOILT, 0))


def made():
    test_by_hand()
    tapes = [tape for tape, _ in by_hand()] + [run('make_tape', str(number)) for number in MADE] + list(long_tapes())
    if len(tapes) > 1000:
        sys.exit(f'judge_cases: {len(tapes)} tapes, and their numbers have three digits')
    files, printed, seen = {}, [], set()
    for i, tape in enumerate(tapes):
        name = f'{i:03}.tape'
        files[CRATE / 'data' / name] = tape
        said = run('judge2', given=tape)
        seen |= reached(tape, said)
        printed.append(b'file ' + name.encode() + b'\n' + said)
    missing = wanted() - seen
    if missing:
        sys.exit('judge_cases: no tape reaches ' + ', '.join(sorted(missing)))
    files[CRATE / 'stdout'] = b''.join(printed)
    return files


serve(__doc__, CRATE, made, 'tapes')
