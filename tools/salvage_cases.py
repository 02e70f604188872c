#!/usr/bin/env python3
"""Makes the stored torn tapes of crates/salvage_cases and, by the second program, what must be printed for them.

    python3 tools/salvage_cases.py            write crates/salvage_cases/data/NN and crates/salvage_cases/stdout
    python3 tools/salvage_cases.py --check    compare them with what is stored; exit status 1 on a difference

The tapes are those below, made by hand with the stretches that are to be dropped, and some of second/bin/make_torn, by their numbers. What is printed for
them is what second/bin/salvage2 prints, and behind it the new tape, a record a line. second/build makes these two. Each answer is also held to the request
by another way than salvage2's (`hold`). The tapes together must reach all that `wanted` names, else nothing is written.
"""
import pathlib
import re
import sys
import tempfile

from stored_cases import DOCUMENT, HEADER, ROOT, WALK, changed, header, record, run, serve, walk

CRATE = ROOT / 'crates' / 'salvage_cases'
LONGEST = 4096

# Words of make_torn: kind, number, length. Kinds that the tapes by hand show well are not here.
MADE = (('cut_out', 1, 250), ('put_in', 1, 80), ('overwritten', 1, 80), ('blocks', 1, 200), ('joined', 1, 40), ('lone_marks', 1, 80), ('overlapping', 1, 60),
        ('junk', 1, 100), ('mixed', 1, 100))


# ---- Tapes made by hand, each with its dropped stretches: first byte, length

def lost(tape, *places):
    """The tape without these bytes."""
    return bytes(byte for place, byte in enumerate(tape) if place not in places)


def put_in(tape, *parts):
    """The tape with bytes put before these of its places, the last place first."""
    for place, put in sorted(parts, reverse=True):
        tape = tape[:place] + put + tape[place:]
    return tape


def begun(length):
    """So many bytes of a record that is cut there."""
    return WALK[2][:length]


def whole_tapes():
    yield 'the empty tape', b'', []
    yield "document 01's walk, undamaged", DOCUMENT, []
    yield 'undamaged, of edition 2 and the largest seed', header(2**32 - 1, edition=2) + walk(1, 5), []
    yield 'a header alone', header(2647435461), []
    yield 'records without a header', walk(3, 16), []


def lost_bytes():
    # of record 2 the first byte, of 6 the last, of 12 the op: the last two take a byte of the record behind, whose other 15 are dropped
    yield 'single bytes lost', lost(DOCUMENT, 32, 111, 194) + begun(10), [(32, 15), (111, 15), (206, 15), (269, 10)]
    yield 'begins in the middle of record 2', DOCUMENT[37:], [(0, 11)]
    yield 'the last byte lost', DOCUMENT[:-1], [(256, 15)]
    yield '15 bytes of a header', HEADER[:15], [(0, 15)]
    four = HEADER + 4 * walk(1, 16)
    yield 'a block of 512 bytes lost, which is whole records', four[:512] + four[1024:] + begun(11), [(528, 11)]
    # record 18 is cut at its byte 12, and takes the first 4 of record 50
    yield 'a block of 500 bytes lost', four[:300] + four[800:] + begun(12), [(304, 12), (540, 12)]
    yield 'a block of 512 bytes empty', four[:256] + bytes(512) + four[768:] + begun(14), [(256, 512), (1040, 14)]


def other_bytes():
    # the last ones within the value of record 12, which is kept with other bytes, and five are left over
    yield ('bytes put in', put_in(DOCUMENT, (16, bytes(3)), (80, b'R'), (144, b'RV'), (202, b'\xff' * 5)) + begun(4),
           [(16, 3), (83, 1), (148, 2), (214, 5), (283, 4)])
    # the end of record 4, which is 0 anyhow, all of 5, the beginning of 6; and a byte of a value, which may hold anything
    yield 'bytes overwritten', changed(DOCUMENT[:72] + bytes(32) + DOCUMENT[104:], (152, 255)) + begun(9), [(80, 32), (272, 9)]
    yield ('lone marks in junk', put_in(DOCUMENT, (64, bytes.fromhex('00520052560052 5256ff')), (128, b'RVR')) + b'R', [(64, 10), (138, 3), (285, 1)])
    # they make a record with 13 bytes of record 3, whose other 3 are dropped
    yield 'a mark and an op put in', put_in(DOCUMENT, (48, b'RV\1')), [(64, 3)]
    yield 'half a mark before each record', HEADER + b''.join(b'R' + bytes for bytes in WALK), [(16 + 17 * i, 1) for i in range(16)]


def overlaps():
    """Rows of records of which each holds the beginning of another, whose rest is the beginning of the next: at byte 3, 8 or 13."""
    three = bytes.fromhex('52560452560203040506070000000000')
    eight = bytes.fromhex('52560400000001005256050000000202')
    thirteen = bytes.fromhex('52560400000001000000000000525605')
    row = HEADER + 4 * three + walk(5, 5)
    yield 'a record at byte 3 of a damaged one, and a row behind it', changed(row, (16, 0)), [(16, 3), (83, 13)]
    row = HEADER + 6 * eight + walk(1, 2)
    yield 'a record at byte 8 of a damaged one, and a row behind it', changed(row, (34, 0)), [(32, 8), (120, 8)]
    row = HEADER + 4 * thirteen + walk(5, 5)
    yield 'a record at byte 13 of a damaged one, and a row behind it', changed(row, (17, 0)), [(16, 13), (93, 3)]
    yield 'the three rows undamaged', HEADER + 2 * three + 2 * eight + 2 * thirteen, []


def headers():
    bad = (('edition 3', header(1, edition=3), 2), ('edition 0', header(1, edition=0), 5), ('seed 0', header(0, edition=2), 6), ('seed 2^32', header(2**32), 7),
           ('a byte that is to be 0', changed(HEADER, (7, 1)), 8))
    for name, first, over in bad:
        yield f'a header with {name}', first + walk(1, 2) + begun(over), [(0, 16), (48, over)]
    yield 'a byte before the header', b'\0' + DOCUMENT, [(0, 17)]
    yield 'headers away from byte 0', HEADER + header(2) + walk(1, 2) + b'x' + header(3, edition=2) + walk(3, 3), [(16, 16), (64, 17)]
    # record 16 of the first has lost 7 bytes, and takes as many of the second's header
    yield 'two tapes, the first cut short', DOCUMENT[:-7] + header(7, edition=2) + walk(1, 5), [(272, 9)]


def fields_past_their_last():
    """Each field at its last value, and one past it, where that is no record."""
    last = record(15, 255, 255, 2**64 - 1, 13, 31, 31)
    bad = [changed(last, change) for change in ((2, 16), (5, 14), (6, 32), (7, 32), (2, 0))]
    yield 'fields at their last value and past it', b''.join(last + other for other in bad) + last, [(16 + 32 * i, 16) for i in range(5)]


def junk():
    yield 'every byte once, then marks and half marks', bytes(range(256)) + 40 * b'RV' + 41 * b'R', [(0, 377)]


def by_hand():
    for tapes in (whole_tapes, lost_bytes, other_bytes, overlaps, headers, fields_past_their_last, junk):
        yield from tapes()


# ---- What the second program says, and what the request asks for

def salvaged(tape):
    """What salvage2 prints, and the new tape."""
    with tempfile.TemporaryDirectory() as folder:
        old, new = pathlib.Path(folder) / 'old', pathlib.Path(folder) / 'new'
        old.write_bytes(tape)
        return run('salvage2', old, new).decode(), new.read_bytes()


DROPPED = re.compile('dropped: first byte (0|[1-9][0-9]*), length ([1-9][0-9]*)')


def stretches(printed):
    return [tuple(map(int, DROPPED.fullmatch(line).groups())) for line in printed.split('\n')[:-2]]


def why_none(tape, place):
    """Why the 16 bytes from there on are no record: the first reason, in the order of the bytes; None for a record."""
    part = tape[place:place + 16]
    tests = [('short', len(part) < 16), ('mark', part[:2] != b'RV')]
    if part[2:3] == b'\0':
        tests += [('op 0 away from byte 0', place != 0), ('edition', part[3:4] not in (b'\1', b'\2')), ('zeros', part[4:8] != bytes(4)),
                  ('seed', not 1 <= int.from_bytes(part[8:16], 'little') < 2**32)]
    elif len(part) == 16:
        tests += [('op', part[2] > 15), ('code', part[5] > 13), ('running', part[6] > 31), ('released', part[7] > 31)]
    return next((name for name, so in tests if so), None)


def hold(tape, printed, new):
    """Records stand between the stretches and none begins within one, the new tape is what is left, and the last line tells the sums.

    No other list is such: at a place that is reached there is a record or there is none."""
    place, kept, dropped = 0, b'', stretches(printed)
    assert all(first + length < behind for (first, length), (behind, _) in zip(dropped, dropped[1:])), 'stretches stand apart'
    for first, length in dropped + [(len(tape), 0)]:
        assert (first - place) % 16 == 0 and all(why_none(tape, at) is None for at in range(place, first, 16)), 'records between the stretches'
        assert all(why_none(tape, at) for at in range(first, first + length)), 'no record in a stretch'
        kept, place = kept + tape[place:first], first + length
    headed = 'yes' if kept[:3] == b'RV\0' else 'no'
    assert kept == new and place == len(tape)
    assert len(new) + sum(length for _, length in dropped) == len(tape)
    assert printed.split('\n')[-2:] == [f'kept: records {len(new) // 16}, dropped bytes {len(tape) - len(new)}, header {headed}', '']


# ---- What they reach

def reached(tape, printed, new):
    """The names of what a tape and its answer show."""
    dropped, names = stretches(printed), {printed.split('\n')[-2].split(', ')[-1]}
    ends = {first + length for first, length in dropped}
    names |= {f'a record kept at a place {end % 16} past a multiple of 16' for end in ends if end < len(tape)}
    names |= {f'a stretch of {length} bytes' for _, length in dropped if length < 18} | {'a stretch of 512 bytes' for _, length in dropped if length >= 512}
    names |= {f'{len(tape) - first} bytes dropped at the end' for first, length in dropped if first + length == len(tape) and len(tape) - first < 16}
    names |= {'no record for its ' + why_none(tape, place) for first, length in dropped for place in range(first, first + length)}
    tests = {
        'no byte': not tape,
        'nothing dropped': tape and not dropped,
        'all dropped': dropped and not new,
        'a stretch at byte 0': dropped[:1] and dropped[0][0] == 0,
        'over 15 stretches': len(dropped) > 15,
        'a header of edition 2 kept': new[:4] == b'RV\0\2',
        'ops 12 to 15 kept': set(new[2::16]) >= {12, 13, 14, 15},
        'a mark within a kept record': any(b'RV' in new[place + 1:place + 16] for place in range(0, len(new), 16)),
    }
    return names | {name for name, seen in tests.items() if seen}


def wanted():
    names = {f'a record kept at a place {over} past a multiple of 16' for over in range(16)} | {f'a stretch of {length} bytes' for length in (*range(1, 18), 512)}
    names |= {f'{length} bytes dropped at the end' for length in range(1, 16)}
    names |= {'no record for its ' + name for name in ('short', 'mark', 'op', 'code', 'running', 'released', 'op 0 away from byte 0', 'edition', 'zeros', 'seed')}
    return names | {'header yes', 'header no', 'no byte', 'nothing dropped', 'all dropped', 'a stretch at byte 0', 'over 15 stretches',
                    'a header of edition 2 kept', 'ops 12 to 15 kept', 'a mark within a kept record'}


# ---- The files

def test_by_hand():
    """The second program too must drop what is said here."""
    for title, tape, dropped in by_hand():
        said = stretches(salvaged(tape)[0])
        if said != dropped:
            sys.exit(f'salvage_cases: {title}: the second program drops {said}, and {dropped} is to be dropped')


def made():
    test_by_hand()
    tapes = [tape for _, tape, _ in by_hand()] + [run('make_torn', str(number), kind, str(length)) for kind, number, length in MADE]
    if len(tapes) > 100 or max(map(len, tapes)) > LONGEST:
        sys.exit(f'salvage_cases: {len(tapes)} tapes, and their numbers have two digits; the longest has {max(map(len, tapes))} bytes, at most {LONGEST} are read')
    files, printed, seen = {}, [], set()
    for i, tape in enumerate(tapes):
        files[CRATE / 'data' / f'{i:02}'] = tape
        said, new = salvaged(tape)
        hold(tape, said, new)
        seen |= reached(tape, said, new)
        printed += [f'case {i:02}\n' + said] + [new[place:place + 16].hex() + '\n' for place in range(0, len(new), 16)]
    missing = wanted() - seen
    if missing:
        sys.exit('salvage_cases: no tape reaches ' + ', '.join(sorted(missing)))
    files[CRATE / 'stdout'] = ''.join(printed).encode()
    return files


serve(__doc__, CRATE, made, 'tapes')
