#!/usr/bin/env python3
"""Makes the stored tapes of crates/tape_cases and what the program must write for them.

    python3 tools/tape_cases.py            write crates/tape_cases/data/NN and crates/tape_cases/stdout
    python3 tools/tape_cases.py --check    compare them with what is stored; exit status 1 on a difference

It is written from document 01 ("Tape", "Numbers of refusal and their order") and requests 4 (the editions are 1 and 2) and 6 (ops run to 15), and shares nothing with the library. docs/TAPE.md has the form of a case.
"""
import pathlib
import struct
import sys

MARK = b'RV'
END = 'end'


# ---- Document 01's tape

def fault(place, fields):
    """15 or 17 for op, a, b, code, running, released, value at a place that is a multiple of 16; 0 for a record."""
    op, a, b, code, running, released, value = fields
    if place == 0:
        if (op, b, code, running, released) != (0, 0, 0, 0, 0) or a not in (1, 2):
            return 15
        return 0 if value in range(1, 4294967296) else 17
    return 0 if op in range(1, 16) and code in range(14) and running in range(32) and released in range(32) else 15


def read(tape, place):
    """A record's fields, END, or the number of the refusal."""
    if place % 16 or place > len(tape) or not tape:
        return 15
    if place == len(tape):
        return END
    part = tape[place:place + 16]
    if len(part) < 16 or not part.startswith(MARK):
        return 15
    fields = struct.unpack('<6BQ', part[2:])
    return fault(place, fields) or fields


def write(buffer, place, fields):
    """The writer's number, and the buffer after it."""
    if place % 16:
        return 15, buffer
    number = fault(place, fields)
    if number:
        return number, buffer
    if place + 16 > len(buffer):
        return 16, buffer
    return 0, buffer[:place] + record(*fields) + buffer[place + 16:]


def record(*fields):
    return MARK + struct.pack('<6BQ', *fields)


def header(seed):
    return record(0, 1, 0, 0, 0, 0, seed)


# ---- What the program writes

def answer(tape, place):
    """A reader's line at a place, and the next place."""
    got = read(tape, place)
    if got == END:
        said, number, part = 'end', 0, b''
    elif isinstance(got, int):
        said, number, part = f'refused {got}', got, b''
    else:
        said, number, part = 'record ' + ' '.join(map(str, got)), 0, tape[place:place + 16]
    after = place + len(part)
    return f'{place}: {said}, code {number}, part {part.hex()}, next {after}', after


def whole(tape):
    lines, place = [], 0
    while True:
        line, after = answer(tape, place)
        lines.append(line)
        if after == place:
            return lines
        place = after


def written(size, place, fields):
    number, after = write(bytes([170]) * size, place, fields)
    return [f"write {' '.join(map(str, fields))}, code {number}, buffer {after.hex()}", answer(after, place)[0]]


# ---- The cases

class File:
    """A data file and the lines that the program writes for it."""

    def __init__(self):
        self.data, self.lines = b'', []

    def case(self, kind, size, fields, place, tape, lines):
        self.data += kind + bytes([size]) + struct.pack('<6BQQ', *fields, place) + tape
        self.lines += lines

    def tape(self, tape):
        self.case(b'T', len(tape), (0,) * 7, 0, tape, whole(tape))

    def at(self, tape, place):
        self.case(b'R', len(tape), (0,) * 7, place, tape, [answer(tape, place)[0]])

    def put(self, size, place, fields):
        self.case(b'W', size, fields, place, bytes(size), written(size, place, fields))


FIRST = (4, 0, 0, 0, 1, 0, 0x0102030405060708)
SECOND = (8, 7, 1, 0, 31, 5, 0)
GOOD = header(2647435461) + record(*FIRST) + record(*SECOND)
SEEDS = (0, 1, 2, 255, 256, 4294967295, 4294967296, 1 << 63, (1 << 64) - 1)
FAR = (1 << 64) - 16, (1 << 64) - 1, 1 << 63


def spoilt(tape, first):
    """The tape with each byte of the record at `first` spoilt in turn, in some ways."""
    for i in range(first, first + 16):
        for new in sorted({0, 1, 255, tape[i] ^ 1, tape[i] ^ 128, (tape[i] + 1) % 256} - {tape[i]}):
            yield tape[:i] + bytes([new]) + tape[i + 1:]


def cuts(f):
    for n in range(len(GOOD) + 1):
        f.tape(GOOD[:n])
    for n in (1, 2, 7, 15, 17, 31, 33):
        f.tape(bytes(n))
        f.tape(bytes([255]) * n)
    f.tape(GOOD + record(*FIRST) * 12)


def headers(f):
    for tape in spoilt(GOOD, 0):
        f.tape(tape)
    for seed in SEEDS:
        f.tape(header(seed))
    f.tape(record(*FIRST) + record(*SECOND))
    f.tape(GOOD[:16] * 3)


def records(f):
    for tape in spoilt(GOOD, 16):
        f.tape(tape)
    for i, values in ((0, range(0, 18)), (3, range(12, 17)), (4, (0, 30, 31, 32, 33, 255)), (5, (0, 30, 31, 32, 33, 255)), (1, (0, 255)), (2, (0, 255))):
        for v in values:
            f.tape(GOOD[:16] + record(*(FIRST[:i] + (v,) + FIRST[i + 1:])))
    for value in SEEDS + tuple(1 << 8 * i for i in range(8)):
        f.tape(GOOD[:16] + record(*(FIRST[:6] + (value,))))


def places(f):
    for tape in (GOOD, GOOD[:40], b'', GOOD[:5], header(0) + GOOD[16:]):
        for place in list(range(0, len(tape) + 34)) + list(FAR):
            f.at(tape, place)


def writes(f):
    head = (0, 1, 0, 0, 0, 0, 7)
    for place in list(range(0, 50)) + list(FAR):
        for fields in (head, FIRST, (0, 1, 0, 0, 0, 0, 0)):
            f.put(40, place, fields)
    for size in range(0, 34):
        f.put(size, 0, head)
        f.put(size, 16, SECOND)
    for seed in SEEDS:
        f.put(32, 0, head[:6] + (seed,))
        f.put(32, 16, FIRST[:6] + (seed,))
        f.put(0, 0, head[:6] + (seed,))
    for i in range(6):
        for v in (0, 1, 2, 11, 12, 13, 14, 15, 16, 31, 32, 255):
            f.put(32, 0, head[:i] + (v,) + head[i + 1:])
            f.put(32, 16, FIRST[:i] + (v,) + FIRST[i + 1:])


def main():
    if sys.argv[1:] not in ([], ['--check']):
        sys.exit(__doc__)
    crate = pathlib.Path(__file__).resolve().parent.parent / 'crates' / 'tape_cases'
    files, lines = {}, []
    for n, make in enumerate((cuts, headers, records, places, writes)):
        f = File()
        make(f)
        if len(f.data) > 65536:
            sys.exit(f'{make.__name__}: {len(f.data)} bytes, and the program reads 65536')
        files[crate / 'data' / f'{n:02}'] = f.data
        lines += [f'file {n:02}'] + f.lines
    files[crate / 'stdout'] = '\n'.join(lines + ['']).encode()
    if '--check' in sys.argv[1:]:
        stored = {p for p in (crate / 'data').iterdir()} | {crate / 'stdout'}
        wrong = [str(p) for p in sorted(stored | set(files)) if p not in files or p not in stored or p.read_bytes() != files[p]]
        if wrong:
            sys.exit('tape_cases: not as tools/tape_cases.py makes it: ' + ' '.join(wrong))
        print(f'tape_cases: {len(lines)} lines, as stored')
        return
    (crate / 'data').mkdir(exist_ok=True)
    for path, data in files.items():
        path.write_bytes(data)
    print(f'tape_cases: {len(files) - 1} files of data, {len(lines)} lines')


main()
