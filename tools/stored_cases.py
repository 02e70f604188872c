"""Cases that the second program makes, as they are stored with a crate: for the tools that write them and hold them to it; and tapes made by hand."""
import pathlib
import struct
import subprocess
import sys

ROOT = pathlib.Path(__file__).resolve().parent.parent
SECOND = ROOT / 'second' / 'bin'
NAME = pathlib.Path(sys.argv[0]).stem
MARK = b'RV'


# ---- Tapes made by hand

def record(op, a, b, value, code, running, released):
    return MARK + struct.pack('<6BQ', op, a, b, code, running, released, value)


def header(seed, edition=1):
    return MARK + struct.pack('<6BQ', 0, edition, 0, 0, 0, 0, seed)


def changed(tape, *changes):
    """The tape with other bytes at these places."""
    tape = bytearray(tape)
    for place, byte in changes:
        tape[place] = byte
    return bytes(tape)


HEADER = header(1)
# Document 01's walk, with the answers that the paper prints: op, a, b, value, code, running, released.
WALK = [record(*fields) for fields in (
    (1, 1, 3, 0, 0, 0, 0), (1, 2, 5, 0, 0, 0, 0), (1, 3, 3, 0, 0, 0, 0), (2, 1, 4, 0, 0, 0, 0), (3, 0, 0, 0, 0, 2, 0), (4, 0, 0, 10, 0, 1, 0),
    (7, 1, 0, 0, 0, 1, 0), (6, 0, 0, 10, 0, 1, 0), (5, 0, 0, 0, 0, 2, 2), (7, 1, 0, 0, 10, 2, 0), (4, 0, 0, 20, 0, 1, 0), (8, 1, 1, 0, 0, 1, 0),
    (10, 1, 0, 0, 0, 3, 0), (10, 1, 0, 0, 12, 3, 0), (7, 1, 0, 0, 0, 3, 0), (8, 1, 1, 0, 0, 3, 1))]
DOCUMENT = HEADER + b''.join(WALK)


def walk(first, last):
    return b''.join(WALK[first - 1:last])


# ---- The second program, and the files

def run(program, *args, given=b'', status=0):
    """What a program of the second prints; it is to end with that status. Where that is not 0, what it says of it is thrown away."""
    path = SECOND / program
    if not path.exists():
        sys.exit(f'{NAME}: {path.relative_to(ROOT)} is not there; run second/build first')
    ended = subprocess.run([path, *args], input=given, stdout=subprocess.PIPE, stderr=subprocess.DEVNULL if status else None, check=False)
    if ended.returncode != status:
        sys.exit(f'{NAME}: {program} {" ".join(args)} ended with status {ended.returncode}, and not with {status}')
    return ended.stdout


def serve(doc, crate, made, what):
    """Writes the files that `made` gives, data/ and stdout of the crate; with --check compares them with what is stored."""
    if sys.argv[1:] not in ([], ['--check']):
        sys.exit(doc)
    files = made()
    said = f'{NAME}: {len(files) - 1} {what}, {sum(map(len, files.values()))} bytes in all'
    if '--check' in sys.argv[1:]:
        stored = set((crate / 'data').iterdir()) | {crate / 'stdout'}
        wrong = [str(p.relative_to(ROOT)) for p in sorted(stored | set(files)) if p not in files or p not in stored or p.read_bytes() != files[p]]
        if wrong:
            sys.exit(f'{NAME}: not as the second program makes it: ' + ' '.join(wrong))
        print(said + ', as stored')
        return
    (crate / 'data').mkdir(parents=True, exist_ok=True)
    for path, data in files.items():
        path.write_bytes(data)
    print(said)
