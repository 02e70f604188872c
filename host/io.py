#!/usr/bin/env python3
"""Makes reads and writes of walk, draw, judge, salvage and show fail, and holds what they print, say and answer to docs/PROGRAMS.md, docs/SALVAGE.md and docs/SHOW.md.

    python3 host/io.py      builds the programs by ./run where they are not built, runs the cases, and prints one line

Each case is a run of ./run. The failures come of host/fail.c, a library that is loaded before the C library: behind a number of bytes a call fails with
an errno. Others come of the system itself: a full device, closed descriptors, a folder for a file, a reader that goes away. It wants gcc, as host/run.sh
does, and an x86-64 machine.
"""
import errno
import os
import pathlib
import resource
import shutil
import signal
import subprocess
import sys
import tempfile

ROOT = pathlib.Path(__file__).resolve().parent.parent
RUN = str(ROOT / 'run')
# What ./run starts, by the word that it passes on: walk, draw, judge, salvage or show.
PROGRAM = ROOT / 'target' / 'run' / 'programs'
# No case takes a second; one that waits for what never comes is ended here.
LIMIT = 20
WALK_HEADER = b'n op code run rel clock\n'
DRAW_HEADER = b'n op a b value code run rel clock\n'
SCRIPT = b'create 1 3\nstart\nadvance 100\n\nwake 1\nadvance 7'
CLOCK = 2**64 - 1
ROWS = [b'1 1 0 0 0 0\n', b'2 3 0 1 0 0\n', b'3 6 0 1 0 100\n', b'4 0 14 1 0 100\n', b'5 0 14 1 0 100\n', b'6 6 0 1 0 107\n']
FIRST = b'seed 1 span 100 weights 10 10 10 10 10 10 10 10 count 25\n'
SETUP = b'create 1 3\nwake\nstart\n'
SETUP_ROWS = [b'1 1 1 3 0 0 0 0 0\n', b'2 5 0 0 0 2 0 0 0\n']
# What is said, before the system's reason.
INPUT = 'the input could not be read: '
OUTPUT = 'the output could not be written: '
# The stack that each program has enough with, in bytes: docs/PROGRAMS.md.
STACK = 128 * 1024
TAPES = ROOT / 'crates' / 'judge_cases' / 'data'

work = pathlib.Path(tempfile.mkdtemp(prefix='io.'))
count = 0


def stop(what):
    sys.exit(f'host/io.py: {what}\nhost/io.py: the files of this case are in {work}')


# ---- Running

class Ended:
    """What a run printed and said, its status (as subprocess has it: minus the signal's number), and the calls that host/fail.c saw."""

    def __init__(self, out, said, status, calls):
        self.out, self.said, self.status, self.calls = out, said, status, calls


def faults(**how):
    """The environment in which host/fail.c is loaded into the program."""
    log = work / 'calls'
    log.unlink(missing_ok=True)
    return {'LD_PRELOAD': str(work / 'fail.so'), 'FAIL_IN': PROGRAM.name, 'FAIL_LOG': str(log), **{f'FAIL_{key.upper()}': str(value) for key, value in how.items()}}


def run(*words, given=b'', closed=(), environment=None, command=RUN, **more):
    """One run of the launcher; `closed` are the descriptors that it is started without."""
    if 'stdin' not in more:
        (work / 'given').write_bytes(given)
        more['stdin'] = open(work / 'given', 'rb')
    with open(work / 'out', 'wb') as out, open(work / 'said', 'wb') as said:
        try:
            ended = subprocess.run([command, *words], timeout=LIMIT, **{'stdout': out, 'stderr': said, 'env': {**os.environ, **(environment or {})},
                                                                        'preexec_fn': lambda: [os.close(fd) for fd in closed], **more})
        except subprocess.TimeoutExpired:
            stop(f'{" ".join(words)} did not end within {LIMIT} s')
    log = work / 'calls'
    calls = log.read_text().split('\n')[:-1] if environment and 'FAIL_LOG' in environment and log.exists() else []
    return Ended((work / 'out').read_bytes(), (work / 'said').read_bytes().decode(), ended.returncode, calls)


def hold(title, ended, out, status, said=''):
    """The output byte for byte, and what is said: all of it where a text is wanted, some words of its first line where they are given as a tuple."""
    global count
    count += 1
    fine = ended.said == said if isinstance(said, str) else all(word in ended.said.split('\n')[0] for word in said)
    if ended.out != out or ended.status != status or not fine:
        stop(f'{title}: status {ended.status}, wanted {status}; said {ended.said!r}, wanted {said!r}; printed {ended.out[-200:]!r}, wanted {out[-200:]!r}, of '
             f'{len(ended.out)} and {len(out)} bytes')


def told(what, number):
    return f'{what}{os.strerror(number)}\n'


def last_is_failure(title, ended, call):
    """Behind the failed call nothing more is read or written."""
    wrong = [line for line in ended.calls[:-1] if 'error' in line]
    if not ended.calls or not ended.calls[-1].startswith(f'{call} error') or wrong:
        stop(f'{title}: the calls end in {ended.calls[-3:]}, and not in the {call} that failed')


# ---- Reads

def failed_read(program, given, at, error, out):
    title = f'{program}: reading fails behind {at} bytes, {os.strerror(error)}'
    ended = run(program, given=given, environment=faults(read=f'{at} {error} 1'))
    hold(title, ended, out, 3, told(INPUT, error))
    at_failure = ended.calls.index(f'read error {error}')
    if any(line.startswith('read') for line in ended.calls[at_failure + 1:]):
        stop(f'{title}: it reads on behind the failure: {ended.calls}')


def whole_lines(given, at):
    return given[:at].count(b'\n')


def walk_reads():
    for at in range(len(SCRIPT) + 1):
        failed_read('walk', SCRIPT, at, errno.EIO, WALK_HEADER + b''.join(ROWS[:whole_lines(SCRIPT, at)]))
    failed_read('walk', SCRIPT, 26, errno.EAGAIN, WALK_HEADER + b''.join(ROWS[:2]))
    # the line that was `advance 100`, in the last of many pieces
    long = b'wake\n' * 5000 + b'advance 100\n'
    failed_read('walk', long, len(long) - 3, errno.EIO, WALK_HEADER + b''.join(b'%d 5 2 0 0 0\n' % n for n in range(1, 5001)))


def draw_reads():
    given = FIRST + SETUP
    for at in range(0, len(given), 3):
        failed_read('draw', given, at, errno.EIO, DRAW_HEADER + b''.join(SETUP_ROWS[:max(0, whole_lines(given, at) - 1)]))
    # inside the count, inside `start`, and before its line end
    for at, rows in ((len(FIRST) - 2, 0), (len(given) - 3, 2), (len(given) - 1, 2)):
        failed_read('draw', given, at, errno.EAGAIN, DRAW_HEADER + b''.join(SETUP_ROWS[:rows]))
    # behind the accepted start nothing is read, so nothing fails
    whole = run('draw', given=given)
    hold('draw', whole, whole.out, 0)
    ended = run('draw', given=given + b'advance 1\n', environment=faults(read=f'{len(given)} {errno.EIO} 1'))
    hold('draw: reading would fail behind the start', ended, whole.out, 0)


def judge_reads():
    tape = (TAPES / '000.tape').read_bytes()
    for at in (0, 1, 15, 16, 17, 32, 100, len(tape) - 16, len(tape) - 1, len(tape)):
        failed_read('judge', tape, at, errno.EIO, b'')
    failed_read('judge', tape, 100, errno.EAGAIN, b'')
    for verdict, name in verdicts().items():
        tape = (TAPES / name).read_bytes()
        whole = run('judge', given=tape)
        hold(f'judge: {name}', whole, whole.out, verdict)
        # interrupted and in small pieces: the same
        ended = run('judge', given=tape, environment=faults(most=7, turns=1))
        hold(f'judge: {name} in pieces', ended, whole.out, verdict)
        unwritten('judge', tape, whole.out, (0, 5, len(whole.out) - 1))


def verdicts():
    """A stored tape for each status: agrees, differs, refused."""
    lines = (ROOT / 'crates' / 'judge_cases' / 'stdout').read_text().split('\n')
    names = {}
    for name, said in zip(lines[0::3], lines[2::3]):
        names.setdefault(('agrees', 'differs', 'refused').index(said.split()[0].rstrip(':')), name.split()[1])
    return names


def interrupted():
    """EINTR is tried again, at each call, and again and again; pieces of one byte, read and written, change nothing."""
    for program, given in (('walk', SCRIPT), ('draw', FIRST + SETUP)):
        whole = run(program, given=given)
        hold(program, whole, whole.out, 0)
        for how in ({'turns': 1}, {'most': 1}, {'turns': 1, 'most': 1}, {'read': f'25 {errno.EINTR} 3'}, {'write': f'30 {errno.EINTR} 3'}, {'write': f'0 {errno.EINTR} 1'}):
            hold(f'{program}: {how}', run(program, given=given, environment=faults(**how)), whole.out, 0)


# ---- Writes

def unwritten(program, given, whole, places):
    """The write behind so many bytes fails, in small pieces of input: what was written before stands, and nothing else is done."""
    for at in places:
        title = f'{program}: writing fails behind {at} bytes'
        ended = run(program, given=given, environment=faults(write=f'{at} {errno.ENOSPC} 1', most=100))
        hold(title, ended, whole[:at], 3, told(OUTPUT, errno.ENOSPC))
        last_is_failure(title, ended, 'write')


def failed_writes():
    walked = run('walk', given=SCRIPT).out
    unwritten('walk', SCRIPT, walked, range(0, len(walked), 5))
    long = b'start\n' * 2000
    whole = run('walk', given=long).out
    unwritten('walk', long, whole, (24, 5000, len(whole) - 1))
    given = FIRST + SETUP
    drawn = run('draw', given=given).out
    unwritten('draw', given, drawn, (0, 10, len(DRAW_HEADER), len(DRAW_HEADER) + 3, len(drawn) - 1))
    given = FIRST.replace(b'25', b'3500') + SETUP
    drawn = run('draw', given=given).out
    unwritten('draw', given, drawn, (len(DRAW_HEADER) + 30, 20000, len(drawn) // 2, len(drawn) - 1))


# ---- What the system itself refuses

def descriptors():
    tape = TAPES / '000.tape'
    for program, given, head in (('walk', SCRIPT, WALK_HEADER), ('show', SCRIPT, WALK_HEADER), ('draw', FIRST + SETUP, DRAW_HEADER), ('judge', tape.read_bytes(), b'')):
        hold(f'{program} <&-', run(program, closed=[0]), head, 3, told(INPUT, errno.EBADF))
        hold(f'{program} >&-', run(program, given=given, closed=[1]), b'', 3, told(OUTPUT, errno.EBADF))
        hold(f'{program} <&- >&-', run(program, closed=[0, 1]), b'', 3, told(OUTPUT if head else INPUT, errno.EBADF))
        hold(f'{program} with nothing open', run(program, closed=[0, 1, 2]), b'', 3)
        hold(f'{program} <folder', run(program, stdin=os.open(ROOT, os.O_RDONLY)), head, 3, told(INPUT, errno.EISDIR))
        with open('/dev/full', 'wb') as full:
            hold(f'{program} >/dev/full', run(program, given=given, stdout=full), b'', 3, told(OUTPUT, errno.ENOSPC))
        with open(work / 'given', 'rb') as only_read:
            hold(f'{program} to a file open for reading', run(program, given=given, stdout=only_read), b'', 3, told(OUTPUT, errno.EBADF))
        gone, left = os.pipe()
        os.close(gone)
        # whoever started it may have had the signal ignored; it is not ended by the signal either way
        for ignored in (True, False):
            hold(f'{program} to nobody', run(program, given=given, stdout=left, restore_signals=not ignored), b'', 3, told(OUTPUT, errno.EPIPE))
        os.close(left)
        # what cannot be said changes nothing else
        hold(f'{program} 2>&-', run(program, closed=[0, 2]), head, 3)


def goes_away():
    """A reader that goes away is a failed write and ends the program, though its input never ends."""
    global count
    count += 1
    endless = subprocess.Popen(['yes', 'wake'], stdout=subprocess.PIPE)
    walk = subprocess.Popen([RUN, 'walk'], stdin=endless.stdout, stdout=subprocess.PIPE, stderr=subprocess.PIPE)
    endless.stdout.close()
    head = walk.stdout.readline()
    walk.stdout.close()
    said = walk.stderr.read().decode()
    status = walk.wait(timeout=LIMIT)
    endless.kill()
    endless.wait()
    if head != WALK_HEADER or status != 3 or said != told(OUTPUT, errno.EPIPE):
        stop(f'walk whose reader goes away: {head!r}, status {status}, said {said!r}')


def streams():
    """What is printed of a line is there before the next line is written."""
    global count
    for program, rows in (('walk', ROWS), ('show', entries(shown().out))):
        count += 1
        going = subprocess.Popen([RUN, program], stdin=subprocess.PIPE, stdout=subprocess.PIPE)
        signal.signal(signal.SIGALRM, lambda *_: stop(f'{program} over a pipe holds its output back'))
        signal.alarm(LIMIT)
        seen = [going.stdout.readline()]
        for line, row in zip(SCRIPT.split(b'\n')[:3], rows):
            going.stdin.write(line + b'\n')
            going.stdin.flush()
            seen.append(going.stdout.read(len(row)))
        signal.alarm(0)
        going.stdin.close()
        if seen != [WALK_HEADER, *rows[:3]] or going.wait(timeout=LIMIT) != 0:
            stop(f'{program} over a pipe printed {seen}')


def endless_first_line():
    """It is answered once it is over 128 bytes, and nothing more is read."""
    answer = DRAW_HEADER + b'0 0 0 0 0 14 0 0 0\n'
    with open('/dev/zero', 'rb') as zeros:
        hold('draw: an endless first line', run('draw', stdin=zeros), answer, 0, ('hint: ',))
        ended = run('draw', stdin=zeros, environment=faults(most=1))
    hold('draw: an endless first line, byte by byte', ended, answer, 0, ('hint: ',))
    if ended.calls.count('read 1') != 129:
        stop(f'draw reads {ended.calls.count("read 1")} bytes of an endless first line, and 129 tell that it is over 128')


def longest_first_line():
    """128 bytes are read to their end, however they come: the seed's word is judged (17). With one more the line is no first line (14)."""
    for long, number in ((0, 17), (1, 14)):
        line = FIRST.replace(b'seed 1 ', b'seed ' + b'9' * (128 - len(FIRST) + 2 + long) + b' ')
        rows = DRAW_HEADER + b'0 0 0 0 0 %d 0 0 0\n' % number
        hold(f'draw: a first line of {len(line) - 1} bytes', run('draw', given=line + SETUP), rows, 0, ('hint: ',))
        ended = run('draw', given=line + SETUP, environment=faults(most=7))
        hold(f'draw: a first line of {len(line) - 1} bytes in pieces', ended, rows, 0, ('hint: ',))


def hints():
    """Standard output is fixed; what may be wrong with the input is said on standard error, once."""
    rows = WALK_HEADER + b''.join(b'%d 0 14 0 0 0\n' % n for n in range(1, 2001))
    ended = run('walk', given=b'start\r\n' * 2000)
    hold('walk: a script with byte 13', ended, rows, 0, ('hint: ', '13'))
    if ended.said.count('hint: ') != 1:
        stop(f'walk: a script with byte 13: the hint is to be given once: {ended.said}')
    for line, number in ((b'seeds 1', 14), (FIRST.replace(b'seed 1', b'seed 0'), 17), (FIRST.replace(b'span 100', b'span 0'), 18), (FIRST + b'wake\n', 2)):
        rows = DRAW_HEADER + (b'1 5 0 0 0 2 0 0 0\n' if number == 2 else b'') + b'0 0 0 0 0 %d 0 0 0\n' % number
        ended = run('draw', given=line)
        hold(f'draw: nothing drawn, {number}', ended, rows, 0, ('hint: ',))
        if f'\n{number}: ' not in ended.said or ended.said.count('hint') != 1:
            stop(f'draw: nothing drawn, {number}: {ended.said}')


def stack():
    """Each program has enough with the stack that docs/PROGRAMS.md says."""
    tape = (TAPES / '000.tape').read_bytes()
    for program, given in (('walk', SCRIPT * 200), ('show', SCRIPT * 200), ('draw', FIRST.replace(b'25', b'2500') + SETUP), ('judge', tape)):
        whole = run(program, given=given)
        # the environment stands on the stack too
        small = run(program, given=given, command=PROGRAM, env={}, preexec_fn=lambda: resource.setrlimit(resource.RLIMIT_STACK, (STACK, STACK)))
        hold(f'{program} with a stack of {STACK} bytes', small, whole.out, 0)
    hold(f'salvage with a stack of {STACK} bytes', salvage(command=PROGRAM, env={}, preexec_fn=lambda: resource.setrlimit(resource.RLIMIT_STACK, (STACK, STACK))), TOLD, 0)


# ---- Salvage

PLACE = work / 'salvage'
SOUND = (TAPES / '000.tape').read_bytes()
# A tape with 17 bytes put in behind its third record, a byte before its seventh, and 3 behind the last: no record begins in any of them.
TORN = SOUND[:48] + bytes(17) + SOUND[48:96] + b'R' + SOUND[96:] + b'end'
LIST = b'dropped: first byte 48, length 17\ndropped: first byte 113, length 1\ndropped: first byte %d, length 3\n' % (len(TORN) - 3)
TOLD = LIST + b'kept: records %d, dropped bytes 21, header yes\n' % (len(SOUND) // 16)


def salvage(*words, old=TORN, beside=(), how=None, **more):
    """One run in a folder of its own, in which `old` stands and what is named in `beside`."""
    shutil.rmtree(PLACE, ignore_errors=True)
    PLACE.mkdir()
    if old is not None:
        (PLACE / 'old').write_bytes(old)
    for name in beside:
        (PLACE / name).write_bytes(b'here before')
    return run('salvage', *(words or ('old', 'new')), cwd=PLACE, environment=None if how is None else faults(**how), **more)


def left(title, **files):
    """What stands in that folder: these files, with these contents, and no other."""
    there = {path.name: path.read_bytes() for path in PLACE.iterdir()}
    if there != {name.replace('_', '.'): content for name, content in files.items()}:
        stop(f'{title}: the files are {[(name, len(content)) for name, content in sorted(there.items())]}, wanted {sorted(files)}')


def salvages():
    for title, old, out, new in (('a torn tape', TORN, TOLD, SOUND), ('a sound tape', SOUND, TOLD[len(LIST):].replace(b' 21', b' 0'), SOUND),
                                 ('an empty tape', b'', b'kept: records 0, dropped bytes 0, header no\n', b''),
                                 ('no header', SOUND[16:], b'kept: records %d, dropped bytes 0, header no\n' % (len(SOUND) // 16 - 1), SOUND[16:]),
                                 ('a cut header', SOUND[1:], b'dropped: first byte 0, length 15\nkept: records %d, dropped bytes 15, header no\n' % (len(SOUND) // 16 - 1), SOUND[16:])):
        for how in (None, {'most': 1}, {'most': 7, 'turns': 1}, {'turns': 1}):
            hold(f'salvage: {title}, {how}', salvage(old=old, how=how), out, 0)
            left(f'salvage: {title}, {how}', old=old, new=new)
    # more than one piece, and stretches over the seams
    old = SOUND + (b'x' * 5 + SOUND[16:32]) * 3000
    stretches = b''.join(b'dropped: first byte %d, length 5\n' % (len(SOUND) + 21 * i) for i in range(3000))
    hold('salvage: many pieces', salvage(old=old), stretches + b'kept: records %d, dropped bytes 15000, header yes\n' % (len(SOUND) // 16 + 3000), 0)
    left('salvage: many pieces', old=old, new=SOUND + SOUND[16:32] * 3000)
    # the folder cannot be opened or synced, or the new tape, which is on its device by then, not be closed: it is there all the same
    for how in ({'open': f'3 {errno.EACCES} 1'}, {'sync': f'1 {errno.EINVAL} 1'}, {'close': f'0 {errno.EIO} 1'}):
        hold(f'salvage: {how}', salvage(how=how), TOLD, 0)
        left(f'salvage: {how}', old=TORN, new=SOUND)


def broken(title, said, status=3, out=None, old=TORN, **more):
    """Nothing is left behind, and what is printed is a beginning of the list."""
    ended = salvage(old=old, **more)
    hold(f'salvage: {title}', ended, ended.out if out is None else out, status, said)
    if not TOLD.startswith(ended.out):
        stop(f'salvage: {title}: it printed {ended.out!r}')
    left(f'salvage: {title}', **({} if old is None else {'old': old}))


def failed_salvages():
    for at in (0, 1, 15, 16, 60, 100, len(TORN) - 1, len(TORN)):
        for error in (errno.EIO, errno.EAGAIN):
            broken(f'reading fails behind {at} bytes', told('old could not be read: ', error), how={'read': f'{at} {error} 1'})
    for at in (0, 5, len(LIST), len(TOLD) - 1):
        broken(f'listing fails behind {at} bytes', told(OUTPUT, errno.ENOSPC), out=TOLD[:at], how={'write': f'{at} {errno.ENOSPC} 1'})
    for at in (0, 16, 100, len(SOUND) - 1):
        broken(f'writing fails behind {at} bytes', told('new.part could not be written: ', errno.ENOSPC), how={'file': f'{at} {errno.ENOSPC} 1', 'most': 50})
    for what, said in (('sync', 'new.part could not be brought to its device: '), ('rename', 'new.part could not be renamed: ')):
        broken(f'{what} fails', told(said, errno.EIO), out=TOLD, how={what: f'0 {errno.EIO} 1'})
    broken('the new name is taken meanwhile', told('new could not be made: ', errno.EEXIST), out=TOLD, how={'open': f'2 {errno.EEXIST} 1'})
    broken('the old tape cannot be opened', told('old could not be opened: ', errno.EMFILE), 2, b'', how={'open': f'0 {errno.EMFILE} 1'})
    broken('the new tape cannot be made', ('new.part could not be made', os.strerror(errno.EACCES)), 2, b'', how={'open': f'1 {errno.EACCES} 1'})
    with open('/dev/full', 'wb') as full:
        broken('>/dev/full', told(OUTPUT, errno.ENOSPC), out=b'', stdout=full)
    gone, end = os.pipe()
    os.close(gone)
    broken('to nobody', told(OUTPUT, errno.EPIPE), out=b'', stdout=end)
    os.close(end)
    broken('a file that grows too large', told('new.part could not be written: ', errno.EFBIG),
           preexec_fn=lambda: resource.setrlimit(resource.RLIMIT_FSIZE, (100, 100)))


def refused_salvages():
    def refuse(title, words, said, old=TORN, beside=()):
        ended = salvage(*words, old=old, beside=beside)
        hold(f'salvage: {title}', ended, b'', 2, said)
        left(f'salvage: {title}', **({} if old is None else {'old': old}), **{name.replace('.', '_'): b'here before' for name in beside})
    refuse('no words', ('old',), ('run: ', 'a word is missing'))
    refuse('a word too many', ('old', 'new', 'more'), ('run: ', "'more' is a word too many"))
    refuse('no old tape', ('old', 'new'), ('run: ', "there is no file 'old'"), old=None)
    refuse('a folder', ('..', 'new'), ('run: ', "'..' is a folder"))
    refuse('an empty name', ('old', ''), ('run: ', "''"))
    refuse('the new file is there', ('old', 'new'), ('run: ', "'new' is there already"), beside=['new'])
    refuse('the part is there', ('old', 'new'), ('run: ', "'new.part' is there already", 'remove it'), beside=['new.part'])
    refuse('old and new are one', ('old', 'old'), ('run: ', "'old' is there already"))
    # A path of the toolchain's library is text.
    refuse('a name that is no UTF-8', ('old', os.fsdecode(b'new\xff')), 'salvage wants two names in UTF-8\n')
    refuse('no folder for the new tape', ('old', 'none/new'), ('none/new.part could not be made', os.strerror(errno.ENOENT)))
    shutil.rmtree(PLACE)
    PLACE.mkdir()
    (PLACE / 'old').write_bytes(TORN)
    (PLACE / 'new').symlink_to('nowhere')
    hold('salvage: a link to nowhere', run('salvage', 'old', 'new', cwd=PLACE), b'', 2, ('run: ', "'new' is there already"))


def closed_salvages():
    """The list has no place then, or what is said has none: the new tape is whole and named, or nothing is there."""
    for closed in ([0], [2], [1], [0, 1], [1, 2], [0, 2], [0, 1, 2]):
        ended = salvage(closed=closed)
        title = f'salvage without descriptors {closed}'
        done = ended.status == 0 and 1 not in closed
        hold(title, ended, TOLD if done else b'', 0 if done else 3, ended.said)
        left(title, **({'old': TORN, 'new': SOUND} if done else {'old': TORN}))


def killed_salvage():
    """A salvage that is ended from outside leaves no new tape under its name."""
    global count
    count += 1
    shutil.rmtree(PLACE)
    PLACE.mkdir()
    os.mkfifo(PLACE / 'old')
    going = subprocess.Popen([RUN, 'salvage', 'old', 'new'], cwd=PLACE, stdout=subprocess.DEVNULL)
    with open(PLACE / 'old', 'wb', buffering=0) as pipe:
        pipe.write(SOUND)
        signal.signal(signal.SIGALRM, lambda *_: stop('salvage over a pipe writes nothing'))
        signal.alarm(LIMIT)
        while not (PLACE / 'new.part').exists() or not (PLACE / 'new.part').stat().st_size:
            pass
        signal.alarm(0)
        going.kill()
        going.wait()
    if (PLACE / 'new').exists():
        stop('salvage that was killed: there is a new tape')


def progress():
    """A line for every 100,000,000 bytes, on a terminal alone."""
    for terminal in (True, False):
        shutil.rmtree(PLACE)
        PLACE.mkdir()
        with open(PLACE / 'old', 'wb') as old:
            old.truncate(100000100)
        seen, end = os.openpty()
        ended = run('salvage', 'old', 'new', cwd=PLACE, **({'stderr': end} if terminal else {}))
        os.close(end)
        hold('salvage: much to read', ended, b'dropped: first byte 0, length 100000100\nkept: records 0, dropped bytes 100000100, header no\n', 0)
        if terminal and os.read(seen, 1000) != b'100000000 bytes read\r\n':
            stop('salvage: the progress on a terminal')
        os.close(seen)


# ---- Show

def shown(*words, given=SCRIPT, **more):
    return run('show', '-', *words, given=given, **more)


def entries(printed):
    """What is printed for each line: its row, and the lines of the state below it."""
    found = []
    for line in printed[len(WALK_HEADER):].split(b'\n')[:-1]:
        if line.startswith(b' '):
            found[-1] += line + b'\n'
        else:
            found.append(line + b'\n')
    return found


def shows():
    whole = shown()
    hold('show', whole, whole.out, 0)
    rows = b''.join(line + b'\n' for line in whole.out.split(b'\n')[:-1] if not line.startswith(b' '))
    if rows != WALK_HEADER + b''.join(ROWS):
        stop(f'show: its rows are {rows!r}, and not those of walk')
    parts = entries(whole.out)
    script = work / 'script'
    script.write_bytes(SCRIPT)
    hold('show FILE', run('show', str(script)), whole.out, 0)
    hold('show without a word', run('show', given=SCRIPT), whole.out, 0)
    for n, part in enumerate(parts, 1):
        hold(f'show FILE {n}', run('show', str(script), str(n)), WALK_HEADER + part, 0)
        # nothing is asked for behind line n; the last has no line end, and is there when the input has ended
        at = len(SCRIPT) if n == len(parts) else sum(len(line) + 1 for line in SCRIPT.split(b'\n')[:n])
        ended = shown(str(n), environment=faults(most=1))
        hold(f'show {n}, byte by byte', ended, WALK_HEADER + part, 0)
        if ended.calls.count('read 1') != at or ended.calls.count('read 0') != (n == len(parts)):
            stop(f'show {n} reads {ended.calls.count("read 1")} bytes, and {at} are enough')
    for n in (len(parts) + 1, 100, CLOCK - 1):
        hold(f'show {n}', shown(str(n)), WALK_HEADER, 2, f'show: the input has no line {n}: it has {len(parts)} lines\n')
    hold('show 1 of nothing', shown('1', given=b''), WALK_HEADER, 2, 'show: the input has no line 1: it has 0 lines\n')
    for word in ('0', '01', '-1', '+1', 'x', '', '1 ', str(CLOCK), str(CLOCK + 1), '9' * 5000):
        hold(f'show {word[:30]!r}', shown(word), b'', 2, ("show: '", 'is no line'))
    hold('show with a word too many', shown('1', '2'), b'', 2, ('run: ', "'2' is a word too many"))
    hold('the program with a word too many', run('show', '1', '2', command=PROGRAM), b'', 2, ('show: a word too many',))
    hold('show of a script with byte 13', shown('2', given=b'start\r\nstart\r\n'), shown('2', given=b'\n\n').out, 0, ('hint: ', '13'))


def failed_shows():
    whole = shown().out
    parts = entries(whole)
    for at in range(len(SCRIPT) + 1):
        failed_read('show', SCRIPT, at, errno.EIO, WALK_HEADER + b''.join(parts[:whole_lines(SCRIPT, at)]))
    unwritten('show', SCRIPT, whole, range(0, len(whole), 40))
    for how in ({'turns': 1}, {'most': 1}, {'turns': 1, 'most': 1}, {'read': f'25 {errno.EINTR} 3'}, {'write': f'30 {errno.EINTR} 3'}):
        hold(f'show: {how}', shown(environment=faults(**how)), whole, 0)
    # a failure stands before a line that is not there
    ended = shown('100', environment=faults(read=f'26 {errno.EIO} 1'))
    hold('show 100: reading fails', ended, WALK_HEADER, 3, told(INPUT, errno.EIO))


# ---- The launcher

def bare():
    """An environment in which there is no rt: a folder with links to the commands that the launcher uses."""
    folder = work / 'bin'
    folder.mkdir(exist_ok=True)
    for name in ('sh', 'cat', 'cp', 'date', 'dirname', 'find', 'flock', 'head', 'mkdir', 'mv', 'readlink', 'rm', 'sed', 'tail', 'uname'):
        if not (folder / name).exists():
            (folder / name).symlink_to(shutil.which(name))
    return {'PATH': str(folder), 'RATTLE_HOME': ''}


def refusals():
    sample = (ROOT / 'crates' / 'walk' / 'stdout').read_bytes()
    hold('./run', run(), sample, 0)
    hold('a folder', run('walk', str(ROOT)), b'', 2, ('run: ', str(ROOT), 'folder'))
    hold('a folder for judge', run('judge', '.', cwd=ROOT), b'', 2, ('run: ', "'.'", 'folder'))
    hold('no file', run('draw', 'no such file'), b'', 2, ('run: ', "'no such file'"))
    hold('an empty name', run('judge', ''), b'', 2, ('run: ', "''"))
    hold('a word too many', run('walk', RUN, 'two'), b'', 2, ('run: ', "'two' is a word too many"))
    hold('the first of two too many', run('judge', 'a', 'b', 'c'), b'', 2, ('run: ', "'b' is a word too many"))
    hold('test with a word', run('test', 'all'), b'', 2, ('run: ', "'all' is a word too many"))
    hold('no program', run('walks'), b'', 2, ('run: ', "'walks'"))
    hold('two programs', run('walk draw'), b'', 2, ('run: ', "'walk draw'"))
    hold('a file', run('walk', str(ROOT / 'crates' / 'walk' / 'stdin')), sample, 0)
    link = work / 'link'
    link.symlink_to('other')
    (work / 'other').symlink_to(RUN)
    hold('through a link to a link', run(command=str(link), cwd='/'), sample, 0)
    hold('without rt', run(environment=bare()), sample, 0)


def toolchain():
    """A copy of the launcher beside a source and nothing that is built: the toolchain is missing, or does not build."""
    copy = work / 'copy'
    for folder in ('crates/programs/src', 'kit/bin'):
        (copy / folder).mkdir(parents=True)
    (copy / 'crates.txt').write_text('programs:\n')
    (copy / 'crates/programs/src/main.rt').write_text('')
    launcher = shutil.copy(RUN, copy)
    hold('no toolchain', run('walk', command=launcher, environment=bare()), b'', 3, ('run: the Rattle toolchain is missing', 'PATH'))
    hold('no toolchain where it is said to be', run('walk', command=launcher, environment={**bare(), 'RATTLE_HOME': '/nowhere'}), b'', 3, ('missing', '/nowhere/bin/rt'))
    rt = copy / 'kit/bin/rt'
    rt.write_text('#!/bin/sh\necho "rt: $1: programs NOT PROVED" >&2\nexit 1\n')
    rt.chmod(0o755)
    ended = run('judge', command=launcher, environment={**bare(), 'RATTLE_HOME': str(copy / 'kit')})
    hold('a proof that fails', ended, b'', 3, ('run: building',))
    if 'rt: run: programs NOT PROVED' not in ended.said or 'were not built' not in ended.said:
        stop(f'a proof that fails is told so: {ended.said}')


# ---- All of it

def prepare():
    if subprocess.run([RUN, 'build']).returncode != 0:
        sys.exit('host/io.py: the programs were not built, as is said above')
    compiler = os.environ.get('CC') or 'gcc'
    words = [*compiler.split(), '-std=c99', '-Wall', '-Wextra', '-Wpedantic', '-Werror', '-O2', '-shared', '-fPIC', '-o', work / 'fail.so', ROOT / 'host' / 'fail.c']
    if not shutil.which(words[0]) or subprocess.run(words).returncode != 0:
        sys.exit(f'host/io.py: {compiler} does not build host/fail.c. On Debian it wants gcc')


def main():
    prepare()
    if not run('walk', environment=faults()).calls:
        stop('host/fail.c is not loaded: its log stays empty')
    for part in (refusals, toolchain, walk_reads, draw_reads, judge_reads, interrupted, failed_writes, descriptors, goes_away, streams, endless_first_line, longest_first_line,
                 hints, shows, failed_shows, salvages, failed_salvages, refused_salvages, closed_salvages, killed_salvage, progress, stack):
        part()
    shutil.rmtree(work)
    print(f'io: {count} runs of walk, draw, judge, salvage and show, whose reads and writes fail or do not: output, message and status as told')


main()
