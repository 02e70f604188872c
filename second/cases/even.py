#!/usr/bin/env python3
"""Prints second/cases/even.txt: single draws and single choices of edition 2 (change request 4), with what is expected of them.

    python3 second/cases/even.py | cmp - second/cases/even.txt

A third small reading of the papers, beside the Ada of second/src: no machine is stepped here. What a draw asks of its state (who runs, what it holds, which
objects are eligible, who waits) was read off the commands by hand and stands below as a View. Seeds are found by going backwards from the draw that is
wanted: a draw is a linear bijection of 32 bits, so that each number but 0 comes from one seed.
"""
TOP = 2**32 - 1
KINDS = 'delay wake advance open closep closef entry done'.split()


# ---- The draw, and back

def draw(x):
    x ^= x << 13 & TOP
    x ^= x >> 17
    return x ^ x << 5 & TOP


def back(y, times=1):
    """The seed whose draw number `times` is y: each shift is undone, the low or the high bits first."""
    for _ in range(times):
        for shift in (lambda x: x << 5 & TOP, lambda x: x >> 17, lambda x: x << 13 & TOP):
            x = y
            while x ^ shift(x) != y:
                x = y ^ shift(x)
            y = x
    return y


# ---- Change request 4

def below(seed, n):
    """The choice, the seed left, the draws made."""
    multiple = n * (TOP // n)
    made = []
    while True:
        seed = draw(seed)
        made.append(seed)
        if seed - 1 < multiple or len(made) == 8:
            return (seed - 1) % n, seed, made


class View:
    """What a draw asks of a started machine: its clock; whether idle runs; the object that the runner holds and whether by open or entry; the objects that
    are eligible, in order; those with a waiter."""
    def __init__(self, clock=0, idle=False, held=0, way='', eligible=(), waited=()):
        self.clock, self.idle, self.held, self.way, self.eligible, self.waited = clock, idle, held, way, eligible, waited

    def legal(self, span):
        free, time = not self.idle and not self.held, self.clock + span < 2**64
        return {'delay': free and time, 'wake': True, 'advance': time, 'open': free and self.eligible, 'entry': free and self.eligible,
                'closep': self.way == 'open', 'closef': self.way == 'open', 'done': self.way == 'entry'}


def command(seed, span, weights, view):
    """The row that must be printed, and how each of the three came about: the limit of a choice or None, with the draws made."""
    legal = view.legal(span)
    heavy = [(kind, weight) for kind, weight in zip(KINDS, weights) if legal[kind]]
    how, a, b, value = [], 0, 0, 0

    def chosen(n):
        nonlocal seed
        if n is None:
            seed = draw(seed)
            how.append((None, [seed]))
            return None
        choice, seed, made = below(seed, n)
        how.append((n, made))
        return choice

    rest = chosen(sum(weight for _, weight in heavy))
    for kind, weight in heavy:
        if rest < weight:
            break
        rest -= weight
    operand = chosen({'delay': span + 1, 'advance': span, 'open': len(view.eligible), 'entry': len(view.eligible)}.get(kind))
    if kind == 'delay':
        value = view.clock + operand
    elif kind == 'advance':
        value = 1 + operand
    elif kind in ('open', 'entry'):
        a = view.eligible[operand]
    elif kind != 'wake':
        a = view.held
    forced = kind == 'entry' and a in view.waited
    barrier = chosen(2 if kind in ('closep', 'entry', 'done') and not forced else None)
    b = 1 if forced else barrier or 0
    return (0, 4 + KINDS.index(kind), a, b, value, seed, sum(len(made) for _, made in how)), how


# ---- The file

print('''# Single draws and single choices of edition 2 (change request 4), for even_cases2.  Made
# by even.py, which is a reading of its own; the seeds were found by going backwards from the
# draw that is wanted.  A case begins with "== title".  "<" rows are the input, ">" rows what
# must be printed: of "draw" code op a b value seed spent, of "below" choice seed spent.  In the comments
# "below n: d d" are the draws of one choice, all but the last of them drawn again; "plain: d"
# is one for what the kind does not need.''')


def said(how):
    return '; '.join(('plain' if n is None else f'below {n}') + ': ' + ' '.join(map(str, made)) for n, made in how)


def title(text, *commands):
    print(f'\n== {text}\n<fresh')
    for line in commands:
        print(f'<{line}')


def one(seed, span, weights, view, want, kind=None):
    """A draw that must spend as many as the three numbers of `want` say, and be of that kind."""
    row, how = command(seed, span, weights, view)
    assert [len(made) for _, made in how] == list(want), (seed, row, how)
    assert kind is None or row[1] == 4 + KINDS.index(kind), (seed, row, how)
    print(f'# {said(how)}\n<draw {seed} {span} {" ".join(map(str, weights))}\n>{" ".join(map(str, row))}')


def refused(seed, span, weights, code):
    print(f'<draw {seed} {span} {" ".join(map(str, weights))}\n>{code} 0 0 0 0 {seed} 0')


def choice(seed, n, want):
    got, left, made = below(seed, n)
    assert len(made) == want, (seed, n, made)
    print(f'# {said([(n, made)])}\n<below {seed} {n}\n>{got} {left} {len(made)}')


def only(**weights):
    return [weights.get(kind, 0) for kind in KINDS]


ALIKE = [10] * 8
DOCUMENT = ('create 1 3', 'create 2 5', 'create 3 3', 'object 1 4', 'start')     # task 2 runs, above the ceiling
IDLE = View(idle=True)
ABOVE = View()


def kinds():
    """The sum of the legal weights is 7, 100, 30."""
    title('The kind below 7, which leaves 3 over: the last that is kept, and the three that draw again', 'start')
    for d in (TOP - 3, TOP - 2, TOP - 1, TOP):
        one(back(d), 10, only(wake=3, advance=4), IDLE, (1 if d == TOP - 3 else 2, 1, 1))
    title('The kind below 100, which leaves 95 over: the last that is kept; the first, one between and the last that draw again', 'start')
    for d in (TOP - 95, TOP - 94, TOP - 50, TOP):
        one(back(d), 10, only(wake=37, advance=63), IDLE, (1 if d == TOP - 95 else 2, 1, 1))
    title("Document 01's draw, by edition 2: 67634689 - 1 below 101 is 38", *DOCUMENT)
    one(1, 100, ALIKE, ABOVE, (1, 1, 1), 'delay')
    title('The kind below 30, which leaves 15 over', *DOCUMENT)
    for d in (TOP - 15, TOP - 14, TOP):
        one(back(d), 100, ALIKE, ABOVE, (1 if d == TOP - 15 else 2, 1, 1))
    title('The kind below 1, 3, 5, 15, 17, 51, 85: nothing is left over, and the highest draw is kept', 'start')
    for n in (1, 3, 5, 15, 17, 51, 85):
        one(back(TOP), 10, only(wake=1, advance=n - 1), IDLE, (1, 1, 1))
    title('A legal kind of weight 0 is never drawn; one that is not legal has no weight', 'start')
    for seed in (1, 2**31, TOP):
        one(seed, 10, [100, 1, 0, 100, 100, 100, 100, 100], IDLE, (1, 1, 1), 'wake')


def high(over, *overs):
    """The draws of the highest `over` that are followed by one of the highest of the next number, and so on; None stands for any draw."""
    found = []
    for d in range(TOP - over + 1, TOP + 1):
        x, kept = d, True
        for left in overs:
            x = draw(x)
            kept = kept and (left is None or TOP - x < left)
        if kept:
            found.append(d)
    return found


def most():
    """That no command spends more than 5 draws, from whatever seed: the sum of the weights is at most 800, an operand of time below 1000001 at most, an
    object below 7 at most, a barrier below 2. What is left over is at most 788, 999303, 3 and 1."""
    kind, time, thing, barrier = (max(TOP % n for n in range(1, limit + 1)) for limit in (800, 1000001, 7, 2))
    assert (kind, time, thing, barrier) == (788, 999303, 3, 1), (kind, time, thing, barrier)
    assert high(time, time) and not high(time, time, time)                         # an operand of time takes three draws at most
    assert not high(kind, kind) and not high(thing, thing)                         # a kind and an object two, and a barrier too
    assert not high(kind, None, time)                                              # where the kind takes two, the operand takes one,
    assert not high(kind, None, None, barrier) and not high(thing, None, barrier)  # and the barrier; where an object takes two, the barrier


def operands():
    delay, advance = only(delay=99, wake=1), only(wake=1, advance=99)
    title('A delay below 999528, which leaves 995007 over', *DOCUMENT)
    for d in (TOP - 995007, TOP - 995006, TOP - 500000, TOP):
        one(back(d, 2), 999527, delay, ABOVE, (1, 1 if d == TOP - 995007 else 2, 1), 'delay')
    title('An advance below 999527, which leaves 999303 over', 'start')
    for d in (TOP - 999303, TOP - 999302, TOP - 500000, TOP):
        one(back(d, 2), 999527, advance, IDLE, (1, 1 if d == TOP - 999303 else 2, 1), 'advance')
    pairs = high(999303, 999303)
    title('A delay that takes three draws: 5 in all are the most that any command of any seed spends', *DOCUMENT)
    for d in [d for d in pairs if d >= TOP - 995006 and draw(d) >= TOP - 995006][::57]:
        one(back(d, 2), 999527, delay, ABOVE, (1, 3, 1), 'delay')
    title('An advance that takes three draws', 'start')
    for d in pairs[11::70]:
        one(back(d, 2), 999527, advance, IDLE, (1, 3, 1), 'advance')
    title('The largest span, 1 + 1000000, and the least, 1', *DOCUMENT)
    for n, span in ((1000001, 1000000), (2, 1)):
        for d in (TOP - TOP % n, TOP - TOP % n + 1, TOP):
            one(back(d, 2), span, delay, ABOVE, (1, 1 if d == TOP - TOP % n else 2, 1), 'delay')
    one(back(TOP, 2), 1, advance, ABOVE, (1, 1, 1), 'advance')
    title('An operand not needed takes one draw, the highest too: of a wake', 'start')
    one(back(TOP, 2), 10, only(wake=1), IDLE, (1, 1, 1), 'wake')
    one(back(TOP, 3), 10, only(wake=1), IDLE, (1, 1, 1), 'wake')
    one(back(TOP, 3), 10, advance, IDLE, (1, 1, 1), 'advance')


def objects():
    """Ceilings 2, 4, 3, 9, 3, 15, 3: object 1 is below the runner's base."""
    setup, eligible = ['create 1 3', 'object 1 2'], []
    for number, ceiling in ((7, 3), (2, 4), (4, 9), (3, 3), (6, 15), (5, 3)):
        setup.append(f'object {number} {ceiling}')
        eligible = sorted(eligible + [number])
        n = len(eligible)
        title(f'{n} eligible objects: {TOP % n} left over', *setup, 'start')
        for kind in ('open', 'entry'):
            for d in (TOP - 3, TOP - 2, TOP - 1, TOP):
                one(back(d, 2), 10, only(wake=1, **{kind: 100}), View(eligible=eligible), (1, 2 if TOP - d < TOP % n else 1, 1), kind)


def barriers():
    held = ('create 1 3', 'create 2 1', 'object 3 4', 'object 5 6', 'start')
    title('The barrier below 2 draws again for the highest draw alone: closep, and not closef', *held, 'open 5')
    for d in (TOP, TOP - 1, TOP - 2):
        for kind in ('closep', 'closef'):
            one(back(d, 3), 10, only(wake=1, **{kind: 100}), View(held=5, way='open'), (1, 1, 2 if d == TOP and kind == 'closep' else 1), kind)
    title('The held object of a closing kind takes one draw, the highest too', *held, 'open 5')
    for kind in ('closep', 'closef'):
        one(back(TOP, 2), 10, only(wake=1, **{kind: 100}), View(held=5, way='open'), (1, 1, 1), kind)
    title('So too done, inside an entry', *held, 'entry 3 1')
    for d in (TOP, TOP - 1, TOP - 2):
        one(back(d, 3), 10, only(wake=1, done=100), View(held=3, way='entry'), (1, 1, 2 if d == TOP else 1), 'done')
    one(back(TOP, 2), 10, only(wake=1, done=100), View(held=3, way='entry'), (1, 1, 1), 'done')
    title('done with a waiter: its barrier is chosen all the same', 'create 1 3', 'create 2 3', 'object 3 4', 'start', 'entry 3 0', 'entry 3 1')
    for d in (TOP, TOP - 1, TOP - 2):
        one(back(d, 3), 10, only(wake=1, done=100), View(held=3, way='entry', waited=[3]), (1, 1, 2 if d == TOP else 1), 'done')
    title('entry without a waiter chooses', *held)
    for d in (TOP, TOP - 1, TOP - 2):
        one(back(d, 3), 10, only(wake=1, entry=100), View(eligible=[3, 5]), (1, 1, 2 if d == TOP else 1), 'entry')
    title('entry with a waiter on object 3, none on object 5: 1 and one plain draw there, whatever it is; a choice here',
          'create 1 3', 'create 2 3', 'object 3 4', 'object 5 6', 'start', 'entry 3 0')
    waited = View(eligible=[3, 5], waited=[3])
    seen = set()
    for d in (TOP, TOP - 1, TOP - 2, TOP - 3, TOP - 4, TOP - 5):
        row, _ = command(back(d, 3), 10, only(wake=1, entry=100), waited)
        seen.add((row[2], row[3]))
        one(back(d, 3), 10, only(wake=1, entry=100), waited, (1, 1, 2 if d == TOP and row[2] == 5 else 1), 'entry')
    assert {(3, 1), (5, 0), (5, 1)} <= seen, seen
    # the highest draw as the barrier of an entry whose object has a waiter: one eligible object
    title('The highest draw, for an entry whose object has a waiter: it is kept', 'create 1 3', 'create 2 3', 'object 3 4', 'start', 'entry 3 0')
    for d in (TOP, TOP - 1):
        one(back(d, 3), 10, only(wake=1, entry=100), View(eligible=[3], waited=[3]), (1, 1, 1), 'entry')
    title('A delay, an open and an entry from one state', *held)
    for kind in ('delay', 'open', 'entry'):
        for seed in (2863311531, 4294967295, 2147483648, 3000000000):
            one(seed, 999527, only(wake=1, **{kind: 100}), View(eligible=[3, 5]), (1, 1, 1))


def ends():
    last = 2**64 - 1
    title('The end of the clock: delay and advance just legal', 'create 1 3', 'start', f'advance {last - 100}')
    late = View(clock=last - 100)
    one(back(TOP, 2), 100, only(delay=99, wake=1), late, (1, 1 if TOP % 101 == 0 else 2, 1), 'delay')
    one(back(TOP - TOP % 101, 2), 100, only(delay=99, wake=1), late, (1, 1, 1), 'delay')
    one(back(TOP, 2), 100, only(wake=1, advance=99), late, (1, 2, 1), 'advance')
    title('and past it: wake alone, below 10', 'create 1 3', 'start', f'advance {last - 99}')
    for d in (TOP - 5, TOP - 4, TOP):
        one(back(d), 100, ALIKE, View(clock=last - 99), (1 if d == TOP - 5 else 2, 1, 1), 'wake')
    title('Refusals in their order, 17 18 2: no draw is made')
    refused(0, 0, only(wake=0), 17)
    refused(0, 10, ALIKE, 17)
    refused(1, 0, only(wake=0), 18)
    refused(TOP, 1000001, ALIKE, 18)
    refused(7, 10, [10] * 7 + [101], 18)
    refused(7, 10, only(delay=1), 18)
    refused(7, 10, ALIKE, 2)
    title('and of a machine that is started', 'start')
    refused(0, 10, ALIKE, 17)
    refused(back(TOP), 0, ALIKE, 18)
    refused(back(TOP), 10, [101] + [10] * 7, 18)
    one(back(TOP), 10, ALIKE, IDLE, (2, 1, 1))


def choices():
    title('A choice below 1, 3, 5, 17, 257, 65537 and 4294967295, which divide it: one draw')
    for n in (1, 3, 5, 17, 257, 65537, TOP):
        for seed in (back(TOP), back(1), 1, 2863311531):
            choice(seed, n, 1)
    title('The last below L, L itself, the highest: below 7, 100, 999528, 1000001 and 4294967294')
    for n in (7, 100, 999528, 1000001, TOP - 1):
        most = TOP - TOP % n
        choice(back(most), n, 1)
        choice(back(most + 1), n, 2)
        choice(back(TOP), n, 2)
    # the first seed from 1 on, and the first from 2^31 on, that takes so many; of eight draws one below L and one not
    for n in (2**31, 2**31 + 1, 3000000000, TOP - TOP // 3):
        title(f'A choice below {n}, which leaves {TOP % n} over: one to seven draws, and eight with the last below L and not')
        for start in (1, 2**31):
            for want in range(1, 10):
                seed = start
                while not taken(seed, n, want):
                    seed += 1
                choice(seed, n, min(want, 8))


def taken(seed, n, want):
    """Whether draw number `want` is the first below L; 9 stands for none of eight."""
    _, left, made = below(seed, n)
    return min(want, 8) == len(made) and (want < 8 or (left - 1 < TOP - TOP % n) == (want == 8))


most()
kinds()
operands()
objects()
barriers()
ends()
choices()
