"""One reading of document 01, with requests 2, 4 and 6 of document 02, in Python: the machine, its step, and a draw by either edition. It is written from the papers alone, with lists and
sorting, and shares nothing with the sources under crates/. What kernel_cases, generator_cases, generator_run and generator_run_evenly are to print is computed by it.
"""

LAST = 2**64 - 1
BITS = 2**32 - 1

# Request 6: a closing by an exception moves tasks as this one does, and its refusals are those of this one.
CLOSING = {12: 8, 13: 9, 14: 11, 15: 8}


class Machine:
    def __init__(self):
        self.base, self.held, self.way, self.until = ([0] * 32 for _ in range(4))
        self.ready, self.delayed = [0] * 32, [0] * 32  # a line's tasks, then 0: idle, who is behind all, is not written
        self.ceiling, self.waiter = [0] * 8, [0] * 8
        self.pending = [0] * 32  # 1: an exception that no answer has shown yet
        self.clock = self.started = 0

    def put(self, table, at, value):
        if table in ('clock', 'started'):
            setattr(self, table, value)
        elif table == 'pending':
            self.pending[at % 32] = value % 2
        else:
            getattr(self, table)[at] = value

    def active(self, t):
        """The ceiling of the object held, else the base; 0 of what is no task or no object."""
        if t > 31:
            return 0
        return self.base[t] if self.held[t] == 0 else (self.ceiling + [0] * 248)[self.held[t]]

    # ---- saved states that are sound

    def faults(self):
        """The conditions of document 01, and of its reading that a cell not in use is 0, that do not hold."""
        line, sleepers = [t for t in self.ready if t], [t for t in self.delayed if t]
        waiters = [t for t in self.waiter if t]
        standing = line + sleepers + waiters
        created = [t for t in range(1, 32) if self.base[t]]
        holders = [t for t in range(32) if self.held[t]]
        users = [(t, self.held[t]) for t in holders] + [(t, o) for o, t in enumerate(self.waiter) if 0 < t < 32 and self.base[t]]
        levels, times = [self.active(t) for t in line], [self.until[t] if t < 32 else 0 for t in sleepers]
        holds = {
            'idle-base': self.base[0] == 0,
            'idle-holds': self.held[0] == 0,
            'once': all(standing.count(t) == 1 for t in created),
            'stranger': all(t in created for t in standing),
            'order': levels == sorted(levels, reverse=True) and times == sorted(times),
            'range': all(p <= 15 for p in self.base + self.ceiling),
            'way': all(self.way[t] in (1, 2) for t in holders),
            'way-alone': all(self.way[t] == 0 for t in range(32) if t not in holders),
            'two-holders': len({self.held[t] for t in holders}) == len(holders),
            'holder-ready': all(t == 0 or t in line for t in holders),
            'admitted': all(0 < o < 8 and self.ceiling[o] and self.base[t] <= self.ceiling[o] for t, o in users),
            'early-clock': self.started or self.clock == 0,
            'early-delay': self.started or not sleepers,
            'early-wait': self.started or not waiters,
            'early-hold': self.started or not holders,
            'null-object': self.ceiling[0] == 0,
            'time': all(self.until[t] == 0 for t in range(32) if t not in sleepers),
            'pending': all(t in created for t in range(32) if self.pending[t]),
            'early-pending': self.started or not any(self.pending),
            'free': all(cells[: len(tasks)] == tasks for cells, tasks in ((self.ready, line), (self.delayed, sleepers))),
        }
        return {name for name, held in holds.items() if not held}

    # ---- the step of a sound state

    def runner(self):
        return self.ready[0]

    def running(self):
        return self.ready[0] if self.started else 0

    def refusal(self, op, a, b, value):
        op = CLOSING.get(op, op)
        task, obj, level, bit = 1 <= a <= 31, 1 <= a <= 7, 1 <= b <= 15, b <= 1
        in_range = {
            1: task and level and value == 0, 2: obj and level and value == 0, 3: a == b == value == 0, 4: a == b == 0, 5: a == b == value == 0, 6: a == b == 0,
            7: obj and b == value == 0, 8: obj and bit and value == 0, 9: obj and b == value == 0, 10: obj and bit and value == 0, 11: obj and bit and value == 0,
        }
        if not in_range.get(op, False):
            return 4
        r = self.runner()
        held, way, closing = self.held[r], self.way[r], op in (8, 9, 11)
        tests = (
            (2, op >= 4 and not self.started),
            (3, op <= 3 and self.started),
            (5, op == 1 and self.base[a] or op == 2 and self.ceiling[a]),
            (6, op >= 7 and not self.ceiling[a & 7]),
            (7, (op == 4 or op >= 7) and r == 0),
            (8, op in (4, 7, 10) and held),
            (9, closing and (held != a or way != (2 if op == 11 else 1))),
            (10, op in (7, 10) and self.base[r] > self.ceiling[a & 7]),
            (11, op in (7, 10) and a in self.held),
            (12, op == 10 and b == 0 and self.waiter[a & 7]),
            (13, op == 6 and self.clock + value > LAST),
        )
        return next((number for number, holds in tests if holds), 0)

    def insert(self, line, t, goes_before):
        """Before the first task of the line that it goes before."""
        tasks = [x for x in line if x]
        at = next((i for i, x in enumerate(tasks) if goes_before(x)), len(tasks))
        tasks.insert(at, t)
        line[:] = tasks + [0] * (32 - len(tasks))

    def tail(self, t):
        self.insert(self.ready, t, lambda x: self.active(x) < self.base[t])

    def head(self, t):
        self.insert(self.ready, t, lambda x: self.active(x) <= self.base[t])

    def take(self, line):
        t = line.pop(0)
        line.append(0)
        return t

    def delay(self, time):
        t = self.take(self.ready)
        if time > self.clock:
            self.insert(self.delayed, t, lambda x: self.until[x] > time)
            self.until[t] = time
        else:
            self.tail(t)

    def wake(self):
        t = self.delayed[0]
        if t == 0 or self.until[t] > self.clock:
            return 0
        self.take(self.delayed)
        self.until[t] = 0
        self.tail(t)
        return t

    def close(self, o, serves):
        released = self.waiter[o] if serves else 0
        if released:
            self.waiter[o] = 0
            self.tail(released)
        t = self.take(self.ready)
        self.held[t] = self.way[t] = 0
        self.head(t)
        return released

    def enter(self, o, way):
        self.held[self.runner()], self.way[self.runner()] = o, way

    def accepted(self, op, a, b, value):
        """Carries the command out; the released task."""
        op = CLOSING.get(op, op)
        if op == 1:
            self.base[a] = b
            self.tail(a)
        elif op == 2:
            self.ceiling[a] = b
        elif op == 3:
            self.started = 1
        elif op == 4:
            self.delay(value)
        elif op == 5:
            return self.wake()
        elif op == 6:
            self.clock += value
        elif op in (8, 9, 11):
            return self.close(a, b == 1)
        elif op == 7 or b == 1:
            self.enter(a, 1 if op == 7 else 2)
        else:
            self.waiter[a] = self.take(self.ready)
        return 0

    def raised(self, op, closer, released):
        """Whose exception the command sets: 0 for nobody's. One that is set already stays."""
        return closer if op in (12, 13, 14) else released if op == 15 else 0

    def step(self, op, *operands):
        """Code, running, released, and 1 if the answer shows the running task's exception."""
        if self.faults():
            return 1, 0, 0, 0
        code, closer = self.refusal(op, *operands), self.running()
        if code:
            return code, closer, 0, 0
        released = self.accepted(op, *operands)
        failed = self.raised(op, closer, released)
        if failed:
            self.pending[failed] = 1
        running = self.running()
        shown, self.pending[running] = self.pending[running], 0
        return 0, running, released, shown

    def left(self, task):
        if self.faults():
            return 1, 0
        if not 1 <= task <= 31:
            return 4, 0
        if self.base[task] == 0:
            return 6, 0
        due = task in self.delayed and self.until[task] <= self.clock
        return 0, self.delayed.index(task) + 1 if due else 0


# ---- draws

REFUSED = 0, 0, 0, 0


def draw(x):
    """One draw: Marsaglia's xorshift in 32 bits."""
    x ^= x << 13 & BITS
    x ^= x >> 17
    return x ^ x << 5 & BITS


def refusal_of_draw(m, seed, span, weights):
    """The first of 1, 17, 18, 2 that holds, 0 for none."""
    bad = not 1 <= span <= 1000000 or max(weights) > 100 or weights[1] == 0
    tests = (1, m.faults()), (17, seed == 0), (18, bad), (2, not m.started)
    return next((number for number, holds in tests if holds), 0)


def legal_kinds(m, span):
    """Of the kinds in op order 4..11, which are legal; and the eligible objects."""
    r = m.runner()
    free, fits = r != 0 and m.held[r] == 0, m.clock + span <= LAST
    eligible = [o for o in range(1, 8) if m.ceiling[o] and m.base[r] <= m.ceiling[o] and o not in m.held]
    takes = free and bool(eligible)
    return (free and fits, True, fits, takes, m.way[r] == 1, m.way[r] == 1, takes, m.way[r] == 2), eligible


def remainder(n, seed):
    """Edition 1, a number below n: the remainder of one draw. The number, the seed left and the draws spent."""
    d = draw(seed)
    return d % n, d, 1


def even(n, seed):
    """Edition 2: v = draw - 1; below L, the largest multiple of n not above 4294967295, it gives v mod n, and so does the eighth draw."""
    limit = BITS // n * n
    for spent in range(1, 9):
        seed = draw(seed)
        if seed - 1 < limit:
            break
    return (seed - 1) % n, seed, spent


def made(m, seed, span, weights, choose):
    """The command drawn from a sound started state, the seed left behind and the draws spent. Kind, operand and barrier are each one choice; what is not
    needed spends one draw."""
    legal, eligible = legal_kinds(m, span)
    left, seed, spent = choose(sum(w for w, yes in zip(weights, legal) if yes), seed)
    for kind, (weight, yes) in enumerate(zip(weights, legal)):
        if yes:
            if left < weight:
                break
            left -= weight
    op, a, b, value = kind + 4, 0, 0, 0
    below = {4: span + 1, 6: span, 7: len(eligible), 10: len(eligible)}.get(op)
    x, seed, more = choose(below, seed) if below else (0, draw(seed), 1)
    spent += more
    if op == 4:
        value = m.clock + x
    if op == 6:
        value = 1 + x
    if op in (7, 10):
        a = eligible[x]
    if op in (8, 9, 11):
        a = m.held[m.runner()]
    waited = op == 10 and m.waiter[a] != 0
    y, seed, more = choose(2, seed) if op in (8, 10, 11) and not waited else (0, draw(seed), 1)
    spent += more
    if op in (8, 10, 11):
        b = 1 if waited else y
    return (op, a, b, value), seed, spent


def drawn(m, seed, span, weights, choose=remainder):
    """Code, command, the seed left behind and the draws spent, of any state, seed and profile."""
    code = refusal_of_draw(m, seed, span, weights)
    if code:
        return code, REFUSED, seed, 0
    return 0, *made(m, seed, span, weights, choose)
