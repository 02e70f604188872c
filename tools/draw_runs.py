"""What the two runs of 100,000 draws share (crates/generator_run and crates/generator_run_evenly): the set-up, and the sum that every command and answer goes into."""
from document01 import Machine

WEIGHTS = 10, 30, 20, 10, 10, 10, 20, 10
TASKS = (1, 3), (2, 5), (3, 3), (4, 9), (5, 1), (6, 15), (7, 7), (31, 5)
OBJECTS = (1, 4), (2, 9), (3, 15), (4, 5), (7, 12)


def mixed(total, *numbers):
    for x in numbers:
        total = (total * 31 + x % 2**32 + x // 2**32) % 2**32
    return total


def stepped(m, total, command):
    """The running task and the new sum. A drawn command is accepted, so that nothing tests the state."""
    code = m.refusal(*command)
    assert code == 0
    released = m.accepted(*command)
    return m.running(), mixed(total, *command, code, m.running(), released)


def set_up():
    """The machine behind the set-up, its running task, and the sum."""
    m, total = Machine(), 0
    for command in [(1, t, p, 0) for t, p in TASKS] + [(2, o, p, 0) for o, p in OBJECTS] + [(3, 0, 0, 0)]:
        running, total = stepped(m, total, command)
    return m, running, total
