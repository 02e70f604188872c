#!/usr/bin/env python3
"""Prints what generator_cases is to print, by the reading of document 01 in tools/: python3 expected.py > stdout"""
import os
import sys

sys.path.insert(0, os.path.join(os.path.dirname(os.path.abspath(__file__)), '..', '..', 'tools'))
from document01 import Machine, drawn


# a table, a place and what is put there: idle has a base, a task stands twice, a task is above 31, an object is held that is not declared, a way is left
# where nothing is held, a waiter is ready
FORGED = ('base', 0, 1), ('ready', 1, 2), ('ready', 3, 200), ('held', 2, 7), ('way', 1, 1), ('waiter', 1, 1)


def states():
    """0 is not started, 1 is; the others are forged."""
    for n in range(8):
        m = Machine()
        for command in (1, 1, 3, 0), (1, 2, 5, 0), (1, 3, 3, 0), (2, 1, 4, 0):
            m.step(*command)
        if n:
            m.step(3, 0, 0, 0)
        if n > 1:
            m.put(*FORGED[n - 2])
        yield m


def main():
    print('state seed span delay wake code op a b value left')
    for n, m in enumerate(states()):
        for seed in 0, 1:
            for span in 0, 1, 1000000, 1000001:
                for delay in 100, 101:
                    for wake in 0, 1:
                        code, command, left, _ = drawn(m, seed, span, (delay, wake, 10, 10, 10, 10, 10, 10))
                        print(n, seed, span, delay, wake, code, *command, left)


main()
