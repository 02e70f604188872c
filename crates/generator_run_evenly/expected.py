#!/usr/bin/env python3
"""Prints what generator_run_evenly is to print, by the reading of the papers in tools/: python3 expected.py > stdout"""
import os
import sys

sys.path.insert(0, os.path.join(os.path.dirname(os.path.abspath(__file__)), '..', '..', 'tools'))
from document01 import even, made
from draw_runs import WEIGHTS, mixed, set_up, stepped


def run(seed):
    m, running, total = set_up()
    spent = 0
    print(0, running, m.clock, seed, spent, total)
    for n in range(1, 25001):
        command, seed, draws = made(m, seed, 1000000, WEIGHTS, even)
        spent += draws
        running, total = stepped(m, mixed(total, 0, draws), command)
        if n % 5000 == 0:
            print(n, running, m.clock, seed, spent, total)


print('draws running clock seed spent sum')
for start in 1, 2147483649, 2159691842, 4294967295:
    run(start)
