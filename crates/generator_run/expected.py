#!/usr/bin/env python3
"""Prints what generator_run is to print, by the reading of document 01 in tools/: python3 expected.py > stdout"""
import os
import sys

sys.path.insert(0, os.path.join(os.path.dirname(os.path.abspath(__file__)), '..', '..', 'tools'))
from document01 import made, remainder
from draw_runs import WEIGHTS, mixed, set_up, stepped


def main():
    m, running, total = set_up()
    seed = 1
    print('draws running clock seed sum')
    print(0, running, m.clock, seed, total)
    for n in range(1, 100001):
        command, seed, _ = made(m, seed, 1000, WEIGHTS, remainder)
        running, total = stepped(m, mixed(total, 0), command)
        if n % 10000 == 0:
            print(n, running, m.clock, seed, total)


main()
