#!/usr/bin/env python3
"""Prints what kernel_cases is to print of the table in stdin, from document 01 with requests 2 and 6 of document 02: python3 expected.py > stdout

It also holds each spoilt state to the conditions that its line names: a state that is spoilt in another condition too is no case of that one.
"""
import copy
import os
import sys

sys.path.insert(0, os.path.join(os.path.dirname(os.path.abspath(__file__)), '..', '..', 'tools'))
from document01 import Machine


def same(m, n):
    return int(vars(m) == vars(n))


def said(m):
    after = copy.deepcopy(m)
    answer = after.step(6, 0, 0, 0)
    return (int(not m.faults()), *answer, same(m, after), copy.deepcopy(m).step(0, 0, 0, 0)[0], *m.left(1))


def main():
    hand, last, kept = Machine(), Machine(), {}
    with open(os.path.join(os.path.dirname(os.path.abspath(__file__)), 'stdin'), encoding='ascii') as table:
        lines = table.read().split('\n')
    for n, (word, *rest) in enumerate((line.split(' ') for line in lines), 1):
        if word == 'fresh':
            hand = Machine()
        elif word == 'do':
            before = copy.deepcopy(hand)
            print(n, *hand.step(*map(int, rest)), hand.clock, same(before, hand))
        elif word == 'ask':
            print(n, *hand.left(int(rest[0])))
        elif word == 'keep':
            kept[rest[0]] = last = copy.deepcopy(hand)
        elif word == 'take':
            last = kept[rest[0]]
            hand = copy.deepcopy(last)
        elif word == 'each':
            print(n, *(x for k in '1234' for x in copy.deepcopy(kept[k]).step(*map(int, rest))))
        elif word in ('put', 'spoil'):
            hand.put(rest[0], int(rest[1]), int(rest[2]))
        elif word not in ('#', ''):
            sys.exit(f'stdin, line {n}: {word} is no word of the table')
        if word == 'spoil':
            if hand.faults() != set(rest[3].split('+')) - {'sound'}:
                sys.exit(f'stdin, line {n}: the state breaks {sorted(hand.faults())}')
            print(n, *said(hand))
            hand = copy.deepcopy(last)


main()
