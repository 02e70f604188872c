#!/usr/bin/env python3
"""Runs two programs in turn over the same inputs, and prints the least processor time of each and their ratio.

    bench/turns.py ROUNDS COUNT UNIT C_PROGRAM RATTLE_PROGRAM INPUT..

A program is a file, or a file and words for it. Of each input the least time of all rounds counts, and these are summed. COUNT is how many things of the name UNIT all inputs have: the time for one is
printed, too. What the programs print is thrown away.
"""
import resource
import subprocess
import sys


def seconds(program, given):
    before = resource.getrusage(resource.RUSAGE_CHILDREN)
    with open(given, 'rb') as source:
        subprocess.run(program.split(), stdin=source, stdout=subprocess.DEVNULL, check=True)
    after = resource.getrusage(resource.RUSAGE_CHILDREN)
    return after.ru_utime + after.ru_stime - before.ru_utime - before.ru_stime


rounds, count, unit = int(sys.argv[1]), int(sys.argv[2]), sys.argv[3]
programs = {'C': sys.argv[4], 'Rattle': sys.argv[5]}
inputs = sys.argv[6:]
least = {name: dict.fromkeys(inputs, float('inf')) for name in programs}
for _ in range(rounds):
    for given in inputs:
        for name, program in programs.items():
            least[name][given] = min(least[name][given], seconds(program, given))
total = {name: sum(of.values()) for name, of in least.items()}
for name, s in total.items():
    print(f'{name}: {s:.3f} s, {s / count * 1e9:.0f} ns a {unit}, {count / s / 1e6:.1f} million a second')
print(f"ratio {total['Rattle'] / total['C']:.2f}")
