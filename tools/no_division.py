#!/usr/bin/env python3
"""Holds the printing of walk, draw, judge, salvage and show free of division and of remainder, which is division too.

    python3 tools/no_division.py            the sources of the crates that print: no operator / or %, no decimal of the toolchain's (its formatting macros)
    python3 tools/no_division.py --built    the program target/run/programs, which is all five, as machine code: no division instruction

The sources are read as text, without comments, texts and contracts (a contract may divide: it is never run). The machine code is read by objdump. Each
sees what the other does not: a compiler makes of a division by a constant a multiplication, or a shift, which the machine code does not tell from
others; and it may make a division of a loop that subtracts, which no source shows.

One place alone formats: crates/programs_flow/src/reason.rt, which takes the system's own words for a failure from the toolchain, with the number of the failure
behind them, and cuts that off. It stands on standard error, and no number that a program prints goes through it.
"""
import os
import pathlib
import re
import subprocess
import sys

from braces import blank, closing, code as without_texts

ROOT = pathlib.Path(__file__).resolve().parent.parent
# From a number to its bytes, and whether there is room for them; in judge_record a record's number is found.
PRINTING = ('decimal', 'decimal_read', 'decimal_print', 'text', 'text_word', 'text_command', 'text_first', 'text_split', 'text_print', 'session', 'session_walk',
            'session_stage', 'session_draw', 'show_text', 'show_print', 'session_show', 'judge_record', 'judging', 'report', 'salvage_print', 'programs_hint', 'programs_walk', 'programs_draw', 'programs_judge',
            'programs_salvage', 'programs_show', 'programs_flow', 'programs', 'walk')
FORMATTED = ROOT / 'crates' / 'programs_flow' / 'src' / 'reason.rt'
# How a source would have the toolchain make a decimal, or divide.
DIVIDES = re.compile(r'[/%]|\b(?:e?print(?:ln)?|write(?:ln)?|format(?:_args)?)!|\bto_string\b|\b(?:div|rem)_euclid\b|\b\w+_(?:div|rem)\b')


def code(path):
    """The source with blanks for what is not run: comments, texts, contracts."""
    text = without_texts(path.read_text())
    for clause in re.finditer(r'\b(?:requires|ensures|invariant)\*?(?:\s+\w+)?\s*\{|^[ \t]*(?:pub )?ghost \w+: \{', text, flags=re.M):
        end = closing(text, clause.end() - 1)
        text = text[:clause.start()] + blank(text[clause.start():end]) + text[end:]
    return re.sub(r'^[ \t]*ghost use [^;]*;', lambda m: blank(m.group()), text, flags=re.M)


def sources():
    wrong, count = [], 0
    for crate in PRINTING:
        files = sorted((ROOT / 'crates' / crate / 'src').glob('**/*.rt'))
        if not files:
            sys.exit(f'no_division: crates/{crate}/src is not there; the list PRINTING of tools/no_division.py is old')
        for path in files:
            count += 1
            for number, line in enumerate(code(path).split('\n'), 1):
                if DIVIDES.search(line.replace('write!', '') if path == FORMATTED else line):
                    wrong.append(f'{path.relative_to(ROOT)}:{number}: {line.strip()}')
    if wrong:
        sys.exit('no_division: the printing divides:\n' + '\n'.join(wrong))
    print(f'no_division: no / and no % in the {count} sources of the {len(PRINTING)} crates that print')


# A quotient by a constant is the upper half of a product, so a multiplication that keeps that half is looked for too.
DIVISION = re.compile(r'i?div[bwlq]?$|mul[bwlq]?$|mulx')
# Document 01 draws by remainders, so draw divides where it draws: in these functions, or in those that the compiler has put them into.
DRAWS = re.compile(r'generator(?:_\w+)?::|session_draw::draw_|programs_draw::|programs::rvn_program_draw$')
PROGRAM = ROOT / 'target' / 'run' / 'programs'


def divisions():
    """How many instructions the program has, and the functions that divide with the instruction."""
    if not PROGRAM.exists():
        sys.exit('no_division: target/run/programs is not there; build it first: ./run build')
    tool = os.environ.get('OBJDUMP') or 'objdump'
    try:
        text = subprocess.run([tool, '-d', '--no-show-raw-insn', PROGRAM], stdout=subprocess.PIPE, check=True, text=True).stdout
    except FileNotFoundError:
        sys.exit(f'no_division: {tool} is missing; install it (Debian: binutils), or name one in OBJDUMP')
    count, function, found = 0, '', []
    for line in text.split('\n'):
        head = re.match(r'[0-9a-f]+ <(.+)>:', line)
        function = head.group(1) if head else function
        said = re.match(r'\s+[0-9a-f]+:\s+(\w+)\s*(\S*)', line)
        if said:
            count += 1
            if DIVISION.match(said.group(1)) or said.group(1).startswith('imul') and ',' not in said.group(2):
                found.append((function, said.group(1)))
    if count < 1000:
        sys.exit(f'no_division: {tool} reads {count} instructions in target/run/programs, which has thousands; is it an objdump for x86-64?')
    return count, found


def built():
    count, found = divisions()
    drawn = [f for f in found if DRAWS.match(f[0]) and 'div' in f[1]]
    wrong = [f'{function}: {said}' for function, said in found if (function, said) not in drawn]
    if wrong:
        sys.exit('no_division: the machine code of walk, draw, judge, salvage and show divides:\n' + '\n'.join(wrong))
    print(f'no_division: the program that is walk, draw, judge, salvage and show has {count} instructions and no division but the {len(drawn)} of the draws')


def main():
    if sys.argv[1:] not in ([], ['--built']):
        sys.exit(__doc__)
    if sys.argv[1:]:
        built()
    else:
        sources()


main()
