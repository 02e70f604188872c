#!/usr/bin/env python3
"""Builds every static library of crates.txt, crates/NAME/out/libNAME.a, over what `rt ci` has just proved.

    python3 tools/libraries.py        # in the gate, behind rt ci

`rt lib` is how anybody else builds one. It takes nothing of `rt ci`, though: of a clean clone it proves all again that a library builds on. But `rt ci` leaves in
crates/NAME/out/rlib what it proved of each crate, and the toolchain's compiler can build over that: it proves the library's own crate, as it always does. Where that
does not succeed (an earlier `rt lib` of this clone has left other files there, say), `rt lib` does it.
"""
import concurrent.futures
import os
import pathlib
import re
import shutil
import subprocess
import sys

ROOT = pathlib.Path(__file__).resolve().parent.parent
KIT = pathlib.Path(shutil.which('rt') or sys.exit('tools/libraries.py: no command rt')).resolve().parent.parent


def listed():
    """Of each crate of crates.txt what it uses, and which are static libraries."""
    rows = re.findall(r'^(\w+)( staticlib)?[^:#\n]*:([^#\n]*)', (ROOT / 'crates.txt').read_text(), re.M)
    return {name: uses.split() for name, _, uses in rows}, [name for name, static, _ in rows if static]


def below(name, uses):
    """The crates of ours that a crate builds on."""
    found = {}
    for dep in uses[name]:
        if dep in uses:
            found.update({**below(dep, uses), dep: None})
    return found


def built(name, uses):
    """What the compiler says where it does not build the library over what rt ci proved, or nothing."""
    made = {dep: ROOT / 'crates' / dep / 'out' / 'rlib' / f'{dep}.rlib' for dep in below(name, uses)}
    words = ['--crate-name', name, 'src/lib.rt', '--crate-type', 'staticlib', '-L', f'dependency={KIT}/rlibs', '--links', f'{name}=']
    for dep in dict.fromkeys(['std', *uses[name]]):
        words += ['--extern', f'{dep}={made.get(dep, KIT / "rlibs" / f"{dep}.rlib")}']
    for rlib in made.values():
        words += ['-L', f'dependency={rlib.parent}']
    words += ['--antt-project', f'{KIT}/rattle/logic/antt-project.json', '--logic-built', f'{KIT}/logic_built', '--jobs', '1']
    words += ['--toolchain', f'{KIT}/toolchain', '--backend', 'llvm', '-o', f'out/lib{name}.a']
    folder = ROOT / 'crates' / name
    (folder / 'out').mkdir(exist_ok=True)
    (folder / 'out' / f'lib{name}.a').unlink(missing_ok=True)
    ended = subprocess.run([KIT / 'bin' / 'rattle', 'build', *words], cwd=folder, stdin=subprocess.DEVNULL, stdout=subprocess.PIPE, stderr=subprocess.STDOUT,
                           check=False, text=True, errors='replace')
    return ended.stdout if ended.returncode else None


def main():
    uses, libraries = listed()
    # each takes one processor, and up to 2 GB
    memory = os.sysconf('SC_PAGE_SIZE') * os.sysconf('SC_PHYS_PAGES') // 2_000_000_000
    with concurrent.futures.ThreadPoolExecutor(max(1, min(len(os.sched_getaffinity(0)), memory))) as pool:
        said = dict(zip(libraries, pool.map(lambda name: built(name, uses), libraries)))
    by_rt = [name for name in libraries if said[name] is not None]
    for name in by_rt:
        ended = subprocess.run(['rt', 'lib'], cwd=ROOT / 'crates' / name, stdin=subprocess.DEVNULL, stdout=subprocess.PIPE, stderr=subprocess.STDOUT, check=False, text=True, errors='replace')
        if ended.returncode:
            print(ended.stdout[-2000:], file=sys.stderr)
            print(f'tools/libraries.py: {name} was not built: rt lib says why above', file=sys.stderr)
            return 1
    print(f'libraries: {", ".join(libraries)}' + (f'; by rt lib, and not over what rt ci proved: {", ".join(by_rt)}' if by_rt else ', over what rt ci proved'))
    return 0


sys.exit(main())
