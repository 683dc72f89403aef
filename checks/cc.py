#!/usr/bin/env python3
"""cc.py [DRAWN] [NAME ..]: what checks/cc.sh does, which has its head comment."""
import multiprocessing
import os
import sys
import tempfile

import cprograms
import drawn as drawing
from cprograms import LEVELS, TOP, Fault

SEEDS = 8                       # inputs of each test of checks/cc
libraries = {}                  # the library's assembly, by its level


def read(path):
    if not path:
        return b''
    with open(path, 'rb') as file:
        return file.read()


def try_at(folder, name, source, level, given, wanted, more=()):
    """One program at one level."""
    base = f'{folder}/{name}.{level}'
    cprograms.compile_to(source, level, f'{base}.s', more)
    cprograms.translate([f'{base}.s', *libraries[level]], f'{base}.mx')
    steps, cycles = cprograms.try_source(f'{base}.mx', given, wanted, f'{name} {level}')
    for end in ('.s', '.mx', '.mx.interrupts'):
        os.remove(base + end)
    return f'-O{level} {steps} in {cycles}'


def answer_of(source, native, given):
    """What the native program prints, and its status; and where the host's answer is stored, whether it is the same."""
    wanted = cprograms.run_native(native, read(given))
    stored = f'{source[:-2]}.out'
    if os.path.exists(stored) and wanted != (read(stored), 0):
        raise Fault(f'{os.path.basename(stored)}: another answer than that of qemu-mips')
    return wanted


def try_example(job):
    """An example at all levels; a line of what it took."""
    folder, name, source, inputs = job
    native, told, is_good = f'{folder}/{name}.native', [], True
    try:
        cprograms.compile_native(source, native)
    except Fault as fault:
        return False, f'FAILED: {name}: {fault}'
    for given in inputs:
        for level in LEVELS if given == inputs[0] else LEVELS[2:3]:
            try:
                told.append(try_at(folder, name, source, level, given, answer_of(source, native, given)))
            except Fault as fault:
                is_good = False
                told.append(f'-O{level} {fault}')
    os.remove(native)
    return is_good, f'{"ok" if is_good else "FAILED"}: {name}: {", ".join(told)}'


def try_drawn(job):
    """A random program, at a level that goes round with its seed."""
    folder, seed, is_own = job
    level, name = LEVELS[seed % len(LEVELS)], f'{"random_c" if is_own else "csmith"} {seed}'
    base = f'{folder}/drawn{seed}'
    try:
        _, more = drawing.draw(seed, is_own, folder)
        cprograms.compile_native(f'{base}.c', f'{base}.native', more)
        wanted = cprograms.run_native(f'{base}.native', b'', 3)
        told = try_at(folder, f'drawn{seed}', f'{base}.c', level, None, wanted, more)
    except Fault as fault:
        return None if fault.is_passed_over else False, f'{"passed over" if fault.is_passed_over else "FAILED"}: {name}: -O{level} {fault}'
    os.remove(f'{base}.c')
    os.remove(f'{base}.native')
    return True, f'ok: {name}: {told}'


def examples(folder, names):
    """The examples with their inputs, and the tests with numbers as theirs; those of the library's names read none."""
    jobs = []
    for place in (f'{TOP}/examples/c', f'{TOP}/checks/cc'):
        for file in sorted(os.listdir(place)):
            name = file[:-2]
            if not file.endswith('.c') or names and name not in names:
                continue
            inputs = [f'{place}/{name}.in' if os.path.exists(f'{place}/{name}.in') else None]
            if place.endswith('checks/cc') and not name.startswith('names_'):
                inputs = [f'{folder}/{seed}' for seed in range(SEEDS)]
            label = f'test_{name}' if place.endswith('checks/cc') else name
            jobs.append((folder, label, f'{place}/{file}', inputs))
    return jobs


def try_all(pool, folder, drawn, names):
    failures, compared = 0, drawn
    for is_good, line in pool.imap_unordered(try_example, examples(folder, names)):
        print(line, flush=True)
        failures += not is_good
        compared += 1
    same, over, missing = 0, 0, drawing.what_is_missing()
    if drawn and missing:
        print(f'{missing}; programs of checks/random_c.py are drawn instead')
    for is_good, line in pool.imap_unordered(try_drawn, ((folder, seed, bool(missing)) for seed in range(1, drawn + 1))):
        print(line, flush=True)
        same += is_good is True
        over += is_good is None
    if drawn:
        print(f'{"random_c" if missing else "csmith"}: {drawn} programs drawn, {same} the same, {over} passed over, {drawn - same - over} not')
    return failures + drawn - same - over, compared - over


def main():
    words = sys.argv[1:]
    drawn = int(words.pop(0)) if words and words[0].isdigit() else 100
    known = {name[:-2] for place in (f'{TOP}/examples/c', f'{TOP}/checks/cc') for name in os.listdir(place) if name.endswith('.c')}
    unknown = [it for it in words if it not in known]
    if unknown:
        print(f'cc.sh: no example {", ".join(unknown)}', file=sys.stderr)
        return 2
    with tempfile.TemporaryDirectory() as folder:
        for level in LEVELS:
            libraries[level] = cprograms.compile_library(level, f'{folder}/library{level}')
        for seed in range(SEEDS):
            with open(f'{folder}/{seed}', 'w') as file:
                file.write(f'{seed * 7919 + 1}\n')
        with multiprocessing.Pool(int(os.environ.get('CC_JOBS', '2'))) as pool:
            failures, compared = try_all(pool, folder, drawn, words)
    print(f'C programs: compared {compared} programs, of which {failures} failed' if failures else f'C programs: compared {compared} programs')
    return 1 if failures or not compared else 0


if __name__ == '__main__':
    sys.exit(main())
