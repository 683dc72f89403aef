#!/usr/bin/env python3
"""cc_cases.py [NAME ..]: the programs of checks/cc/cases, each run by ./mx c as its line of cases.txt says, and compared with the
same program under qemu-mips or with what was worked out by hand. It needs what checks/cc.sh needs."""
import os
import subprocess
import sys
import tempfile

from common import wrong_arguments
from cprograms import GCC, TOP

FOLDER = f'{TOP}/checks/cc/cases'
LEVELS = ['-O0', '-O2']


def run(words, folder):
    done = subprocess.run(words, cwd=folder, capture_output=True, stdin=subprocess.DEVNULL, timeout=600)
    return done.stdout, done.returncode, done.stderr.decode(errors='replace').splitlines()


def native(files, options, words, work):
    """What the program prints under qemu-mips, and its status."""
    program = f'{work}/native'
    subprocess.run([GCC, '-static', '-O1', '-w', *options, *files, '-o', program, '-lm'], cwd=FOLDER, check=True)
    return run(['qemu-mips', program, *words], FOLDER)[:2]


def stored(name):
    path = f'{FOLDER}/{name}.out'
    if not os.path.exists(path):
        return b''
    with open(path, 'rb') as file:
        return file.read()


def try_case(line, work):
    """What is wrong with a case, and how many runs it took."""
    kind, files, options, words, *rest = [part.strip() for part in line.split('|')]
    files, options, words = files.split(), options.split(), words.split()
    if kind == 'native':
        wanted, message = native(files, options, words, work), ''
    else:
        wanted, message = (stored(files[0][:-2]), int(rest[0])), rest[1] if len(rest) > 1 else ''
    levels = [[]] if any(it.startswith('-O') for it in options) else [[level] for level in LEVELS]
    wrong = []
    for level in levels:
        out, status, said = run([f'{TOP}/mx', 'c', *level, *options, *files, '--', *words], FOLDER)
        if (out, status) != wanted:
            wrong.append(f'{" ".join(level)} status {status} and {out!r}, expected {wanted[1]} and {wanted[0]!r}; {said[:2]}')
        elif message and message not in said:
            wrong.append(f'{" ".join(level)} said {said!r}, expected {message!r}')
    return wrong, len(levels)


def main():
    with open(f'{FOLDER}/cases.txt', encoding='utf-8') as file:
        lines = [line.rstrip('\n') for line in file if line.strip() and not line.startswith('#')]
    names = {line.split('|')[1].split()[0][:-2] for line in lines}
    unknown = [it for it in sys.argv[1:] if it not in names]
    if unknown:
        wrong_arguments(f'cases.txt has no case {", ".join(unknown)}')
    tried, failures = 0, 0
    with tempfile.TemporaryDirectory() as work:
        for line in lines:
            if len(sys.argv) > 1 and line.split('|')[1].split()[0][:-2] not in sys.argv[1:]:
                continue
            wrong, runs = try_case(line, work)
            tried += runs
            failures += bool(wrong)
            for it in wrong:
                print(f'FAILED: {line.split("|")[1].strip()}: {it}')
    print(f'cases of C: compared {tried} runs, of which {failures} cases failed' if failures else f'cases of C: compared {tried} runs')
    return 1 if failures or not tried else 0


if __name__ == '__main__':
    sys.exit(main())
