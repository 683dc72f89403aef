#!/usr/bin/env python3
"""c.py: what bench/c.sh does, which has its head comment."""
import os
import subprocess
import sys
import tempfile

BENCH = os.path.dirname(os.path.abspath(__file__))
sys.path.insert(0, f'{BENCH}/../checks')

import cprograms
from cprograms import BUDGET, CC, GCC, RUN, TOP, Fault

LEVEL = '2'
STATEMENTS = 19_500             # of the program whose translation is measured: near to what a source may have
MEASURED = 9                    # times
GUEST = '0x100000000'           # where the plugin looks for the program's memory

# Data and stack stand where a translation has them, and code behind them.
SCRIPT = """
ENTRY(__start)
SECTIONS {
    .data 0 : { . = 1024; *(.data .data.* .rodata .rodata.* .sdata .sdata.* .bss .bss.* .sbss .sbss.* COMMON)
              __init_array_start = .; *(.init_array .init_array.*) __init_array_end = .;
              __fini_array_start = .; *(.fini_array .fini_array.*) __fini_array_end = .; _end = .; . = 262144; _limit = .; }
    .text 0x400000 : { *(.text .text.*) }
    /DISCARD/ : { *(.reginfo .MIPS.abiflags .pdr .mdebug.* .comment .gnu.attributes .note.*) }
}
"""

START = """
	.text
	.globl	__start
__start:
	li	$sp,262080
	jal	_start
"""
END = '\tli\t$2,4001\n\tsyscall\n'  # the system's exit, in place of the `break` of _Exit, whose argument is in $4


def assemble(text, to):
    """An object file of assembly."""
    with open(f'{to}.s', 'w') as file:
        file.write(text.replace('\tbreak\t1023\n', END))
    done = cprograms.shell([GCC, '-c', *cprograms.flags(), f'{to}.s', '-o', to])
    if done.returncode:
        raise Fault(done.stderr.decode()[:300])
    return to


def objects_of(folder, files):
    objects = []
    for path in files:
        with open(path) as file:
            objects.append(assemble(file.read(), f'{folder}/{os.path.basename(path)[:-2]}.o'))
    return objects


def link(folder, objects, to):
    """A program for qemu-mips of the very assembly that is translated."""
    with open(f'{folder}/script', 'w') as file:
        file.write(SCRIPT)
    start = assemble(START, f'{folder}/entry.o')
    done = cprograms.shell(['mips-linux-gnu-ld', '-static', '--gc-sections', '-T', f'{folder}/script', start, *objects, '-o', to])
    if done.returncode:
        raise Fault(done.stderr.decode()[:300])


def count_mips(folder, program, given):
    """The console, and how many instructions qemu-mips executes: those that are no no-ops, and the no-ops."""
    more = f',input={given}' if given else ''
    done = cprograms.shell(['qemu-mips', '-B', GUEST, '-plugin', f'{folder}/count.so,counts={folder}/counts{more}', program])
    with open(f'{folder}/counts') as file:
        instructions, noops = map(int, file.read().split())
    return done.stdout, instructions, noops


def count_example(folder, name, library, objects):
    """An example's row: MIPS instructions, no-ops, statements."""
    source, given = f'{TOP}/examples/c/{name}.c', f'{TOP}/examples/c/{name}.in'
    given = given if os.path.exists(given) else None
    assembly, translated, program = f'{folder}/{name}.s', f'{folder}/{name}.mx', f'{folder}/{name}'
    cprograms.compile_to(source, LEVEL, assembly)
    cprograms.translate([assembly, *library], translated)
    link(folder, [*objects_of(folder, [assembly]), *objects], program)
    console, instructions, noops = count_mips(folder, program, given)
    counts, meant = cprograms.report([RUN, 'meaning', translated, '--steps', str(BUDGET), *(['--input', given] if given else [])])
    if counts['end'] != 'halted' or console != meant:
        raise Fault(f'{name}: another console under qemu-mips')
    return name, instructions, noops, int(counts['steps'])


def tell_counts(rows):
    print('| Program | MIPS instructions | no-ops | statements | statements an instruction |\n|---|---|---|---|---|')
    for name, instructions, noops, statements in rows:
        print(f'| {name} | {instructions:,} | {noops:,} | {statements:,} | {statements / instructions:.2f} |')
    ratios = sorted(statements / instructions for _, instructions, _, statements in rows)
    whole = [sum(row[i] for row in rows) for i in (1, 2, 3)]
    print(f'{len(rows)} examples: median {ratios[len(ratios) // 2]:.2f}, mean {sum(ratios) / len(ratios):.2f}, '
          f'together {whole[2] / whole[0]:.2f}, with no-ops counted as instructions {whole[2] / (whole[0] + whole[1]):.2f}')


def large_program(folder):
    """A program of many functions, whose translation has nearly as many statements as a source may have."""
    def text(count):
        functions = ''.join(
            f'int f{i}(int *a, int n) {{ int s = {i}; for (int k = 0; k < n; k++) {{ a[k] ^= s + k; s += a[k] >> 3; '
            f'if (s > {1000 + i}) s -= a[n - k - 1]; }} return s * 3; }}\n' for i in range(count))
        calls = ''.join(f's += f{i}(a, 40);' for i in range(count))
        return f'static int a[40];\n{functions}int main(void) {{ int s = 0; {calls} return s & 127; }}\n'

    count, path, to = 100, f'{folder}/large.s', f'{folder}/large.mx'
    for _ in range(2):          # the second time with the number of functions that the first one told
        with open(f'{folder}/large.c', 'w') as file:
            file.write(text(count))
        cprograms.compile_to(f'{folder}/large.c', LEVEL, path)
        cprograms.translate([path], to)
        with open(to) as file:
            before = file.read().split('.data')[0]
        statements = sum(line.startswith('        ') for line in before.split('\n'))
        count = count * STATEMENTS // statements
    return path, to, statements


def tell_translation(folder):
    path, to, statements = large_program(folder)
    seconds = []
    for _ in range(MEASURED):
        process = subprocess.Popen([*CC, path, '-o', to])
        _, _, used = os.wait4(process.pid, 0)
        seconds.append(used.ru_utime + used.ru_stime)
    # Not by wait4, whose memory takes in this program's own before the other is begun.
    kilobytes = int(cprograms.shell(['/usr/bin/time', '-f', '%M', *CC, path, '-o', to]).stderr)
    size = os.path.getsize(path)
    print(f'{statements} statements from {size} bytes of assembly: {sorted(seconds)[MEASURED // 2]:.3f} processor seconds (median of '
          f'{MEASURED}), {kilobytes} KB, {kilobytes * 1024 / size:.1f} times the text')


def main():
    with tempfile.TemporaryDirectory() as folder:
        done = cprograms.shell(['cc', '-O2', '-shared', '-fPIC', f'{BENCH}/mips_count.c', '-o', f'{folder}/count.so'])
        if done.returncode:
            raise Fault(done.stderr.decode())
        library = cprograms.compile_library(LEVEL, f'{folder}/library')
        objects = objects_of(folder, library)
        names = sys.argv[1:] or sorted(file[:-2] for file in os.listdir(f'{TOP}/examples/c') if file.endswith('.c'))
        tell_counts([count_example(folder, name, library, objects) for name in names])
        tell_translation(folder)
    return 0


if __name__ == '__main__':
    sys.exit(main())
