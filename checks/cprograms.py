"""C programs: compiled by gcc, translated, and run; and natively under qemu-mips. For checks/cc.py and checks/study.py."""
import os
import random
import re
import shlex
import subprocess

TOP = os.path.dirname(os.path.dirname(os.path.abspath(__file__)))
LIBRARY = f'{TOP}/lib'
GCC = 'mips-linux-gnu-gcc'
LEVELS = ['0', '1', '2', '3', 's']
BUDGET = 100_000_000            # the most that `run` takes
INTERRUPTS = 200
RUN = os.environ.get('MX_RUN', f'{TOP}/crates/mx_run/out/mx_run')
CC = shlex.split(os.environ.get('MX_CC', f'{TOP}/crates/mx_cc/out/mx_cc'))
LAB = os.environ.get('MX_LAB', f'{TOP}/crates/mx_lab/out/mx_lab')


class Fault(Exception):
    """What a program did not come through, and whether it is no fault of ours."""

    def __init__(self, text, is_passed_over=False):
        super().__init__(text)
        self.is_passed_over = is_passed_over


def flags():
    with open(f'{LIBRARY}/flags') as file:
        return file.read().split()


def shell(words, seconds=300, **more):
    try:
        return subprocess.run(words, capture_output=True, timeout=seconds, **more)
    except subprocess.TimeoutExpired:
        raise Fault(f'{os.path.basename(words[0])} runs for more than {seconds} seconds', True)


def compile_to(source, level, to, more=()):
    """The assembly of a C file."""
    words = [GCC, '-S', *flags(), '-nostdinc', '-isystem', f'{LIBRARY}/include', f'-O{level}', '-w', *more, source, '-o', to]
    done = shell(words)
    if done.returncode:
        raise Fault(f'gcc: {done.stderr.decode()[:300]}')


def compile_library(_level=None, _folder=None):
    """The assembly of the library, which ./mx cc compiles once, at -O2, for programs of any level."""
    done = shell([f'{TOP}/tools/cc.sh', TOP, 'library'])
    if done.returncode:
        raise Fault(f'the library: {done.stderr.decode()[:300]}')
    folder = done.stdout.decode().rstrip('\n')
    return [f'{folder}/{name}' for name in sorted(os.listdir(folder)) if name.endswith('.s')]


def translate(files, to):
    done = shell([*CC, *files, '-o', to])
    if done.returncode:
        text = (done.stderr + done.stdout).decode(errors='replace').strip()
        raise Fault(f'not translated: {text[:300]}', bool(re.search('more than|statements|words|leave no', text)))


def compile_native(source, to, more=()):
    done = shell([GCC, '-static', '-O1', '-ffp-contract=off', '-w', *more, source, '-o', to, '-lm', '-latomic'])
    if done.returncode:
        raise Fault(f'gcc: {done.stderr.decode()[:300]}')


def run_native(program, given, seconds=20):
    """Its output and its status."""
    done = shell(['qemu-mips', program], seconds, input=given)
    if done.returncode < 0:
        raise Fault('the native program is ended by a signal', True)
    return done.stdout, done.returncode


def report(words):
    """What the simulator tells: the lines before the console and behind it as a table, and the console."""
    done = shell(words)
    text = done.stdout
    found = re.search(rb'^console (\d+)\n', text, re.M)
    if not found:
        first = text.split(b'\n', 1)[0].decode(errors='replace') or f'status {done.returncode}'
        raise Fault(first, first.endswith('TooManyInstructions'))
    end = found.end() + int(found.group(1))
    counts = {'end': text.split(b'\n', 1)[0].decode()}
    for line in (text[:found.start()] + text[end:]).decode(errors='replace').split('\n'):
        name, _, value = line.partition(' ')
        counts[name] = value
    return counts, text[found.end():end]


def compare(what, words, wanted):
    """Runs the simulator, and compares the console and the status with those of the native program."""
    counts, console = report(words)
    if counts['end'] in ('running', 'out of budget'):
        raise Fault(f'{what}: more than {BUDGET} steps', True)
    if counts['end'] != 'halted':
        raise Fault(f'{what}: {counts["end"]}')
    if console != wanted[0]:
        at = next((i for i, (a, b) in enumerate(zip(console, wanted[0])) if a != b), min(len(console), len(wanted[0])))
        raise Fault(f'{what}: byte {at} of the console: {console[at:at + 40]!r}, natively {wanted[0][at:at + 40]!r}')
    if int(counts['r2'], 16) & 255 != wanted[1]:
        raise Fault(f'{what}: status {counts["r2"]}, natively {wanted[1]}')
    return counts


def draw_interrupts(path, cycles, seed):
    draw = random.Random(seed)
    some = sorted(draw.sample(range(1, max(cycles, 2 * INTERRUPTS)), INTERRUPTS))
    with open(path, 'w') as file:
        file.write(''.join(f'{cycle}\n' for cycle in some))


def try_source(source, given, wanted, seed):
    """The meaning, the run, and the run under interrupts of a translated program; answers its steps and its cycles."""
    words = ['--input', given] if given else []
    steps = compare('meaning', [RUN, 'meaning', source, '--steps', str(BUDGET), *words], wanted)['steps']
    cycles = compare('run', [RUN, 'run', source, '--budget', str(BUDGET), *words], wanted)['cycles']
    interrupts = f'{source}.interrupts'
    draw_interrupts(interrupts, int(cycles), seed)
    counts = compare('run under interrupts', [RUN, 'run', source, '--budget', str(BUDGET), '--interrupts', interrupts, *words], wanted)
    if int(counts['interrupts']) == 0:
        raise Fault('no interrupt was taken')
    return int(steps), int(cycles)
