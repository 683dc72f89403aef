#!/usr/bin/env python3
"""The study of docs/STUDY.md: what the reorganizer makes of the examples of examples/c at -O2, and what gcc's own filler leaves of the same C.

usage: checks/study.py [--compare [NAME ..] | --text]

It writes docs/study.csv, the counts of each example, and from these alone docs/STUDY.md and docs/study.svg; with --text only the last two.
With --compare it writes nothing: the page and the chart have to be what the counts give, each sentence about a difference has to be one
whose 95% interval leaves out 0, and the counts of these examples have to be those that the programs give anew. It takes the programs that
checks/cc.sh takes, by MX_RUN, MX_CC and MX_LAB (the program of `compare` and `profile`).
"""
import csv
import json
import os
import re
import shutil
import sys
import tempfile

import common
import cprograms
from common import tell
from cprograms import BUDGET, GCC, LAB, LIBRARY, RUN, TOP, Fault

sys.path.insert(0, f'{TOP}/python')
from zanderanvil import Case, Evaluation, evaluate, spread  # noqa: E402

LEVEL = '2'
PLANS = ['padded', 'list', 'copies', 'best']
OF_PLAN = ['words', 'cycles', 'fetches', 'misses', 'squashes']
FIGURES = ['cycles', 'fetches', 'misses']
TRANSFERS = {'beq', 'bne', 'blt', 'bge', 'blo', 'bhs', 'bgt', 'ble', 'bhi', 'blos', 'b', 'call', 'callr', 'jr'}
FILLER = '-fdelayed-branch'
SLOTS = 2                       # after each transfer
MIPS_TRANSFERS = re.compile(r'^(b(?!reak)\w*|j|jr|jal|jalr)$')
MIPS_LOADS = re.compile(r'^l(b|bu|h|hu|w|wl|wr)$')
# What is counted of an example, as docs/study.csv names it.
STATIC = ['words', 'no-ops', 'own words', 'own no-ops', 'slots', 'slots before', 'slots target', 'loads', 'loads filled']
OF_GCC = ['gcc slots', 'gcc slots filled', 'gcc loads', 'gcc loads filled']
TURNS = ['statements', 'no-op turns', 'squashed turns', 'stalled cycles', 'slot turns before', 'slot turns target', 'slot turns squashed',
         'slot turns empty']
OWNERS = ['own cycles', 'routine cycles', 'library cycles']
COLUMNS = ['program', *STATIC, *OF_GCC, *TURNS, *OWNERS, *(f'{plan} {figure}' for plan in PLANS for figure in OF_PLAN)]


def text_of(words):
    done = cprograms.shell(words)
    return done.stdout.decode(errors='replace')


def group_of(label, own, group):
    """Whose the statements after a label are, if those before it are of `group`: of the example's own functions, of the
    translator's routines for products, quotients and shifts, or of the library."""
    if re.match(r'(L\w*\.\d+|s\.\d+|_\.s.*)$', label):
        return group            # within a function
    return 'own' if label.split('..')[0] in own else 'routines' if label.startswith('m.') else 'library'


def statements_of(source, own):
    """The mnemonic of each line of a source, and whether it is of one of the example's own functions."""
    found, group = {}, 'library'
    with open(source) as file:
        for number, line in enumerate(file, 1):
            line = line.split(';')[0]
            for label in re.findall(r'([\w.]+):', line):
                group = group_of(label, own, group)
            rest = re.sub(r'^\s*([\w.]+:\s*)*', '', line).split()
            if rest:
                found[str(number)] = rest[0].lower(), group == 'own'
    return found


def count_slots(source, own):
    """What the example's own functions hold, and what is in their slots, by the listing."""
    counts = dict.fromkeys(['own words', 'own no-ops', 'slots', 'slots before', 'slots target', 'loads', 'loads filled'], 0)
    statements = statements_of(source, own)
    kinds = [line.split()[2] for line in text_of([RUN, 'list', source]).split('\n')
             if re.match(r'[0-9a-f]{8} [0-9a-f]{8} (\+?\d+|-)$', line)]
    was_own = False
    for i, kind in enumerate(kinds):
        mnemonic, is_own = statements.get(kind, ('', was_own))
        was_own = is_own
        if not is_own:
            continue
        counts['own words'] += 1
        counts['own no-ops'] += kind == '-'
        if mnemonic in TRANSFERS:
            for slot in kinds[i + 1:i + 1 + SLOTS]:
                counts['slots'] += 1
                counts['slots target'] += slot.startswith('+')
                counts['slots before'] += slot != '-' and not slot.startswith('+')
        elif mnemonic == 'ld' and i + 1 < len(kinds):
            counts['loads'] += 1
            counts['loads filled'] += kinds[i + 1] != '-'
    return counts


def count_turns(profile, words, own):
    """What the turns of the run were spent on, what was in slots then, and whose the cycles were."""
    counts, group = dict.fromkeys([*TURNS, *OWNERS], 0), 'library'
    for row in profile['rows']:
        group = group_of(row['name'], own, group)
        counts[f"{'routine' if group == 'routines' else group} cycles"] += row['cycles']
    for row in [*profile['rows'], profile['handler'], profile['behind']]:
        for name, column in zip(TURNS, ('count', 'noops', 'squashed', 'stalls')):
            counts[name] += row[column]
    slots = {it['address'] for it in words if it['place']['slot']}
    for word in profile['words']:
        if word['address'] in slots:
            counts['slot turns ' + {'own': 'before', 'copy': 'target', 'noop': 'empty'}[word['kind']]] += word['executed']
            counts['slot turns squashed'] += word['squashed']
    return counts


def count_plans(source, given):
    """The figures of each scheduler."""
    with open(source, 'rb') as file:
        text = file.read()
    data = None
    if given:
        with open(given, 'rb') as file:
            data = file.read()
    counts = {}
    for record in evaluate(LAB, PLANS, {'source': Case('source', text, input=data, budget=BUDGET)}).records:
        if not record.get('halted'):
            raise Fault(f"{record['scheduler']}: {record.get('refused', 'does not halt')}")
        counts.update({f"{record['scheduler']} {figure}": record[figure] for figure in OF_PLAN})
        if record['scheduler'] == 'copies':
            counts.update({'words': record['words'], 'no-ops': record['noops']})
    return counts


def functions_of(assembly):
    """The names of the functions of an assembly file."""
    with open(assembly) as file:
        return set(re.findall(r'^\s*\.ent\s+([\w.]+)', file.read(), re.M))


def count_disassembly(path):
    """Places after branches and loads of an object file, and those with a no-op, as the assembler leaves them."""
    counts = {'branch': 0, 'branch empty': 0, 'load': 0, 'load empty': 0}
    for part in re.split(r'\n(?=[0-9a-f]{8} <)', text_of(['mips-linux-gnu-objdump', '-d', '--no-show-raw-insn', '-z', path])):
        words = [line.split('\t')[1].strip() for line in part.split('\n')[1:] if line.count('\t')]
        count_function(counts, [word.split()[0] for word in words if word])
    return counts


def count_function(counts, words):
    while words and words[-1] == 'nop' and not (len(words) > 1 and MIPS_TRANSFERS.match(words[-2])):
        words.pop()             # up to the alignment of the next function
    for word, after in zip(words, words[1:]):
        for what, kinds in (('branch', MIPS_TRANSFERS), ('load', MIPS_LOADS)):
            if kinds.match(word):
                counts[what] += 1
                counts[f'{what} empty'] += after == 'nop'


def compile_object(folder, source):
    """The same C by gcc for MIPS-I, with its own filler."""
    flags = [flag for flag in cprograms.flags() if flag != '-fno-delayed-branch'] + [FILLER]
    path = f'{folder}/own.o'
    done = cprograms.shell([GCC, '-c', *flags, '-nostdinc', '-isystem', f'{LIBRARY}/include', f'-O{LEVEL}', '-w', source, '-o', path])
    if done.returncode:
        raise Fault(done.stderr.decode())
    return path


def study_example(folder, name, library):
    """The counts of one example, by COLUMNS."""
    source, given = f'{TOP}/examples/c/{name}.c', f'{TOP}/examples/c/{name}.in'
    given = given if os.path.exists(given) else None
    assembly, translated = f'{folder}/{name}.s', f'{folder}/{name}.mx'
    cprograms.compile_to(source, LEVEL, assembly)
    cprograms.translate([assembly, *library], translated)
    own = {f'_{function}' for function in functions_of(assembly)}
    words = ['--as', 'json', '--budget', str(BUDGET), *(['--input', given] if given else [])]
    profile = json.loads(text_of([LAB, 'profile', translated, '--by', 'label', *words]))
    places = json.loads(text_of([LAB, 'disassemble', translated, '--as', 'json']))['words']
    gcc = count_disassembly(compile_object(folder, source))
    filled = [gcc[what] - gcc[f'{what} empty'] for what in ('branch', 'load')]
    counts = {**count_slots(translated, own), **count_turns(profile, places, own), **count_plans(translated, given),
              **dict(zip(OF_GCC, (gcc['branch'], filled[0], gcc['load'], filled[1])))}
    return {'program': name, **{column: counts[column] for column in COLUMNS[1:]}}


def measure(names):
    """The counts of examples."""
    with tempfile.TemporaryDirectory() as folder:
        library = cprograms.compile_library(LEVEL, f'{folder}/library')
        return [study_example(folder, name, library) for name in names]


def examples():
    return [file[:-2] for file in sorted(os.listdir(f'{TOP}/examples/c')) if file.endswith('.c')]


def percent(part, whole):
    return 100 * part / whole if whole else 0


def shares(row):
    """Where the cycles of the run go, in per cent: statements, no-ops, squashed words, waiting for the cache."""
    return [percent(row[column], row['copies cycles']) for column in TURNS[:4]]


COLOURS = ['#4c78a8', '#bab0ac', '#e45756', '#f2cf5b']
PARTS = ['statements', 'no-ops', 'squashed words', 'waiting for the cache']


def chart(rows):
    """A bar an example: where its cycles go."""
    high, left, width, top = 18, 90, 620, 46
    height = top + high * len(rows) + 30
    out = [f'<svg xmlns="http://www.w3.org/2000/svg" width="{left + width + 40}" height="{height}" font-family="sans-serif" font-size="11">',
           '<rect width="100%" height="100%" fill="#ffffff"/>',
           f'<text x="{left}" y="16" font-size="13">Cycles of each example at -O2, in per cent</text>']
    x = left
    for colour, part in zip(COLOURS, PARTS):
        out += [f'<rect x="{x}" y="24" width="10" height="10" fill="{colour}"/>', f'<text x="{x + 14}" y="33">{part}</text>']
        x += 30 + 7 * len(part)
    for i, row in enumerate(rows):
        y, x = top + high * i, left
        out.append(f'<text x="{left - 6}" y="{y + 12}" text-anchor="end">{row["program"]}</text>')
        for colour, share in zip(COLOURS, shares(row)):
            part = share * width / 100
            out.append(f'<rect x="{x:.1f}" y="{y + 2}" width="{part:.1f}" height="{high - 4}" fill="{colour}"/>')
            x += part
    for tick in range(0, 101, 20):
        x = left + tick * width / 100
        out += [f'<line x1="{x}" y1="{top}" x2="{x}" y2="{height - 24}" stroke="#999999" stroke-width="0.5"/>',
                f'<text x="{x}" y="{height - 10}" text-anchor="middle">{tick}</text>']
    return '\n'.join([*out, '</svg>']) + '\n'



def evaluation(rows):
    """The records of all schedulers, as `evaluate` gives them."""
    records = []
    for row in rows:
        for plan in PLANS:
            figures = {figure: row[f'{plan} {figure}'] for figure in OF_PLAN}
            records.append({'source': row['program'], 'scheduler': plan, 'halted': True, **figures})
    return Evaluation(records)


def cell(it):
    """A difference of schedulers: its mean with the interval, the standard deviation, and how many programs have less, the same, more."""
    return f'{it.mean:.2f} ± {it.high - it.mean:.2f}, {it.deviation:.2f}, {it.less}/{it.same}/{it.more}'


def differences(found):
    """The lines of the table of differences: each pair of schedulers, each figure."""
    pairs = (('list', 'padded'), ('copies', 'list'), ('best', 'copies'))
    return [f"| {first} against {second} | {' | '.join(cell(found.difference(first, second, figure)) for figure in FIGURES)} |"
            for first, second in pairs]


SHARES = {
    'slots from before': lambda row: percent(row['slots before'], row['slots']),
    'slots from target': lambda row: percent(row['slots target'], row['slots']),
    'slots filled': lambda row: percent(row['slots before'] + row['slots target'], row['slots']),
    'slots by gcc': lambda row: percent(row['gcc slots filled'], row['gcc slots']),
    'loads filled': lambda row: percent(row['loads filled'], row['loads']),
    'loads by gcc': lambda row: percent(row['gcc loads filled'], row['gcc loads']),
    'slot turns before': lambda row: percent(row['slot turns before'], slot_turns(row)),
    'slot turns target': lambda row: percent(row['slot turns target'], slot_turns(row)),
    'slot turns squashed': lambda row: percent(row['slot turns squashed'], slot_turns(row)),
    'slot turns empty': lambda row: percent(row['slot turns empty'], slot_turns(row)),
    'cycles: statements': lambda row: shares(row)[0],
    'cycles: no-ops': lambda row: shares(row)[1],
    'cycles: squashed': lambda row: shares(row)[2],
    'cycles: misses': lambda row: shares(row)[3],
    'cycles: own functions': lambda row: percent(row['own cycles'], row['copies cycles']),
    'cycles: arithmetic routines': lambda row: percent(row['routine cycles'], row['copies cycles']),
    'cycles: library': lambda row: percent(row['library cycles'], row['copies cycles']),
}


def slot_turns(row):
    return sum(row[column] for column in TURNS if column.startswith('slot turns'))


def share_lines(rows):
    """The lines of the table of shares: the mean over the programs with its interval, and the standard deviation."""
    lines = []
    for name, share in SHARES.items():
        it = spread(share(row) for row in rows)
        lines.append(f'| {name} | {it.mean:.1f} ± {it.high - it.mean:.1f} | {it.deviation:.1f} |')
    return lines


def said(it, less, more, unit):
    """A sentence's end about a difference: by how much less or more, or that none is shown."""
    if not it.is_shown:
        return f'no difference is shown ({it.mean:.2f} ± {it.high - it.mean:.2f} {unit})'
    return f'{less if it.mean < 0 else more} {abs(it.mean):.2f} ± {it.high - it.mean:.2f} {unit}'


TEXT = """# What the reorganizer makes of compiled C

This page measures the {count} programs of `examples/c`, compiled by gcc at -O2, [translated](C.md), linked with the library, and run to their halt.
[checks/study.py](../checks/study.py) writes it from the counts in [study.csv](study.csv); [study.ipynb](study.ipynb) computes the first table.
Each mean has its 95 % interval over the programs, then the standard deviation. A difference is *shown* if its interval leaves out 0.

## Schedulers

Paired differences in per cent, with the number of programs that have less, the same, and more. A fetch takes one cycle, a miss two more.

| | Cycles | Fetches | Misses |
|---|---|---|---|
{differences}

- Compared with source order and no-ops, the list scheduler {list}. Copies from the target {copies}.
- Shortest plans for blocks of at most eight instructions, compared with `copies`: in cycles {best}; in fetches {best_fetches}; in misses {best_misses}.

## Slots and cycles

Means of shares in per cent, with `copies`. Slots and loads are those of a program's own functions, slot turns those that the run executed.

| Share | Mean | Deviation |
|---|---|---|
{shares}

- A transfer has two slots here, and one for gcc (MIPS-I, `-fdelayed-branch`). On the same C, of slots {slots}, and of loads {loads}.
- A statement takes {cycles} and {fetches}. Misses take from {least} to {most} of the cycles.

![Where the cycles of each example go](study.svg)
"""


def page(rows):
    """The text of docs/STUDY.md."""
    found, cut = evaluation(rows), {name: [share(row) for row in rows] for name, share in SHARES.items()}

    def apart(one, other):
        return spread(a - b for a, b in zip(cut[one], cut[other]))

    def each(values, unit):
        it = spread(values)
        return f'{it.mean:.2f} ± {it.high - it.mean:.2f} {unit} (deviation {it.deviation:.2f})'

    waits = dict(zip((row['program'] for row in rows), cut['cycles: misses']))
    least, most = min(waits, key=waits.get), max(waits, key=waits.get)
    fetched = [row['copies fetches'] / row['statements'] for row in rows]
    return TEXT.format(
        count=len(rows), differences='\n'.join(differences(found)), shares='\n'.join(share_lines(rows)),
        list=said(found.difference('list', 'padded'), 'saves', 'costs', '% of the cycles'),
        copies=said(found.difference('copies', 'list'), 'save another', 'cost', '%'),
        **{name: said(found.difference('best', 'copies', figure), 'they save', 'they cost', '%')
           for name, figure in (('best', 'cycles'), ('best_fetches', 'fetches'), ('best_misses', 'misses'))},
        slots=said(apart('slots filled', 'slots by gcc'), 'we fill fewer by', 'we fill more by', 'points'),
        loads=said(apart('loads filled', 'loads by gcc'), 'we fill fewer by', 'we fill more by', 'points'),
        cycles=each([row['copies cycles'] / row['statements'] for row in rows], 'cycles'), fetches=each(fetched, 'fetches'),
        least=f'{waits[least]:.1f} % ({least})', most=f'{waits[most]:.1f} % ({most})')


def write(path, text):
    with open(f'{TOP}/docs/{path}', 'w', newline='') as file:
        file.write(text)


def read_counts():
    """The rows of docs/study.csv."""
    with open(f'{TOP}/docs/study.csv', newline='') as file:
        rows = list(csv.DictReader(file))
    return [{name: value if name == 'program' else int(value) for name, value in row.items()} for row in rows]


def read(path):
    with open(f'{TOP}/docs/{path}', encoding='utf-8') as file:
        return file.read()


def compare(names):
    """Compares the page and the chart with the counts, and the counts with what the programs give."""
    rows = read_counts()
    tell('the counts have a row for each example', [row['program'] for row in rows] == examples() and list(rows[0]) == COLUMNS)
    tell('the page is what the counts give', read('STUDY.md') == page(rows), 'checks/study.py --text writes it', len(rows))
    tell('the chart is what the counts give', read('study.svg') == chart(rows), 'checks/study.py --text writes it')
    claims = re.findall(r'(no difference is shown \()?(-?[\d.]+) ± ([\d.]+)', ''.join(re.findall(r'^- .*$', read('STUDY.md'), re.M)))
    tell('the page says something', len(claims) > 5, str(claims))
    for none, mean, half in claims:
        is_shown = abs(float(mean)) > float(half)
        tell(f"{mean} ± {half}: {'no difference' if none else 'a claim'}", is_shown != bool(none), 'its interval says otherwise')
    missing = [tool for tool in (GCC, 'mips-linux-gnu-objdump') if shutil.which(tool) is None]
    if missing:
        print(f"skipped: {', '.join(missing)} is missing, so no example was measured")
    elif names:
        for row in measure(names):
            kept = next(it for it in rows if it['program'] == row['program'])
            other = [f'{name}: {row[name]}, not {kept[name]}' for name in COLUMNS if row[name] != kept[name]]
            tell(f"the counts of {row['program']}", not other, '; '.join(other), len(COLUMNS) - 1)
    return common.finish('study.py', 'counts and figures')


def main(words):
    if words[:1] == ['--compare']:
        unknown = [it for it in words[1:] if it not in [*examples(), 'all']]
        if unknown:
            common.wrong_arguments(f'there is no example {unknown[0]}')
        return compare(examples() if 'all' in words else words[1:])
    if words not in ([], ['--text']):
        common.wrong_arguments(f'unexpected argument {words[0]}')
    if not words:
        rows = measure(examples())
        with open(f'{TOP}/docs/study.csv', 'w', newline='') as file:
            csv.writer(file, lineterminator='\n').writerows([COLUMNS, *([row[name] for name in COLUMNS] for row in rows)])
    rows = read_counts()
    write('STUDY.md', page(rows))
    write('study.svg', chart(rows))
    return 0


if __name__ == '__main__':
    sys.exit(main(sys.argv[1:]))
