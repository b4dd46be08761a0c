#!/usr/bin/env python3
"""Writes docs/benchmarks.svg and the tables of docs/BENCHMARKS.md from what bench/run measured, on each sort of processor."""
import collections, os, textwrap
from xml.sax.saxutils import escape

HERE = os.path.dirname(os.path.abspath(__file__))
DOCS = os.path.join(HERE, '..', 'docs')

# The folders of what was measured, and what their processors are called here.
PROCESSORS = {'x86_64': 'x86-64', 'aarch64': 'Arm'}

# What is aimed at: of the Rust's time at most so much. A group of calls that is not named is reading; a sort of frames is a group of its own.
Aim = collections.namedtuple('Aim', 'what words part')
READING, LONG = Aim('reading', 'a quarter', 1 / 4), Aim('long texts', 'a fifth', 1 / 5)
AIMS = {'way for all': Aim('texts that go the way for all', 'half', 1 / 2), 'length': LONG, 'long': LONG,
        'write': Aim('writing', 'a quarter', 1 / 4), 'compare': Aim('comparing', 'its time', 1),
        'import': Aim('frames as an import file has them', 'a quarter', 1 / 4), 'many': Aim('odd frames', 'a third', 1 / 3)}

# A sort of frames that nothing is aimed at.
SORTED = 'sorted'

def aim(case):
    return AIMS.get(case[0], READING)

# ---- what was measured

Row = collections.namedtuple('Row', 'numbers date processor')
NOTHING = Row([None] * 3, '', '')

def measured(folder, name, words):
    """The rows of a file, in their order: of their first words to their numbers, of which '-' is None, their date and their processor. The file of
    the stack has a function's name behind its numbers."""
    path = os.path.join(HERE, 'measured', folder, name + '.tsv')
    if not os.path.exists(path):
        return {}
    with open(path) as f:
        rows = [line.rstrip('\n').split('\t') for line in f]
    numbers = lambda r: [None if x == '-' else float(x) for x in (r[words:-3] if name == 'stack' else r[words:-2])]
    return {tuple(r[:words]): Row(numbers(r), *r[-2:]) for r in rows}

def ratio(ours, theirs):
    return None if None in (ours, theirs) else ours / theirs

def part(sides):
    """The C call's part of the Rust's cost; the crate's where there is no C call."""
    return ratio(sides[0] if sides[0] is not None else sides[1], sides[2])

def cost(folder):
    """What the calls are told by: their times, or else their instructions."""
    return 'times' if measured(folder, 'times', 2) else 'counts'

def called(folder):
    """The name of a processor, and that it was not timed."""
    return PROCESSORS[folder] + {'times': '', 'counts': ', by instructions'}[cost(folder)]

# Up to this day all was measured with the toolchain before today's.
OLDER = '2026-11-18'

def days(folder, *files):
    """When they were measured, and whether with the toolchain before today's."""
    there = dict.fromkeys(row.date for name in files for row in measured(folder, name, 2).values())
    return '; '.join(f'{day}, older kit' if day <= OLDER else day for day in there)

def parts(folder):
    """Each case that the Rust has too and something is aimed at, a sort of frames among them, to the part of its cost."""
    there = {case: part(row.numbers) for case, row in measured(folder, cost(folder), 2).items()}
    frames = {}
    for (sort,), row in measured(folder, 'frames', 1).items():
        if sort == SORTED:
            continue
        rust, ours = row.numbers[:2] if cost(folder) == 'times' else row.numbers[2:]
        frames[sort, ''] = ratio(ours, rust)
    return {case: p for case, p in {**there, **frames}.items() if p is not None}

# ---- tables

def cell(x, form):
    return '' if x is None else format(x, form)

def table(head, rows, words=1):
    """A table, whose first columns are words."""
    lines = [head, ['---'] * words + ['---:'] * (len(head) - words - 1) + ['---']] + rows
    return ''.join('| ' + ' | '.join(line) + ' |\n' for line in lines)

def each(of):
    """What was measured on each processor, under its name, or that nothing was."""
    said = []
    for folder, name in PROCESSORS.items():
        text, rows = of(folder)
        names = ' and '.join(dict.fromkeys(row.processor for row in rows))
        said.append(f'**{name}**, {names}:\n\n{text}' if names else f'**{name}**: not measured yet.\n')
    return '\n'.join(said)

def cases(folder):
    """Each case with its times and its counts."""
    times, counts = measured(folder, 'times', 2), measured(folder, 'counts', 2)
    order = list(dict.fromkeys([case for of in sorted((times, counts), key=len, reverse=True) for case in of]))
    return {case: (times.get(case, NOTHING), counts.get(case, NOTHING)) for case in order}

def dates(times, counts):
    """One date, if both are of it."""
    if not counts.date or times.date == counts.date:
        return times.date
    return '; '.join(([f'times {times.date}'] if times.date else []) + [f'counts {counts.date}'])

def calls(folder):
    head = ['what', 'ns, C', 'crate', 'Rust', 'part', 'instructions, C', 'crate', 'Rust', 'part', 'date']
    rows, there = [], cases(folder)
    for case, (times, counts) in there.items():
        ns, n = times.numbers, counts.numbers
        rows.append([': '.join(case)] + [cell(x, ',.1f') for x in ns] + [cell(part(ns), '.2f')]
                    + [cell(x, ',.0f') for x in n] + [cell(part(n), '.2f'), dates(times, counts)])
    return table(head, rows), [row for pair in there.values() for row in pair if row.processor]

def others(folder):
    """Each reader beside the first of its text, which is this library's."""
    head = ['text', 'reader', 'ns', 'instructions', 'part', 'date']
    rows, first, there = [], {}, measured(folder, 'others', 2)
    for (text, reader), row in sorted(there.items(), key=lambda item: len(item[0][0])):
        ns, n = row.numbers
        of = n if cost(folder) == 'counts' else ns
        ours = first.setdefault(text, of)
        rows.append([f'`{text}`', reader, cell(ns, ',.1f'), cell(n, ',.0f'), cell(ratio(ours, of), '.2f'), row.date])
    return table(head, rows, 2), there.values()

def lengths(folder):
    """What a byte of a text costs, and a further one: the difference to the shorter text before it."""
    head = ['what', 'ns a byte, C', 'instructions a byte', 'a further byte', 'ns a byte, Rust', 'instructions a byte', 'a further byte', 'date']
    rows, before, there = [], (0, NOTHING.numbers), {case: both for case, both in cases(folder).items() if case[0] == 'length'}
    for case, (times, counts) in there.items():
        size, ns, n, cells = int(case[1].split()[0]), times.numbers, counts.numbers, []
        for side in (0, 2):
            known = None not in (n[side], before[1][side]) and size > before[0]
            further = (n[side] - before[1][side]) / (size - before[0]) if known else None
            cells += [cell(x and x / size, '.2f') for x in (ns[side], n[side])] + [cell(further, '.2f')]
        rows.append([case[1]] + cells + [dates(times, counts)])
        before = size, n
    return table(head, rows), [row for pair in there.values() for row in pair if row.processor]

def stack(folder):
    head = ['call', 'measured', 'by the machine code', 'largest frame', 'date']
    there = measured(folder, 'stack', 1)
    rows = [[f'`{name}`'] + [f'{x:,.0f}' for x in row.numbers] + [row.date] for (name,), row in there.items()]
    return table(head, rows), there.values()

def frames():
    """All processors in one table."""
    head = ['frames', 'machine', 'ns a frame, `dateframes`', 'Rust', 'part', 'instructions, `dateframes`', 'Rust', 'part', 'date']
    rows = []
    for folder, name in PROCESSORS.items():
        for case, row in measured(folder, 'frames', 1).items():
            cells = []
            for rust, ours in (row.numbers[:2], row.numbers[2:]):
                cells += [cell(ours, ',.0f'), cell(rust, ',.0f'), cell(ratio(ours, rust), '.2f')]
            what = 'the odd ones, by their bytes' if case == (SORTED,) else aim(case).what
            rows.append([what, f'{name}, {row.processor}'] + cells + [row.date])
    return table(head, rows, 2)

def aims():
    """How many rows meet what is aimed at, and those that do not."""
    there, rows, missed = {called(folder): parts(folder) for folder in PROCESSORS}, [], []
    for a in dict.fromkeys([READING, *AIMS.values()]):
        met = [[p <= a.part for case, p in of.items() if aim(case) == a] for of in there.values()]
        rows.append([a.what, a.words] + [f'{sum(m)} of {len(m)}' if m else 'not measured' for m in met])
    for folder, (name, of) in zip(PROCESSORS, there.items()):
        over = [f'{": ".join(case) if case[1] else aim(case).what} ({p:.3f})' for case, p in of.items() if p > aim(case).part]
        said = f'{name} ({days(folder, cost(folder), "frames")}): {len(over)} of {len(of)} rows miss their aim{": " if over else ""}{"; ".join(over)}.'
        missed.append(textwrap.fill(said, 120, break_on_hyphens=False, break_long_words=False) + '\n')
    lines = [['what', 'at most, of the Rust\'s time', *there], ['---', '---'] + ['---:'] * len(there)] + rows
    return ''.join('| ' + ' | '.join(line) + ' |\n' for line in lines) + '\n' + '\n'.join(missed)

# ---- the picture: a bar a case and processor, up to a little more than the Rust's time; what is longer is cut and has its number

LEFT, UNIT, MOST, TOP, BAR = 400, 400, 1.2, 90, 12

def colour(case, p):
    return '#2a7f4f' if p <= aim(case).part else '#4a78b0' if p <= 1 else '#c9722b'

def bar(y, case, p, lower):
    """A bar with its number. Those of the second processor are lighter."""
    width = min(p, MOST) * UNIT
    return (f'<rect x="{LEFT}" y="{y + 1}" width="{width:.1f}" height="{BAR - 2}" fill="{colour(case, p)}" opacity="{0.6 if lower else 1}"/>',
            f'<text x="{LEFT + width + 6:.1f}" y="{y + 10}" font-size="10" stroke="white" stroke-width="4" paint-order="stroke">'
            f'{p:.2f}{" →" if p > MOST else ""}</text>')

def mark(at, words, height):
    x = LEFT + at * UNIT
    return (f'<line x1="{x}" y1="{TOP - 8}" x2="{x}" y2="{height - 10}" stroke="#333" stroke-dasharray="4 3"/>'
            f'<text x="{x}" y="{TOP - 14}" text-anchor="middle">{words}</text>')

def picture():
    there = [{case: p for case, p in parts(folder).items() if case[1]} for folder in PROCESSORS]
    bars, words, y, last = [], [], TOP, None
    for case in dict.fromkeys([case for of in sorted(there, key=len, reverse=True) for case in of]):
        if case[0] != last:
            y, last = y + 8, case[0]
            words.append(f'<text x="8" y="{y + BAR + 4}" font-weight="bold">{escape(last)}</text>')
        words.append(f'<text x="{LEFT - 8}" y="{y + BAR + 4}" text-anchor="end">{escape(case[1])}</text>')
        for lower, of in enumerate(there):
            if case in of:
                shape, number = bar(y + lower * BAR, case, of[case], lower)
                bars.append(shape)
                words.append(number)
        y += 2 * BAR + 4
    width, height = LEFT + int(MOST * UNIT) + 70, y + 16
    upper, lower = (f'{called(folder)} ({days(folder, cost(folder))})' for folder in PROCESSORS)
    title = 'The time of this library, as a part of the Rust’s: shorter is faster'
    legend = [f'Upper bar {upper}, lower and lighter bar {lower}', 'Green meets its aim, blue is no slower than the Rust']
    lines = [f'<svg xmlns="http://www.w3.org/2000/svg" width="{width}" height="{height}" viewBox="0 0 {width} {height}" '
             'font-family="sans-serif" font-size="13">', '<rect width="100%" height="100%" fill="white"/>',
             f'<text x="8" y="22" font-size="16" font-weight="bold">{title}</text>',
             *(f'<text x="8" y="{42 + 16 * i}">{line}</text>' for i, line in enumerate(legend)),
             *bars, mark(0.25, 'a quarter', height), mark(1, 'the Rust’s time', height), *words, '</svg>']
    return '\n'.join(lines) + '\n'

# ---- the document

def put(text, name, part):
    """The text with what stands between two comments replaced."""
    start, end = f'<!-- {name}: bench/run writes this -->\n', f'<!-- end of {name} -->\n'
    head, _, rest = text.partition(start)
    _, found, tail = rest.partition(end)
    if not found:
        raise SystemExit(f'docs/BENCHMARKS.md has no comments for {name}')
    return head + start + part + end + tail

def main():
    path = os.path.join(DOCS, 'BENCHMARKS.md')
    with open(path) as f:
        text = f.read()
    for name, part in {'aims': aims(), 'calls': each(calls), 'others': each(others), 'lengths': each(lengths), 'stack': each(stack),
                       'frames': frames()}.items():
        text = put(text, name, part)
    with open(path, 'w') as f:
        f.write(text)
    with open(os.path.join(DOCS, 'benchmarks.svg'), 'w') as f:
        f.write(picture())

main()
