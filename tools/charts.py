#!/usr/bin/env python3
"""charts.py [--write]

Fails unless the pictures in docs/pictures are what it draws, and layout.py accepts them. It draws two charts of the tables in
tools/measured.txt, a put into a record, the square of `run` and `run_wide`, and the layers of crates.txt. It also fails unless the rows of
the tables in docs/PERFORMANCE.md are those of tools/measured.txt, or follow from them, and unless the figures of the Rust crate there are those of
tools/loops_peers.txt. With --write it draws the pictures and writes these tables. The background is transparent, and the colours are readable on
a light and on a dark page.
"""
import math
import re
import sys
from html import escape
from pathlib import Path

import layout

ROOT = Path(__file__).resolve().parent.parent
MEASURED, PEERS = ROOT / 'tools/measured.txt', ROOT / 'tools/loops_peers.txt'
PAGE = ROOT / 'docs/PERFORMANCE.md'
# The first cells of the heads of tables.
CALL, PROGRAM = 'Call in a loop, an element', 'Program, an item'
SUMMARY = ('Instructions, as a share of those of the Rust crate', 'Figure')
PICTURES = ROOT / 'docs/pictures'
# Each colour has about the same contrast to white and to a dark page.
GREY, BLUE, ORANGE, GREEN, PALE, WHITE = '#737b86', '#2f78e6', '#c2650c', '#2a8a4a', '#737b8640', '#ffffff'


def cells(row):
    return [cell.strip() for cell in row[1:-1].split('|')]


def tables():
    """The stored tables, each as a list of rows of cells, the first of which is its head."""
    for block in re.findall(r'(?:^\|.*\n)+', MEASURED.read_text(), re.M):
        rows = [cells(row) for row in block.splitlines()]
        yield [rows[0], *rows[2:]]


def rows_of(first):
    """The rows of the table whose head begins so, each by the names of its columns."""
    table = next((table for table in tables() if table[0][0] == first), None)
    if not table:
        sys.exit(f'{MEASURED}: no table of {first}')
    return [dict(zip(table[0], row)) for row in table[1:]]


def number(cell):
    """The number in a cell, if there is one."""
    digits = cell.replace(',', '').replace('s', '').strip()
    return float(digits) if re.fullmatch(r'\d+(\.\d+)?', digits) else None


def text(x, y, line, anchor='start', size=12, colour=GREY, weight='normal'):
    return f'<text x="{x:g}" y="{y:g}" font-size="{size}" fill="{colour}" text-anchor="{anchor}" font-weight="{weight}">{escape(line)}</text>'


def box(x, y, width, height, fill, stroke='none', radius=2):
    return f'<rect x="{x:g}" y="{y:g}" width="{width:g}" height="{height:g}" rx="{radius}" fill="{fill}" stroke="{stroke}"/>'


def line(x1, y1, x2, y2, colour=PALE, width=1.0):
    return f'<line x1="{x1:g}" y1="{y1:g}" x2="{x2:g}" y2="{y2:g}" stroke="{colour}" stroke-width="{width:g}"/>'


def dot(x, y, colour, shape):
    if shape == 'circle':
        return f'<circle cx="{x:g}" cy="{y:g}" r="4.5" fill="{colour}"/>'
    return f'<rect x="{x - 3.5:g}" y="{y - 3.5:g}" width="7" height="7" fill="none" stroke="{colour}" stroke-width="1.8"/>'


def arrow(x1, y1, x2, y2, colour=GREY):
    """A line with a head at its end."""
    length = math.hypot(x2 - x1, y2 - y1)
    dx, dy = (x2 - x1) / length, (y2 - y1) / length
    left, right = (x2 - 9 * dx + 4 * dy, y2 - 9 * dy - 4 * dx), (x2 - 9 * dx - 4 * dy, y2 - 9 * dy + 4 * dx)
    head = f'<path d="M{x2:g} {y2:g}L{left[0]:.1f} {left[1]:.1f}L{right[0]:.1f} {right[1]:.1f}Z" fill="{colour}"/>'
    return line(x1, y1, x2, y2, colour, 1.5) + head


def picture(width, height, title, parts):
    head = f'<svg xmlns="http://www.w3.org/2000/svg" viewBox="0 0 {width} {height}" width="{width}" height="{height}" role="img" ' \
        'font-family="Helvetica, Arial, sans-serif">'
    return '\n'.join([head, f'<title>{escape(title)}</title>', *parts, '</svg>']) + '\n'


MARKS = [('this library', BLUE, 'circle'), ('the Rust crate', ORANGE, 'square')]


def key(x, y):
    """What each mark means."""
    parts = []
    for name, colour, shape in MARKS:
        parts += [dot(x, y - 4, colour, shape), text(x + 10, y, name, size=13)]
        x += 40 + 7 * len(name)
    return [*parts, text(x, y, 'instructions per element, on a scale of log(1 + x)', size=13)]


def calls():
    """Each call in a loop over arrays, here and in the Rust crate: three widths across, unsigned types above signed ones."""
    figures = {(row[CALL].strip('`'), row['Type'].strip('`')): [number(row['here']), number(row['crate'])] for row in rows_of(CALL)}
    names = list(dict.fromkeys(call for call, _ in figures))
    left, wide, high, top = 150, 200, 20, 60
    ticks = [0, 1, 3, 10, 30, 100, 300]

    def at(value):
        return math.log2(1 + value) / math.log2(1 + most) * (wide - 34)
    parts = key(left, 20)
    for across, width in enumerate((7, 14, 120)):
        most = min(tick for tick in ticks if tick >= max(max(pair) for (_, kind), pair in figures.items() if kind[1:] == str(width)))
        for down, sign in enumerate('ui'):
            x0, y0 = left + across * wide, top + down * (len(names) * high + 64)
            parts.append(text(x0, y0 - 8, f'{sign}{width}', size=13, weight='bold'))
            for tick in ticks[:ticks.index(most) + 1]:
                parts += [line(x0 + at(tick), y0, x0 + at(tick), y0 + len(names) * high)]
                parts += [text(x0 + at(tick), y0 + len(names) * high + 16, str(tick), 'middle')]
            for place, name in enumerate(names):
                y = y0 + place * high + 10
                if across == 0:
                    parts.append(text(left - 12, y + 4, name, 'end', 13))
                for (_, colour, shape), value in reversed([*zip(MARKS, figures.get((name, f'{sign}{width}'), []))]):
                    parts.append(dot(x0 + at(value), y, colour, shape))
    return picture(left + 3 * wide, top + 2 * (len(names) * high + 64) - 34, 'Instructions of each call in a loop, here and in the Rust crate', parts)


def ratios():
    """For each input the share of the instructions of ordinary Rust that `bitrun` takes, the greatest first."""
    return sorted(((number(row['ratio']), row['Input'].strip('`')) for row in rows_of('Input')), reverse=True)


def inputs():
    """`bitrun` and ordinary Rust: for each input the share of the instructions."""
    rows = ratios()
    left, full, high, top = 170, 480, 19, 48
    parts = [text(left, 20, 'Instructions of bitrun, where ordinary Rust has 1.00', size=13, weight='bold')]
    for tick in range(5):
        x = left + full * tick / 4
        # The longer bars are above the shorter ones, and a line begins where no bar covers it.
        covered = sum(share >= tick / 4 for share, _ in rows)
        parts += [line(x, top - 8, x, top)] * (covered > 0) + [line(x, top + covered * high - 8 * (covered == 0), x, top + high * len(rows))]
        parts.append(text(x, top - 12, f'{tick / 4:.2f}', 'middle'))
    for place, (share, name) in enumerate(rows):
        y = top + place * high
        parts += [text(left - 8, y + 13, name, 'end', 13), box(left, y + 1, full * share, high - 3, BLUE)]
        parts.append(text(left + full * share - 5, y + 12.5, f'{share:.2f}', 'end', 11, WHITE, 'bold'))
    return picture(left + full + 30, top + high * len(rows) + 6, 'bitrun and ordinary Rust', parts)


def record():
    """A put into a record, bit by bit: the lowest 16 of its 128 bits."""
    bits, start, value, width = 16, 3, 21, 5
    before = 0b1010_0110_1001_0110
    after = before & ~((2 ** width - 1) << start) | value << start
    cell, left, parts = 34, 70, []

    def row(y, name, word, colour_of):
        parts.append(text(left - 12, y + 22, name, 'end', 14))
        for place in range(bits):
            x = left + (bits - 1 - place) * cell
            inside = start <= place < start + width
            parts.append(box(x, y, cell - 2, 32, BLUE + '33' if inside else 'none', colour_of(inside), 3))
            parts.append(text(x + cell / 2 - 1, y + 21, str(word >> place & 1), 'middle', 15, BLUE if inside else GREY, 'bold' if inside else 'normal'))
    for place in range(bits):
        parts.append(text(left + (bits - 1 - place) * cell + cell / 2 - 1, 18, str(place), 'middle', 12))
    parts.append(text(left - 12, 18, 'bit', 'end', 13))
    row(26, 'before', before, lambda inside: GREY)
    end = left + (bits - start - width) * cell
    for place in range(width):
        x = end + (width - 1 - place) * cell
        parts.append(text(x + cell / 2 - 1, 96, str(value >> place & 1), 'middle', 15, BLUE, 'bold'))
        parts.append(arrow(x + cell / 2 - 1, 102, x + cell / 2 - 1, 122, BLUE))
    parts.append(text(end - 12, 96, 'put(3, u5::new(21))', 'end', 14, BLUE, 'bold'))
    row(128, 'after', after, lambda inside: BLUE if inside else GREY)
    parts.append(text(left, 188, 'get::<u5>(3) then returns 21. No other bit changes, up to bit 127.', size=14))
    return picture(left + bits * cell + 20, 204, 'A put into a record changes the bits of its field alone', parts)


def widths():
    """The square of `run` and `run_wide`."""
    left, right, top, bottom = 130, 570, 60, 220
    parts = []
    for x, y, first, second in [
        (left, top, 'wide registers', 'u14: 200, 300'), (right, top, 'wide registers', 'u14: 500, 300'),
        (left, bottom, 'narrow registers', 'u7: 72, 44'), (right, bottom, 'narrow registers', 'u7: 116, 44'),
    ]:
        parts += ['<g>' + box(x - 95, y - 30, 190, 60, 'none', GREY, 6), text(x, y - 5, first, 'middle', 15, GREY, 'bold')]
        parts.append(text(x, y + 18, second, 'middle', 15) + '</g>')
    middle = (left + right) / 2
    for y, name in [(top, 'run at the wide type'), (bottom, 'run at the narrow type')]:
        parts += [arrow(left + 97, y, right - 99, y, BLUE), text(middle, y - 10, name, 'middle', 15, BLUE), text(middle, y + 20, 'wadd 0 0 1', 'middle', 14)]
    for x in (left, right):
        parts.append(arrow(x, top + 32, x, bottom - 34, ORANGE))
    height = (top + bottom) / 2 + 5
    parts += [text(left + 10, height, 'wrap to 7 bits', size=15, colour=ORANGE), text(right - 10, height, 'wrap to 7 bits', 'end', 15, ORANGE)]
    parts.append(text(middle, height, 'both ways agree', 'middle', 15, GREEN, 'bold'))
    return picture(700, 270, 'Run wide and wrap, or wrap and run narrow: the same registers', parts)


def listed():
    """The crates of crates.txt, each with the crates of this repository that it uses."""
    uses = dict(re.findall(r'^(\w+)[^:#\n]*:(.*)$', (ROOT / 'crates.txt').read_text(), re.M))
    return {name: [other for other in others.split() if other in uses] for name, others in uses.items()}


def layers():
    """The crates. It fails unless each crate is above all that it uses."""
    full, high, gap, third, crates = 700, 48, 6, 228, listed()
    # Three columns of the upper rows, the lower rows, and what each crate has.
    program = ['bitrun', 'bitrun_service', 'bitrun_text']
    lower = [['arbitrary_int'], ['arbitrary_calls', 'arbitrary_version_1'], ['arbitrary_core'], ['arbitrary_traits', 'arbitrary_widths'],
             ['arbitrary_base']]
    texts = {
        'bitrun': 'the program', 'bitrun_service': 'runs steps, writes the output', 'bitrun_text': 'parses the text',
        'arbitrary_laws': 'laws for your proofs', 'bit_fields': 'fields in a record',
        'arbitrary_int': 'the crate to import; adds run, run_wide, constants, bytes, streams and ranges',
        'arbitrary_calls': 'wrapping, saturating and checked calls, shifts, counts', 'arbitrary_version_1': 'the deprecated Number',
        'arbitrary_core': 'UInt and Int, their operators, conversions, hash and text',
        'arbitrary_traits': 'Integer, and its impls for primitives', 'arbitrary_widths': 'which widths are valid',
        'arbitrary_base': 'definitions, and arithmetic at a width in every primitive',
    }
    lower = [[name for name in row if name in crates] for row in lower]
    rows = {'examples': 0, 'examples_tour': 0, 'arbitrary_laws': 1, 'bit_fields': 2} | {name: row for row, name in enumerate(program)}
    rows |= {name: 3 + down for down, row in enumerate(lower) for name in row}
    others = [name for name in crates if name not in rows]
    # In one box, a crate may use another.
    wrong = [f'{name} above {used}' for name in rows if name in crates for used in crates[name] if rows.get(used, 9) <= rows[name] and used != 'examples']
    wrong += [f'{name} above {used}' for name in others for used in crates[name] if used not in others and rows.get(used) == 0]
    if wrong:
        sys.exit(f'charts.py does not draw {", ".join(wrong)}')
    parts = []

    def crate(x, row, width, name, line, colour):
        y = 10 + row * (high + gap)
        parts.append('<g>' + box(x, y, width, high, colour + '1a', colour, 5))
        parts.append(text(x + width / 2, y + 19, name, 'middle', 15, colour, 'bold'))
        parts.append(text(x + width / 2, y + 39, line, 'middle', 13) + '</g>')
    for name in program:
        crate(10, rows[name], third, name, texts[name], ORANGE)
    x, wide = 10 + third + gap, (full - third - 2 * gap) / 2
    crate(x, 0, wide, 'examples', 'registers, frames, sensors', GREEN)
    crate(x + wide + gap, 0, wide, f'{len(others)} crates of tests', 'facts, laws, vectors, costs', GREY)
    for name in ('arbitrary_laws', 'bit_fields'):
        crate(x, rows[name], full - third - gap, name, texts[name], BLUE)
    for row in lower:
        x = 10
        for name, share in zip(row, {1: [1], 2: [0.68, 0.32]}[len(row)]):
            width = (full - gap * (len(row) - 1)) * share
            crate(x, rows[name], width, name, texts[name], BLUE)
            x += width + gap
    return picture(full + 20, 14 + (3 + len(lower)) * (high + gap), 'The crates as layers', parts)


def mean(shares):
    """The geometric mean."""
    return math.exp(sum(math.log(share) for share in shares) / len(shares))


def summary():
    """The figures that follow from the tables, as the page shows them."""
    programs = [number(row['ratio']) for row in rows_of(PROGRAM)]
    inputs = ratios()
    mixed = [share for share, name in inputs if name.startswith('mix_')]

    def shown(kinds):
        calls = [(number(row['ratio']), f'{row[CALL]} of {row["Type"]}') for row in rows_of(CALL) if row['Type'].strip('`') in kinds]
        most, worst = max(calls)
        average = f'{mean([share for share, _ in calls]):.2f}'
        return average if len(kinds) == 1 else f'{average}; worst {most:.2f} ({worst})'
    return [
        ['unsigned calls in loops', shown(['u7', 'u14', 'u120'])],
        *([f'of these `{kind}`', shown([kind])] for kind in ('u7', 'u14', 'u120')),
        ['signed calls in loops', shown(['i7', 'i14', 'i120'])],
        *([f'of these `{kind}`', shown([kind])] for kind in ('i7', 'i14', 'i120')),
        ['programs and lists of steps', f'{mean(programs):.2f}; worst {max(programs):.2f}'],
        ['`bitrun`, of ordinary Rust', f'{mean([share for share, _ in inputs]):.2f}; worst {inputs[0][0]:.2f} (`{inputs[0][1]}`)'],
        ['`bitrun` on mixed steps, of ordinary Rust', f'{min(mixed):.2f} to {max(mixed):.2f}'],
    ]


def page_tables(page):
    """The page with the rows of its tables as measured.txt has them, and what is wrong with it."""
    stored = {(tuple(table[0]), row_key(row)): row for table in tables() for row in table[1:]}
    stored |= {(SUMMARY, row_key(row)): row for row in summary()}
    heads = {head for head, _ in stored}
    kept, wrong, head = [], [], None
    for row in page.splitlines():
        if not row.startswith('|'):
            head = None
        elif head is None:
            head = tuple(cells(row))
        elif head in heads and not re.fullmatch(r'[|:-]+', row):
            right = stored.get((head, row_key(cells(row))))
            if cells(row) != right:
                wrong.append(f'{PAGE}: not a row of {MEASURED}: {row}')
            row = '| ' + ' | '.join(right or cells(row)) + ' |'
        kept.append(row)
    return '\n'.join(kept) + '\n', wrong


def peers():
    """What is wrong with the stored figures of the Rust crate in loops: they are those of loops_peers.txt."""
    lines = (line.split() for line in PEERS.read_text().splitlines() if line.startswith('loop '))
    crate = {(call, kind): figure for _, call, kind, figure in lines}
    stored = {(row[CALL].strip('`'), row['Type'].strip('`')): row['crate'] for row in rows_of(CALL)}
    return [f'{MEASURED}: not as in {PEERS}: {key}' for key in sorted(crate.keys() | stored.keys()) if crate.get(key) != stored.get(key)]


def row_key(row):
    """What names a row: its first cell, and the type in its second."""
    return tuple(row[:2]) if len(row) > 2 and row[1].startswith('`') else (row[0],)


def main():
    drawn = {
        'calls.svg': calls(), 'bitrun.svg': inputs(),
        'record.svg': record(), 'widths.svg': widths(), 'layers.svg': layers(),
    }
    is_writing = '--write' in sys.argv[1:]
    page, wrong = page_tables(PAGE.read_text())
    if is_writing:
        PAGE.write_text(page)
        wrong = page_tables(page)[1]
    wrong += peers()
    for name, picture_text in drawn.items():
        file = PICTURES / name
        wrong += [f'{file}: {fault}' for fault in layout.faults(picture_text)]
        if is_writing:
            PICTURES.mkdir(exist_ok=True)
            file.write_text(picture_text)
        elif not file.exists() or file.read_text() != picture_text:
            wrong.append(f'{file}: not what the tables give; draw it by tools/charts.py --write')
    print('\n'.join(wrong) or 'pictures and measured rows: as they should be')
    return 1 if wrong else 0


if __name__ == '__main__':
    sys.exit(main())
