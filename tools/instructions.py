#!/usr/bin/env python3
"""instructions.py [BINARY] [--only WORD]

Prints, as Markdown tables, the instructions of this library and of the Rust crate in programs: for one element of a loop over arrays with a
call inside, for one item of a small program, and for one step of a long list in memory. BINARY is the program of crates/bench_calls, by default
crates/bench_calls/out/bench_calls, which `rt run` leaves there.

Callgrind counts two runs, of which the longer makes eight passes more. The difference, divided by the items of these passes, is the cost of one
item. loops_peers.txt has the figures of the crate, and says how they were counted.
"""
import argparse
import math
import os
import re
import subprocess
import sys
from concurrent.futures import ThreadPoolExecutor

HERE = os.path.dirname(os.path.abspath(__file__))
SHORT, LONG = 2, 10
# The steps of the long list.
STEPS = 10**6
# A program's items in one pass.
ITEMS = {'fields': 1024, 'wide': 1024, 'crc': 1024, 'fir': 1009, 'machine': 1024, 'checksum': 1024}
TITLES = {
    'fields': 'five fields of a `u32`, two of them changed', 'wide': 'four fields of a `u64`, two of them changed',
    'crc': 'CRC-15 of CAN, bit by bit: a byte', 'fir': 'filter of 16 taps of `i14`: a sample',
    'machine': 'machine of 32 registers of `u24`: an instruction', 'checksum': "Fletcher's sums of 24 bits: a byte",
    'run': '`run`: a step', 'well_formed': '`well_formed`: a step',
}


def limit(call, name):
    """Below which number the amounts of the call lie."""
    return {'saturating_pow': 8, 'extract_u32': 2**32 - 1}.get(call, int(name[1:]))


def runs(kind, call, name):
    """The lines of the shorter and of the longer run, and the items by which they differ."""
    if kind == 'loop':
        return [f'loop {name} {call} {limit(call, name)} {passes}\n' for passes in (SHORT, LONG)], 1024 * (LONG - SHORT)
    if kind == 'program':
        return [f'program {call} {passes}\n' for passes in (SHORT, LONG)], ITEMS[call] * (LONG - SHORT)
    if call == 'run':
        return [f'steps {name} {STEPS} {passes} 0\n' for passes in (1, 2)], STEPS
    return [f'steps {name} {STEPS} 0 {checks}\n' for checks in (1, 2)], STEPS


def instructions(binary, line):
    """What the program takes on this input."""
    done = subprocess.run(['valgrind', '--tool=callgrind', '--callgrind-out-file=/dev/null', binary], input=line, capture_output=True, text=True)
    found = re.search(r'Collected : (\d+)', done.stderr)
    if done.returncode or not found or done.stdout.startswith('no such'):
        sys.exit(f'{line.strip()}: {done.stdout}{done.stderr}')
    return int(found.group(1))


def item(binary, row):
    lines, items = runs(*row[:3])
    short, long = (instructions(binary, line) for line in lines)
    return (long - short) / items


def mean(ratios):
    """The geometric mean."""
    return math.exp(sum(math.log(ratio) for ratio in ratios) / len(ratios))


def summary(what, ratios):
    if ratios:
        print(f'{what}: geometric mean {mean(ratios):.2f} of the crate over {len(ratios)} rows, worst {max(ratios):.2f}')


def main():
    parser = argparse.ArgumentParser(description=__doc__, formatter_class=argparse.RawDescriptionHelpFormatter)
    parser.add_argument('binary', nargs='?', default=os.path.join(os.path.dirname(HERE), 'crates', 'bench_calls', 'out', 'bench_calls'))
    parser.add_argument('--only', default='', help='the rows with this word alone')
    options = parser.parse_args()
    if not os.path.exists(options.binary):
        sys.exit(f'no program {options.binary}: run `rt run` in crates/bench_calls first')
    lines = [line.split() for line in open(os.path.join(HERE, 'loops_peers.txt')) if not line.startswith('#')]
    rows = [row for row in lines if options.only in ' '.join(row)]
    with ThreadPoolExecutor(os.cpu_count()) as pool:
        counts = list(pool.map(lambda row: item(os.path.abspath(options.binary), row), rows))
    ratios = {}
    print('| Call in a loop, an element | Type | here | crate | ratio |\n|---|---|---:|---:|---:|')
    for kind in ('loop', 'program', 'steps'):
        if kind == 'program':
            print('\n| Program, an item | Type | here | crate | ratio |\n|---|---|---:|---:|---:|')
        for row, count in zip(rows, counts):
            if row[0] == kind:
                crate = float(row[3])
                group = 'unsigned loops' if row[2][0] == 'u' else 'signed loops'
                ratios.setdefault(group if kind == 'loop' else kind, []).append(count / crate)
                title = TITLES.get(row[1], f'`{row[1]}`')
                print(f'| {title} | {"" if row[2] == "-" else f"`{row[2]}`"} | {count:.2f} | {crate:.2f} | {count / crate:.2f} |')
    print()
    for what, found in ratios.items():
        summary(what, found)


if __name__ == '__main__':
    main()
