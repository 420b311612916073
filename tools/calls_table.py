#!/usr/bin/env python3
"""calls_table.py [BINARY] [--only WORD]

Prints the instructions of each call in a function of its own, here and in three other implementations, whose figures and their origin are in
calls_peers.txt. Callgrind counts the function with the functions that it calls, without its return, on numbers in their storage. BINARY is the
program of crates/bench_calls, by default crates/bench_calls/out/bench_calls, which `rt run` leaves there.

There are fourteen calls and six types. Most calls have operands whose result is in range, and operands whose result is out of range. The means
leave out two kinds of rows whose cost depends on the size of the operands: powers, for which the other implementations had operands of other
sizes, and products of 120 bits by `checked_mul` and `saturating_mul`. Half of the operands at the ends are next to the least number, where an
unsigned result is in range. A function of the program need not pass 128 bits as C does, which can save moves.
"""
import argparse
import math
import os
import subprocess
import sys
import tempfile
from concurrent.futures import ThreadPoolExecutor

HERE = os.path.dirname(os.path.abspath(__file__))
ANY = 2**32 - 1
ROUNDS = 1024


def words_of(call, name, data):
    """The line that has the program make the call on such operands."""
    width = int(name[1:])
    limit, places = 1, 0
    if call == 'saturating_pow':
        limit, places = (4, width - width // 3 + 1) if data == 'in' else (8, 0) if data == 'out' else (ANY, 0)
    elif call in ('wrapping_shl', 'rotate_left'):
        limit = width if data == 'below' else ANY
    elif call == 'extract_u32':
        limit = ANY
    elif data == 'in':
        places = width // 2 + 1 if call.endswith('mul') else 2
    if data in ('out', 'huge'):
        return f'ends {name} {call} {limit} {ROUNDS}\n'
    return f'moved {name} {call} {limit} {ROUNDS} {places}\n'


def instructions(binary, line):
    """What a call takes, without its return: of the functions whose names begin with `counted`, and of what they call."""
    with tempfile.TemporaryDirectory() as folder:
        out = os.path.join(folder, 'out')
        subprocess.run(['valgrind', '--tool=callgrind', '--compress-strings=no', '--compress-pos=no', f'--callgrind-out-file={out}', binary],
                       input=line, capture_output=True, text=True, check=True)
        cost, calls, inside, target = 0, 0, False, False
        for text in open(out):
            if text.startswith('fn='):
                inside = 'counted' in text
            elif text.startswith('cfn='):
                target = 'counted' in text
            elif text.startswith('calls='):
                calls += int(text.split('=')[1].split()[0]) if target else 0
            elif inside and text[:1].isdigit():
                cost += int(text.split()[1])
        return cost / calls - 1


def mean(ratios):
    """The geometric mean."""
    return math.exp(sum(math.log(ratio) for ratio in ratios) / len(ratios))


def main():
    parser = argparse.ArgumentParser(description=__doc__, formatter_class=argparse.RawDescriptionHelpFormatter)
    parser.add_argument('binary', nargs='?', default=os.path.join(os.path.dirname(HERE), 'crates', 'bench_calls', 'out', 'bench_calls'))
    parser.add_argument('--only', default='', help='the rows with this word alone')
    options = parser.parse_args()
    if not os.path.exists(options.binary):
        sys.exit(f'no program {options.binary}: run `rt run` in crates/bench_calls first')
    lines = [line.split() for line in open(os.path.join(HERE, 'calls_peers.txt')) if not line.startswith('#')]
    rows = [row for row in lines if options.only in ' '.join(row)]
    with ThreadPoolExecutor(os.cpu_count()) as pool:
        counts = list(pool.map(lambda row: instructions(os.path.abspath(options.binary), words_of(*row[:3])), rows))
    print('| Call | Type | Operands | here | crate | `_BitInt` | C | to the best |\n|---|---|---|---:|---:|---:|---:|---:|')
    ratios = {'u': [], 'i': []}
    for row, count in zip(rows, counts):
        best = min(float(figure) for figure in row[3:] if figure != '-')
        if row[0] != 'saturating_pow' and not (row[1].endswith('120') and row[0] in ('checked_mul', 'saturating_mul')):
            ratios[row[1][0]].append(count / best)
        print(f'| `{row[0]}` | `{row[1]}` | {row[2]} | {count:.1f} | ' + ' | '.join(row[3:]) + f' | {count / best:.2f} |')
    for sign, name in [('u', 'unsigned'), ('i', 'signed')]:
        if ratios[sign]:
            print(f'\n{name}: geometric mean {mean(ratios[sign]):.2f} of the best peer over {len(ratios[sign])} rows, worst {max(ratios[sign]):.2f}')


if __name__ == '__main__':
    main()
