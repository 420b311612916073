#!/usr/bin/env python3
"""lines.py [PROGRAM]

Prints, as Markdown tables, the instructions of `bitrun` for a line with a step of each kind, and for a register of the second line. It compares
them with those of a fast line: a name of four letters, one space before each operand, register numbers of one digit, and the LF. PROGRAM is by
default what `bitrun.sh` builds.

Callgrind counts an input of 65,536 bytes and one with half as many lines. The difference, divided by the difference in lines, is the cost of a
line, so the start of the process does not count. The last column has the same for 1,000 lines and 500. If it differs from the column before, a
line costs more in a long input. The script first compares the outputs with the model of fuzz.py.
"""
import argparse
import functools
import os
import re
import subprocess
import sys
from concurrent.futures import ThreadPoolExecutor

from fuzz import LIMIT, model
from program import programs

TEN, HUNDRED, THOUSAND = 10, 100, 1000
# Each kind of a line: its title, its first line, how many registers there are, the line or two in turn, and the line that is
# the fast one for its operation: for an amount past the width another one past it, which takes a division too. {a}, {b} and
# {c} are numbers of registers, with as many digits as the largest has.
FAST = 'wadd {a} {b} {c}'
STEPS = [
    ('fast', 'run u7', TEN, FAST, FAST),
    ('two digits', 'run u7', HUNDRED, FAST, FAST),
    ('three digits', 'run u7', THOUSAND, FAST, FAST),
    ('a zero in front of one number', 'run u7', TEN, 'wadd 0{a} {b} {c}', FAST),
    ('two zeros in front of each', 'run u7', TEN, 'wadd 00{a} 00{b} 00{c}', FAST),
    ('eight zeros in front of one', 'run u7', TEN, 'wadd 00000000{a} {b} {c}', FAST),
    ('two spaces between', 'run u7', TEN, 'wadd  {a}  {b}  {c}', FAST),
    ('a tab between', 'run u7', TEN, 'wadd\t{a}\t{b}\t{c}', FAST),
    ('two spaces in front', 'run u7', TEN, '  wadd {a} {b} {c}', FAST),
    ('two spaces at the end', 'run u7', TEN, 'wadd {a} {b} {c}  ', FAST),
    ('a tab after the name', 'run u7', TEN, 'wadd\t{a} {b} {c}', FAST),
    ('a tab before the last number', 'run u7', TEN, 'wadd {a} {b}\t{c}', FAST),
    ('a tab in front', 'run u7', TEN, '\twadd {a} {b} {c}', FAST),
    ('spaces and tabs in turn', 'run u7', TEN, 'wadd {a} {b} {c}\nwadd\t{a}\t{b}\t{c}', FAST),
    ('CR LF', 'run u7', TEN, 'wadd {a} {b} {c}\r', FAST),
    ('two digits, CR LF', 'run u7', HUNDRED, 'wadd {a} {b} {c}\r', FAST),
    ('`wide`', 'wide u14 u7', TEN, FAST, FAST),
    ('`wide`, two digits', 'wide u14 u7', HUNDRED, FAST, FAST),
    ('`neg`', 'run u7', TEN, 'neg {a} {b}', 'neg {a} {b}'),
    ('`neg`, two digits', 'run u7', HUNDRED, 'neg {a} {b}', 'neg {a} {b}'),
    ('`and`, a tab between', 'run u7', TEN, 'and\t{a}\t{b}\t{c}', 'and {a} {b} {c}'),
    ('`or`, a tab between', 'run u7', TEN, 'or\t{a}\t{b}\t{c}', 'or {a} {b} {c}'),
    ('`rotl`', 'run u7', TEN, 'rotl {a} {b} 3', 'rotl {a} {b} 3'),
    ('`rotl`, two digits', 'run u7', HUNDRED, 'rotl {a} {b} 3', 'rotl {a} {b} 3'),
    ('`rotl` by 9, past the width', 'run u7', TEN, 'rotl {a} {b} 9', 'rotl {a} {b} 3'),
    ('`rotl` by five digits', 'run u7', TEN, 'rotl {a} {b} 12345', 'rotl {a} {b} 9'),
    ('`rotl` by eight digits', 'run u7', TEN, 'rotl {a} {b} 12345678', 'rotl {a} {b} 9'),
    ('`rotl` by nine digits', 'run u7', TEN, 'rotl {a} {b} 123456789', 'rotl {a} {b} 9'),
    ('`rotl` by ten digits', 'run u7', TEN, 'rotl {a} {b} 4294967295', 'rotl {a} {b} 9'),
    ('`rotl`, CR LF', 'run u7', TEN, 'rotl {a} {b} 3\r', 'rotl {a} {b} 3'),
]
# Each kind of a register: its title, the type, and the words, of which each has its turn.
REGISTERS = [
    ('fast', 'u7', ['3', '7', '1'], ' '),
    ('two spaces between', 'u7', ['3', '7', '1'], '  '),
    ('a tab between', 'u7', ['3', '7', '1'], '\t'),
    ('two zeros in front', 'u7', ['003', '007', '001'], ' '),
    ('below zero', 'i7', ['-3', '-7', '-1'], ' '),
    ('below zero, two zeros in front', 'i7', ['-003', '-007', '-001'], ' '),
    ('three digits', 'u7', ['100', '127', '101'], ' '),
    ('37 digits', 'u120', [str(2 ** 120 - k) for k in (1, 2, 3)], ' '),
    ('36 digits, below zero', 'i120', [str(k - 2 ** 119) for k in (0, 1, 2)], ' '),
]


def a_step(form, count, turn):
    """The line with numbers of the registers, which differ from turn to turn, and have as many digits as the largest."""
    least = count // 10
    numbers = {name: least + turn * step % (count - least) for name, step in (('a', 7), ('b', 3), ('c', 1))}
    return form.format(**numbers) + '\n'


def steps(first, count, form, lines):
    return (first + '\n' + ' '.join(['1'] * count) + '\n' + ''.join(a_step(form, count, turn) for turn in range(lines))).encode()


def registers(kind, words, gap, count):
    return f'run {kind}\n{gap.join(words[turn % len(words)] for turn in range(count))}\n'.encode()


def most(make):
    """How many lines or registers an input has at most."""
    least, above = 1, LIMIT
    while above - least > 1:
        middle = (least + above) // 2
        least, above = (middle, above) if len(make(middle)) <= LIMIT else (least, middle)
    return least


@functools.lru_cache(None)
def instructions(program, data):
    """How many instructions the whole process takes."""
    done = subprocess.run(['valgrind', '--tool=callgrind', '--callgrind-out-file=/dev/null', program], input=data, capture_output=True)
    if (done.stdout, done.returncode) != model(data):
        sys.exit(f'wrong on an input that begins with {data[:60]}')
    return int(re.search(rb'Collected : (\d+)', done.stderr).group(1))


def each(program, make, count):
    """The instructions for each of the items in the second half of an input."""
    return (instructions(program, make(count)) - instructions(program, make(count // 2))) / (count - count // 2)


def main():
    parser = argparse.ArgumentParser(description=__doc__, formatter_class=argparse.RawDescriptionHelpFormatter)
    parser.add_argument('programs', nargs='*', metavar='PROGRAM')
    program = str(programs(parser.parse_args().programs)[0])

    def a_line(row):
        title, first, count, form, fast = row

        def make(form, count):
            return lambda lines: steps(first, count, form, lines)
        turns = form.count('\n') + 1
        line = each(program, make(form, count), most(make(form, count))) / turns
        return title, line, line / each(program, make(fast, TEN), most(make(fast, TEN))), each(program, make(form, count), 1000) / turns

    def a_register(row):
        title, kind, words, gap = row

        def make(count):
            return registers(kind, words, gap, count)
        whole = each(program, make, most(make))
        return title, whole, whole / len((words[0] + gap).encode()), each(program, make, 1000)

    with ThreadPoolExecutor(os.cpu_count()) as pool:
        print('| Line of a step | instructions | of the fast line | of 1,000 lines |\n|---|---:|---:|---:|')
        for title, line, ratio, few in pool.map(a_line, STEPS):
            print(f'| {title} | {line:.0f} | {ratio:.2f} | {few:.0f} |')
        print('\n| Register | instructions | for each byte | of 1,000 registers |\n|---|---:|---:|---:|')
        for title, whole, ratio, few in pool.map(a_register, REGISTERS):
            print(f'| {title} | {whole:.0f} | {ratio:.1f} | {few:.0f} |')


if __name__ == '__main__':
    main()
