#!/usr/bin/env python3
"""fuzz.py [PROGRAM ..] [--seed N] [--inputs N | --seconds S]

Runs the built `bitrun` on good and on damaged inputs. It compares the output and the status with a model of the text and the steps, and checks
that standard error is empty. PROGRAM is by default what `bitrun.sh` builds. The first inputs have each word on each type. Then come long
inputs, good and damaged at any line, and then random inputs, N of them or for S seconds. One seed always makes the same inputs. At the first
difference the script prints the input and both results, and fails. It also fails if the words of the model are not those of
`operation_named` in the definitions.
"""
import argparse
import random
import re
import sys
import time

from program import ROOT, ending, programs

LIMIT = 65536
SEPARATORS = bytes.maketrans(b'\t\r', b'  ')
TWO = ['wadd', 'wsub', 'wmul', 'wdiv', 'sadd', 'ssub', 'smul', 'sdiv', 'cadd', 'csub', 'cmul', 'cdiv', 'and', 'or', 'xor']
ONE = ['not', 'rev', 'neg']
BY = ['wshl', 'wshr', 'cshl', 'cshr', 'rotl', 'rotr', 'spow']
# a type is whether it has a sign, and its width
TYPES = {letter + str(bits): (letter == 'i', bits) for bits in (1, 7, 14, 120) for letter in 'ui'}
HEADERS = [f'run {name}' for name in TYPES] + ['wide u14 u7', 'wide u14 i7', 'wide i14 u7', 'wide i120 u14']


# ---- the model

class Stop(Exception):
    """Why a step has no result."""


class Bad(Exception):
    """The line isn't of its form."""


def lowest(signed, bits):
    return -2 ** (bits - 1) if signed else 0


def highest(signed, bits):
    return 2 ** (bits - 1) - 1 if signed else 2 ** bits - 1


def wrapped(x, kind):
    return (x - lowest(*kind)) % 2 ** kind[1] + lowest(*kind)


def clamped(x, kind):
    return min(max(x, lowest(*kind)), highest(*kind))


def exact(x, kind):
    if x != clamped(x, kind):
        raise Stop('refused')
    return x


def arithmetic(word, x, y, kind):
    if word[1:] == 'div':
        if y == 0:
            raise Stop('refused' if word == 'cdiv' else 'zero divisor')
        result = abs(x) // abs(y) * (1 if (x < 0) == (y < 0) else -1)
    else:
        result = {'add': x + y, 'sub': x - y, 'mul': x * y}[word[1:]]
    return {'w': wrapped, 's': clamped, 'c': exact}[word[0]](result, kind)


def rearranged(word, x, amount, kind):
    """The result of a shift, a rotation or a reversal of the bits, highest bit first."""
    signed, bits = kind
    if word in ('cshl', 'cshr') and amount >= bits:
        raise Stop('refused')
    k, digits = amount % bits, format(x % 2 ** bits, f'0{bits}b')
    fill = digits[0] if signed else '0'
    left, right = digits[k:] + '0' * k, fill * k + digits[:bits - k]
    made = {
        'wshl': left, 'cshl': left, 'wshr': right, 'cshr': right, 'rev': digits[::-1],
        'rotl': digits[k:] + digits[:k], 'rotr': digits[bits - k:] + digits[:bits - k],
    }
    return wrapped(int(made[word], 2), kind)


def result_of(word, x, y, kind):
    """What a step gives. y is the second number, or the amount."""
    if word in ('and', 'or', 'xor'):
        return {'and': x & y, 'or': x | y, 'xor': x ^ y}[word]
    if word in TWO:
        return arithmetic(word, x, y, kind)
    if word in ('not', 'neg'):
        return wrapped(-1 - x if word == 'not' else -x, kind)
    if word == 'spow':
        # from 200 on, only the parity of the exponent counts
        return clamped(x ** (y if y < 200 else 200 + y % 2), kind)
    return rearranged(word, x, y, kind)


def numeral(word, form, least, most):
    if not re.fullmatch(form, word) or not least <= int(word) <= most:
        raise Bad
    return int(word)


def header(words):
    name = b' '.join(words or []).decode('latin-1')
    if name not in HEADERS:
        raise Bad
    _, kind, *narrow = name.split()
    return TYPES[kind], [TYPES[it] for it in narrow]


def step(words, count):
    word, *operands = words
    word = word.decode('latin-1')
    if word not in TWO + ONE + BY:
        raise Bad
    mosts = [count - 1] * (3 if word in TWO else 2) + [2 ** 32 - 1] * (word in BY)
    if len(operands) != len(mosts):
        raise Bad
    return word, *[numeral(it, b'[0-9]+', 0, most) for it, most in zip(operands, mosts)], 0


def model(data):
    """What is printed, and the status."""
    if len(data) > LIMIT:
        return b'fault: too long\n', 2
    lines = [[word for word in line.split(b' ') if word] for line in data.translate(SEPARATORS).split(b'\n')]
    if data[-1:] in (b'', b'\n'):
        lines.pop()
    steps = []
    for place, words in enumerate(lines + [None] * (2 - len(lines)), 1):
        try:
            if words is None:
                raise Bad
            if place == 1:
                kind, narrow = header(words)
            elif place == 2:
                registers = [numeral(it, b'-?[0-9]+', lowest(*kind), highest(*kind)) for it in words]
            elif words:
                steps.append(step(words, len(registers)))
        except Bad:
            return f'fault: line {place}\n'.encode(), 2
    last = 'done'
    for at, (word, to, left, right, *_) in enumerate(steps):
        try:
            registers[to] = result_of(word, registers[left], registers[right] if word in TWO else right, kind)
        except Stop as stop:
            last = f'stopped at {at}: {stop}'
            break
    rows = [registers] + [[wrapped(x, it) for x in registers] for it in narrow]
    return ''.join(f'{line}\n' for line in [' '.join(map(str, row)) for row in rows] + [last]).encode(), 0


# ---- the inputs

def a_number(chance, kind):
    """One that lies at an end of the range or around 0, or any."""
    signed, bits = kind
    near = chance.choice([lowest(*kind), highest(*kind), 0, 2 ** (bits // 2)]) + chance.randint(-2, 2)
    return clamped(near if chance.random() < 0.6 else chance.randint(lowest(*kind), highest(*kind)), kind)


def an_amount(chance, bits):
    long = min(chance.randrange(10 ** chance.randint(4, 10)), 2 ** 32 - 1)
    return chance.choice([chance.randrange(4), chance.randrange(2 * bits + 2), bits, long, chance.randrange(2 ** 32), 2 ** 32 - 1])


def spelled(chance, x):
    """The number, on half of the calls with zeros before it, or as -0."""
    sign = '-' if x < 0 or x == 0 and chance.random() < 0.1 else ''
    return sign + '0' * chance.choice([0] * 8 + [1, 1, 1, 2, 2, 3, 7, 60]) + str(abs(x))


def unsigned(chance, x):
    """The number, with or without zeros before it."""
    return '0' * chance.choice([0, 0, 1, 1, 2, 3, 9, 25]) + str(x)


def a_step(chance, word, count, bits):
    registers = [chance.randrange(count) for _ in range(3 if word in TWO else 2)]
    numbers = registers + [an_amount(chance, bits)] * (word in BY)
    # zeros before a number on half of the lines
    plain = chance.random() < 0.5
    return [word, *[str(it) if plain else unsigned(chance, it) for it in numbers]]


def spaced(chance, words):
    """The words of a line: one space between them as often as any other gaps."""
    if chance.random() < 0.5:
        return ' '.join(words)
    gaps = [' ', '  ', '\t', ' \r', '\r', ' \t ', '     ']
    # on half of these lines all gaps are the same, as in a text that was made by a program
    same = chance.choice(gaps) if chance.random() < 0.5 else None
    front, end = chance.choice(['', '', '  ', '\t']), chance.choice(['', '', '\r', '  '])
    return front + ''.join(word + (same or chance.choice(gaps)) for word in words[:-1]) + ''.join(words[-1:]) + end


def text(chance, lines):
    """The lines, now and then with a blank line between or no last LF, or with spaces and with tabs in turn."""
    rows, turns = [], chance.random() < 0.1
    for place, words in enumerate(lines):
        rows.append(' \t'[place % 2].join(words) if turns else spaced(chance, words))
        rows += [chance.choice(['', ' ', '\t\r'])] * (len(rows) > 1 and chance.random() < 0.05)
    return '\n'.join(rows).encode('latin-1') + chance.choice([b'\n', b'\n', b''])


def good(chance, first, words, counts, lengths):
    """An input of this first line, with steps of these words."""
    kind = TYPES[first.split()[1]]
    count, length = chance.choice(counts), chance.choice(lengths)
    registers = [spelled(chance, a_number(chance, kind)) for _ in range(count)]
    steps = [a_step(chance, chance.choice(words), count, kind[1]) for _ in range(length if count else 0)]
    return text(chance, [first.split(), registers, *steps])


def damaged(chance, data):
    """The input with a few bytes, words or lines changed, or filled up to its limit."""
    for _ in range(chance.randint(1, 3)):
        at = chance.randrange(len(data) + 1)
        lines = data.split(b'\n')
        line = chance.randrange(len(lines))
        words = lines[line].split(b' ')
        word = chance.randrange(len(words))
        how = chance.choice(range(7)) if chance.random() < 0.98 else 7
        if how == 0:
            data = data[:at] + data[at + 1:]
        elif how == 1:
            data = data[:at] + bytes([chance.choice(b' \t\r\n-+0129xaz\x00\x0b\xa0\xff')]) + data[at + chance.randrange(2):]
        elif how == 2:
            data = data[:at]
        elif how == 3:
            lines.insert(chance.randrange(len(lines)), lines.pop(line))
            data = b'\n'.join(lines)
        elif how == 4:
            data = b'\n'.join(lines[:line] + lines[line + 1:])
        elif how == 5:
            data = data[:at] + data[at:at + 1].swapcase() + data[at + 1:]
        elif how == 7:
            data += b'\n' * (LIMIT + chance.randint(-1, 1) - len(data))
        else:
            far = [2 ** bits for bits in (7, 14, 32, 64, 120, 128)] + [-1, 1, len(lines[1:2] and lines[1].split())]
            words[word] = str(chance.choice(far) + chance.randint(-1, 1)).encode()
            lines[line] = b' '.join(words)
            data = b'\n'.join(lines)
    return data


def inputs(chance):
    """Each word on each type, then long inputs, then random ones without end."""
    words = TWO + ONE + BY
    for first in HEADERS:
        for word in words:
            for _ in range(3):
                yield good(chance, first, [word], [3], [1])
    for first in HEADERS:
        yield good(chance, first, ['wadd', 'xor', 'not', 'rotl'], [9], [5000])
        yield damaged(chance, good(chance, first, ['wadd', 'xor', 'not', 'neg'], [9], [5000]))
        yield good(chance, first, ['wadd'], [1500], [1])
    while True:
        data = good(chance, chance.choice(HEADERS), words, [0, 1, 2, 3, 3, 5, 10, 11, 30, 100, 101, 300], [0, 1, 2, 5, 20])
        yield data if chance.random() < 0.4 else damaged(chance, data)


def words_defined():
    """The words of `operation_named`, the definition of what a word of a step names."""
    text = (ROOT / 'crates/bitrun_text/specs/Operation.antt').read_text()
    return set(re.findall(r'codes "(\w+)"', text))


def main():
    parser = argparse.ArgumentParser(description=__doc__, formatter_class=argparse.RawDescriptionHelpFormatter)
    parser.add_argument('programs', nargs='*', metavar='PROGRAM')
    parser.add_argument('--seed', type=int, default=1)
    parser.add_argument('--inputs', type=int, default=600)
    parser.add_argument('--seconds', type=float)
    options = parser.parse_args()
    apart = words_defined() ^ set(TWO + ONE + BY)
    if apart:
        print(f'not both defined in bitrun_text and known to this model: {sorted(apart)}')
        return 1
    for program in programs(options.programs):
        start, count, faults = time.monotonic(), 0, 0
        first = len(HEADERS) * 3 * (len(TWO + ONE + BY) + 1)
        for count, data in enumerate(inputs(random.Random(options.seed)), 1):
            printed, status, error = ending(program, data)
            expected, wanted = model(data)
            faults += wanted != 0
            if (printed, status, error) != (expected, wanted, b''):
                print(f'{program}: wrong on the input\n{data}\nshould print {expected} with status {wanted},')
                print(f'printed {printed} with status {status}, and on standard error {error}')
                return 1
            over = time.monotonic() - start > options.seconds if options.seconds else count >= first + options.inputs
            if over:
                break
        print(f'{program}: as the model on {count} inputs, {faults} of them faults, seed {options.seed}')
    return 0


if __name__ == '__main__':
    sys.exit(main())
