#!/usr/bin/env python3
"""twins.py [--show] [--write]

Compares files that differ only in a type: of `UInt` and `Int`, or of 8, 16, 32, 64 and 128 bits. They exist because no macro may write an impl
here. The script splits each file into its members: the functions, ghost items, types and constants of each impl. Two members are twins if they
have the same name in the same impl, once names such as `u8` and `i8` are replaced by one name. tools/twins.txt lists the differences that are
wanted, each by its member and a sum of the lines that differ. The script fails for each other difference, and for each line of the list without
a difference. With --show it prints all differences, and with --write it writes the list.
"""
import difflib
import re
import sys
from pathlib import Path
from zlib import crc32

HERE = Path(__file__).resolve().parent
CRATES = HERE.parent / 'crates'
WANTED = HERE / 'twins.txt'
# a signed type has one parameter more, the storage of its bits
BOUNDS = [(r', U: UnsignedOf<T>', ''), (r'(?<=<T, BITS), U>', '>'), (r'\b(BuiltinInteger \+ |[TU]: UnsignedOf<[TU]::Signed>,\n *)', ''), (r'\bU\b', 'T')]
SIGNS = [
    (r'\bU?Int::<T, BITS>::', 'Number::'), (r'\bU?Int\b', 'Number'), (r'\b(?:Uns|S)igned(Storage|Of|Integer|Counterpart)\b', r'Sign\1'),
    (r'\bU?Int(?=[A-Z])', 'Number'), (r'\b(?:un)?signed\b', 'sign'), (r'\b(?:Uns|S)igned\b', 'Sign'), (r'\b[ui](?=(?:8|16|32|64|128|size)\b)', 'n'),
    (r'\.to_bits\(\)', '.value()'), (r'\bNumber::from_bits\(', 'Number::new('),
]
PAIRS = [f'arbitrary_core/src/{module}' for module in [
    'bitwise/', 'bounds/', 'comparisons/', 'conversions/', 'conversions/narrower_', 'formats/', 'hashing/', 'integer/',
    'numeric/', 'operators/', 'radix/', 'shifting/', 'totals/', '']] + ['arbitrary_int/src/constants/', 'arbitrary_calls/src/fixed_width/']
WIDTHS = [8, 16, 32, 64, 128]
FAMILIES = ['arbitrary_base/src/storage/bits{}.rt', 'arbitrary_traits/src/primitives/bits{}.rt']

# the comparison that each crate of tests has of its own
EQUAL = '*/src/same.rt'


def plain(text, words):
    for pattern, word in words:
        text = re.sub(pattern, word, text)
    return text


def width_words(width):
    """A width's names, as those of a width W."""
    return [(rf'\b([uiwUI]){width}(?=\b|[A-Z])', r'\1W'), (rf'bits{width}\b', 'bitsW'), (rf'\b{width}\b', 'W'),
            (rf'\b{2 ** width}\b|\(1 << W\)', '2^W')]


def block_of(head):
    """An impl or trait without its parameters and bounds, of which a signed type has more."""
    depth, kept = 0, ''
    for at, letter in enumerate(head.removeprefix('unsafe ').removeprefix('pub ')):
        depth += letter == '<'
        if depth == 0:
            kept += letter
        depth -= letter == '>' and head[at - 1] != '-'
    return re.split(r'\bwhere\b|\{', kept)[0].strip()


def is_closed(lines, ends):
    text = '\n'.join(lines)
    return text.endswith(tuple(ends)) and text.count('{') == text.count('}')


def members(text):
    """Each member of a file: its impl or trait, its name and its lines. Comments and imports are left out."""
    found, block = {}, ''
    lines = [line for line in text.splitlines() if not re.match(r'\s*(//|use |ghost use |mod |pub mod |#!)', line)]
    at = 0
    while at < len(lines):
        line = lines[at]
        if re.match(r'(pub )?(unsafe )?(impl|trait)\b', line):
            head = line
            while not re.search(r'[{}]$', head):
                at += 1
                head += ' ' + lines[at].strip()
            arguments = re.search(r'^impl<.*?> \w+<(.*)> for ', head)
            block = block_of(head) + (f' of {arguments.group(1)}' if arguments else '')
            found[block, 'impl'] = []
        elif re.match(r'\}', line):
            block = ''
        else:
            name = re.match(r'(\s*)(?:pub(?:\([a-z]+\))? )?(?:final )?(?:const )?(?:unsafe )?(fn|ghost|type|const|struct) (\w+)', line)
            if name:
                part, is_function = [line], name.group(2) == 'fn'
                # a function ends at the brace below its `fn`, or, as all else, at what is in no brace
                while not (part[-1] == name.group(1) + '}' or is_closed(part, ';' if is_function else ';}')):
                    at += 1
                    part.append(lines[at])
                found[block, f'{name.group(2)} {name.group(3)}'] = [line.strip() for line in part]
        at += 1
    return found


def differences(name, first, second):
    """Each member that only one has, or that they have in different words, with the lines in which they differ."""
    for key in [*first, *(key for key in second if key not in first)]:
        one, other = first.get(key), second.get(key)
        if ' '.join(one or ['-']) != ' '.join(other or ['-']):
            which = 'only the first' if other is None else 'only the second' if one is None else 'different'
            lines = [line for line in difflib.ndiff(one or [], other or []) if line[0] in '+-']
            yield f'{name}: {key[0] or "(file)"}: {key[1]}: {which}', lines


def compared():
    for stem in PAIRS:
        first, second = (members(plain((CRATES / f'{stem}{sign}.rt').read_text(), [*BOUNDS, (rf'\b{is_signed}\b', 'IS_SIGNED'), *SIGNS]))
                         for sign, is_signed in [('unsigned', 'false'), ('signed', 'true')])
        yield from differences(f'{stem}signed.rt', first, second)
    for form in FAMILIES:
        first, *others = ((width, members(plain((CRATES / form.format(width)).read_text(), width_words(width)))) for width in WIDTHS)
        for width, other in others:
            yield from differences(form.format(width), first[1], other)
    first, *others = sorted(CRATES.glob(EQUAL))
    for other in others:
        yield from differences(other.relative_to(CRATES), *({('', 'text'): file.read_text().splitlines()} for file in [first, other]))


def main():
    # with a sum of the lines that differ
    found = {f'{name} {crc32("".join(lines).encode()):08x}': lines for name, lines in compared()}
    if '--show' in sys.argv[1:]:
        for line, lines in found.items():
            print(line, *lines, sep='\n    ')
    if '--write' in sys.argv[1:]:
        WANTED.write_text('\n'.join(found) + '\n')
    wanted = WANTED.read_text().splitlines() if WANTED.exists() else []
    wrong = [line for line in found if line not in wanted]
    stale = [line for line in wanted if line not in found]
    for line in wrong:
        print(line, *found[line], sep='\n    ')
    for line in stale:
        print(f'tools/twins.txt: no such difference: {line}')
    print(f'twins: {len(found)} differences, {len(wrong)} of them unwanted')
    return 1 if wrong or stale else 0


if __name__ == '__main__':
    sys.exit(main())
