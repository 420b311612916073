#!/usr/bin/env python3
"""short_names.py [--write]

Fails unless the short names `u1` to `u127` and `i1` to `i127` are the types over the smallest primitive that has room, and `arbitrary_int` has
all of them at its root and in its prelude. It also fails unless each width from 1 to 128 has its impl of `HasWidth`, each from 8 on has that of
`FitsIn`, both types have the constant `BITS` at each width, and `vectors_widths` tests the ends of both types at each width. With --write it
writes the two files of names, the four of constants, the four of impls and the two of tests. 8, 16, 32 and 64 bits have no short name, because
they are primitives.
"""
import re
import sys
from pathlib import Path

CRATES = Path(__file__).resolve().parent.parent / 'crates'
STORAGES = (8, 16, 32, 64, 128)
WIDTHS = [bits for bits in range(1, 128) if bits not in STORAGES]


def storage(bits):
    """The width of the smallest primitive that has room for `bits` bits."""
    return next(width for width in STORAGES if bits <= width)


def definitions(letter, name, module):
    """The file that defines the names of one sign."""
    lines = [
        f'//! `{letter}1` to `{letter}127`: `{name}` over the smallest primitive that has room. At 8, 16, 32 and 64 bits there are',
        '//! primitives of these names. tools/short_names.py writes this file.',
        '',
        f'use crate::{module}::{name};',
    ]
    for bits in WIDTHS:
        lines += ['', f'pub type {letter}{bits} = {name}<{letter}{storage(bits)}, {bits}>;']
    return '\n'.join(lines) + '\n'


def constants(letter, name, module, first, last):
    """The file that gives one type its constant `BITS`, at the widths from the first to the last."""
    lines = [
        f'//! `BITS` of `{name}` at {first} to {last} bits, over the smallest primitive that has room. With one impl for each width, the',
        '//! compiler evaluates the constant, so it can be the length of an array, a pattern or part of another constant.',
        '//! tools/short_names.py writes this file.',
        '',
        f'use crate::{module}::{name};',
    ]
    for bits in range(first, last + 1):
        lines += [
            '',
            f'impl {name}<{letter}{storage(bits)}, {bits}> {{',
            '    /// The width in bits.',
            f'    pub const BITS: usize = {bits};',
            '}',
        ]
    return '\n'.join(lines) + '\n'


def room(first, last):
    """The file that says which storages have room for the widths from the first to the last."""
    traits = [f'AtLeast{width}' for width in STORAGES if storage(first) <= width <= storage(last)]
    lines = [
        f'//! The impls of `HasWidth` at {first} to {last} bits, for each storage with at least as many bits (`room`).',
        '//! tools/short_names.py writes this file.',
        '',
        'ghost use Rattle.std.proofs.Common.{lit≤, le_trans};',
        '',
        'use crate::HasWidth;',
        f'use crate::room::{traits[0] if len(traits) == 1 else "{" + ", ".join(traits) + "}"};',
    ]
    for bits in range(first, last + 1):
        law = f'T.room_{storage(bits)}_law'
        lines += [
            '',
            f'impl<T: AtLeast{storage(bits)}> HasWidth<{bits}> for T {{',
            f'    ghost valid_law = {{ (lit≤ tt, {law if bits in STORAGES else f"le_trans (lit≤ tt) {law}"}) }};',
            '}',
        ]
    return '\n'.join(lines) + '\n'


def widest(bits):
    """The width of the widest primitive whose numbers all fit in `bits` bits."""
    return max(width for width in STORAGES if width <= bits)


def fits(first, last):
    """The file that says which storages have no number too long for the widths from the first to the last."""
    traits = [f'AtMost{width}' for width in STORAGES if widest(first) <= width <= widest(last)]
    lines = [
        f'//! The impls of `FitsIn` at {first} to {last} bits, for each storage with at most as many bits (`most`).',
        '//! tools/short_names.py writes this file.',
        '',
        'ghost use Rattle.std.proofs.Common.{lit≤, le_trans};',
        '',
        'use crate::FitsIn;',
        f'use crate::most::{{{", ".join(traits)}}};',
    ]
    for bits in range(first, last + 1):
        law = f'T.most_{widest(bits)}_law'
        lines += [
            '',
            f'impl<T: AtMost{widest(bits)}> FitsIn<{bits}> for T {{',
            f'    ghost fits_law = {{ {law if bits in STORAGES else f"le_trans {law} (lit≤ tt)"} }};',
            '}',
        ]
    return '\n'.join(lines) + '\n'


def ends(letter, name, module):
    """The file of tests that has the ends of one type at each width, from their definitions."""
    lines = [
        f'//! The least and the greatest number of `{name}` at each width from 1 to 128, in the smallest storage. `ends` has what is',
        '//! tested of each. tools/short_names.py writes this file.',
        '',
        f'use crate::ends::{{{", ".join(f"ends_{letter}{width}" for width in STORAGES)}}};',
    ]
    for first in range(1, 129, 8):
        lines += ['', '#[test]', f'fn {module}_{first}_to_{first + 7}(rt: HostRuntime) {{']
        for bits in range(first, first + 8):
            least, greatest = (-2 ** (bits - 1), 2 ** (bits - 1) - 1) if letter == 'i' else (0, 2 ** bits - 1)
            words = ['&rt', str(least), str(greatest)]
            call = f'    ends_{letter}{storage(bits)}::<{bits}>('
            one_line = ', '.join(words)
            # as `rt fmt` breaks a call
            lines += [f'{call}{one_line});'] if len(one_line) <= 60 else [call, *[f'        {word},' for word in words], '    );']
        lines.append('}')
    return '\n'.join(lines) + '\n'


def main():
    wrong = []
    signs = [('u', 'UInt', 'unsigned'), ('i', 'Int', 'signed')]
    core = CRATES / 'arbitrary_core/src'
    texts = {core / f'aliases/{module}.rt': definitions(letter, name, module) for letter, name, module in signs}
    texts |= {CRATES / f'vectors_widths/src/{module}.rt': ends(letter, name, module) for letter, name, module in signs}
    for letter, name, module in signs:
        texts[core / f'bits/{module}_to_64.rt'] = constants(letter, name, module, 1, 64)
        texts[core / f'bits/{module}_to_128.rt'] = constants(letter, name, module, 65, 128)
    texts[CRATES / 'arbitrary_widths/src/to_64.rt'] = room(1, 64)
    texts[CRATES / 'arbitrary_widths/src/to_128.rt'] = room(65, 128)
    texts[CRATES / 'arbitrary_widths/src/fits_to_64.rt'] = fits(8, 64)
    texts[CRATES / 'arbitrary_widths/src/fits_to_128.rt'] = fits(65, 128)
    for file, text in texts.items():
        if '--write' in sys.argv[1:]:
            file.write_text(text)
        elif file.read_text() != text:
            wrong.append(f'{file}: not what tools/short_names.py writes')
    for file in [CRATES / 'arbitrary_int/src/lib.rt', CRATES / 'arbitrary_int/src/prelude.rt']:
        for letter, _, module in signs:
            exported = set(re.findall(r'\w+', ' '.join(re.findall(rf'pub use arbitrary_core::aliases::{module}::([^;]+);', file.read_text()))))
            wrong += [f'{file}: {letter}{bits} is missing' for bits in WIDTHS if f'{letter}{bits}' not in exported]
    print('\n'.join(wrong) or 'short names: as they should be')
    return 1 if wrong else 0


if __name__ == '__main__':
    sys.exit(main())
