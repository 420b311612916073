#!/usr/bin/env python3
"""document_examples.py [--write]

Fails unless the gate proves or runs what the documents show. The examples in docs/CALLS.md and the table "In Rust you wrote" in
docs/DIFFERENCES.md must be tests. The functions in the README and in docs/PROVING.md must be in crates/pages, and each line that these two pages
call refused must be an edit there. What these pages quote of the prover's words must be in a line `says:` of an edit. docs/SETS.md must list
every public set and group of laws, and each fact there must be in a crate that is proved. With --write the script writes the tests from the
tables; run `rt fmt` in their crates afterwards.
"""
import re
import sys
from pathlib import Path

ROOT = Path(__file__).resolve().parent.parent
# The tests that the tables of calls make, with what they bring in.
CALLS = ROOT / 'crates/vectors_examples/src/calls.rt'
USES = [
    'use crate::same::same;', 'use arbitrary_int::prelude::*;', 'use bit_fields::{Record, disjoint};', 'use std::io::sink;',
    'use std::test::Fail;',
]
# How many examples one test has: what a proof takes grows with the square of a test's length.
AT_ONCE = 8
FROM_RUST = ROOT / 'crates/vectors_examples/src/from_rust.rt'
PROVING = ROOT / 'crates/pages'
SETS = ROOT / 'docs/SETS.md'
# The page of sets writes a number without its type.
TYPED = [(r'\b[ui]\d+::zero\(\)', '0'), (r'\b[ui]\d+::(?:new|from_)\((\w+)\)', r'\1')]
# The crates that prove what that page states.
STATED = ['pages', 'examples', 'facts_*', 'laws_*']
# The pages whose functions are in that crate.
PAGES = ['README.md', 'docs/PROVING.md']


def tables(page):
    """The title of each table below one on a page, with its examples: an expression and its value."""
    title, examples = None, []
    for line in (ROOT / page).read_text().splitlines():
        if line.startswith('## '):
            if examples:
                yield title, examples
            title, examples = line[3:], []
        elif title and line.startswith('| `'):
            cells = [cell.strip() for cell in re.split(r'(?<!\\)\|', line)[1:-1]]
            examples.append([cell.strip('`').replace('\\|', '|') for cell in cells[-2:]])
    if examples:
        yield title, examples


def tests(name, known, examples):
    """Tests of the examples, AT_ONCE in each, with what of the known values they name."""
    lines = []
    for start in range(0, len(examples), AT_ONCE):
        part = examples[start:start + AT_ONCE]
        words = set(re.findall(r'\w+', ' '.join(sum(part, []))))
        takes_memory = any('in alloc' in expression for expression, _ in part)
        number = f'_{start + 1}' if len(examples) > AT_ONCE else ''
        lines += ['', '#[test]', f'fn {name}{number}(rt: HostRuntime){" -> Result<(), Fail>" if takes_memory else ""} {{']
        lines += ['    let alloc = rt.alloc();'] if takes_memory else []
        lines += [f'    let {word} = {value};' for word, value in known if word in words]
        lines += [f'    same(&rt, {expression}, {value});' for expression, value in part]
        lines += ['    Ok(())', '}'] if takes_memory else ['}']
    return lines


def calls():
    """The module of tests that the tables of calls make."""
    lines = ['//! The examples of docs/CALLS.md.', '', *USES]
    for title, examples in tables('docs/CALLS.md'):
        lines += tests(re.sub(r'\W+', '_', title.lower()), [], examples)
    return '\n'.join(lines) + '\n'


def from_rust():
    """The module of tests that the table of lines from Rust makes."""
    title, examples = next(table for table in tables('docs/DIFFERENCES.md') if table[0] == 'In Rust you wrote')
    text, known = ' '.join((ROOT / 'docs/DIFFERENCES.md').read_text().split()), {}
    for name, kind, number, first, second in re.findall(r'`(\w+)` is (?:the `(\w+)` (-?\d+)|`\[(\w+), (\w+)\]`)', text):
        known[name] = f'[{known[first]}, {known[second]}]' if first else number + kind if kind == 'u8' else f'{kind}::new({number})'
    lines = [
        '//! The table "In Rust you wrote" of docs/DIFFERENCES.md.', '',
        'use crate::same::same;', 'use arbitrary_int::prelude::*;', 'use pages::constants::{Device, LIMIT, Limits, TOP, greatest, limit};',
    ]
    return '\n'.join(lines + tests('lines_from', known.items(), examples)) + '\n'


def squeezed(text):
    """The text with no layout, to compare."""
    return re.sub(r',(?=[)}\]])', '', re.sub(r'\s+', '', text))


def shown(page):
    """The functions in each block of code on a page: what follows the lines above the first item, item by item. A block without comments on items
    is code in Rust."""
    for code in re.findall(r'```rust\n(.*?)```', (ROOT / page).read_text(), re.S):
        if '///' not in code:
            continue
        yield from re.split(r'\n\n(?=///|#\[test])', code[code.index('///'):].strip())


def sets():
    """What is wrong with the tables of docs/SETS.md: their sets and groups, and the code of their facts."""
    rows = [re.split(r'(?<!\\)\|', line)[1:-1] for line in SETS.read_text().splitlines() if line.startswith('| `')]
    public = re.findall(r'^pub ruleset (\w+)', (ROOT / 'crates/arbitrary_laws/proofs/Sets.antt').read_text(), re.M)
    groups = re.search(r'\{(.*)\}', (ROOT / 'crates/arbitrary_int/specs/GenericLaws.antt').read_text())[1].split(', ')
    listed = [row[0].strip(' `') for row in rows]
    for name in {*public, *groups} ^ {*listed}:
        yield f'{SETS}: `{name}` is on the page or in the sources alone'
    code = ''.join(file.read_text() for crates in STATED for file in (ROOT / 'crates').glob(f'{crates}/src/*.rt'))
    for typed, plain in TYPED:
        code = re.sub(typed, plain, code)
    code = squeezed(code)
    for row in rows:
        for fact in re.findall('`([^`]*)`', row[2].replace('\\|', '|')) if len(row) == 3 else []:
            if squeezed(fact) not in code:
                yield f'{SETS}: no function has {fact}'


def refused():
    """What the pages call refused: lines of docs/PROVING.md, and the bodies of the functions in Rust that begin the README."""
    yield from re.findall(r'^fn .* \{ (.*) \}$', (ROOT / 'README.md').read_text(), re.M)
    yield from re.findall(r'^Refused: `(.*)`$', (ROOT / 'docs/PROVING.md').read_text(), re.M)


def quoted():
    """What the pages quote of the prover's words: its messages, and the names of goals."""
    for page in PAGES:
        text = ' '.join((ROOT / page).read_text().split())
        yield from re.findall(r'"(it is not proved [^"]*)"', text)
        yield from (f'(`{goal}`)' for goal in re.findall(r'(?:Goal |\()`([\w-]+-requires[\w-]*|[\w-]+-result|bounds-[\w-]+|returns)`', text))


def main():
    wrong = []
    for file, text in [(CALLS, calls()), (FROM_RUST, from_rust())]:
        if '--write' in sys.argv[1:]:
            file.write_text(text)
        elif squeezed(file.read_text()) != squeezed(text):
            wrong.append(f'{file}: not the examples of the documents; write them by tools/document_examples.py --write')
    code = ''.join(file.read_text() for file in sorted((PROVING / 'src').glob('*.rt')))
    for page in PAGES:
        for functions in shown(page):
            if functions not in code:
                wrong.append(f'{page}: not in {PROVING / "src"}:\n{functions}')
    edits = [line for file in PROVING.glob('*/*.edit') for line in re.findall('^new: (.*)$', file.read_text(), re.M)]
    lines = list(refused())
    for line in lines:
        if not any(line in edit for edit in edits):
            wrong.append(f'no edit of {PROVING} has the refused line {line}')
    for edit in edits:
        if not any(line in edit for line in lines):
            wrong.append(f'an edit of {PROVING}: not a line that {" or ".join(PAGES)} calls refused: {edit}')
    said = ''.join(line for file in PROVING.glob('*/*.edit') for line in re.findall('^says: (.*)$', file.read_text(), re.M))
    wrong += [f'no edit of {PROVING} requires that the prover says {words}' for words in quoted() if words not in said]
    wrong += sets()
    print('\n'.join(wrong) or 'examples of the documents: as they should be')
    return 1 if wrong else 0


if __name__ == '__main__':
    sys.exit(main())
