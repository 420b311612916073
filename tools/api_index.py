#!/usr/bin/env python3
"""api_index.py [--write]

Fails unless docs/API.md is the index of the libraries' public items: under its file, the first sentence of each item and the names of its
clauses. A call with a row in docs/CALLS.md links to the row, which has an anchor. With --write it writes the page and the anchors.
"""
import re
import sys
from pathlib import Path

ROOT = Path(__file__).resolve().parent.parent
PAGE = ROOT / 'docs/API.md'
CALLS = ROOT / 'docs/CALLS.md'
BASE = 'arbitrary_base'
LIBRARIES = ['arbitrary_int', 'bit_fields', 'arbitrary_calls', 'arbitrary_version_1', 'arbitrary_core', 'arbitrary_widths', 'arbitrary_traits', BASE]
HEAD = '''# The public items of the libraries

This page lists the public items of the libraries by file: the item, the first sentence of its comment, and the names of its clauses. A clause
without a name appears as `requires` or `ensures`. A linked call leads to its row with an example in [CALLS.md](CALLS.md). Import what you need
from `arbitrary_int::prelude`, `arbitrary_int::traits` and `arbitrary_int`.

The page does not list the short names `u1` to `u127` and `i1` to `i127`, or calls that an `impl` has from its trait.
[CALLS.md](CALLS.md#arithmetic) has the operators, and the forms of [text](CALLS.md#text). [api_index.py](../tools/api_index.py) writes this page
from the sources.
'''
# Calls whose example is a text or a file, by the heading in docs/CALLS.md that has it.
BY_HEADING = {
    'well_formed': 'steps', 'run': 'steps', 'run_wide': 'steps', 'Watched::new': 'bytes', 'Watched::failed': 'bytes', 'Watched::failures': 'bytes',
}
PRIMITIVE = r'[ui](?:\d+|size)'
ITEM = re.compile(r'(?:pub )?(?:final )?(?:const )?(fn|struct|enum|trait|type|const) (\w+)')


def sentence(comment):
    """The first sentence of a comment, for a cell of a table."""
    text = re.split(r'(?<=[.!?]) |(?<=[.!?])$', ' '.join(comment))[0] if comment else ''
    return text.replace('|', '\\|')


def owner(line):
    """The type or the trait whose calls a block holds, and whether all of them are public: a trait's are."""
    trait = re.match(r'pub trait (\w+)', line)
    if trait:
        return trait.group(1), True
    own = re.match(r'impl(?:<.*?>)? (\w+)(?:<[^>]*>)? *(?:where|\{|$)', line)
    return (own.group(1) if own else None), False


def items(file):
    """Each public item of a file: its name, its first sentence and the names of its clauses."""
    found, comment, block, is_trait, last = [], [], None, False, None
    for line in file.read_text().splitlines():
        text = line.strip()
        clause = re.match(r'(requires|ensures)(?: (\w+))? \{', text)
        if line.startswith('}'):
            block, is_trait, last = None, False, None
        elif clause and last:
            last[2].append(f'`{clause.group(2) or clause.group(1)}`')
        elif text.startswith('///'):
            comment.append(text[3:].strip())
        elif not text.startswith(('//', '#[')):
            item, is_top = ITEM.match(text), not line.startswith(' ')
            if item:
                is_public = text.startswith('pub ') or is_trait and not is_top
                name = item.group(2) if is_top else f'{block}::{item.group(2)}'
                last = [f'`{name}`', sentence(comment), []] if is_public and (is_top or block) else None
                found += [last] if last else []
            if is_top and re.match(r'(pub )?(trait|impl)\b', text):
                block, is_trait = owner(text)
            comment = []
    return found


def named(cell):
    """The first call that the first cell of a row names, a pattern of all names, and the type whose calls they are, if one alone."""
    calls = re.findall(r'`(?:record\.)?([a-z]\w+|[A-Z_]+)(?:::<\w+>)?(?:\([^`]*\))?`', cell)
    stems = [re.sub(PRIMITIVE + '$', '', call) + PRIMITIVE for call in calls] if ' .. ' in cell else calls
    only = re.search(r'on `(U?Int)`', cell)
    return ''.join(calls[:1]), '|'.join(dict.fromkeys(stems)), only.group(1) if only else None


def marked(text, names):
    """The page of calls with a mark in each row of calls that are among the names, and for each row its pattern, its type and its mark."""
    rows, lines = [], []
    for line in text.split('\n'):
        line = re.sub(r'<a id="[^"]*"></a>', '', line)
        cell = re.match(r'\| (`.*?) \| ', line)
        first, pattern, only = named(cell.group(1)) if cell else ('', '', None)
        if any(re.fullmatch(pattern, name) for name in names):
            mark = f'call-{first.lower()}'
            mark += '-constant' if first.isupper() and first.lower() in names else ''
            mark += '-unsigned' if mark in [row[2] for row in rows] else ''
            rows.append((pattern, only, mark))
            line = f'| {cell.group(1)}<a id="{mark}"></a>{line[cell.end(1):]}'
        lines.append(line)
    return '\n'.join(lines), rows


def linked(name, rows):
    """The name of an item, as a link to its row in docs/CALLS.md, or to the part of that page which shows it."""
    block, _, call = name.strip('`').rpartition('::')
    marks = [mark for pattern, only, mark in rows if re.fullmatch(pattern, call) and only in (None, block)]
    mark = BY_HEADING.get(name.strip('`')) or (marks[0] if marks else None)
    return f'[{name}](CALLS.md#{mark})' if mark else name


def files(crate):
    """The sources of a library, in order."""
    return sorted((ROOT / 'crates' / crate / 'src').rglob('*.rt'))


def page(rows):
    """The page that the sources make, with links to the rows of calls."""
    lines = [HEAD]
    for crate in LIBRARIES:
        lines += [f'## {crate}', '']
        for file in files(crate):
            found = [] if {'aliases', 'bits'} & set(file.parts) else items(file)
            if found:
                path = file.relative_to(ROOT)
                about = re.findall(r'^//! ?(.*)$', file.read_text(), re.M)
                lines += [f'### [{path.relative_to(f"crates/{crate}/src")}](../{path})', '', sentence(about), '']
                lines += ['| Item | What it is | Clauses |', '|---|---|---|']
                for name, what, clauses in found:
                    lines.append(f'| {linked(name, [] if crate == BASE else rows)} | {what} | {", ".join(dict.fromkeys(clauses))} |')
                lines.append('')
    return '\n'.join(lines).rstrip() + '\n'


def main():
    # the functions of the base take a storage and a width: the calls of the same names are those of the types
    names = {item[0].strip('`').split('::')[-1] for crate in LIBRARIES if crate != BASE for file in files(crate) for item in items(file)}
    calls, rows = marked(CALLS.read_text(), names)
    wrong = []
    for file, text in [(CALLS, calls), (PAGE, page(rows))]:
        if '--write' in sys.argv[1:]:
            file.write_text(text)
        elif file.read_text() != text:
            wrong.append(f'{file}: not what the sources give; write it by tools/api_index.py --write')
    print('\n'.join(wrong) or 'index of the public items: as it should be')
    return 1 if wrong else 0


if __name__ == '__main__':
    sys.exit(main())
