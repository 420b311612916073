#!/usr/bin/env python3
"""believed.py [--words] [--write]

Counts the trusted lines: the definitions in specs/ that the contracts of the libraries' public items cite, then the definitions that these
cite, and so on. It also counts how many more lines `bit_fields` needs, and how many more the program's `serve` and `Fault` need. Comments,
blank lines and imports are not counted. With --words it prints every word, its lines and its file. It fails if docs/ARCHITECTURE.md has other
figures; with --write it writes them there.

Nobody has to trust what is proved: lemmas, and the statements of laws, which are words without arguments of the type `Type 0`. Words that only
the contracts inside a crate cite are not counted either.
"""
import re
import sys
from pathlib import Path

ROOT = Path(__file__).resolve().parent.parent
LIBRARIES = ['arbitrary_base', 'arbitrary_traits', 'arbitrary_widths', 'arbitrary_core', 'arbitrary_version_1', 'arbitrary_calls', 'arbitrary_int']
FIELDS = 'bit_fields'
# Of the modules of the program and of its library, those whose contracts speak of what it does as a whole.
PROGRAM = [ROOT / 'crates' / name for name in ['bitrun_service/src/serving.rt', 'bitrun_text/src/fault.rt']]
WORD = re.compile(r'[^\s(){}\[\],.;:]+')
PUBLIC = r'(?:pub(?:\([a-z]+\))? )?'
HEAD = re.compile(rf'\s*(?:(?:abbrev|unfoldable) {PUBLIC}|{PUBLIC}record )(\S+)|{PUBLIC}(\S+) :(?= )|(\s*module) _')


def definitions(file):
    """Each definition of a file: its name and its lines. What a module's own line brings is counted under `module`."""
    found = []
    for line in file.read_text().splitlines():
        if not line.strip() or line.lstrip().startswith('--') or re.match(rf'{PUBLIC}(use|mod) |infix', line):
            continue
        # `do` is short for its operator.
        line = re.sub(r'= do$', '= do >>=', line)
        head = HEAD.match(line)
        if head or not found:
            name = next(filter(None, head.groups())) if head else file.stem
            found.append((name.strip().strip('◌'), []))
        found[-1][1].append(line)
    # modules with parameters, whose definitions have them too, are in one file under one name
    joined = {}
    for name, lines in found:
        joined.setdefault(name, []).extend(lines)
    return joined


def brought(file):
    """The words that the use lines of a file bring: from which module of which crate's definitions."""
    lines = re.findall(r'use Rattle\.(\w+)\.specs\.(?:\w+\.)*(\w+)\.\{([^}]*)\}', file.read_text())
    return {word.strip().strip('◌'): (crate, module) for crate, module, words in lines for word in words.split(',')}


def meant(known, file, words):
    """Which definitions the words mean in a file: its own, and those that its use lines bring, also by way of a library above."""
    at, found = brought(file), set()
    for word in words:
        if (file, word) in known:
            found.add((file, word))
        elif word in at:
            crate, module = at[word]
            named = [key for key in known if key[1] == word and key[0].stem == module]
            found.update([key for key in named if ROOT / 'crates' / crate in key[0].parents] or named)
    if any(key[0] == file and not is_proved(known[key]) for key in found) and (file, 'module') in known:
        found.add((file, 'module'))
    return found


def is_proved(lines):
    """Whether it is a lemma, or the statement of a law."""
    is_stated = re.match(r'\s*abbrev pub \S+ : Type 0$', lines[0])
    return is_stated or not re.match(rf'\s*(abbrev|unfoldable|{PUBLIC}record|module)', lines[0])


def contracts(file):
    """What the clauses of a file's public functions say, and those of its traits and their impls."""
    said, block, public, depth = [], '', False, 0
    for line in file.read_text().splitlines():
        if re.match(rf'{PUBLIC}(trait|impl)\b', line):
            block = line
        elif line == '}':
            block = ''
        if re.match(rf'\s*{PUBLIC}(final )?(const )?(unsafe )?fn ', line):
            public = 'pub fn' in line or (line.startswith(' ') and ('trait ' in block or ' for ' in block))
        clause = re.match(r'\s*(requires|ensures)\b', line) and public
        if clause or depth > 0 or re.match(r'\s*ghost (?!use )', line):
            said.append(line)
            depth = max(0, depth + line.count('{') - line.count('}'))
    return set(WORD.findall('\n'.join(said)))


def cited_by(known, sources):
    """The definitions that the contracts of these files cite, and those that these cite in turn."""
    cited = {key for file in sources for key in meant(known, file, contracts(file))}
    todo = list(cited)
    while todo:
        key = todo.pop()
        more = meant(known, key[0], WORD.findall('\n'.join(known[key]))) - cited
        cited |= more
        todo += more
    return {key for key in cited if not is_proved(known[key])}


def main():
    known = {}
    for crate in LIBRARIES + [FIELDS, 'bitrun_text', 'bitrun_service']:
        for file in sorted((ROOT / 'crates' / crate / 'specs').rglob('*.antt')):
            known |= {(file, name): lines for name, lines in definitions(file).items()}
    library = cited_by(known, [file for crate in LIBRARIES for file in (ROOT / 'crates' / crate / 'src').rglob('*.rt')])
    fields = cited_by(known, (ROOT / 'crates' / FIELDS / 'src').rglob('*.rt')) - library
    program = cited_by(known, PROGRAM) - library - fields
    kinds = {'library': library, 'fields': fields, 'program': program}
    if '--words' in sys.argv[1:]:
        for key, lines in known.items():
            kind = next((kind for kind, keys in kinds.items() if key in keys), 'proved' if is_proved(lines) else 'inside')
            print(f'{kind:9}{len(lines):3}  {key[0].relative_to(ROOT)}  {key[1]}')
    counts = [sum(len(known[key]) for key in keys) for keys in kinds.values()]
    print(f'trusted lines: {counts[0]} for the libraries, {counts[1]} more for `bit_fields`, and {counts[2]} more for the program')
    page = ROOT / 'docs/ARCHITECTURE.md'
    stated = text = page.read_text()
    figures = [r'\b\d+(?= for the libraries)', r'\b\d+(?= more\sfor\s`bit_fields`)', r'\b\d+(?= more for the program)']
    for figure, count in zip(figures, counts):
        stated = re.sub(figure, str(count), stated)
    if '--write' in sys.argv[1:]:
        page.write_text(stated)
    elif stated != text or not all(re.search(figure, text) for figure in figures):
        print(f'{page}: gives other figures; write them by tools/believed.py --write')
        return 1
    return 0


if __name__ == '__main__':
    sys.exit(main())
