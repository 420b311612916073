#!/usr/bin/env python3
"""names.py

Checks names and lengths. A module of specs/ must have the name of the module of src/ whose contracts cite it. SHARED lists the modules of
specs/ that several modules of src/ use. A folder of proofs/ with Answers.antt must have the name of a module or an item of src/, so no proof
outlives its module. A line of a clause, or of a ghost member of a library, has at most 100 columns. A file has at most 400 lines. The
subject of the last commit has at most 72 columns. The script prints what breaks a rule, and fails if it prints anything.
"""
import re
import subprocess
import sys
from pathlib import Path

CRATES = Path(__file__).resolve().parent.parent / 'crates'
COLUMNS = 100
LINES = 400
SUBJECT = 72
# the words of several modules, or of a crate above
SHARED = {
    'arbitrary_base': ['Range', 'Residue', 'Field', 'BitList', 'Operation', 'Assigned'],
    'arbitrary_int': ['GenericLaws'],
    'bit_fields': ['BitField'],
}
LIBRARIES = ['arbitrary_base', 'arbitrary_traits', 'arbitrary_widths', 'arbitrary_core', 'arbitrary_version_1', 'arbitrary_calls', 'arbitrary_int', 'bit_fields']
CLAUSE = re.compile(r'\s*(requires|ensures)\b')
MEMBER = re.compile(r'\s*(requires|ensures|ghost (?!use))\b')


def snake(name):
    return re.sub(r'(?<!^)(?=[A-Z])', '_', name).lower()


def misnamed(crate):
    """The modules of specs/ and the folders of proofs/ whose name no module of src/ has."""
    modules = [file.relative_to(CRATES / crate / 'src').with_suffix('') for file in (CRATES / crate / 'src').rglob('*.rt')]
    names = {module.name for module in modules}
    for file in sorted((CRATES / crate / 'specs').glob('*.antt')):
        if file.stem != 'Lib' and snake(file.stem) not in names and file.stem not in SHARED.get(crate, []):
            yield f'{file}: src/ has no module `{snake(file.stem)}`'
    for name in SHARED.get(crate, []):
        if not (CRATES / crate / 'specs' / f'{name}.antt').exists():
            yield f'tools/names.py: {crate} has no words {name}'
    for file in sorted((CRATES / crate / 'proofs').rglob('Answers.antt')):
        parts = file.relative_to(CRATES / crate / 'proofs').parts
        top = (CRATES / crate / 'src/lib.rt').read_text()
        if parts[0] not in {module.parts[0] for module in modules} and not re.search(rf'\b(fn|struct|trait|impl) {parts[0]}\b', top):
            yield f'{file}: src/ has no module or item `{parts[0]}`'


def too_long(file):
    """The lines of clauses and ghost members that are too long. The proof of a law's default is not part of the law."""
    begin = MEMBER if file.relative_to(CRATES).parts[0] in LIBRARIES else CLAUSE
    depth = 0
    for number, line in enumerate(file.read_text().splitlines(), 1):
        if begin.match(line) or depth > 0:
            depth = max(0, depth + line.count('{') - line.count('}'))
            length = len(re.sub(r'} = {.*};$', '};', line))
            if length > COLUMNS:
                yield f'{file}:{number}: {length} columns'


def main():
    wrong = [line for crate in LIBRARIES for line in misnamed(crate)]
    for file in sorted([*CRATES.glob('*/*/**/*.rt'), *CRATES.glob('*/*/**/*.antt')]):
        count = file.read_text().count('\n')
        if count > LINES and 'out' not in file.parts:
            wrong.append(f'{file}: {count} lines')
    wrong += [line for file in sorted(CRATES.glob('*/src/**/*.rt')) for line in too_long(file)]
    subject = subprocess.check_output(['git', 'log', '-1', '--no-merges', '--format=%s'], cwd=CRATES, text=True).strip()
    if len(subject) > SUBJECT:
        wrong.append(f'the subject of the last commit has {len(subject)} columns: {subject}')
    print('\n'.join(line.replace(f'{CRATES.parent}/', '') for line in wrong) or 'names: as they should be')
    return 1 if wrong else 0


if __name__ == '__main__':
    sys.exit(main())
