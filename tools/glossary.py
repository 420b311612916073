#!/usr/bin/env python3
"""glossary.py

Fails if a word of tools/retired_words.txt is in the crates' src/ and specs/, in docs/ or in the name of a file there, or if one of the words for
pages is on a page. It also fails for a word in code of docs/GLOSSARY.md, or a name of a clause in docs/CALLS.md, that no crate has.
"""
import re
import sys
from pathlib import Path

ROOT = Path(__file__).resolve().parent.parent
RETIRED = ROOT / 'tools/retired_words.txt'
# How a comment begins, by the suffix of the file.
COMMENTS = {'.rt': r'//', '.antt': r'(?<!\S)--(?!\S)'}


def retired():
    """The names and the phrases that are retired, and the phrases that are so in prose alone."""
    names, phrases, in_prose = [], [], []
    other = phrases
    for line in RETIRED.read_text().splitlines():
        if line == '[prose]':
            other = in_prose
        elif not line.startswith('#'):
            for word in line.split(':')[0].split(','):
                (names if '`' in word else other).append(word.strip().strip('`'))
    return names, phrases, in_prose


def pattern(phrases):
    return re.compile(r'(?<![A-Za-z])(' + '|'.join(phrases) + r')(?![A-Za-z])', re.I)


def prose_faults(phrases):
    """Where a page or a comment has one of the phrases, but in code and in links. What is generated has the words of its sources."""
    phrase = pattern(phrases)
    for page in [*sorted(ROOT.glob('*.md')), *sorted((ROOT / 'docs').glob('*.md'))]:
        if page.name == 'API.md':
            continue
        lines = re.sub(r'```.*?```', lambda block: re.sub(r'[^\n]', '', block[0]), page.read_text(), flags=re.S).splitlines()
        for number, line in enumerate(lines, 1):
            line = '' if line.startswith('    ') else re.sub(r'`[^`]*`|\]\([^)]*\)', ' ', line)
            for found in phrase.finditer(line):
                yield f'{page.relative_to(ROOT)}:{number}: not plain English: {found[1]}'
    for file in sorted(it for part in ['src', 'specs', 'proofs'] for it in (ROOT / 'crates').glob(f'*/{part}/**/*') if it.suffix in COMMENTS):
        for number, line in enumerate(file.read_text().splitlines(), 1):
            if place := re.search(COMMENTS[file.suffix], line):
                for found in phrase.finditer(re.sub(r'`[^`]*`', ' ', line[place.start():])):
                    yield f'{file.relative_to(ROOT)}:{number}: not plain English: {found[1]}'


def files():
    """The files that the words are looked for in, each with its text."""
    for folder in ['src', 'specs']:
        for file in sorted((ROOT / 'crates').glob(f'*/{folder}/**/*')):
            if file.suffix in ('.rt', '.antt'):
                yield file, file.read_text()
    for file in sorted((ROOT / 'docs').rglob('*')):
        if file.suffix in ('.md', '.svg'):
            yield file, file.read_text()


def unknown(sources):
    """The words of the glossary, outside its brackets, and the names of clauses in the list of CALLS.md, that the sources do not have."""
    glossary = re.sub(r'\([^)]*\)', '', (ROOT / 'docs/GLOSSARY.md').read_text())
    for word in {*re.findall(r'`(\w+)`', glossary)} - {*re.findall(r'\w+', sources)}:
        yield f'docs/GLOSSARY.md: no source has the word {word}'
    clauses = ' '.join(re.findall(r'^- (`.*?):', (ROOT / 'docs/CALLS.md').read_text(), re.M))
    for name in {*re.findall(r'`(\w+)`', clauses)} - {*re.findall(r'ensures (\w+) {', sources)}:
        yield f'docs/CALLS.md: no contract has a clause {name}'


def code(file, line):
    """The parts of a line that are code: on a page and in a comment those in backticks."""
    place = re.search(COMMENTS.get(file.suffix, ''), line)
    if not place:
        return line
    return line[:place.start()] + ' ' + ' '.join(line[place.start():].split('`')[1::2])


def main():
    names, phrases, in_prose = retired()
    if not names or not phrases or not in_prose:
        sys.exit(f'{RETIRED}: no names, or no phrases')
    name = re.compile(r'(?<![\w-])(' + '|'.join(map(re.escape, names)) + r')(?![\w-])')
    phrase = pattern(phrases)
    texts = list(files())
    wrong = [*prose_faults(in_prose), *unknown(''.join(text for file, text in texts if file.suffix != '.md'))]
    for file, text in texts:
        path = file.relative_to(ROOT)
        for part in path.parts:
            if phrase.search(part) or name.search(part.split('.')[0]):
                wrong.append(f'{path}: a retired word in the name {part}')
        for number, line in enumerate(text.splitlines(), 1):
            line = line.replace('Answers.antt', '')
            found = phrase.search(line) or name.search(code(file, line))
            if found:
                wrong.append(f'{path}:{number}: the retired word {found[1]}')
    print('\n'.join(wrong) or 'words: none is retired')
    return 1 if wrong else 0


if __name__ == '__main__':
    sys.exit(main())
