#!/usr/bin/env python3
"""pages.py [--words] [--write]

Fails if a page has too many words, the README too many lines, or a sentence more than 30 words. It also fails if a figure in a sentence differs
from its source or is on no page, or if a number above 128 has no source. With --words it prints the words of each page, and with --write it
writes the figures. The generated docs/API.md does not count.
"""
import re
import subprocess
import sys
from pathlib import Path

import names

ROOT = Path(__file__).resolve().parent.parent
WORDS = {
    'README.md': 850, 'CONTRIBUTING.md': 800, 'CHANGELOG.md': 250, 'docs/ARCHITECTURE.md': 450, 'docs/CALLS.md': 3150, 'docs/DECISIONS.md': 1350,
    'docs/DIFFERENCES.md': 1500, 'docs/GLOSSARY.md': 750, 'docs/PERFORMANCE.md': 950, 'docs/PROVED.md': 850, 'docs/PROVING.md': 2450,
    'docs/SETS.md': 750,
}
ALL_WORDS = 14000
README_LINES = 90
SENTENCE = 30


def source(name, pattern):
    """What the groups of a pattern match in a file of the repository."""
    return re.search(pattern, (ROOT / name).read_text(), re.M).groups()


MEASURED, PROVE, STREAM, NUMERAL = 'tools/measured.txt', 'prove.sh', 'crates/bitrun_service/src/stream.rt', 'crates/bitrun_text/src/numeral.rt'
# tools/believed.py writes the trusted lines there.
TRUSTED = 'docs/ARCHITECTURE.md'
LIMIT = int(source(STREAM, r'const LONGEST_INPUT: usize = ([\d_]+);')[0].replace('_', ''))
STORAGES = sum(file.read_text().count('impl Storage for') for file in (ROOT / 'crates/arbitrary_base/src').rglob('*.rt'))
COUNTED = ['no', 'one', 'two', 'three', 'four', 'five', 'six', 'seven', 'eight', 'nine', 'ten', 'eleven', 'twelve']
# The input of `bitrun` whose output the gate compares, and the lines of that output.
INPUT, OUTPUT = ((ROOT / 'crates/bitrun' / name).read_text() for name in ('stdin', 'stdout'))
FUNCTIONS, _, FOUND, _ = SAMPLE = source(MEASURED, r'sample .*? \| (\d+) \| (\d+) \| (\d+) \| ([\d,]+) \|')
FACTS, PLAIN_FACTS, FOUND_FACTS = source(MEASURED, r'everyday .*? \| (\d+) \| (\d+) \| (\d+) \|')
# The processor time for each open function.
SECONDS = float(SAMPLE[3].replace(',', '')) / (int(FUNCTIONS) - int(SAMPLE[1]))
# What a page says with figures, and these figures.
FIGURES = [
    (r"printf '(.*)' \| \./bitrun\.sh", INPUT.replace('\n', '\\n')),
    (r'\./bitrun\.sh +# (`.*`)\n', ', '.join(f'`{line}`' for line in OUTPUT.splitlines())),
    (r'library, in (\d+) minutes', *source(MEASURED, r'README: minutes \| \d+ \| (\d+)')),
    (r'this takes (\d+) minutes', *source(MEASURED, r'README: minutes \| \d+ \| (\d+)')),
    (r'ten functions takes (\d+) seconds', *source(MEASURED, r'its first check \| (\d+)')),
    (r'and (\d+) after an edit', *source(MEASURED, r'after an edit of one function \| (\d+)')),
    (r'or (\d+) processor\s+minutes', *source(MEASURED, r'minutes of that \| \d+ \| (\d+)')),
    (r'then takes (\d+) more', *source(MEASURED, r'bitrun\.sh` after .*? \| (\d+)')),
    (r'wrong bodies: (\d+) minutes', *source(MEASURED, r'test\.sh`, .*?\| (\d+) \|')),
    (r'took (\d+) minutes, and', *source(MEASURED, r'test\.sh`, .*?\| (\d+) \|')),
    (r'and (\d+) minutes of processor time', *source(MEASURED, r'test\.sh`, .*?\| \d+ \| (\d+)')),
    (r'(\d+) (?:free )?processors', *source(MEASURED, r'with (\d+) processors')),
    (r'processors of (\S+) GHz', *source(MEASURED, r'processors of (\S+) GHz')),
    (r'one `FixedWidth`\s+type takes (\S+) seconds', *source(MEASURED, r'one `FixedWidth` type \| (\S+)')),
    (r'over two (\d\.\d)', *source(MEASURED, r'two `FixedWidth` types \| (\S+)')),
    (r'one `Integer`\s+type (\d\.\d)', *source(MEASURED, r'one `Integer` type \| (\S+)')),
    (r'`wadd` costs (\d+) instructions', *source(MEASURED, r'`wadd`, .*? \| (\d+)')),
    (r'ordinary Rust (\d+) to', *source(MEASURED, r'`wadd`, .* (\d+) to')),
    (r'ordinary Rust \d+ to (\d+)', *source(MEASURED, r'`wadd`, .* to (\d+)')),
    (r'plain C (\d+)', *source(MEASURED, r'`wadd`, .* (\d+) \|')),
    (r'proved (\d+ of \d+) functions', f'{int(FOUND) - int(SAMPLE[1])} of {int(FUNCTIONS) - int(SAMPLE[1])}'),
    (r'(\d+) of \d+ everyday', FOUND_FACTS),
    (r'\d+ of (\d+) everyday', FACTS),
    (r'(\d+) with no laws', PLAIN_FACTS),
    (r'took about (\d+)\s+processor seconds', f'{SECONDS:.0f}'),
    (r'at most (\d+) jobs', *source(PROVE, r'-le \d+ \] \|\| jobs=(\d+)')),
    (r'up to (\d+) GB each', *source(PROVE, r'A job takes up to (\d+) GB')),
    (r'(\d+,\d+) bytes', f'{LIMIT:,}'),
    (r'(\d+,\d+) reads', f'{LIMIT + 1:,}'),
    (r'type has at most (\d+) bits', *source(NUMERAL, r'requires narrow { R.BITS ≤ (\d+) }')),
    (r'the (\w+) primitive integers', COUNTED[STORAGES]),
    (r'(\d+) lines of \[definitions', *source(TRUSTED, r'(\d+) for the libraries')),
    (r'(\d+) more for `bitrun`', *source(TRUSTED, r'(\d+) more for the program')),
    (r'sentences of at most (\d+) words', str(SENTENCE)),
    (r'on lines of at most (\d+) columns', str(names.COLUMNS)),
    (r'module of at most (\d+) lines', str(names.LINES)),
    (r'imperative and has at most (\d+) columns', str(names.SUBJECT)),
    (r'\(logic\s+`(\w+)`', subprocess.check_output(['rt', 'version'], text=True).split()[-1]),
]
# Numbers above 128 that are examples or rules of style.
OTHERS = {'200', '1000'}


def prose(text):
    """The paragraphs of a page: no code, tables or headings, and of a link its text. Code in a line is one word."""
    text = re.sub(r'```.*?```', '\n\n', text, flags=re.S)
    text = re.sub(r'^(?: {4}|\||#|!\[).*$', '', text, flags=re.M)
    text = re.sub(r'\[((?:[^\[\]`]|`[^`]*`)*)\]\([^)\s]*\)', r'\1', text)
    text = re.sub(r'`[^`]*`', 'code', text)
    text = re.sub(r'^(\s*)(?:- |\d+\. )', r'\n', text, flags=re.M)
    return [' '.join(part.split()) for part in re.split(r'\n\s*\n', text) if part.strip()]


def sentences(text):
    for paragraph in prose(text):
        yield from re.split(r'(?<=[.?!])[*)]* +(?=[A-Z*(]|code|\w+\.(?:py|rt|md|txt))', paragraph)


def main():
    wrong, total = [], 0
    pages = {name: (ROOT / name).read_text() for name in WORDS}
    if '--write' in sys.argv[1:]:
        for name, text in pages.items():
            for phrase, figure in FIGURES:
                text = re.sub(phrase, lambda found: found[0].replace(found[1], figure), text)
            pages[name] = text
            (ROOT / name).write_text(text)
    for phrase, _ in FIGURES:
        if not any(re.search(phrase, text) for text in pages.values()):
            wrong.append(f'no page has the figure {phrase}')
    for name, text in pages.items():
        words = len(text.split())
        total += words
        if '--words' in sys.argv[1:]:
            print(f'{words:6} {name}')
        if words > WORDS[name]:
            wrong.append(f'{name}: {words} words, where {WORDS[name]} are allowed')
        for phrase, figure in FIGURES:
            wrong += [f'{name}: {found}, where the sources have {figure}' for found in re.findall(phrase, text) if found != figure]
        for sentence in sentences(text):
            count = len(re.findall(r'[\w\'-]*\w[\w\'-]*', sentence))
            for number in re.findall(r'(?<![\w.,-])\d[\d,]*(?![\w.,]*\w)', sentence):
                known = [figure for _, figure in FIGURES] + sorted(OTHERS)
                if int(number.replace(',', '')) > 128 and number.rstrip(',') not in known:
                    wrong.append(f'{name}: the number {number} has no source: {sentence}')
            if count > SENTENCE:
                wrong.append(f'{name}: a sentence of {count} words: {sentence}')
    print(f'{total:6} in all') if '--words' in sys.argv[1:] else None
    if total > ALL_WORDS:
        wrong.append(f'{total} words on all pages, where {ALL_WORDS} are allowed')
    if pages['README.md'].count('\n') > README_LINES:
        wrong.append(f'README.md: {pages["README.md"].count(chr(10))} lines, where {README_LINES} are allowed')
    print('\n'.join(wrong) or f'pages: {total} words, and no sentence over {SENTENCE}')
    return 1 if wrong else 0


if __name__ == '__main__':
    sys.exit(main())
