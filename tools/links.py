#!/usr/bin/env python3
"""links.py

Fails if a link on a page leads to no file, or to no heading of a page. It also fails for a page or a file that is named without a link outside
a command, for a folder that does not exist, for a file that a command copies and that does not exist, and for the marks of a merge conflict. It
does not follow addresses on the web.
"""
import re
import sys
from pathlib import Path

ROOT = Path(__file__).resolve().parent.parent
PAGES = sorted([*ROOT.glob('*.md'), *(ROOT / 'docs').glob('*.md')])
# The crate of the reader's own, in the first example.
OWN = 'crates/mine'
LINK = re.compile(r'\[((?:[^\[\]`]|`[^`]*`|!\[[^\]]*\]\([^)]*\))*)\]\(([^()\s]+)\)|!\[[^\]]*\]\(([^()\s]+)\)')


def prose(text):
    """The text with no blocks of code, line by line as it was."""
    kept, is_code = [], False
    for line in text.splitlines():
        is_fence = line.startswith('```')
        kept.append('' if is_code or is_fence or line.startswith('    ') else line)
        is_code ^= is_fence
    return '\n'.join(kept)


def headings(page):
    """The anchors of a page: those of its headings, as a viewer of Markdown makes them, and its marks."""
    seen, anchors = {}, set(re.findall(r'<a id="([^"]*)">', page.read_text()))
    for title in re.findall(r'^#+ (.*)$', prose(page.read_text()), re.M):
        title = re.sub(r'\[([^\]]*)\]\([^)]*\)', r'\1', title)
        anchor = re.sub(r'[^\w\- ]', '', title.lower()).replace(' ', '-')
        anchors.add(f'{anchor}-{seen[anchor]}' if anchor in seen else anchor)
        seen[anchor] = seen.get(anchor, 0) + 1
    return anchors


def broken(page, target):
    """What is wrong with a link on a page, if anything."""
    path, _, anchor = target.partition('#')
    file = (page.parent / path).resolve() if path else page
    if re.match(r'https?://', target):
        return None
    if not file.exists() or not file.is_relative_to(ROOT):
        return 'no such file'
    if anchor and (file.suffix != '.md' or anchor not in headings(file)):
        return 'no such heading'
    return None


def main():
    wrong = []
    names = '|'.join(re.escape(page.name) for page in PAGES)
    for page in PAGES:
        text = prose(page.read_text())

        def tell(place, name, why):
            wrong.append(f'{page.relative_to(ROOT)}:{text.count(chr(10), 0, place) + 1}: {name}: {why}')

        for mark in re.finditer(r'^(?:<{7}|>{7})', text, re.M):
            tell(mark.start(), mark[0], 'a conflict that is not settled')
        for link in LINK.finditer(text):
            target = link.group(2) or link.group(3)
            why = broken(page, target)
            if why:
                tell(link.start(), target, why)
        for command in re.finditer(r'\bcp (\S+)', page.read_text()):
            if not (ROOT / command[1]).exists():
                wrong.append(f'{page.relative_to(ROOT)}: {command[1]}: copied, and no such file')
        # What is taken out leaves as many characters, so that a place stays a place.
        rest = LINK.sub(lambda link: re.sub(r'[^\n]', ' ', link.group()), text)
        rest = re.sub(r'`[^`\n]*`', lambda code: ' ' * len(code.group()) if ' ' in code.group() else code.group(), rest)
        for name in re.finditer(rf'(?<![\w/])(?:{names}|(?:crates|tools|docs)/[\w/.-]*[\w/])', rest):
            if not name.group().startswith(OWN) and not (ROOT / name.group()).is_dir():
                tell(name.start(), name.group(), 'named, and no link')
    print('\n'.join(wrong) or 'links of the pages: as they should be')
    return 1 if wrong else 0


if __name__ == '__main__':
    sys.exit(main())
