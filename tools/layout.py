#!/usr/bin/env python3
"""layout.py FILE..

Fails if a line of text in a picture leaves the picture or its box, crosses the border of another box or a drawn line, or overlaps another line
of text. It measures text with the widths of Helvetica's letters, and leaves room for fonts that are up to 12 percent wider. tools/charts.py
calls it for each picture that it draws.
"""
import re
import sys
from html import unescape
from pathlib import Path

# The advance widths of the characters from space to ~, in thousandths of the font's size.
REGULAR = [int(width) for width in '''278 278 355 556 556 889 667 191 333 333 389 584 278 333 278 278 556 556 556 556 556 556 556 556 556 556 278 278 584
584 584 556 1015 667 667 722 722 667 611 778 722 278 500 667 556 833 722 778 667 778 722 667 611 722 667 944 667 667 611 278 278 278 469 556 333
556 556 500 556 556 278 556 556 222 222 500 222 833 556 556 556 556 333 500 278 556 500 722 500 500 500 334 260 334 584'''.split()]
BOLD = [int(width) for width in '''278 333 474 556 556 889 722 238 333 333 389 584 278 333 278 278 556 556 556 556 556 556 556 556 556 556 333 333 584
584 584 611 975 722 722 722 722 667 611 778 722 278 556 722 611 833 722 778 667 778 722 667 611 722 667 944 667 667 611 333 278 333 584 556 333
556 611 556 611 556 333 611 611 278 278 556 278 889 611 611 611 611 389 556 333 611 556 778 556 556 500 389 280 389 584'''.split()]
ROOM = 1.12
# How far text keeps from a border, and one line from the next.
MARGIN = 2


def width(line, size, is_bold):
    """How wide a line is at most."""
    widths = BOLD if is_bold else REGULAR
    return sum(widths[ord(c) - 32] for c in line) * size / 1000 * ROOM


def attributes(tag):
    return dict(re.findall(r'([\w-]+)="([^"]*)"', tag))


def lines(svg):
    """Each line of text, with its left, top, right and bottom."""
    for tag, line in re.findall(r'<text ([^>]*)>([^<]*)</text>', svg):
        at, line = attributes(tag), unescape(line)
        size = float(at['font-size'])
        wide = width(line, size, at.get('font-weight') == 'bold')
        left = float(at['x']) - {'start': 0, 'middle': wide / 2, 'end': wide}[at.get('text-anchor', 'start')]
        yield line, (left, float(at['y']) - 0.75 * size, left + wide, float(at['y']) + 0.22 * size)


def boxes(svg):
    for tag in re.findall(r'<rect ([^>]*)/>', svg):
        at = attributes(tag)
        left, top = float(at['x']), float(at['y'])
        yield left, top, left + float(at['width']), top + float(at['height'])


def rules(svg):
    """The drawn lines, each as the box around it."""
    for tag in re.findall(r'<line ([^>]*)/>', svg):
        at = attributes(tag)
        (left, right), (top, bottom) = (sorted(float(at[name + end]) for end in '12') for name in 'xy')
        yield left, top, right, bottom


def meets(a, b):
    return a[0] < b[2] and b[0] < a[2] and a[1] < b[3] and b[1] < a[3]


def within(a, b, margin):
    return b[0] + margin <= a[0] and b[1] + margin <= a[1] and a[2] <= b[2] - margin and a[3] <= b[3] - margin


def faults(svg):
    """What is wrong with a picture. A group is a box, and the lines that belong in it."""
    whole = tuple(float(number) for number in re.search(r'viewBox="([^"]*)"', svg)[1].split())
    for group in re.findall(r'<g>(.*?)</g>', svg, re.S):
        own = next(boxes(group))
        for line, box in lines(group):
            if not within(box, own, MARGIN):
                yield f'"{line}" leaves its box'
    placed = list(lines(svg))
    for place, (line, box) in enumerate(placed):
        if not within(box, whole, MARGIN):
            yield f'"{line}" leaves the picture'
        for border in boxes(svg):
            if meets(box, border) and not within(box, border, MARGIN):
                yield f'"{line}" crosses the border of the box at {border[0]:g}, {border[1]:g}'
        if any(meets(box, rule) for rule in rules(svg)):
            yield f'"{line}" has a drawn line across it'
        for other, other_box in placed[:place]:
            if meets(box, other_box):
                yield f'"{line}" overlaps "{other}"'


def main():
    wrong = [f'{file}: {fault}' for file in sys.argv[1:] for fault in faults(Path(file).read_text())]
    print('\n'.join(wrong) or 'layout: each line is in its box')
    return 1 if wrong else 0


if __name__ == '__main__':
    sys.exit(main())
