#!/usr/bin/env python3
"""wrong_bodies.py [--some N] [CRATE | CRATE/EDIT ..]

Fails unless the prover refuses the wrong bodies in `wrong-bodies` of these crates, or these of a crate, or all. With `--some` it tries all that
are named as CRATE/EDIT, those of a CRATE/, and N of the others in the named crates or in all, which the commit selects. It uses the crates below
as `rt check` or `rt ci` last proved them.

Each file there is an edit. It names the function that it makes wrong, a file, and pairs of lines: a text that is once in the file, and the
text in its place. Before any check, the script fails if an edit does not find its text, so `--some 0` tests only that. An edit:

    function: shifts::shl
    file: src/shifts.rt
    old: narrow(x.shl_by(amount), bits)
    new: narrow(x.shl_by(amount), T::WIDTH)

A line `says: TEXT` requires that the prover prints this text, which a page quotes.

One check tries many wrong bodies of a crate, each of another function in another place. It proves a function from the contracts of the functions
that it calls, not from their bodies. If a called function is wrong too, the prover reports only that, and the caller waits for the next check.
Crates are tried side by side.
"""
import argparse
import hashlib
import os
import re
import shutil
import subprocess
import sys
import tempfile
from concurrent.futures import ThreadPoolExecutor
from pathlib import Path

from program import ROOT

KIT = Path(subprocess.check_output(['rt', 'doc'], text=True)).parent
# The folders of a crate that a check reads.
PARTS = ['src', 'specs', 'proofs']
# A check takes this much memory, in GB.
MEMORY = 2.5
# How many edits of a crate a sample has before it takes another crate, whose first check costs a minute.
FEW = 4
# The prover's words for a function that it refuses, and for one that hangs on another: on what it calls, or on what now calls it.
REFUSED = re.compile(r'not proved|no proof')
HANGS = re.compile(r'it calls|it passes|a call of|a cycle of calls')
# Its words for a fault in a function's proof, and for one that names what a wrong body took away, which does not test the contract.
FAULT = re.compile(r'\S*\bproofs/(\S+)/\w+\.antt\S* error: (.*)')
GOAL = re.compile(r'note: \S+ (it is not proved that .*)')
UNNAMED = re.compile(r'is not in scope|has no field|has no `|was not admitted')
# Its words for a value that is used after it went, which comes before any clause.
LENT = re.compile(r'the borrow checker')
# Its words where an edit doesn't read.
UNREAD = re.compile(r'^\S*\bsrc/\S+ error: .*(?:is not in scope|has no field|is no name).*', re.M)


class WrongBody:
    """One edit. Each change is where in its file a text begins and ends, and the text in its place."""

    def __init__(self, path):
        self.path, self.changes, self.says = path, [], []
        for line in path.read_text().splitlines():
            word, text = line.split(': ', 1)
            if word == 'function':
                self.function = text
            elif word == 'file':
                self.file = text
                whole = (path.parents[1] / text).read_text()
            elif word == 'says':
                self.says.append(text)
            elif word == 'old':
                old = text
            elif word == 'new' and whole.count(old) == 1:
                self.changes.append((whole.index(old), whole.index(old) + len(old), text))
            else:
                sys.exit(f'{path}: where in {self.file} is {old!r}?')
        self.start = min(start for start, _, _ in self.changes)
        self.end = max(end for _, end, _ in self.changes)

    def goes_with(self, other):
        """Whether one check can take both: they are of two functions, and neither changes anything amid the other's changes."""
        apart = self.file != other.file or self.end <= other.start or other.end <= self.start
        return self.function != other.function and apart


def at_a_time(most=None):
    """How many checks run at a time: `most`, or one for each processor, but only as many as there is memory for."""
    free = int(re.search(r'MemAvailable: *(\d+)', Path('/proc/meminfo').read_text())[1]) / 2**20
    return max(1, min(most or len(os.sched_getaffinity(0)), int(free / MEMORY)))


def tried(crate, bodies, uses):
    """Tries these wrong bodies of a crate. Returns what to say of those that are not refused."""
    waiting, bad, together = bodies, [], True
    with tempfile.TemporaryDirectory(prefix='wrong-bodies-') as room:
        while waiting:
            said = checked(crate, Path(room), waiting if together else waiting[:1], uses)
            judged = [it for it in said if len(said) == 1 or not HANGS.search(said[it][0])]
            # where each hangs on another, the first is tried alone
            together = bool(judged)
            waiting = [it for it in waiting if it not in judged]
            for it in judged:
                words, faults, missing = said[it]
                if HANGS.search(words) or not REFUSED.match(words):
                    bad.append(f'{it.path}: NOT REFUSED: {it.function} is {words}')
                elif not LENT.search(words) and all(map(UNNAMED.search, faults)):
                    bad.append(f'{it.path}: no clause was tried: {faults}')
                elif missing:
                    bad.append(f'{it.path}: the prover does not say: {missing}')
                else:
                    print(f'{crate}: {it.path.stem}: refused', flush=True)
    return bad


def checked(crate, room, bodies, uses):
    """Checks as many of these wrong bodies as go in one check. Returns for each what the prover says of its function, what it finds wrong there,
    and what it does not say although the edit requires it."""
    folder = room / 'crate'
    shutil.rmtree(folder, ignore_errors=True)
    for part in PARTS:
        if (ROOT / 'crates' / crate / part).is_dir():
            shutil.copytree(ROOT / 'crates' / crate / part, folder / part)
    taken = []
    for it in bodies:
        if all(map(it.goes_with, taken)):
            taken.append(it)
    # from the end, so that the places before stay as they are
    for start, end, new, file in sorted(((*change, it.file) for it in taken for change in it.changes), reverse=True):
        text = (folder / file).read_text()
        (folder / file).write_text(text[:start] + new + text[end:])
    words = command(crate, room, [it.function for it in taken], uses)
    said = subprocess.run(words, cwd=folder, stdout=subprocess.PIPE, stderr=subprocess.STDOUT, text=True).stdout
    if UNREAD.search(said) or not re.search(r'^only=', said, re.M):
        sys.exit(f'{crate}: the check came to no end with {[it.path.stem for it in taken]}:\n{said}')
    found, faults, goals = {}, {}, []
    for line in said.splitlines():
        if fault := FAULT.match(line):
            faults.setdefault(fault[1].replace('/', '::'), []).append(fault[2])
        elif goal := GOAL.match(line):
            goals.append(goal[1])
        elif function := re.match(rf'fn {crate}::(\S+): (.*)', line):
            found[function[1]], goals = (function[2], [*faults.get(function[1], []), *goals]), []
    return {it: (*found.get(it.function, ('unknown', [])), [text for text in it.says if text not in said]) for it in taken}


def command(crate, room, functions, uses, jobs=1):
    """A check of these functions, in a copy of the crate."""
    built = {it: ROOT / 'crates' / it / 'out/rlib' for it in below(crate, uses)}
    externs = [(it, built.get(it, KIT / 'rlibs')) for it in ['std', *uses[crate]]]
    return [
        KIT / 'bin/rattle', 'check', '--crate-name', crate, 'src/lib.rt',
        *(word for name, folder in externs for word in ('--extern', f'{name}={folder / name}.rlib')),
        *(word for folder in [KIT / 'rlibs', *built.values()] for word in ('-L', f'dependency={folder}')),
        '--antt-project', KIT / 'rattle/logic/antt-project.json', '--logic-built', KIT / 'logic_built',
        '--links', f'{crate}=', '--incremental', room / 'kept', '--jobs', str(jobs),
        *(word for it in functions for word in ('--only', it)),
    ]


def libraries():
    """The libraries that each crate names, by `crates.txt`."""
    lines = (ROOT / 'crates.txt').read_text().splitlines()
    named = (line.partition(':') for line in lines if not line.startswith('#'))
    return {name: uses.split() for name, _, uses in named}


def below(crate, uses):
    """The crates below this one."""
    return {it for name in uses[crate] if name in uses for it in [name, *below(name, uses)]}


def files(named):
    """The edits of a crate, or the one that is named behind it."""
    crate, _, edit = named.partition('/')
    return sorted((ROOT / 'crates' / crate / 'wrong-bodies').glob(f'{edit or "*"}.edit')) or sys.exit(f'{named}: there is no wrong body')


def chosen(paths, count):
    """As many of these wrong bodies, in the order of their hashes behind the commit, but with FEW of each crate together."""
    commit = subprocess.check_output(['git', 'rev-parse', 'HEAD'], cwd=ROOT)
    crates = {}
    for it in sorted(paths, key=lambda it: hashlib.sha256(commit + it.stem.encode()).digest()):
        crates.setdefault(it.parents[1], []).append(it)
    return sorted((it for edits in crates.values() for it in edits), key=lambda it: crates[it.parents[1]].index(it) // FEW)[:count]


def main():
    asked = argparse.ArgumentParser()
    asked.add_argument('--some', metavar='N', type=int)
    asked.add_argument('named', metavar='CRATE | CRATE/EDIT', nargs='*')
    asked = asked.parse_args()
    uses = libraries()
    named = [it for name in asked.named if '/' in name for it in files(name)]
    crates = [name for name in asked.named if '/' not in name]
    if not crates and (asked.some is not None or not named):
        crates = [it for it in uses if (ROOT / 'crates' / it / 'wrong-bodies').is_dir()]
    others = [it for crate in crates for it in files(crate) if it not in named]
    bodies = {it: WrongBody(it) for it in named + others}
    if asked.some is not None:
        bodies = {it: bodies[it] for it in named + chosen(others, asked.some)}
    with ThreadPoolExecutor(at_a_time()) as pool:
        tries = [pool.submit(tried, crate, [body for path, body in bodies.items() if path.parents[1].name == crate], uses) for crate in uses]
        bad = [it for each in tries for it in each.result()]
    print(*bad, f'{len(bodies) - len(bad)} wrong bodies refused, {len(bad)} not', sep='\n')
    return 1 if bad else 0


if __name__ == '__main__':
    sys.exit(main())
