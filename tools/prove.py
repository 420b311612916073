#!/usr/bin/env python3
"""prove.py CRATE [FUNCTION ..] [--write]

Finds laws that prove what the check leaves open: in a whole crate, or in these functions, each named as the check names it, without the crate:
`module::function` or `Type::call`. It prints what the attribute of each has to name: a set of laws of arbitrary_laws if one is enough, in generic
code a group that it opens, else a few laws, which become a `ruleset` of the crate's own proofs/Laws.antt.

With `--write` it writes those attributes and that file, adds to crates.txt the libraries that have the laws, and checks again. It changes no
contract and no body, and without `--write` nothing.
"""
import argparse
import math
import re
import shutil
import signal
import subprocess
import sys
import tempfile
import time
from concurrent.futures import ThreadPoolExecutor
from pathlib import Path

if not shutil.which('rt'):
    sys.exit('prove.py: there is no rt on the PATH: install the Rattle kit, whose rt proves the crates')

from attributes import changed, changes, without_laws, write
from program import ROOT
from relevance import Index, is_group, path, words
from wrong_bodies import KIT, PARTS, at_a_time, below, command, libraries

# The crate that has the laws for callers. The libraries below it have more laws.
LAWS = 'arbitrary_laws'
PAGE = ROOT / 'docs/PROVING.md'
STARTED = time.monotonic()
# The steps that the check gives the laws of an attribute, and an eighth of them, which is enough for most proofs.
STEPS = 2000000
FEW = 250000
# The attempts of each round at a goal: the steps of an attempt, the number of sets to try one at a time, and the numbers of best laws to try.
ROUNDS = [[(FEW, 40, (8, 24))], [(STEPS, 12, (8,)), (FEW, 1000, (16, 48))], [(STEPS, 1000, (24, 80))]]
# The number of lists that close a function's first goal, which are then tried at its other goals. It is also the number of best sets that, with all
# public ones, are tried as the attribute of an open function; in generic code, they come first. The next number limits the steps of a function.
LISTS = 4
MOST = 600000000
# The number of choices of laws for a function that are checked as attributes after a round.
CHOICES = 4
# A check takes this many seconds at least.
START = 15
CHECKED = re.compile(r'^checked \w+::(\S+), \d+ of \d+')
ENDED = re.compile(r'^(?:logic=|holes=|only=)', re.M)
ERROR = re.compile(r'^(?:\./)?(\S*:? ?error(?:\[[\w-]+\])?: .*)', re.M)
UNKNOWN = re.compile(r'error: (`\w+` has no function `[^`]*`)')
# What the check offers for a function with open goals: the file of its answers, and in it each goal.
OFFER = re.compile(r'^help: write \./proofs/(\S+)/Answers\.antt with these lines.*\n((?:    .*\n|\n)*)', re.M)
GOAL = re.compile(r'^pub (\S+) : (.+)\n(?:unfolding (.*)\n)?\1(.*) = \?$', re.M)
PLACE = re.compile(r'^-- (\S+\.rt):(\d+):\d+$', re.M)
# A goal that values break, whatever the laws.
FALSE = re.compile(r'^note: `(\S+)` of proofs/(\S+)/Answers\.antt may be false: the known facts allow (.*?): help', re.M)
# Words that the names of goals have whatever they are about.
COMMON = {'requires', 'result', 'clause', 'overflow', 'then', 'else', 'in', '2', '3'}
# What a check says of a goal without answers: the goal, and the names of what is known there.
NOTE = re.compile(r'^note: `(\S+)` of proofs/(\S+)/Answers\.antt must prove: (.*)\n((?:  .*\n)*)', re.M)
# What a check says of answers: an attempt that failed, and a goal with what is known there.
FAILED = re.compile(r'^\./proofs/(\S+)/Answers\.antt:\d+:\d+: .*?`try-(\d+)`', re.M)
HOLE = re.compile(r'^\./proofs/(\S+)/Answers\.antt:\d+:\d+: goal \? in `(\S+)`\n((?: .*\n)*)', re.M)
# What comes before the names of what is known at a goal, and in their place where another goal has the same.
KNOWN = 'names you can use'
ABOVE = re.compile(r'as in `(\S+)` above')
# A parameter of generic code, whose bound has laws.
GENERIC = re.compile(r'\bg\.')


class Stop(Exception):
    """What ends the run, in one line."""


def say(text):
    print(f'{time.monotonic() - STARTED:4.0f} s  {text}', flush=True)


class Function:
    """A function with open goals."""

    def __init__(self, name, offer):
        self.name = name
        file, line = PLACE.search(offer).groups()
        self.file, self.line = file, int(line)
        self.head = '\n'.join(it for it in offer.splitlines() if it.startswith('use '))
        self.goals = {goal: it for goal, *it in GOAL.findall(offer)}
        # by goal, values that break it whatever the laws
        self.broken = {}
        # by goal: what the check says of it, the lists that were tried with their steps, and those that closed it, the best first
        self.shown = dict.fromkeys(self.goals, '')
        self.tried = {goal: {} for goal in self.goals}
        self.closed = {goal: [] for goal in self.goals}

    def said(self, goal):
        """What the check says of a goal, with what it says of another where it refers to that."""
        text, named = self.shown[goal], {goal}
        while (found := ABOVE.search(text)) and found[1] in self.shown and found[1] not in named:
            named.add(found[1])
            text = text.replace(found[0], '') + self.shown[found[1]].partition(KNOWN)[2]
        return text

    def open_goals(self):
        return [goal for goal in self.goals if not self.closed[goal]]

    def answers(self, attempts):
        """Its answers: each attempt, which is a goal, a list of laws and a number of steps, and then the open goals."""
        entries = {law: f'law-{number}' for number, law in enumerate(dict.fromkeys(law for _, laws, _ in attempts for law in laws))}
        lines = [self.head, 'use Rattle.std.proofs.Common.{arith as the_arith}']
        lines += [f'use {module}.{{{name} as {here}}}' for (module, name), here in entries.items()]
        for number, (goal, laws, steps) in enumerate(attempts):
            call = ', '.join(['the_arith', *(entries[law] for law in laws)])
            lines += self.answer('', f'try-{number}', goal, f'grind ({call}) steps {steps}')
        for goal in self.goals:
            lines += self.answer('pub ', goal, goal, '?')
        return '\n'.join(lines) + '\n'

    def answer(self, mark, name, goal, proof):
        type_, opened, rest = self.goals[goal]
        return ['', f'{mark}{name} : {type_}', *([f'unfolding {opened}'] if opened else []), f'{name}{rest} = {proof}']


class Copies:
    """Copies of the crate, for checks at the same time."""

    def __init__(self, crate, room, uses, jobs):
        self.crate, self.uses, self.running, self.is_ended = crate, uses, [], False
        self.count = at_a_time(jobs)
        self.rooms = [room / str(number) for number in range(self.count)]
        self.folder = ROOT / 'crates' / crate
        for it in self.rooms:
            for part in filter(lambda part: (self.folder / part).is_dir(), PARTS):
                shutil.copytree(self.folder / part, it / 'crate' / part)
            if (self.folder / 'out/incremental').is_dir():
                shutil.copytree(self.folder / 'out/incremental', it / 'kept')

    def check(self, room, functions, *flags):
        """Checks these functions in a copy, and returns what it says."""
        root = 'src/lib.rt' if (room / 'crate/src/lib.rt').is_file() else 'src/main.rt'
        words = [root if it == 'src/lib.rt' else it for it in command(self.crate, room, functions, self.uses)]
        for is_last in (False, True):
            said, code = run([*words, '--progress', *flags], room / 'crate', self.running)
            if ENDED.search(said):
                return said
            # for want of memory a check is killed, and may end once others have
            if is_last or self.is_ended or not is_killed(code):
                raise Stop(why(self.crate, said, code))
            say('a check was killed: once more')

    @staticmethod
    def answers_of(room, function):
        return room / 'crate/proofs' / function.name.replace('::', '/') / 'Answers.antt'

    def tried(self, attempts):
        """Tries these attempts, by function, side by side. Notes what closes a goal, and what the check says of each."""
        shares = [{} for _ in self.rooms]
        parts = math.ceil(self.count / max(1, len(attempts)))
        pieces = [(function, listed[part::parts]) for function, listed in attempts.items() for part in range(min(parts, len(listed) or 1))]
        for function, piece in sorted(pieces, key=lambda it: -cost(it[1])):
            share = min(shares, key=lambda it: sum(map(cost, it.values())))
            share.setdefault(function, []).extend(piece)

        def work(room, share):
            if not share:
                return
            for function, listed in share.items():
                write({self.answers_of(room, function): function.answers(listed)})
            said = self.check(room, [function.name for function in share], '--allow-holes')
            failed = {(path.replace('/', '::'), int(number)) for path, number in FAILED.findall(said)}
            shown = {(path.replace('/', '::'), goal): text for path, goal, text in HOLE.findall(said)}
            for function, listed in share.items():
                self.answers_of(room, function).unlink()
                function.shown.update((goal, shown[function.name, goal].partition('⊢')[2]) for goal in function.goals if (function.name, goal) in shown)
                for number, (goal, laws, steps) in enumerate(listed):
                    # where the goal is not shown the answers were not read
                    if (function.name, goal) in shown:
                        function.tried[goal][frozenset(laws)] = steps
                        if (function.name, number) not in failed:
                            function.closed[goal].append(laws)

        self.side_by_side(work, self.rooms, shares)

    def proved(self, room, solutions):
        """Those of these functions that a check in this copy proves with their attributes."""
        if not solutions:
            return {}
        with changed(changes(room / 'crate', solutions)):
            verdict = verdicts(self.crate, self.check(room, [it.name for it in solutions]))
        for it, found in solutions.items():
            say(f'{it.name}: {"proved" if verdict.get(it.name) == "proved" else "not proved"} by {in_words(*found)}')
        return {it: found for it, found in solutions.items() if verdict.get(it.name) == 'proved'}

    def confirmed(self, solutions):
        """Those of these functions that the check proves with their attributes, a share in each copy."""
        if solutions:
            say(f'attributes: {len(solutions)} functions')
        found = self.side_by_side(self.proved, self.rooms, shares(list(solutions.items()), self.count, dict))
        return {it: by for proved in found for it, by in proved.items()}

    def by_attributes(self, choices):
        """Those of these functions that the check proves with one of their choices as the attribute. Each copy tries another choice."""
        confirmed = {}
        for start in range(0, max(map(len, choices.values()), default=0), self.count):
            tried = [
                {it: ([listed[number]], []) for it, listed in choices.items() if it not in confirmed and number < len(listed)}
                for number in range(start, start + self.count)
            ]
            for proved in self.side_by_side(self.proved, self.rooms, tried):
                confirmed.update(proved)
        return confirmed

    def side_by_side(self, work, *lists):
        """What this work returns for each entry of the lists. If one fails, or at an interrupt, it ends the running checks."""
        with ThreadPoolExecutor(self.count) as pool:
            try:
                return list(pool.map(work, *lists))
            except BaseException:
                self.is_ended = True
                for it in list(self.running):
                    it.kill()
                raise


def shares(listed, count, kind=list):
    """Splits a list into `count` parts, one for each copy."""
    return [kind(listed[number::count]) for number in range(count)]


def cost(listed):
    """How long these attempts at a function take, in steps. The function itself takes some of them."""
    return STEPS + sum(steps for _, _, steps in listed)


def strengths(shown, index):
    """The words of a goal and, with less strength, of what is known there: of the facts that are shown, and of what the calls before it ensure."""
    goal, _, known = shown.partition(KNOWN)
    facts = ' '.join(re.findall(r'^ *c\.\S+ : (.*)$', known, re.M))
    calls = {word for call in re.findall(r'\bc\.(\w+)', known) for word in index.ensured.get(call, ())}
    return {**dict.fromkeys(words(facts) | calls, 0.8), **dict.fromkeys(words(goal), 1.0)}


def run(words, folder, running):
    """Runs a command, prints each function that it has checked, and returns its output and status."""
    with subprocess.Popen(words, cwd=folder, stdout=subprocess.PIPE, stderr=subprocess.STDOUT, text=True, errors='replace') as child:
        running.append(child)
        said = []
        try:
            for line in child.stdout:
                if found := CHECKED.match(line):
                    say(f'  {found[1]}')
                else:
                    said.append(line)
        except BaseException:
            child.terminate()
            raise
    running.remove(child)
    return ''.join(said), child.returncode


def is_killed(code):
    return code < 0 or code in (137, 143)


def why(crate, said, code):
    """Why a check has no result, in one line."""
    if is_killed(code):
        return f'the check of {crate} was killed: nothing is changed'
    unknown, error = UNKNOWN.search(said), ERROR.search(said)
    last = (said.strip().splitlines() or ['it printed nothing'])[-1]
    return unknown[1] if unknown else f'{crate} does not compile: {error[1]}' if error else f'the check of {crate} has no result: {last}'


def verdicts(crate, said):
    """What a check says of each function."""
    return dict(re.findall(rf'^fn {crate}::(\S+): (.*)', said, re.M))


def offers(said):
    """The functions whose goals a check shows, by name."""
    texts = {path.replace('/', '::'): re.sub(r'^    ', '', text, flags=re.M) for path, text in OFFER.findall(said)}
    found = {name: Function(name, text) for name, text in texts.items() if GOAL.search(text) and PLACE.search(text)}
    for goal, path, values in FALSE.findall(said):
        if (name := path.replace('/', '::')) in found:
            found[name].broken[goal] = values
    for goal, path, text, known in NOTE.findall(said):
        if (name := path.replace('/', '::')) in found:
            found[name].shown[goal] = text + known
    return found


def in_words(named, laws):
    """These sets, and how many further laws."""
    return ' and '.join([*map(path, named), *([f'{len(laws)} laws'] if laws else [])])


def with_all(lists):
    """These lists of laws, each with as many steps as the check gives an attribute."""
    return [(laws, STEPS) for laws in lists]


class Search:
    """The search for laws, over the functions of a crate with open goals."""

    def __init__(self, copies, index, functions):
        self.copies, self.index, self.functions = copies, index, functions
        # the seconds of a step, as far as any were made
        self.pace = 0.0

    def choices(self, shown, plan):
        """What to try at a goal of which the check says this: each of the best sets alone, and the best laws, each with its steps."""
        known = strengths(shown, self.index)
        sets, laws = self.index.ranked_sets(known), self.index.ranked_laws(known, max(count for _, _, counts in plan for count in counts))
        return [(found, steps) for steps, last, counts in plan for found in [*([it] for it in sets[:last]), *(laws[:count] for count in counts)]]

    def show_goals(self):
        """Has the check show the goals that it has not shown: of many functions it shows those of the first alone."""
        if unseen := {it: [] for it in self.functions if not all(it.shown.values())}:
            say(f'the goals of {len(unseen)} functions')
            self.copies.tried(unseen)

    def round(self, what, plan):
        """Tries this at the first open goal of each function, and at the others if something closes it: if nothing does, the function stays open."""
        first = {it: it.open_goals()[0] for it in self.functions if it.open_goals()}
        tried = self.try_all({(it, goal): self.choices(it.said(goal), plan) for it, goal in first.items()}, what)
        left = [it for it in tried if it.closed[first[it]] and it.open_goals()]
        self.try_all({(it, goal): with_all(it.closed[first[it]][:LISTS]) for it in left for goal in it.open_goals()}, f'{what}, other goals')
        self.try_all({(it, goal): self.choices(it.said(goal), plan) for it in left for goal in it.open_goals()}, f'{what}, goals apart')
        for it in tried:
            count = len(it.open_goals())
            say(f'{it.name}: {count} of {len(it.goals)} goals open')

    def try_all(self, wanted, what):
        """Tries these lists of laws, by function and goal, each with its steps, except those already tried. Returns the functions of which it tried
        any."""
        attempts = {}
        for (function, goal), choices in wanted.items():
            spent = sum(sum(tried.values()) for tried in function.tried.values())
            for laws, steps in choices:
                listed = attempts.get(function, [])
                if laws and steps > function.tried[goal].get(frozenset(laws), 0) and spent + cost(listed) < MOST:
                    attempts.setdefault(function, listed).append((goal, laws, steps))
        if attempts:
            total = sum(map(cost, attempts.values()))
            count = sum(map(len, attempts.values()))
            say(f'{what}: {len(attempts)} functions, {count} attempts' + (f', some {max(START, total * self.pace):.0f} s' if self.pace else ''))
            started = time.monotonic()
            self.copies.tried(attempts)
            self.pace = (time.monotonic() - started) / total
        return list(attempts)

    def is_set(self, laws):
        """Whether this is one set alone."""
        return laws[0] in self.index.sets

    def lessen(self, functions):
        """Where no set closes a goal, takes away laws as long as the others still close it: an eighth of them at a time, and in the end one."""
        for _ in range(3):
            left = {(it, goal): min(closed, key=len) for it in functions for goal, closed in it.closed.items() if not any(map(self.is_set, closed))}
            sizes = {key: math.ceil(len(laws) / 8) for key, laws in left.items()}
            groups = {key: [laws[start : start + sizes[key]] for start in range(0, len(laws), sizes[key])] for key, laws in left.items()}

            def rest(key, gone):
                return [law for law in left[key] if law not in {it for group in gone for it in group}]

            self.try_all({key: with_all(rest(key, [it]) for it in found) for key, found in groups.items()}, 'fewer laws')
            spare = {key: [it for it in found if rest(key, [it]) in key[0].closed[key[1]]] for key, found in groups.items()}
            # where each can go they may not all go
            self.try_all({key: with_all(rest(key, part) for part in (it, it[::2], it[1::2])) for key, it in spare.items()}, 'fewer laws')

    def best(self, choices):
        """The smallest set of these choices, or else the fewest laws."""
        return min(choices, key=lambda laws: (not self.is_set(laws), len(self.index.members(laws[0]) if self.is_set(laws) else laws)))

    def solution(self, function):
        """The sets and the further laws for the attribute of a function: what closes all its goals, or else what closes each."""
        first, *others = function.closed.values()
        common = [laws for laws in first if all(laws in closed for closed in others)]
        found = [self.best(common)] if common else list(map(self.best, [first, *others]))
        named = list(dict.fromkeys(laws[0] for laws in found if self.is_set(laws)))
        return named, list(dict.fromkeys(law for laws in found if not self.is_set(laws) for law in laws))

    def confirmed(self, functions):
        """What proves these functions, whose goals are closed, as the check confirms it: if not by the first choice, by one of a few others."""
        found = {}
        for _ in range(CHOICES):
            solutions = {it: self.solution(it) for it in functions}
            found.update(self.copies.confirmed(solutions))
            functions = [it for it in functions if it not in found and self.is_solved_without(it, *solutions[it])]
        return found

    def sets(self, function):
        """The best sets for the first goal of a function, and then the other public ones."""
        ranked = self.index.ranked_sets(strengths(function.said(next(iter(function.goals))), self.index))
        return ranked[:LISTS] + list(filter(self.index.is_public_set, ranked[LISTS:]))

    def is_solved_without(self, function, named, laws):
        """Drops what has no sets and no laws but these. Returns whether each goal is still closed by something."""
        function.closed = {goal: [it for it in closed if not {*it} <= {*named, *laws}] for goal, closed in function.closed.items()}
        return all(function.closed.values())


def likeness(here, there):
    """How much two sets of words have in common, from 0 to 1."""
    return len(here & there) / (len(here | there) or 1)


def link(goal, source):
    """The entry of PROVING.md that is closest to a goal: by the goals that it names, and then by the words of the function."""
    best, found = (0.0,), str(PAGE.relative_to(ROOT))
    for entry in re.split(r'^## ', PAGE.read_text(), flags=re.M)[1:]:
        title, _, text = entry.partition('\n')
        for name in re.findall(r'`(\w+-[\w-]+|returns)`', text):
            here, there = (set(re.split('[-_]', it)) for it in (goal, name))
            texts = [set(re.findall(r'\w{3,}|[|&^<>+*%-]+', it)) for it in (source, text)]
            alike = (likeness(here - COMMON, there - COMMON), likeness(here, there), likeness(*texts))
            if alike[0] and alike > best:
                anchor = re.sub(r'[^\w -]', '', title.lower()).replace(' ', '-')
                best, found = alike, f'{PAGE.relative_to(ROOT)}#{anchor}'
    return found


def first_check(crate, names, jobs):
    """Checks the crate as it is. Returns what it says of each function, and the functions with open goals that were asked for."""
    say(f'the check of {crate}')
    words = ['rt', 'check', *(['--jobs', str(jobs)] if jobs else []), *(word for name in names for word in ('--only', name))]
    said, code = run(words, ROOT / 'crates' / crate, [])
    if not ENDED.search(said):
        raise Stop(why(crate, said, code))
    return verdicts(crate, said), {name: it for name, it in offers(said).items() if not names or name in names}


def found_in(copies, index, functions):
    """By function, what closes its goals as the check confirms it: public sets, and further laws."""
    search = Search(copies, index, functions)
    search.show_goals()
    generic = [it for it in functions if any(map(GENERIC.search, it.shown.values()))]
    if generic:
        say(f'groups and sets: {len(generic)} functions')
    confirmed = copies.by_attributes({it: [*index.groups, *search.sets(it)[:LISTS]] for it in generic})
    for number, plan in enumerate(ROUNDS, 1):
        search.functions = [it for it in functions if it not in confirmed]
        search.round(f'round {number} of {len(ROUNDS)}', plan)
        closed = [it for it in search.functions if not it.open_goals()]
        search.lessen(closed)
        confirmed.update(search.confirmed(closed))
    # the check does more with an attribute than with an attempt
    confirmed.update(copies.by_attributes({it: search.sets(it)[LISTS if it in generic else 0 :] for it in functions if it not in confirmed}))
    return confirmed


def bare(copies, names):
    """Those of these functions that have open goals without the laws of attributes, which a new attribute replaces. Takes those away from them in
    each copy."""
    texts = {file: file.read_text() for room in copies.rooms for file in (room / 'crate/src').rglob('*.rt')}
    write({file: without_laws(text) for file, text in texts.items()})
    say('the goals without the laws of attributes')
    said = ''.join(copies.side_by_side(lambda room, share: copies.check(room, share) if share else '', copies.rooms, shares(names, copies.count)))
    write(texts)
    found = offers(said)
    for name in (name for name in names if name not in found):
        say(f'{name}: without laws {verdicts(copies.crate, said).get(name, "unknown")}')
    functions = [found[name] for name in names if name in found]
    for room in copies.rooms:
        write(changes(room / 'crate', {it: ([], []) for it in functions}))
    return functions


def texts_with(crate, folder, solutions):
    """The new text of each file that gets these attributes and laws, and of crates.txt where it lacks the libraries that have them."""
    new = changes(folder, solutions)
    needed = {path(entry).split('::')[0] for named, laws in solutions.values() for entry in [*named, *laws]} & set(libraries())
    if lacking := sorted(needed - {*libraries()[crate], crate}):
        file = ROOT / 'crates.txt'
        new[file] = re.sub(rf'^({crate}\b[^:\n]*):?', rf'\1: {" ".join(lacking)}', file.read_text(), flags=re.M)
    return new


def written(crate, folder, solutions, names, jobs):
    """Writes the attributes and laws with which the check proves their functions. Returns what it says of each function."""
    with changed(texts_with(crate, folder, solutions)):
        verdict = first_check(crate, names, jobs)[0]
    new = texts_with(crate, folder, {it: found for it, found in solutions.items() if verdict.get(it.name) == 'proved'})
    write(new)
    say(f'wrote {", ".join(str(it.relative_to(ROOT)) for it in new) or "nothing"}')
    return verdict


def searched(crate, names, functions, jobs):
    """The functions of these names, or those given, with open goals, and what proves them, in copies of the crate that also use the laws."""
    uses = libraries()
    if LAWS not in uses[crate]:
        say(f'{LAWS}, which has the laws')
        said, code = run(['rt', 'lib'], ROOT / 'crates' / LAWS, [])
        if code:
            raise Stop(why(LAWS, said, code))
    with_laws = [LAWS, *sorted(below(LAWS, uses))]
    uses[crate] = list(dict.fromkeys([*uses[crate], *with_laws]))
    index = Index([ROOT / 'crates' / it for it in with_laws], KIT / 'rattle')
    with tempfile.TemporaryDirectory(prefix='prove-') as room:
        copies = Copies(crate, Path(room), uses, jobs)
        has_laws = any(without_laws(text) != text for text in map(Path.read_text, (copies.folder / 'src').rglob('*.rt')))
        functions = bare(copies, names) if has_laws else functions
        return functions, found_in(copies, index, functions)


def prove(crate, names, is_writing, is_anew, jobs):
    """Proves what it can, and prints what stays open. Returns whether anything does."""
    uses, folder = libraries(), ROOT / 'crates' / crate
    for name, it in ((crate, folder / 'src'), (LAWS, ROOT / 'crates' / LAWS / 'src')):
        if name not in uses or not it.is_dir():
            raise Stop(f'{name} is missing: crates.txt has no line for it, or crates has no such folder')
    verdict, functions = (dict.fromkeys(names, 'open'), {}) if is_anew else first_check(crate, names, jobs)
    unproved = [name for name, said in verdict.items() if said != 'proved' and (not names or name in names)]
    say(f'{crate}: {len(unproved)} functions are open')
    broken = {name: it for name, it in functions.items() if it.broken}
    tried = [it for name, it in functions.items() if name not in broken]
    solutions = {}
    if is_anew or tried:
        tried, solutions = searched(crate, names if is_anew else [it.name for it in tried], tried, jobs)
    functions = {**broken, **{it.name: it for it in tried}}
    verdict.update((it.name, 'proved') for it in solutions)
    if is_writing and solutions:
        verdict = written(crate, folder, solutions, names, jobs)
    for function, (named, laws) in solutions.items():
        if verdict[function.name] == 'proved':
            word = 'unfolding' if any(map(is_group, named)) else 'using'
            print(f'proved: {function.name}: {word} {", ".join([*map(path, named), *(law for _, law in laws)])}')
    left = [name for name in unproved if verdict[name] != 'proved']
    for name in left:
        it = functions.get(name)
        goals = it.open_goals() or list(it.goals) if it else []
        source = '\n'.join((folder / it.file).read_text().splitlines()[it.line - 1 : it.line + 20]) if it else ''
        shown = [f'{goal}{", false where " + it.broken[goal] if goal in it.broken else ""}: see {link(goal, source)}' for goal in goals]
        print(f'open: {f"{it.file}:{it.line}: " if it else ""}{name}: {"; ".join(shown) or verdict[name]}')
    print(f'{crate}: {len(unproved) - len(left)} of {len(unproved)} open functions proved, {len(left)} open' + ('' if is_writing or not solutions else ': --write writes the laws'))
    return bool(left)


def main():
    asked = argparse.ArgumentParser(description=__doc__, formatter_class=argparse.RawDescriptionHelpFormatter)
    asked.add_argument('--write', action='store_true', help='write the attributes and the laws, and check again')
    asked.add_argument('--anew', action='store_true', help='find laws for these functions, as if they had none; the crate has to be proved')
    asked.add_argument('--jobs', metavar='N', type=int, help='checks at a time; without it as many as there are processors and memory for')
    asked.add_argument('crate', metavar='CRATE')
    asked.add_argument('functions', metavar='FUNCTION', nargs='*')
    asked = asked.parse_args()
    signal.signal(signal.SIGTERM, signal.default_int_handler)
    try:
        return 1 if prove(asked.crate, asked.functions, asked.write, asked.anew, asked.jobs) else 0
    except Stop as it:
        print(f'prove.py: {it}', file=sys.stderr)
        return 2
    except KeyboardInterrupt:
        print('prove.py: interrupted: nothing is changed', file=sys.stderr)
        return 130


if __name__ == '__main__':
    sys.exit(main())
