"""The laws of the repository, and which of them a goal is about, for prove.py.

The laws are read from the `.antt` files, so a new law needs no list. They are ranked by the relevance filter of Meng and Paulson ("Lightweight
relevance filtering for machine-generated resolution problems", 2009): a law is relevant if its words are those of the goal. A rare word weighs
more than a common one, and the words of the laws that were taken count for the next. Only words of specs count: a goal has no others.
"""
import math
import re
from collections import Counter

USE = re.compile(r'^(?:pub )?use ([\w.+-]+)\.\{(.*)\}$', re.M)
SET = re.compile(r'^pub ruleset (\S+) = \((.*)\)$', re.M)
MODULE = re.compile(r' *module \S+ (.*?)(?: where)?$')
LAW = re.compile(r' *pub (?!ruleset|mod|use|data|record)(\S+) : (.*)$')
DEFINED = re.compile(r'^ *(?:abbrev|unfoldable) pub (\S+) :', re.M)
# Where the part of a law's conclusion that the search looks for ends: at its first relation.
RELATION = re.compile(r' (?:≡|≤|<|≤ℤ|<ℤ) ')
# A method, and the first clause that it ensures, which is the exact one.
ENSURES = re.compile(r'^ +(?:pub )?(?:final )?fn (\w+)\b(?:(?! *\{\n)(?! *(?:pub )?fn ).*\n)*? *ensures(?: \w+)? \{(.*(?:\n {9,}.*)*)', re.M)
# An operator, and what it gives. Comparisons have their words from std.
GIVES = re.compile(r'^ +ghost (\w+)_gives = \{(.*(?:\n {9,}.*)*)', re.M)
COMPARISONS = {'eq': {'int_eq'}, **{it: {'int_cmp', f'is_{it}'} for it in ('lt', 'le', 'gt', 'ge')}}
# Words that a term has whatever it is about.
PLAIN = set('≡ ≢ ℕ ℤ × ⊎ ∷ [] pos suc zero Bool true false List Width InRange IsTrue Decides'.split())
# The module of the sets that a page lists. The module of the groups of laws of bounds, and the public one, which an attribute names to open a group.
PUBLIC_SETS = 'Rattle.arbitrary_laws.proofs.Sets'
GROUPS, PUBLIC_GROUPS = 'Rattle.arbitrary_core.proofs.GenericLaws', 'Rattle.arbitrary_int.specs.GenericLaws'


def path(entry):
    """A law, a set or a group as an attribute names it."""
    module = PUBLIC_GROUPS if is_group(entry) else entry[0]
    return '::'.join([*module.split('.')[1:], entry[1]])


def is_group(entry):
    return entry[0] == GROUPS


def imports(text):
    """The names that a file imports, each with its module and the name that it has there."""
    found = {}
    for module, names in USE.findall(text):
        for name in names.split(', '):
            there, _, here = name.partition(' as ')
            found[here or there] = (module, there)
    return found


def laws(text):
    """The public laws of a file: the name and the type of each, with what its `module` blocks bind."""
    lines, blocks, place = text.splitlines(), [], 0

    def margin(line):
        return len(line) - len(line.lstrip())

    while place < len(lines):
        line, place = lines[place], place + 1
        if not line.strip() or line.lstrip().startswith('--'):
            continue
        while blocks and blocks[-1][0] >= margin(line):
            blocks.pop()
        found, whole = MODULE.match(line) or LAW.match(line), line
        while found and place < len(lines) and margin(lines[place]) > margin(line) and not whole.endswith(' where'):
            whole, place = f'{whole} {lines[place].strip()}', place + 1
        if MODULE.match(whole):
            blocks.append((margin(line), MODULE.match(whole)[1]))
        elif found:
            yield LAW.match(whole)[1], ' → '.join([*(bound for _, bound in blocks), LAW.match(whole)[2]])


def words(text):
    """The words of a term as the check prints it: the names without their modules, and no path into the goal's context."""
    tokens = re.findall(r'[^\s(){}\[\],;]+', text)
    return {it.split('.')[-1].strip('◌') for it in tokens if not re.match(r'c\.|goal\.|T\.|g\.|\d', it)} - PLAIN


class Index:
    """The laws of these crates, and their sets. Each is named by its module and its name."""

    def __init__(self, crates, kit):
        """Reads the crates of these folders, of which the first has the sets for callers, and of the kit the laws that those sets have."""
        self.laws, self.sets, self.groups, gives, ensured, names = {}, {}, [], dict(COMPARISONS), {}, set()
        for crate in crates:
            for file in sorted(it for part in ('specs', 'proofs') for it in (crate / part).rglob('*.antt')):
                text, top = file.read_text(), crate / file.relative_to(crate).parts[0]
                imported = imports(text)
                names.update(name for module, name in imported.values() if '.specs' in module or module.startswith('Prim'))
                module = '.'.join(['Rattle', *file.relative_to(crate.parent).with_suffix('').parts])
                if top.name == 'specs':
                    names.update(DEFINED.findall(text))
                    self.groups += filter(is_group, imported.values() if module == PUBLIC_GROUPS else [])
                elif module != GROUPS and self.is_public(top, file):
                    self.laws.update(((module, name), text) for name, text in laws(text))
                    for name, members in SET.findall(text):
                        self.sets[module, name] = [imported.get(it, (module, it)) for it in members.split(', ')]
            for file in (crate / 'src').rglob('*.rt'):
                for pattern, found in ((GIVES, gives), (ENSURES, ensured)):
                    for call, clause in pattern.findall(file.read_text()):
                        found[call] = found.get(call, set()) | words(clause)
        self.ensured = {**gives, **ensured}
        for module, name in {it for members in self.sets.values() for it in members} - {*self.laws, *self.sets}:
            file = kit.joinpath(*module.split('.')[1:]).with_suffix('.antt')
            # where its file only passes it on, the words of its name
            self.laws[module, name] = dict(laws(file.read_text() if file.is_file() else '')).get(name) or name.replace('-', ' ')
        self.for_callers = {name: self.members(name) for name in self.sets if name[0].startswith(f'Rattle.{crates[0].name}.')}
        self.in_sets = {law for members in self.for_callers.values() for law in members}
        vocabulary = {it.strip('◌') for it in names} - PLAIN
        self.words = {law: words(text) & vocabulary for law, text in self.laws.items()}
        # what the search looks for: the first part of the conclusion
        self.left = {law: words(RELATION.split(text.split('→')[-1])[0]) & vocabulary for law, text in self.laws.items()}
        # what a set is about: a word weighs more if more of its laws have it, and if fewer sets do
        counts = {name: Counter(word for law in members for word in self.words[law]) for name, members in self.for_callers.items()}
        shared = Counter(word for found in counts.values() for word in found)
        self.weight = {word: math.log((len(counts) + 1) / max(1, shared[word])) for word in vocabulary}
        self.topics = {name: {word: (1 + math.log(found[word])) * self.weight[word] for word in found} for name, found in counts.items()}

    @staticmethod
    def is_public_set(name):
        """Whether this is one of the sets of a topic, which a page lists."""
        return name[0] == PUBLIC_SETS

    @staticmethod
    def is_public(top, file):
        """Whether each file above this one declares it for other crates."""
        parts = file.relative_to(top).with_suffix('').parts
        nodes = [top / 'Lib.antt', *(top.joinpath(*parts[:count]).with_suffix('.antt') for count in range(1, len(parts)))]
        return all(it.is_file() and re.search(rf'^pub mod {re.escape(part)}$', it.read_text(), re.M) for it, part in zip(nodes, parts))

    def members(self, name):
        """The laws of a set, and of the sets in it, each once."""
        found = {}
        for it in self.sets[name]:
            found.update(dict.fromkeys(self.members(it) if it in self.sets else [it]))
        return list(found)

    def said(self, found, known):
        """How much these words weigh, each as far as it is known."""
        return sum(self.weight.get(word, 0) * known.get(word, 0) for word in found)

    def fits(self, law, known):
        """How well a law may apply, from 0 to 1: each word that it looks for and that is not known makes that less likely."""
        return 0.25 ** sum(1 - known.get(word, 0) for word in self.left[law]) if self.left[law] else 0

    def ranked_laws(self, known, count):
        """The laws that are most relevant to these words, each with a strength of at most 1. The best is the first."""
        known, chosen = dict(known), []

        def rank(law):
            total = sum(self.weight[word] for word in self.words[law]) or 1
            return self.said(self.words[law], known) / total * self.fits(law, known) * (1 if law in self.in_sets else 0.7)

        while len(chosen) < min(count, len(self.laws)):
            left = [it for it in self.laws if it not in chosen]
            best = sorted(left, key=rank, reverse=True)[: max(4, len(chosen))]
            chosen += best
            for word in {word for law in best for word in self.words[law]}:
                known[word] = max(known.get(word, 0), 0.5)
        return chosen[:count]

    def ranked_sets(self, known):
        """The sets for callers, the best first: by how alike the words are, how many laws may apply, and how much of what is known these say."""
        total = self.said(known, known) or 1
        fits = {law: self.fits(law, known) for law in self.laws}

        def rank(name):
            members, topic = self.for_callers[name], self.topics[name]
            alike = sum(topic[word] * self.weight[word] * known.get(word, 0) for word in topic) / (math.hypot(*topic.values()) or 1)
            covered = sum(self.said([word], known) * max(fits[law] for law in members if word in self.words[law]) for word in topic) / total
            return alike / 4 + covered / 2 + sum(fits[law] for law in members) / len(members) / 2

        return sorted(self.for_callers, key=rank, reverse=True)
