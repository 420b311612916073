"""The attributes that name laws, and the file of a crate that has further laws, for prove.py."""
import re
from contextlib import contextmanager

from relevance import GROUPS, imports, path

ATTRIBUTE = re.compile(r'#(!?)\[tactic\(auto(?:, using\(([^)]*)\))?(?:, unfolding\(([^)]*)\))?\)\]')
# How the path of a group begins.
OPENED = path((GROUPS, ''))


def without_laws(text):
    """This text with attributes that name no set and open no group, but still open the user's definitions."""
    return ATTRIBUTE.sub(lambda found: attribute([], opened(found), found[1]), text)


def opened(found):
    """The definitions that an attribute opens besides groups."""
    return [it for it in re.split(', *', found[3] or '') if it and not it.startswith(OPENED)]


def attribute(using, unfolding, mark=''):
    lists = [f', {word}({", ".join(paths)})' for word, paths in (('using', using), ('unfolding', unfolding)) if paths]
    return f'#{mark}[tactic(auto{"".join(lists)})]'


def with_attribute(text, function, paths):
    """The text of a file with the attribute on this function that names these sets and groups, or none."""
    lines, starts = text.splitlines(keepends=True), {}
    for number, line in enumerate(lines):
        if re.search(rf'\bfn {re.escape(function.name.split("::")[-1])}\b', line):
            start = number
            while start and re.match(r' *(#\[|//)', lines[start - 1]):
                start -= 1
            starts[start] = number
    # the last function of this name that begins before its goal
    start = max((it for it in starts if it < function.line), default=min(starts))
    place = starts[start]
    kept = [it for it in lines[start:place] if not ATTRIBUTE.search(it)]
    # it replaces the attribute of the function, or else of the file
    old = ATTRIBUTE.search(''.join(lines[start:place])) or next((it for it in ATTRIBUTE.finditer(text) if it[1]), None)
    groups = [it for it in paths if it.startswith(OPENED)]
    new = attribute([it for it in paths if it not in groups], [*(opened(old) if old else []), *groups])
    return ''.join([*lines[:start], *kept, f'{re.match(" *", lines[place])[0]}{new}\n', *lines[place:]])


def with_sets(text, sets):
    """The text of Laws.antt with these sets, each a comment and a list of laws by its name."""
    lines = text.splitlines() or ['-- Laws by which functions of this crate prove, as tools/prove.py found them.']
    has, new = {law: here for here, law in imports(text).items()}, {}
    for module, name in (law for _, laws in sets.values() for law in laws):
        if (module, name) not in has:
            here = name if name not in has.values() else f'{name}_of_{module.split(".")[-1]}'
            has[module, name] = here
            new.setdefault(module, []).append(name if here == name else f'{name} as {here}')
    head = next((number for number, line in enumerate(lines) if not line.startswith('--')), len(lines))
    lines[head:head] = [f'use {module}.{{{", ".join(names)}}}' for module, names in sorted(new.items())]
    for name, (comment, laws) in sets.items():
        lines = [it for it in lines if not it.startswith((f'pub ruleset {name} = ', f'-- {comment}'))]
        lines += ['', f'-- {comment}', f'pub ruleset {name} = ({", ".join(has[law] for law in laws)})']
    return re.sub(r'\n{3,}', '\n\n', '\n'.join(lines)) + '\n'


def changes(folder, solutions):
    """The new text of each file of a crate, with the attributes of these functions and the sets that they name."""
    new, sets = {}, {}
    for function, (named, laws) in sorted(solutions.items(), key=lambda it: -it[0].line):
        paths = [path(it) for it in named]
        if laws:
            name = f'{re.sub(r"[^0-9A-Za-z]+", "_", function.name)}_laws'
            sets[name] = (f'for `{function.name}`', laws)
            paths.append(f'crate::proofs::Laws::{name}')
        file = folder / function.file
        new[file] = with_attribute(new.get(file) or file.read_text(), function, paths)
    if sets:
        file, lib = folder / 'proofs/Laws.antt', folder / 'proofs/Lib.antt'
        new[file] = with_sets(file.read_text() if file.is_file() else '', sets)
        text = lib.read_text() if lib.is_file() else ''
        if not re.search(r'^(pub )?mod Laws$', text, re.M):
            new[lib] = f'{text}mod Laws\n'
    return new


def write(new):
    for file, text in new.items():
        file.parent.mkdir(parents=True, exist_ok=True)
        file.write_text(text)


@contextmanager
def changed(new):
    """Gives these files their new texts, and in the end the old ones again."""
    old = {file: file.read_text() if file.is_file() else None for file in new}
    try:
        write(new)
        yield
    finally:
        for file, text in old.items():
            file.unlink(missing_ok=True) if text is None else file.write_text(text)
