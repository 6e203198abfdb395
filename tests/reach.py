"""What the code of the crates reaches, by names: the functions that a function calls, and the constants and enums that it uses.

A method is reached by its name alone, whichever type or trait has it, and so a trait's method reaches those of its impls, as a trait's constant of a type parameter does; `?` reaches each `from`, an operator each method of its trait, and `u8::from` each impl for `u8`. A path to a function reaches it, also where it is passed. The methods of a public trait are public functions of it; those of its
impls stand below their types.
"""

import re
from dataclasses import dataclass
from pathlib import Path

CRATES = Path(__file__).resolve().parent.parent / 'crates'
ITEM = re.compile(r'( *)(pub )?(?:extern "C" )?(fn|const|enum) (\w+)')
OWNER = re.compile(r'(?:impl(?:<.*?>)? (?:.* for )?|(pub )?trait )(\w+)')
TURBOFISH = re.compile(r'::<[^<>]*>')
PRIMITIVE = re.compile(r'[iu](?:8|16|32|64|128|size)|bool|char')
OPERATORS = {'+': 'add', '-': 'sub', '*': 'mul', '/': 'div', '%': 'rem'}
PARAMETER = re.compile(r'(?:[A-Z]|Self)::(\w+)')
CONTRACT = re.compile(r' *(requires|ensures)\b')
USE = re.compile(r'(?:pub )?use ([\w:]+?)(?:::\{([\w, ]*)\})?;')
NAME = re.compile(r'(\.?)\b((?:\w+::)*\w+)(\(?)')


@dataclass(frozen=True)
class Item:
    """A function, a constant or an enum: where it is declared, and the lines of its code, which a contract is no part of."""

    crate: str
    path: tuple  # the file's name, the type or the trait of a method or of a constant, and the item's own name
    kind: str
    public: bool
    asks: bool  # whether it has a `requires`
    lines: tuple

    def ends_with(self, path):
        return self.path[-len(path):] == tuple(path)


def code(lines, start, indent):
    """The lines of the item that starts at a line."""
    stated = False
    for at in range(start, len(lines)):
        stated = (stated or CONTRACT.match(lines[at])) and lines[at] != indent + '{'
        if not stated:
            yield at
        if lines[at] in (indent + '}', indent + '};', indent + '];') or (at == start or stated) and lines[at].endswith(';'):
            return


def uses(lines):
    """The lines of `use`, each whole."""
    for at, line in enumerate(lines):
        if line.startswith(('use ', 'pub use ')):
            end = next(end for end in range(at, len(lines)) if lines[end].endswith(';'))
            yield ' '.join(part.strip() for part in lines[at : end + 1]).replace('{ ', '{').replace(', }', '}').replace(',}', '}')


class File:
    def __init__(self, path):
        self.crate, self.module = path.parts[-3], path.stem
        self.lines = [line.partition('//')[0].rstrip() for line in path.read_text().splitlines()]
        self.uses = {}
        for line in uses(self.lines):
            start, names = USE.match(line).groups()
            for name in names.split(',') if names is not None else ['']:
                whole = [*start.split('::'), *name.split()]
                self.uses[whole[-1]] = whole
        self.items = []
        owner, in_trait = (), False
        for at, line in enumerate(self.lines):
            found, owned = ITEM.match(line), OWNER.match(line)
            if owned:
                in_trait, owner = bool(owned[1]), (owned[2],)
            elif line == '}':
                owner, in_trait = (), False
            elif found:
                indent, public, kind, name = found.groups()
                public = public or in_trait and kind == 'fn'
                lines = tuple(code(self.lines, at, indent))
                asks = any(line.lstrip().startswith('requires') for line in self.lines[at : lines[-1]])
                self.items.append(Item(self.crate, (self.module, *owner, name), kind, bool(public), asks, lines))


FILES = {(path.parts[-3], path.stem): File(path) for path in sorted(CRATES.glob('*/src/*.rt'))}
ITEMS = [item for file in FILES.values() for item in file.items]


def named(file, name):
    """The items that a name stands for in a file, or the enum of a variant."""
    head, *rest = name.split('::')
    if rest and PRIMITIVE.fullmatch(head):
        return [item for item in ITEMS if item.ends_with((head, *rest))]
    crate, *path = file.uses.get(head, [head]) + rest
    if not path:
        return [item for item in file.items if item.path == (file.module, crate)]
    if crate == 'crate' or not (CRATES / crate).is_dir():
        crate, path = file.crate, path if crate == 'crate' else [crate, *path]
    there = [item for item in ITEMS if item.crate == crate]
    return [item for item in there if item.ends_with(path)] or [item for item in there if item.ends_with(path[:-1])]


def used(item):
    """What an item's own code names."""
    file = FILES[item.crate, item.path[0]]
    text = TURBOFISH.sub('', ' '.join(file.lines[at] for at in item.lines))
    if item.public and len(item.path) == 3:
        yield from (other for other in ITEMS if other.path[-1] == item.path[-1] and len(other.path) == 3 and not other.public)
    behind = {'from'} if '?' in text else set()
    behind |= {OPERATORS[sign] for sign in re.findall(r' ([-+*/%]) ', text)}
    yield from (other for other in ITEMS if other.path[-1] in behind and len(other.path) == 3)
    for dot, name, call in NAME.findall(text):
        parameter = PARAMETER.fullmatch(name)
        if dot or parameter:
            name = parameter[1] if parameter else name
            found = [other for other in ITEMS if (call or parameter) and len(other.path) == 3 and other.path[-1] == name]
        else:
            found = named(file, name)
        yield from (other for other in found if call or parameter or other.kind != 'fn' or '::' in name)


def reached(items):
    """The items, and all that their code reaches."""
    found, left = set(), list(items)
    while left:
        item = left.pop()
        if item not in found:
            found.add(item)
            left.extend(used(item))
    return found


def changes(edit):
    """The file that an edit is in, and its old and new texts."""
    file, pairs = None, []
    for line in edit.read_text().splitlines():
        word, _, text = line.partition(': ')
        if word == 'file':
            file = text
        elif word == 'old':
            pairs.append([text, None])
        elif word == 'new':
            pairs[-1][1] = text
    return file, pairs


def changed(edit):
    """What each change of an edit of src/ is in, None where it is in no item's code. A line of `use` only serves the others."""
    name, pairs = changes(edit)
    path = edit.parent.parent / name
    file = FILES[path.parts[-3], path.stem]
    text = path.read_text()
    for old, new in pairs:
        before, _, after = text.partition(old)
        at = before.count('\n')
        text = before + new + after
        if not USE.match(file.lines[at]):
            yield next((item for item in file.items if at in item.lines), None)
