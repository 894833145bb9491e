"""Reads the contracts of Rust files, and tells the public ones."""
import os
import re

from antt import imports_of

FUNCTION = re.compile(r'^(\s*)(pub(?:\([^)]*\))? )?(?:const )?(?:unsafe )?fn (\w+)')
IMPL = re.compile(r'^impl(?:<.*?>)? (?:(\w+)(?:<.*?>)? for )?(\w+)')
TRAIT = re.compile(r'^(?:pub )?trait (\w+)')
GHOST = re.compile(r'^\s*(?:pub )?ghost (?!use\b)(\w+)')
CLAUSE = re.compile(r'\s*(requires|ensures|decreases)\b\s*(\w*)\s*\{')


class Clause:
    """A clause of a contract, or a ghost item: where it stands, and its text."""

    def __init__(self, source, owner, name, text, public):
        self.source, self.owner, self.name = source, owner, name
        self.text, self.public = text, public


class Source:
    """A Rust file: its crate, its imports, and its clauses."""

    def __init__(self, crate, file):
        self.crate, self.file = crate, file
        self.imports = {}
        self.clauses = []


def without_comments(text):
    return '\n'.join(re.sub(r'(^|\s)//.*$', r'\1', line) for line in text.split('\n'))


def closing(text, at):
    """The place behind the brace that closes the one at `at`."""
    depth, quoted = 0, False
    for place in range(at, len(text)):
        letter = text[place]
        if letter == '"' and text[place - 1] != '\\':
            quoted = not quoted
        if quoted:
            continue
        depth += {'{': 1, '}': -1}.get(letter, 0)
        if depth == 0:
            return place + 1
    return len(text)


def exported(crate):
    """The names that the crate's library exports, or None where it is a program."""
    file = f'crates/{crate}/src/lib.rt'
    if not os.path.exists(file):
        return None
    with open(file, encoding='utf-8') as text:
        uses = re.findall(r'pub use ([^;]+);', without_comments(text.read()))
    out = set()
    for use in uses:
        braced = re.search(r'\{(.*)\}', use, re.S)
        out.update(re.findall(r'(\w+)\s*(?:,|$)', braced.group(1) if braced else use.strip()))
    return out


class Place:
    """Where a function stands: alone, in a trait, or in an impl of a type."""

    def __init__(self, names):
        self.names = names
        self.trait = self.type = self.of_trait = None

    def enter(self, line):
        impl, trait = IMPL.match(line), TRAIT.match(line)
        if impl:
            self.of_trait, self.type, self.trait = impl.group(1), impl.group(2), None
        elif trait:
            self.trait, self.type = trait.group(1), None
        elif line.startswith('}'):
            self.trait = self.type = None

    def is_public(self, name, is_pub):
        if self.names is None:
            return False
        if self.trait:
            return self.trait in self.names
        if self.type:
            return self.type in self.names and (is_pub or self.of_trait is not None)
        return is_pub and name in self.names

    def owner(self, name):
        around = self.trait or self.type
        return f'{around}::{name}' if around else name


def clauses_behind(source, text, owner, public):
    """The clauses of the function whose signature begins the text."""
    first = re.search(r'\n\s*(requires|ensures|decreases)\b|\{\s*\n|;\s*\n', text)
    at = first.start() if first and first.group(1) else len(text)
    while True:
        found = CLAUSE.match(text, at)
        if not found:
            return
        end = closing(text, found.end() - 1)
        inner = text[found.end():end - 1]
        source.clauses.append(Clause(source, owner, found.group(2) or found.group(1), inner, public))
        at = end


def read_source(crate, file, names):
    source = Source(crate, file)
    with open(file, encoding='utf-8') as text:
        whole = without_comments(text.read())
    source.imports = imports_of([' '.join(u.split()) for u in re.findall(r'ghost use ([^;]+);', whole)])
    place, at = Place(names), 0
    for line in whole.split('\n'):
        place.enter(line)
        function, ghost = FUNCTION.match(line), GHOST.match(line)
        if function:
            is_pub = function.group(2) == 'pub '
            name = function.group(3)
            clauses_behind(source, whole[at:], place.owner(name), place.is_public(name, is_pub))
        elif ghost:
            inner = whole[at:closing(whole, whole.index('{', at))]
            public = place.is_public(ghost.group(1), True)
            source.clauses.append(Clause(source, place.owner(ghost.group(1)), 'ghost', inner, public))
        at += len(line) + 1
    return source


def sources_of(crate):
    names = exported(crate)
    out = []
    for folder, _, files in sorted(os.walk(f'crates/{crate}/src')):
        for name in sorted(files):
            if name.endswith('.rt'):
                out.append(read_source(crate, os.path.join(folder, name), names))
    return out
