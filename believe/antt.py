"""Reads modules of specs/: their imports, and the definitions that stand in them."""
import os
import re

MARKS = r'((?:(?:abbrev|unfoldable|pub) +)*)'
SIGNATURE = re.compile(r'^' + MARKS + r'(\S+)\s+:(?:\s|$)')
SHAPE = re.compile(r'^' + MARKS + r'(data|record|ruleset)\s+([^\s(){}:]+)')
BLOCK = re.compile(r'^(?:unfoldable )?(?:mutual|module)\b')
MEMBER = re.compile(r'^((?:[^\s(){}:]+ )+):(?:\s|$)')


def without_comment(line):
    """The line without the comment at its end."""
    if line.lstrip().startswith('--'):
        return ''
    at = line.find(' -- ')
    return line if at < 0 else line[:at]


class Definition:
    """An item of a module: its name, what kind it is, and its lines without comments."""

    def __init__(self, module, name, kind, block):
        self.module, self.name, self.kind = module, name, kind
        self.block = block
        self.lines = []
        self.constructors = []

    def __repr__(self):
        return f'{self.module.shown()}: {self.name}'

    def is_lemma(self):
        return self.kind in ('lemma', 'ruleset')

    def names(self):
        return [self.name] + self.constructors

    def text(self):
        return '\n'.join(self.lines)


class Module:
    """A file of specs/ by its crate and its path there, as `Proves` or `code.Rules`."""

    def __init__(self, crate, path, file):
        self.crate, self.path, self.file = crate, path, file
        self.imports = {}
        self.definitions = []

    def shown(self):
        return os.path.relpath(self.file, 'crates')

    def is_private(self):
        return self.path.split('.')[0] == 'code'


def imports_of(uses):
    """What each imported word means: a name of a module, or a module itself, with None in the place of the name."""
    out = {}
    for use in uses:
        listed = re.match(r'^([^\s{]+)\.\{(.*)\}$', use)
        if listed:
            for part in listed.group(2).split(','):
                words = part.split(' as ')
                if part.strip():
                    out[words[-1].strip()] = (listed.group(1), words[0].strip())
        else:
            words = use.split(' as ')
            out[words[-1].strip().split('.')[-1]] = (words[0].strip(), None)
    return out


def joined_uses(lines):
    """The uses of a module, each on a line of its own, and the other lines."""
    uses, rest, held = [], [], None
    for line in lines:
        if held is not None:
            held += ' ' + line.strip()
        elif re.match(r'^(pub )?use ', line):
            held = re.sub(r'^(pub )?use ', '', line).strip()
        else:
            rest.append(line)
            continue
        if held.count('{') == held.count('}'):
            uses.append(held)
            held = None
    return uses, rest


def kind_of(marks, shape):
    if shape:
        return shape
    return 'definition' if 'abbrev' in marks or 'unfoldable' in marks else 'lemma'


class Reader:
    """Reads the lines of a module in turn."""

    def __init__(self, module):
        self.module = module
        self.block, self.indent, self.unfoldable = None, 0, False
        self.current = None

    def begin(self, marks, shape, name):
        kind = kind_of(marks, shape)
        if kind == 'lemma' and self.unfoldable:
            kind = 'definition'
        self.current = Definition(self.module, name, kind, self.block)
        self.module.definitions.append(self.current)

    def line(self, number, line):
        text = without_comment(line).rstrip()
        if not text.strip():
            return
        depth = len(text) - len(text.lstrip())
        if depth < self.indent:
            self.indent = depth
        if depth == 0:
            self.block, self.unfoldable = None, False
        item = text.strip() if depth == self.indent else None
        if item and BLOCK.match(item):
            self.block, self.indent, self.current = number, depth + 2, None
            self.unfoldable = item.startswith('unfoldable')
        else:
            self.inside(item, text)

    def inside(self, item, text):
        shape = item and SHAPE.match(item)
        signature = item and SIGNATURE.match(item)
        if shape:
            self.begin(shape.group(1), shape.group(2), shape.group(3))
        elif signature:
            self.begin(signature.group(1), None, signature.group(2))
        elif item:
            self.current = self.equation(item)
        elif self.current and self.current.kind == 'data':
            member = MEMBER.match(text.strip())
            if member and len(text) - len(text.lstrip()) == self.indent + 2:
                self.current.constructors += member.group(1).split()
        if self.current is None:
            raise ValueError(f'{self.module.file}: no item has the line {text}')
        self.current.lines.append(text)

    def equation(self, item):
        """The item of the block to which an equation belongs."""
        head = item.split()[0]
        for one in reversed(self.module.definitions):
            if one.block == self.block and one.name == head:
                return one
        return self.current


def read_module(crate, path, file):
    module = Module(crate, path, file)
    with open(file, encoding='utf-8') as text:
        lines = text.read().split('\n')
    uses, rest = joined_uses(lines)
    module.imports = imports_of(uses)
    reader = Reader(module)
    for number, line in enumerate(rest):
        reader.line(number, line)
    return module


def modules_of(crate):
    """The modules of a crate's specs/, those of its private folder too."""
    top = f'crates/{crate}/specs'
    out = []
    for folder, _, files in sorted(os.walk(top)):
        for name in sorted(files):
            path = os.path.relpath(os.path.join(folder, name), top)[:-5].replace(os.sep, '.')
            if name.endswith('.antt') and path not in ('Lib', 'code'):
                out.append(read_module(crate, path, os.path.join(folder, name)))
    return out
