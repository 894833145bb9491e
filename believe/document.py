"""The reading list in a document: its lists stand between marks, are made from the definitions, and are checked.

A list begins with a line such as `<!-- sound: tptp_base, tptp_lexer -->` and ends with `<!-- end -->`. It has what
stands behind that clause in these crates, without what stands in a list before. In place of a clause two traits may
stand, as `Store and Sink`: what stands behind their contracts. `<!-- sizes -->` begins the table of sizes, and
`<!-- std -->` the names of std that stand behind all clauses. The sentence on each file is written by hand and kept.
"""
import os
import re
import textwrap

import layout
import reading
from reach import lines_of, rust_types

MARK = re.compile(r'^<!-- (?!end)(.*?) -->$')
END = '<!-- end -->'
ITEM = re.compile(r'^- `([^`]+)` \(\d+ lines?\): (.*?) Definitions: ')
WANTING = 'SAY WHAT IT DEFINES.'


def blocks_of(text):
    """The text cut up: lines as they are, and lists as pairs of their mark and their lines."""
    out, mark, held = [], None, []
    for line in text.split('\n'):
        found = MARK.match(line)
        if mark is None and found:
            mark, held = found.group(1), []
        elif mark is not None and line == END:
            out.append((mark, held))
            mark = None
        elif mark is not None:
            held.append(line)
        else:
            out.append(line)
    if mark is not None:
        raise ValueError(f'the list {mark} has no end')
    return out


def sentences(lines):
    """What the document says of each file in a list."""
    items = []
    for line in lines:
        if line.startswith('- '):
            items.append(line)
        elif items and line.strip():
            items[-1] += ' ' + line.strip()
    found = [ITEM.match(item) for item in items]
    return {one.group(1): one.group(2) for one in found if one}


def counted(number, word):
    return f'{number} {word}' if number == 1 else f'{number} {word}s'


def wrapped(item):
    return textwrap.wrap(item, 120, subsequent_indent='  ', break_long_words=False, break_on_hyphens=False)


def quoted(names):
    return ', '.join(f'`{name}`' for name in sorted(names))


def types_shown(types):
    shown = [f'{quoted(names)} in `{file}`' for file, names in sorted(types.items())]
    return wrapped('- Rust: ' + '; '.join(shown)) if shown else []


class Lists:
    """Makes the lists of a document in turn."""

    def __init__(self, repository):
        self.repository = repository
        self.clauses = layout.call_clauses(repository)
        self.read, self.types, self.order = set(), {}, list(self.clauses)

    def behind(self, name):
        if name in self.clauses:
            return self.repository.behind_clauses([self.clauses[name]])[0]
        traits = name.split(' and ')
        found = self.repository.clauses(lambda c: c.public and c.owner.split('::')[0] in traits)
        if not found:
            raise ValueError(f'run_tptp has no clause {name}, and no trait has this name')
        return self.repository.behind_clauses(found)[0]

    def new_types(self, some):
        met = rust_types({path for one in some for path in self.repository.behind(one)[1]})
        new = {file: names - self.types.get(file, set()) for file, names in met.items()}
        for file, names in new.items():
            self.types[file] = self.types.get(file, set()) | names
        return {file: names for file, names in new.items() if names}

    def made(self, mark, lines):
        """The lines of a list, with the sentences that stand in it."""
        if mark in ('sizes', 'std'):
            return self.sizes() if mark == 'sizes' else self.std()
        name, _, crates = mark.partition(': ')
        crates, said = crates.split(', '), sentences(lines)
        some = {one for one in self.behind(name) if one.module.crate in crates} - self.read
        self.read |= some
        out = []
        for module, defined in reading.by_module(self.repository, some).items():
            words = ', '.join(f'`{one.name}` {len(one.lines)}' for one in defined)
            size = counted(lines_of(defined), 'line')
            out += wrapped(f'- `{module.shown()}` ({size}): {said.get(module.shown(), WANTING)} Definitions: {words}.')
        return out + types_shown(self.new_types(some))

    def std(self):
        out = {}
        for path, name in self.repository.behind_clauses(self.clauses.values())[1]:
            if path.startswith('Rattle.std.') and '.declared.' not in path and name:
                out.setdefault(path[len('Rattle.'):], set()).add(name)
        return [line for path, names in sorted(out.items()) for line in wrapped(f'- `{path}`: {quoted(names)}')]

    def sizes(self):
        out = ['| clause | definitions | lines | files | lines not behind the clauses above |', '|---|---|---|---|---|']
        together = set()
        for name in self.order:
            behind = self.behind(name)
            new = lines_of(behind - together)
            together |= behind
            files = len({one.module for one in behind})
            out.append(f'| `{name}` | {len(behind)} | {lines_of(behind)} | {files} | {new} |')
        files = len({one.module for one in together})
        return out + [f'| all together | {len(together)} | {lines_of(together)} | {files} | |']


def remade(repository, text):
    """The document with its lists as they should be, and what is wrong besides."""
    lists, out, wrong, blocks = Lists(repository), [], [], blocks_of(text)
    marked = [block[0].split(': ')[0] for block in blocks if not isinstance(block, str)]
    lists.order.sort(key=lambda name: marked.index(name) if name in marked else len(marked))
    for block in blocks:
        if isinstance(block, str):
            out.append(block)
        else:
            made = lists.made(*block)
            out += [f'<!-- {block[0]} -->', *made, END]
            if any(WANTING in line for line in made):
                wrong.append(f'list {block[0]}: a file has no sentence')
    behind = repository.behind_clauses(lists.clauses.values())[0]
    wrong += [f'{one}: behind run_tptp, and in no list' for one in sorted(behind - lists.read, key=repr)]
    return '\n'.join(out), wrong


def faults(repository, file):
    with open(file, encoding='utf-8') as source:
        text = source.read()
    made, wrong = remade(repository, text)
    wrong += [f'{file}: there is no {path}' for path in re.findall(r'`(crates/\S+?)`', text) if not os.path.exists(path)]
    if made != text:
        wrong.append(f'{file}: its lists are not what stands behind the clauses (python3 believe write)')
    return wrong


def write(repository, file):
    with open(file, encoding='utf-8') as source:
        text = source.read()
    made, wrong = remade(repository, text)
    with open(file, 'w', encoding='utf-8') as target:
        target.write(made)
    for line in wrong:
        print(line)
