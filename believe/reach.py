"""What rests on what: the definitions behind clauses."""
import os
import re

import antt
import contracts

WORD = re.compile(r"[^\s(){}\[\];,\"`@|λ→∀=]+")


def crates_in_order():
    """The crates as crates.txt has them, each behind those that it stands on; and those of its last part, the tests."""
    order, tests, heading = [], set(), ''
    with open('crates.txt', encoding='utf-8') as text:
        for line in text:
            if line.startswith('#'):
                heading = line
            elif ':' in line:
                crate = line.split(':')[0]
                order.append(crate)
                if 'Tests' in heading:
                    tests.add(crate)
    return order, tests


def words_of(text):
    """The words of a text, each cut at its dots. Names of fields in records that are made are left out."""
    text = re.sub(r'([{;]\s*)[^\s{};]+(?= = )', r'\1', text)
    return [word.split('.') for word in WORD.findall(text)]


class Repository:
    """All modules of specs/ and all contracts, by crate."""

    def __init__(self):
        self.order, self.tests = crates_in_order()
        self.modules, self.sources, self.at = [], [], {}
        for crate in self.order:
            if os.path.isdir(f'crates/{crate}/specs'):
                self.modules += antt.modules_of(crate)
            self.sources += contracts.sources_of(crate)
        self.by_path = {f'Rattle.{m.crate}.specs.{m.path}': m for m in self.modules}
        for module in self.modules:
            for one in module.definitions:
                for name in one.names():
                    self.at[module, name] = one
        self.cited = {}

    def definitions(self):
        return [one for module in self.modules for one in module.definitions]

    def named(self, path, name):
        """The definition of that name in a module, also where the module takes it from another."""
        module = self.by_path.get(path)
        if module is None:
            return None
        if (module, name) in self.at:
            return self.at[module, name]
        behind = module.imports.get(name)
        return self.named(*behind) if behind and behind[1] and behind[0] != path else None

    def meant(self, imports, own, word):
        """What a word means: a definition here, or the path and name of what stands elsewhere."""
        if own is not None and (own, word[0]) in self.at:
            return self.at[own, word[0]], None
        path, name = imports.get(word[0], (None, None))
        if path is None:
            return None, None
        if name is None:
            name = word[1] if len(word) > 1 else None
        found = self.named(path, name) if name else None
        return found, None if found else (path, name)

    def behind_text(self, text, imports, own=None):
        """The definitions that a text names, and what it names besides."""
        near, other = set(), set()
        operators = {w.replace('◌', ''): w for w in imports if '◌' in w and w.count('◌') == 2}
        for word in words_of(text):
            word = [operators[word[0]]] if word[0] in operators else word
            found, path = self.meant(imports, own, word)
            if found:
                near.add(found)
            if path:
                other.add(path)
        return near, other

    def behind(self, one):
        """The definitions and other names that a definition names."""
        if one not in self.cited:
            text = one.text()
            if one.kind == 'record':
                text = re.sub(r'(?m)^ +(?:pub )?[^\s:]+ :', ':', text)
            near, other = self.behind_text(text, one.module.imports, one.module)
            near.discard(one)
            self.cited[one] = near, other
        return self.cited[one]

    def closure(self, roots):
        """All that the definitions rest on, themselves too; and the other names that are met on the way."""
        seen, others, queue = set(), set(), list(roots)
        while queue:
            one = queue.pop()
            if one not in seen:
                seen.add(one)
                near, other = self.behind(one)
                others |= other
                queue += near
        return seen, others

    def behind_clauses(self, clauses):
        roots, others = set(), set()
        for clause in clauses:
            near, other = self.behind_text(clause.text, clause.source.imports)
            roots |= near
            others |= other
        seen, more = self.closure(roots)
        return seen, others | more

    def clauses(self, keep):
        return [clause for source in self.sources for clause in source.clauses if keep(clause)]

    def public(self):
        """What public contracts rest on, those of the tests aside."""
        return self.behind_clauses(self.clauses(lambda c: c.public and c.source.crate not in self.tests))[0]

    def private(self):
        return self.behind_clauses(self.clauses(lambda c: not c.public))[0]


def lines_of(definitions):
    return sum(len(one.lines) for one in definitions)


def rust_types(others):
    """The Rust types and constants among other names, by file: what stands behind `declared` in a path."""
    out = {}
    for path, name in others:
        found = re.match(r'^Rattle\.(\w+)\.specs\.declared\.(.*)$', path)
        if found and found.group(1) != 'std':
            parts = found.group(2).split('.')
            kept = [p for p in parts if p[0].islower()]
            types = [p for p in parts if p[0].isupper() and not p.startswith('The')]
            file = f'{found.group(1)}/src/{"/".join(kept)}.rt'
            out.setdefault(file, set()).add(types[0] if types else name)
    return out
