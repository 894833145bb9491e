"""Tells what a reader must believe: the definitions behind the clauses of run_tptp, and where definitions stand.

usage, at the top of the repository:

    python3 believe                     how much stands behind each clause of run_tptp
    python3 believe list [CLAUSE..]     the files and definitions behind these clauses, or behind all, in turn
    python3 believe crates              how much stands in specs/, specs/code and proofs/, for each crate
    python3 believe check [DOCUMENT]    whether all stands where it should, and the document has the lists that are true
    python3 believe write [DOCUMENT]    writes these lists into the document

The document is docs/BELIEVE.md where none is named. The status is 1 where something is wrong.

A definition counts as cited where its name stands in a text, so a variable of the same name counts too. Lines are those
of a definition without comments and empty lines. Contracts of test crates are no public contracts here.
"""
import sys

sys.dont_write_bytecode = True

import document
import layout
import reading
import reach


def print_sizes(repository):
    clauses = layout.call_clauses(repository)
    together, before = set(), 0
    for name, clause in clauses.items():
        behind = repository.behind_clauses([clause])[0]
        together |= behind
        print(f'{name:12} {reading.summary(behind)}')
    print(f'{"all":12} {reading.summary(together)}')


def print_faults(found):
    for line in found:
        print(line)
    print(f'{len(found)} faults' if found else 'all stands where it should')
    return 1 if found else 0


def run(words):
    repository = reach.Repository()
    clauses = layout.call_clauses(repository)
    command, rest = (words[0], words[1:]) if words else (None, [])
    file = rest[0] if rest else 'docs/BELIEVE.md'
    if command is None:
        print_sizes(repository)
    elif command == 'list' and all(name in clauses for name in rest):
        reading.print_list(repository, ' '.join(rest) or 'all', [clauses[name] for name in rest or clauses])
    elif command == 'crates':
        layout.print_counts(repository)
    elif command == 'check':
        return print_faults(layout.faults(repository) + document.faults(repository, file))
    elif command == 'write':
        document.write(repository, file)
    else:
        print(__doc__.strip())
        return 2
    return 0


sys.exit(run(sys.argv[1:]))
