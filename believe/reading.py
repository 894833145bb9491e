"""Reading lists: the definitions behind a clause, in the order in which they are read."""
from reach import lines_of, rust_types


def module_order(repository):
    """The place of each module: crates as crates.txt has them, and in a crate what is cited before what cites it."""
    out = {}

    def visit(module, open_ones):
        if module in out or module in open_ones:
            return
        cited = {near.module for one in module.definitions for near in repository.behind(one)[0]}
        for other in sorted((m for m in cited if m.crate == module.crate), key=lambda m: m.path):
            visit(other, open_ones | {module})
        out[module] = len(out)

    for module in repository.modules:
        visit(module, frozenset())
    return out


def by_module(repository, definitions):
    """The definitions by module, both in the order of reading."""
    order = module_order(repository)
    modules = {one.module for one in definitions}
    in_order = sorted(modules, key=lambda m: (repository.order.index(m.crate), order[m]))
    return {module: [one for one in module.definitions if one in definitions] for module in in_order}


def print_list(repository, name, clauses):
    """Files and definitions behind some clauses."""
    behind, others = repository.behind_clauses(clauses)
    for module, some in by_module(repository, behind).items():
        print(f'{module.shown()}: {lines_of(some)} lines')
        for one in some:
            print(f'    {one.name} {len(one.lines)}')
    for file, types in sorted(rust_types(others).items()):
        print(f'{file}: {", ".join(sorted(types))}')
    print(f'{name}: {summary(behind)}')


def summary(behind):
    files = len({one.module for one in behind})
    return f'{len(behind)} definitions, {lines_of(behind)} lines, {files} files'
