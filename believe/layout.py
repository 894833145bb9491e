"""The layout of specs/: what stands where, and how much."""
import os

from reach import lines_of

NOTHING_PUBLIC = 'Nothing public rests on this'
MOST = {'headline': 1300, 'all': 4600}
HEADLINE = 'sound'


def call_clauses(repository, crate='tptp_run', call='run_tptp'):
    """The clauses of the call, by name, in the order of its contract."""
    found = repository.clauses(lambda c: c.source.crate == crate and c.owner == call)
    return {clause.name: clause for clause in found}


def faults_of_places(repository):
    """Definitions and lemmas that stand in the wrong folder."""
    public, private = repository.public(), repository.private()
    for one in repository.definitions():
        if one.is_lemma():
            yield f'{one}: a lemma stands in specs/'
        elif one.module.is_private() and one in public:
            yield f'{one}: a public contract rests on it, and it stands in specs/code'
        elif one not in public and one not in private:
            yield f'{one}: no contract reaches it'
        elif not one.module.is_private() and one not in public:
            yield f'{one}: private contracts alone reach it, and it stands outside specs/code'


def faults_of_imports(repository):
    """Modules of specs/ that import lemmas, and private ones that do not say that they are."""
    for module in repository.modules:
        for path in sorted({path for path, _ in module.imports.values()}):
            if '.proofs.' in path and not module.is_private():
                yield f'{module.shown()}: imports {path}'
    for crate in repository.order:
        file = f'crates/{crate}/specs/code.antt'
        if os.path.exists(file):
            with open(file, encoding='utf-8') as text:
                if NOTHING_PUBLIC not in text.readline():
                    yield f'{crate}/specs/code.antt: its first line does not say: {NOTHING_PUBLIC}'


def faults_of_sizes(repository):
    """Clauses of the call behind which more stands than may."""
    clauses = call_clauses(repository)
    if HEADLINE not in clauses:
        yield f'run_tptp has no clause {HEADLINE}'
        return
    sizes = {'headline': [clauses[HEADLINE]], 'all': list(clauses.values())}
    for name, some in sizes.items():
        behind, others = repository.behind_clauses(some)
        if lines_of(behind) > MOST[name]:
            yield f'behind {name}: {lines_of(behind)} lines, and at most {MOST[name]} may stand there'
        for one in behind:
            if one.module.is_private():
                yield f'behind {name}: {one}'
        for path, word in sorted(others, key=str):
            if '.proofs.' in path and path.split('.')[1] in repository.order:
                yield f'behind {name}: {path} {word or ""}'


def faults(repository):
    return [*faults_of_places(repository), *faults_of_imports(repository), *faults_of_sizes(repository)]


def proof_lines(crate):
    """The lines of the lemmas in proofs/: the modules that are no answers to a function's goals."""
    total = 0
    top = f'crates/{crate}/proofs'
    for name in sorted(os.listdir(top)) if os.path.isdir(top) else []:
        if name.endswith('.antt') and name != 'Lib.antt':
            with open(os.path.join(top, name), encoding='utf-8') as text:
                total += sum(1 for line in text if line.strip() and not line.startswith('--'))
    return total


def counts(repository):
    """For each crate: definitions and lines in specs/, in specs/code, lines of lemmas, and lines behind the call."""
    clauses = call_clauses(repository)
    headline = repository.behind_clauses([clauses[HEADLINE]])[0]
    behind = repository.behind_clauses(clauses.values())[0]
    for crate in repository.order:
        own = [one for one in repository.definitions() if one.module.crate == crate]
        code = [one for one in own if one.module.is_private()]
        specs = [one for one in own if not one.module.is_private()]
        if own or proof_lines(crate):
            yield (crate, len(specs), lines_of(specs), len(code), lines_of(code), proof_lines(crate),
                   lines_of(one for one in own if one in headline), lines_of(one for one in own if one in behind))


def print_counts(repository):
    form = '{:18}{:>8}{:>8}{:>8}{:>8}{:>8}{:>10}{:>8}'
    print(form.format('', 'specs/', '', 'code', '', 'proofs/', 'headline', 'all'))
    print(form.format('crate', 'names', 'lines', 'names', 'lines', 'lines', 'lines', 'lines'))
    rows = list(counts(repository))
    for row in rows:
        print(form.format(*row))
    print(form.format('together', *[sum(row[i] for row in rows) for i in range(1, 8)]))
