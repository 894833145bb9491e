# Writes clauses without variables as a problem of one formula or, with dimacs=1, in the DIMACS format for solvers. The
# input is one of
#   pigeons  so many pigeons and one more have a hole each, of so many, and no two have one
#   random   clauses of three of so many atoms, 4.26 for each atom, by a seed
#   pairs    so many pairs of atoms, four clauses that contradict each other, and as many pairs again
#   parity   two chains of so many sums modulo 2 of the same atoms, whose ends differ
function clause(lits,    k, i, lit) {
    k = split(lits, lit, " ")
    if (dimacs) {
        body = body lits " 0\n"
    } else {
        body = body (clauses ? " & " : "") "( "
        for (i = 1; i <= k; i++) body = body (i > 1 ? " | " : "") (lit[i] < 0 ? "~ p" (-lit[i]) : "p" lit[i])
        body = body " )\n"
    }
    for (i = 1; i <= k; i++) if (lit[i] > atoms) atoms = lit[i]; else if (-lit[i] > atoms) atoms = -lit[i]
    clauses++
}
# c is the sum of a and b
function sum(a, b, c) {
    clause(-a " " (-b) " " (-c))
    clause(-a " " b " " c)
    clause(a " " (-b) " " c)
    clause(a " " b " " (-c))
}
function pair(first) { clause(first " " (first + 1)) }
function atom(    a) {
    do a = int(rand() * size) + 1; while (a in taken)
    taken[a]
    return rand() < 0.5 ? a : -a
}
BEGIN {
    if (input == "pigeons") {
        for (i = 0; i <= size; i++) {
            line = ""
            for (j = 1; j <= size; j++) line = line (j > 1 ? " " : "") (i * size + j)
            clause(line)
        }
        for (j = 1; j <= size; j++) for (i = 0; i <= size; i++) for (k = 0; k < i; k++)
            clause(-(i * size + j) " " (-(k * size + j)))
    } else if (input == "random") {
        srand(seed)
        for (i = 0; i < int(size * 4.26); i++) {
            split("", taken)
            line = atom()
            line = line " " atom()
            clause(line " " atom())
        }
    } else if (input == "pairs") {
        for (i = 0; i < size; i++) pair(2 * i + 3)
        for (i = 0; i < 4; i++) clause((i % 2 ? -1 : 1) " " (i > 1 ? -2 : 2))
        for (i = size; i < 2 * size; i++) pair(2 * i + 3)
    } else if (input == "parity") {
        for (i = 1; i <= size; i++) {
            sum(i, i > 1 ? size + i - 1 : 3 * size + 1, size + i)
            sum(i, i > 1 ? 2 * size + i - 1 : 3 * size + 1, 2 * size + i)
        }
        clause((2 * size) " " (3 * size))
        clause((-2 * size) " " (-3 * size))
    }
    if (dimacs) printf "p cnf %d %d\n%s", atoms, clauses, body
    else printf "fof(a,axiom,%s).\n", body
}
