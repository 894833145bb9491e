# Writes a problem of about so many bytes: clauses with equations and sources, formulas with quantifiers, and comments.
# Usage: awk -v bytes=1000000 -f problem.awk
BEGIN {
    for (i = 0; size < bytes; i++) {
        clause = sprintf("cnf(clause_%d,axiom,( ~ edge(X%d,f(X%d,c%d)) | edge(c%d,X%d) | X%d = g(c%d) ), file('set.p',clause_%d)).", i, i % 7, i % 5, i % 97, i % 89, i % 7, i % 5, i % 31, i)
        formula = sprintf("fof(formula_%d,axiom,\n    ! [X,Y] : ( ( path(X,Y) & X != Y ) => ? [Z] : ( edge(X,Z) & path(Z,Y) ) ) ).", i)
        comment = i % 10 ? "" : "% a comment between the formulas\n"
        printf "%s\n%s\n%s", clause, formula, comment
        size += length(clause) + length(formula) + length(comment) + 2
    }
}
