# Writes a problem of clauses that have no model, or with derivation=1 its derivation: one line, falsehood from all of
# them. The input is one of
#   chain    p holds of the first of so many constants, of each next one, and not of the last
#   pigeons  so many pigeons and one more have a hole each, of so many, and no two have one
#   deep     p holds of a constant, of f of what it holds of, and not where f stands so many times
#   sets     an element of a union of so many sets that is in none but the first one, and not in that
#   lattice  two operations absorb each other, and so many constants are not their own joins
#   laws     two operations commute, associate and absorb each other, and do not distribute over so many constants
#   group    a group by left laws, and so many products of an element and its inverse that are not the neutral one
function clause(text) {
    if (!derivation) printf "cnf(a%d,axiom,%s).\n", count, text
    parents = parents (count ? "," : "") "a" count
    count++
}
function nested(head, inside, times) {
    for (; times > 0; times--) inside = head "(" inside ")"
    return inside
}
BEGIN {
    count = 0
    if (input == "chain") {
        clause("p(c0)")
        for (i = 0; i < size; i++) clause("~p(c" i ")|p(c" i + 1 ")")
        clause("~p(c" size ")")
    } else if (input == "pigeons") {
        for (i = 0; i <= size; i++) {
            line = ""
            for (j = 0; j < size; j++) line = line (j ? "|" : "") "in(x" i ",h" j ")"
            clause(line)
        }
        for (j = 0; j < size; j++) for (i = 0; i <= size; i++) for (k = 0; k < i; k++)
            clause("~in(x" i ",h" j ")|~in(x" k ",h" j ")")
    } else if (input == "deep") {
        clause("p(c)")
        clause("~p(X)|p(f(X))")
        clause("~p(" nested("f", "c", size) ")")
    } else if (input == "sets") {
        clause("~in(X,union(Y,Z))|in(X,Y)|in(X,Z)")
        clause("~in(X,without(Y,Z))|in(X,Y)")
        clause("~in(X,without(Y,Z))|~in(X,Z)")
        whole = "s0"
        for (i = 1; i < size; i++) whole = "union(" whole ",s" i ")"
        clause("in(k,without(" whole ",s0))")
        for (i = 1; i < size; i++) clause("~in(k,s" i ")")
    } else if (input == "lattice") {
        clause("join(X,meet(X,Y))=X")
        clause("meet(X,join(X,Y))=X")
        line = ""
        for (i = 0; i < size; i++) line = line (i ? "|" : "") "join(c" i ",c" i ")!=c" i
        clause(line)
    } else if (input == "laws") {
        clause("join(X,meet(X,Y))=X")
        clause("meet(X,join(X,Y))=X")
        clause("join(X,Y)=join(Y,X)")
        clause("meet(X,Y)=meet(Y,X)")
        clause("join(join(X,Y),Z)=join(X,join(Y,Z))")
        clause("meet(meet(X,Y),Z)=meet(X,meet(Y,Z))")
        line = ""
        for (i = 0; i < size; i++)
            line = line (i ? "|" : "") "join(a" i ",meet(b" i ",c" i "))!=meet(join(a" i ",b" i "),join(a" i ",c" i "))"
        clause(line)
    } else if (input == "group") {
        clause("times(one,X)=X")
        clause("times(inverse(X),X)=one")
        clause("times(times(X,Y),Z)=times(X,times(Y,Z))")
        line = ""
        for (i = 0; i < size; i++) line = line (i ? "|" : "") "times(c" i ",inverse(c" i "))!=one"
        clause(line)
    }
    if (derivation) printf "cnf(l,plain,$false,inference(step,[],[%s])).\n", parents
}
