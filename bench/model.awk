# Writes a problem into the file `problem` and a model of it into the file `model`, by `kind` and `size`: a group of so
# many elements, a latin square, or a graph of so many nodes in a ring with three colours.
function domain(sort, count,    i) {
    printf "tff(d_%s,fi_domain,! [X: %s] : (", sort, sort == "i" ? "$i" : sort > model
    for (i = 0; i < count; i++) printf "%sX = \"e%d\"", i ? " | " : "", i > model
    printf ")).\n" > model
}
function table(name, count,    i, j) {
    printf "tff(t_%s,fi_functors,", name > model
    for (i = 0; i < count; i++)
        for (j = 0; j < count; j++)
            printf "%s%s(\"e%d\",\"e%d\") = \"e%d\"", i + j ? " &\n" : "", name, i, j, (i + j) % count > model
    printf ").\n" > model
}
function group(    i) {
    print "fof(associative,axiom,! [X,Y,Z] : f(f(X,Y),Z) = f(X,f(Y,Z)))." > problem
    print "fof(neutral,axiom,! [X] : (f(X,n) = X & f(n,X) = X))." > problem
    print "fof(inverse,axiom,! [X] : ? [Y] : f(X,Y) = n)." > problem
    domain("i", size)
    table("f", size)
    print "fof(t_n,fi_functors,n = \"e0\")." > model
}
function square() {
    print "fof(rows,axiom,! [X,Y,Z] : (f(X,Y) = f(X,Z) => Y = Z))." > problem
    print "fof(columns,axiom,! [X,Y,Z] : (f(X,Y) = f(Z,Y) => X = Z))." > problem
    domain("i", size)
    table("f", size)
}
function colouring(    i, j) {
    print "tff(c,type,colour: $tType)." > problem
    print "tff(of,type,of: $i > colour)." > problem
    print "tff(e,type,edge: ($i * $i) > $o)." > problem
    print "tff(a,axiom,! [X: $i,Y: $i] : (edge(X,Y) => of(X) != of(Y)))." > problem
    domain("i", size)
    domain("colour", 3)
    printf "tff(t_of,fi_functors," > model
    for (i = 0; i < size; i++) printf "%sof(\"e%d\") = \"e%d\"", i ? " & " : "", i, i == size - 1 ? 2 : i % 2 > model
    printf ").\ntff(t_e,fi_predicates," > model
    for (i = 0; i < size; i++)
        for (j = 0; j < size; j++)
            printf "%s%sedge(\"e%d\",\"e%d\")", i + j ? " &\n" : "", (i + 1) % size == j ? "" : "~ ", i, j > model
    printf ").\n" > model
}
BEGIN {
    if (kind == "group") group()
    else if (kind == "square") square()
    else colouring()
}
