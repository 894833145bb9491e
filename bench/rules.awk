# Writes a problem, or with derivation=1 its derivation: so many lines, each the same step from the same parents, which have about
# ten literals each, over trees of 127 symbols. The step is by the rule of this kind, or by none, of so many pairs of parents.
# Literals are of so many predicates.
function tree(depth, leaf) {
    return depth ? pair(tree(depth - 1, leaf), tree(depth - 1, leaf)) : leaf
}
function pair(first, second) {
    return "f(" first "," second ")"
}
function atom(number, term) {
    return "p" (number % predicates) "(" term ")"
}
# The literals of these numbers, the argument of each a tree of its own variable, or of the constant a.
function literals(first, end, is_ground, text, i) {
    for (i = first; i < end; i++)
        text = text " | " atom(i, tree(6, is_ground ? "a" : "X" (i % 10)))
    return substr(text, 4)
}
function left() {
    return literals(0, 10)
}
function right() {
    return "~ " atom(0, tree(6, "X0")) " | " literals(10, 19)
}
# No line has the first literal.
function odd_right() {
    return atom(19, tree(6, "b")) " | " right()
}
function equation() {
    return tree(5, "X0") " = b"
}
# Each literal has an instance in the line, but not all under one substitution; or the literals of the line.
function tangled(is_ground, text, i) {
    for (i = 0; i < 10; i++)
        text = text " | " atom(i, is_ground ? pair(tree(5, "a"), tree(5, "b")) : pair(tree(5, "X" i), tree(5, "X" ((i + 1) % 10))))
    return substr(text, 4)
}
function given(clause) {
    parents = parents (parents ? "," : "") "a" ++count
    if (!derivation) print "cnf(a" count ",axiom," clause ")."
}
function step(clause, i) {
    if (derivation)
        for (i = 1; i <= times; i++) print "cnf(l" i ",plain," clause ",inference(step,[],[" parents "]))."
}
BEGIN {
    if (kind == "norm") {
        given(right())
        given(left())
        step(left())
    } else if (kind == "cover") {
        given(right())
        given(left())
        step(literals(0, 11, 1))
    } else if (kind == "tautology") {
        given(right())
        given(odd_right())
        step(literals(1, 9, 1) " | ~ " atom(8, tree(6, "a")))
    } else if (kind == "resolution") {
        for (i = 1; i < pairs; i++) {
            given(odd_right())
            given(left())
        }
        given(right())
        given(left())
        step(literals(1, 19, 1))
    } else if (kind == "decoy") {
        for (i = 0; i < pairs; i++) {
            given(odd_right())
            given(literals(0, 9) " | " atom(9, tree(6, "b")))
        }
        step(literals(1, 19, 1))
    } else if (kind == "paramodulation") {
        given(left())
        given(equation() " | " literals(10, 19))
        step(atom(0, pair("b", tree(5, "a"))) " | " literals(1, 19, 1))
    } else if (kind == "rewrite") {
        given(left())
        given(equation())
        step(atom(0, pair("b", "b")) " | " literals(1, 10, 1))
    } else if (kind == "eqfactor") {
        given(tree(6, "X0") " = a | " tree(6, "a") " = b | " literals(0, 8))
        given(odd_right())
        step("a != b | " tree(6, "a") " = b | " literals(0, 8, 1))
    } else if (kind == "tangle") {
        given(tangled(0))
        given(equation() " | " literals(10, 19))
        step(tangled(1) " | " literals(10, 19, 1))
    }
}
