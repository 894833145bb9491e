# So many parents, each a formula of 200 clauses of three literals under one universal and five existential quantifiers, or with
# derivation=1 for each of them the line that has functions of its own in place of the existential variables, with the literals
# of each clause in another order.
function variable(number) {
    number = number % 5
    return derivation ? "f" i "_" number "(X)" : "Y" number
}
function clause(k) {
    first = "~ p" k "(X)"
    second = "q" k "(X," variable(k) ")"
    third = "r" k "(" variable(k + 1) "," variable(k) ")"
    return derivation ? "( " third " | " first " | " second " )" : "( " first " | " second " | " third " )"
}
BEGIN {
    clauses = 200
    ORS = ""
    for (i = 1; i <= count; i++) {
        print "fof(" (derivation ? "l" : "a") i "," (derivation ? "plain" : "axiom") ",! [X] : "
        print (derivation ? "" : "? [Y0,Y1,Y2,Y3,Y4] : ") "( " clause(0)
        for (k = 1; k < clauses; k++) print "\n    & " clause(k)
        print " )" (derivation ? ",inference(distribute,[status(esa)],[a" i "])" : "") ").\n"
    }
}
