# Writes a problem, or with derivation=1 its derivation: so many lines, each a step by the rule. The steps differ in a constant.
function formula(language, name, role, text, source) {
    printf "%s(%s,%s,%s%s).\n", language, name, role, text, source == "" ? "" : "," source
}
function given(language, name, text) {
    if (!derivation) formula(language, name, "axiom", text, "")
}
function step(language, name, text, parents) {
    if (derivation) formula(language, name, "plain", text, "inference(step,[],[" parents "])")
}
function introduced(language, name, text) {
    if (derivation) formula(language, name, "plain", text, "introduced(" rule ",[])")
}
BEGIN {
    if (rule == "split") introduced("fof", "e", "t <=> ! [Y] : q(Y)")
    for (i = 0; i < count; i++) {
        a = "a" i; b = "b" i; c = "c" i; d = "d" i; l = "l" i
        if (rule == "norm") {
            given("fof", a, "! [X] : ( p(X," c ") => q(X) )")
            step("fof", l, "! [X] : ( ~ p(X," c ") | q(X) )", a)
        } else if (rule == "cover") {
            given("cnf", a, "p(X," c ") | p(Y," c ")")
            step("cnf", l, "p(d," c ")", a)
        } else if (rule == "tautology") {
            introduced("cnf", l, "p(X," c ") | ~ p(X," c ")")
        } else if (rule == "resolution") {
            given("cnf", a, "p(X," c ") | q(X)")
            given("cnf", b, "~ p(f(Y)," c ")")
            step("cnf", l, "q(f(Y))", a "," b)
        } else if (rule == "paramodulation") {
            given("cnf", a, "f(" c ") = d")
            given("cnf", b, "p(f(" c ")," c ")")
            step("cnf", l, "p(d," c ")", a "," b)
        } else if (rule == "eqfactor") {
            given("cnf", a, "f(X) = " c " | f(b) = d")
            step("cnf", l, c " != d | f(b) = d", a)
        } else if (rule == "rewrite") {
            given("cnf", a, "f(" c ") = d")
            given("cnf", b, "p(f(" c "),f(" c "))")
            step("cnf", l, "p(d,d)", a "," b)
        } else if (rule == "split") {
            given("cnf", a, "p(X," c ") | q(Y)")
            introduced("fof", d, "s" i " <=> ! [X] : p(X," c ")")
            step("cnf", l, "s" i " | t", a "," d ",e")
        } else if (rule == "skolem") {
            given("fof", a, "! [X] : ? [Y] : p(X," c ",Y)")
            step("fof", l, "! [X] : p(X," c ",k" i "(X))", a)
        } else if (rule == "definition") {
            introduced("fof", l, "! [X] : ( r" i "(X) <=> p(X," c ") )")
        } else if (rule == "choice") {
            introduced("fof", l, "! [X] : ( ? [Y] : p(X," c ",Y) => p(X," c ",k" i "(X)) )")
        }
    }
}
