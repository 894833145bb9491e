# A chain of so many implications: the problem, or with derivation=1 its refutation by resolution, in which the problem's file is
# called by its name.
BEGIN {
    if (!derivation) {
        print "cnf(a0,axiom,p0)."
        for (i = 1; i <= count; i++)
            print "cnf(a" i ",axiom,~ p" (i - 1) " | p" i ")."
        print "cnf(g,axiom,~ p" count ")."
        exit
    }
    print "cnf(b0,axiom,p0,file('" name "',a0))."
    for (i = 1; i <= count; i++)
        print "cnf(b" i ",axiom,~ p" (i - 1) " | p" i ",file('" name "',a" i "))."
    print "cnf(h,axiom,~ p" count ",file('" name "',g))."
    print "cnf(c1,plain,p1,inference(resolution,[],[b0,b1]))."
    for (i = 2; i <= count; i++)
        print "cnf(c" i ",plain,p" i ",inference(resolution,[],[c" (i - 1) ",b" i "]))."
    print "cnf(e,plain,$false,inference(resolution,[],[c" count ",h]))."
}
