# SZS status Theorem
# SZS output start CNFRefutation
fof(f1,axiom,(![X]:(man(X)=>mortal(X))),file('soc.p',a1)).
fof(f2,axiom,man(socrates),file('soc.p',a2)).
fof(f3,conjecture,mortal(socrates),file('soc.p',goal)).
fof(f4,negated_conjecture,~mortal(socrates),inference(assume_negation,[status(cth)],[f3])).
cnf(c1,plain,(mortal(X1)|~man(X1)),inference(split_conjunct,[status(thm)],[inference(fof_nnf,[status(thm)],[f1])])).
cnf(c2,plain,(mortal(socrates)),inference(spm,[status(thm)],[c1,f2])).
cnf(c3,negated_conjecture,($false),inference(cn,[status(thm)],[inference(rw,[status(thm)],[f4,c2])]),['proof']).
# SZS output end CNFRefutation
