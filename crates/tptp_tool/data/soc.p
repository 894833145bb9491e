fof(a1,axiom,! [X] : ( man(X) => mortal(X) )).
fof(a2,axiom,man(socrates)).
fof(goal,conjecture,mortal(socrates)).
