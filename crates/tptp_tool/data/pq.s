cnf(c,plain,$false,inference(res,[status(thm)],[a,b])).
