#!/bin/sh
# Refuses memory to `tptp` at each request in turn, on runs of each command, a search and a split among them. A run must
# end with status 6, and then the output and the log hold heads of what the whole run writes to them. Or it ends as the
# whole run, since it could do without what it asked for, as where a list is to give back what it does not use. Each
# line names a run, how many requests it makes, and how many of these it could be spared; what is wrong stands before
# it. The last line counts what is wrong. The program is the one that LLVM makes; a name on the command line is that of
# another. A C compiler makes the library that refuses, from which the program must take `malloc` and `realloc`.
set -eu
. "$(dirname "$0")/common.sh"
tptp=$(realpath "${1:-$(program_of tptp_tool verify data/pq.p data/pq.s)}")
cd "$folder"
wrong=0

# Refuses the request of the number that REFUSED says, if it is not 0, and tells so by a file.
cat > refusing.c <<'C'
#include <errno.h>
#include <fcntl.h>
#include <stdlib.h>
#include <unistd.h>
void *__libc_malloc(size_t bytes);
void *__libc_realloc(void *block, size_t bytes);
static long left;
__attribute__((constructor)) static void begin(void) {
    const char *word = getenv("REFUSED");
    left = word ? atol(word) : 0;
}
static int is_refused(void) {
    if (left == 0 || --left > 0) return 0;
    close(open("refused", O_CREAT | O_WRONLY, 0600));
    errno = ENOMEM;
    return 1;
}
void *malloc(size_t bytes) { return is_refused() ? NULL : __libc_malloc(bytes); }
void *realloc(void *block, size_t bytes) { return is_refused() ? NULL : __libc_realloc(block, bytes); }
C
cc -shared -fPIC -O1 -o refusing.so refusing.c

# Runs the program on the words behind the number of the request that is refused. Its status is left in $status, what
# it prints in the file out, and the log, which the words name, in the file x.log.
run() {
    request=$1 status=0
    shift
    rm -f refused x.log
    env REFUSED="$request" LD_PRELOAD="$folder/refusing.so" "$tptp" "$@" > out || status=$?
    test -e x.log || : > x.log
}

# Whether the second file is a head of the first.
is_head() {
    cmp -s -n "$(wc -c < "$2")" "$1" "$2"
}

# Whether the run has ended as the whole one.
is_whole() {
    test $status -eq $whole && cmp -s whole.out out && cmp -s whole.log x.log
}

# Whether the run has ended for want of memory.
is_cut() {
    test $status -eq 6 && is_head whole.out out && is_head whole.log x.log
}

# Refuses each request in turn of the run of this name on the words behind it.
refuse() {
    name=$1 request=0 spared=0
    shift
    run 0 "$@"
    whole=$status
    mv out whole.out
    mv x.log whole.log
    while run $((request + 1)) "$@" && test -e refused; do
        request=$((request + 1))
        if is_whole; then
            spared=$((spared + 1))
        elif ! is_cut; then
            wrong=$((wrong + 1))
            echo "$name, request $request: status $status, $(wc -c < out) bytes of output, $(wc -c < x.log) of the log"
        fi
    done
    if test $request -eq 0 || ! is_whole; then
        wrong=$((wrong + 1))
        echo "$name: without a refusal it ends with status $status, and not as before"
    fi
    echo "$name: status $whole, $request requests, $spared spared"
}

cat > top.p <<'P'
include('mid.ax',[b]).
fof(g,conjecture,b).
P
cat > mid.ax <<'P'
include('low.ax').
fof(a,axiom,a).
P
cat > low.ax <<'P'
fof(b,axiom,b).
P
cat > sp.p <<'P'
cnf(a1,axiom,p(X) | q(Y)).
cnf(a2,axiom,~ p(c)).
cnf(a3,axiom,~ q(d)).
P
cat > sp.s <<'P'
fof(d1,plain,s1 <=> ! [X] : p(X),introduced(avatar_definition,[])).
fof(d2,plain,s2 <=> ! [Y] : q(Y),introduced(avatar_definition,[])).
cnf(c1,plain,s1 | s2,inference(split,[],[a1,d1,d2])).
cnf(c2,plain,~ s1,inference(r,[],[a2,d1])).
cnf(c3,plain,~ s2,inference(r,[],[a3,d2])).
cnf(c4,plain,$false,inference(r,[],[c1,c2,c3])).
P
cat > sk.p <<'P'
fof(a,axiom,! [X] : ? [Y] : q(X,Y)).
P
cat > sk.s <<'P'
fof(s,plain,! [X] : q(X,f(X)),inference(skolemize,[],[a])).
P
printf 'tptp-log 1\nL note line 1 line 0\n' > pq.log
cp "$top"/crates/tptp_tool/data/* .

refuse "no form of a command" verify pq.p
refuse "a problem with includes" parse top.p
refuse "a missing file" parse soc.s
refuse "a text to be formatted" format soc.p
refuse "a clause and its negation" verify pq.p pq.s x.log
refuse "a usual proof" verify soc.p soc.s x.log
cp whole.log soc.log
refuse "a clause is split, and each case is refuted" verify sp.p sp.s x.log
refuse "a line with a new function" verify sk.p sk.s x.log
refuse "a log of one entry" check pq.p pq.log
refuse "the log of a usual proof" check soc.p soc.log
echo "$wrong are wrong"
test "$wrong" -eq 0
