#!/bin/sh
# Measures propositional steps that are decided, with a limit of one clause on the search before: for each input (sat.awk
# says which) and size, over so many seeds, how many lines are `ok sat`; the processor's seconds of `verify` together, and
# the most for one; and of the last one that is `ok sat` the entries of the log, its bytes, and the processor's seconds of
# `check`. Where `minisat` is installed, its seconds on the same clauses stand beside. The status is 1 where it says
# otherwise.
#
#     bench/sat.sh [PROGRAM]
#
# The program is the one that LLVM makes, if none is named.
set -eu
. "$(dirname "$0")/common.sh"
program=$(realpath "${1:-$(program_of tptp_tool verify data/pq.p data/pq.s)}")
cd "$folder"
echo 'cnf(l,plain,$false,inference(step,[],[a])).' > x.s
status=0

# Writes the clauses of an input of this size and seed.
write() {
    awk -v input="$1" -v size="$2" -v seed="$3" "-vdimacs=$4" -f "$top/bench/sat.awk"
}

# The processor's seconds that a solver takes; what it says is left in solved.
solving() {
    /usr/bin/time -f "%U %S" -o "$folder/processor" minisat x.cnf solved > /dev/null 2>&1 || true
    tail -n 1 "$folder/processor" | awk '{ printf "%.2f", $1 + $2 }'
}

# Decides the clauses of this input, size and seed, and sums what it takes.
decide() {
    write "$1" "$2" "$3" 0 > x.p
    time=$(processor --limit 1 verify x.p x.s x.log || true)
    all=$(calculate_to 2 "$all + $time")
    most=$(calculate_to 2 "$time > $most ? $time : $most")
    said=$(head -n 1 answer)
    if test "$said" = "l ok sat"; then
        unsatisfiable=$((unsatisfiable + 1))
        mv x.log last.log
    fi
    command -v minisat > /dev/null || return 0
    write "$1" "$2" "$3" 1 > x.cnf
    others=$(calculate_to 2 "${others#-} + $(solving)")
    case "$said:$(head -n 1 solved)" in
    "l ok sat:UNSAT" | "l unverified "*":SAT") ;;
    *) echo "$1 $2, seed $3: $said, and minisat says $(head -n 1 solved)" && status=1 ;;
    esac
}

while read -r input size seeds; do
    all=0 most=0 unsatisfiable=0 others=-
    rm -f last.log
    for seed in $(seq "$seeds"); do decide "$input" "$size" "$seed"; done
    log=-
    if test -e last.log; then
        write "$input" "$size" "$seeds" 0 > x.p
        log="$(($(wc -l < last.log) - 1)) entries $(wc -c < last.log) bytes"
        test "$seeds" -ne 1 || log="$log  check $(processor check x.p last.log) s"
    fi
    printf '%-8s %5d  %2d of %2d sat  %8.2f s  most %8.2f s  minisat %8s s  %s\n' "$input" "$size" "$unsatisfiable" \
        "$seeds" "$all" "$most" "$others" "$log"
done << END
pigeons 5 1
pigeons 6 1
pigeons 7 1
pigeons 8 1
random 100 20
random 150 20
random 200 20
pairs 60 1
pairs 2000 1
parity 50 1
parity 100 1
parity 200 1
END
exit $status
