#!/bin/sh
# Measures how fast `tptp verify` takes large steps (rules.awk says which), so many lines of each, beside `tptp parse` on both
# files: by each rule, and by none, for which parts, new functions and a search of one clause are tried too. The literals are of
# 20 predicates, or all of one. A `decoy` has a literal too many in each parent. In a `tangle` each literal of the parents has
# an instance in the line, but not all under one substitution. Steps of thirty parents come last. Times are the processor's.
# Less than 10 ms a step of two parents is wanted.
#
#     bench/rules.sh [PROGRAM]
#
# The program is the one that LLVM makes, if none is named.
set -eu
. "$(dirname "$0")/common.sh"
program=$(realpath "${1:-$(program_of tptp_tool verify data/pq.p data/pq.s)}")
cd "$folder"

# Steps of a kind, of so many predicates and so many pairs of parents; so many of them.
steps() {
    set -- -v kind="$1" -v predicates="$2" -v pairs="$3" -v times="$4" -f "$top/bench/rules.awk"
    awk "$@" > p.p
    awk -v derivation=1 "$@" > s.s
    parsed=$(calculate_to 2 "$(processor parse p.p) + $(processor parse s.s)")
    # It ends with status 1, since no line is $false.
    whole=$(processor --limit 1 verify p.p s.s s.log || true)
}

# Prints what is said of such steps, and the milliseconds of one.
measure_steps() {
    steps "$@"
    said=$(sed 's/^l[0-9]* //' answer | head -n 1)
    alike=$(grep -c "^l[0-9]* $said\$" answer)
    echo "$1, $2 predicates, $((2 * $3)) parents: $alike of $4 lines $said, $(calculate_to 2 "1000 * ($whole - $parsed) / $4") ms"
}

for predicates in 20 1; do
    for kind in norm cover tautology resolution paramodulation eqfactor rewrite decoy; do
        measure_steps $kind $predicates 1 50
    done
    for kind in resolution decoy; do
        measure_steps $kind $predicates 15 5
    done
done
measure_steps tangle 20 1 1
