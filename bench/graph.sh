#!/bin/sh
# Measures the graph of derivations whose lines are each from the two before it by number, and the first from the last, so
# that `tptp verify` orders all lines and then says that they are in a cycle: the processor's time beside that of `tptp parse` on
# the derivation, at 100,000 and at 1,000,000 lines that stand in order and in reverse, and how many times longer the second
# takes. At most 13 is wanted.
#
#     bench/graph.sh [PROGRAM]
#
# The program is the one that LLVM makes, if none is named.
set -eu
. "$(dirname "$0")/common.sh"
program=$(realpath "${1:-$(program_of tptp_tool verify data/pq.p data/pq.s)}")
cd "$folder"
echo 'cnf(a,axiom,$false).' > p.p

# The derivation of so many lines in this order.
lines() {
    awk -v count="$1" -v order="$2" 'BEGIN {
        for (i = 0; i < count; i++) {
            line = order == "reverse" ? count - 1 - i : i
            parents = line == 0 ? count - 1 : line == 1 ? 0 : line - 2 "," line - 1
            print "cnf(" line ",plain,$false,inference(r,[],[" parents "]))."
        }
    }' > s.s
}

# The processor's seconds that one graph of so many lines takes.
graph() {
    lines "$1" "$2"
    parsed=$(processor parse s.s)
    whole=$(processor verify p.p s.s || true)
    grep -q "in a cycle$" answer || { cat answer >&2 && exit 1; }
    awk "BEGIN { printf \"%.2f\", $whole - $parsed }"
}

for order in forward reverse; do
    small=$(graph 100000 $order)
    large=$(graph 1000000 $order)
    echo "$order      100,000 lines in $small s, 1,000,000 in $large s"
    echo "growth       $(calculate "$large / $small") times"
done
