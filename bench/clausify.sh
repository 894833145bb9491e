#!/bin/sh
# Measures lines that clausify a parent with new functions: a parent of 200 clauses and five existential quantifiers, and 200 such
# parents, each with functions of its own. It prints for each how many of the lines are accepted, the milliseconds that a line
# takes beside `tptp parse` on both files, and the bytes of the log beside those of the parents.
#
#     bench/clausify.sh [PROGRAM]
#
# The program is the one that LLVM makes, if none is named.
set -eu
. "$(dirname "$0")/common.sh"
tptp=$(realpath "${1:-$(program_of tptp_tool verify data/pq.p data/pq.s)}")
cd "$folder"

for count in 1 200; do
    awk -v count=$count -f "$top/bench/clausify.awk" > p.p
    awk -v count=$count -v derivation=1 -f "$top/bench/clausify.awk" > s.s
    # It ends with status 1, since no line is $false.
    time=$(seconds sh -c '"$1" verify p.p s.s log > report || true' sh "$tptp")
    parsed=$(calculate "1000 * ($(seconds "$tptp" parse p.p) + $(seconds "$tptp" parse s.s))")
    accepted=$(grep -c ' ok search$' report || true)
    echo "$count parents: $accepted lines accepted, $(calculate "(1000 * $time - $parsed) / $count") ms a line, a log of $(wc -c < log) bytes for $(wc -c < p.p) bytes of parents"
done
