#!/bin/sh
# Measures how many lines a second `tptp verify` takes by each rule: it recognises the step, makes its entries, admits them to
# the theory and writes them. A derivation has 5,000 lines by one rule (for split each stands behind a definition of its name), and
# one of 10,000 shows the growth. Beside it the time of `tptp parse` on both files.
set -eu
. "$(dirname "$0")/common.sh"
tptp=$(program_of tptp_tool verify data/pq.p data/pq.s)
cd "$folder"

# The seconds that verifying takes, which ends with status 1 since no line is $false.
verifying() {
    seconds sh -c '"$1" verify p.p s.s log || true' sh "$tptp"
}

# The problem and the derivation of so many steps by the rule.
write() {
    awk -v rule="$1" -v count="$2" -f "$top/bench/steps.awk" > p.p
    awk -v rule="$1" -v count="$2" -v derivation=1 -f "$top/bench/steps.awk" > s.s
}

for rule in norm cover tautology resolution paramodulation eqfactor rewrite split skolem definition choice; do
    write $rule 5000
    half=$(verifying)
    write $rule 10000
    time=$(verifying)
    parsed=$(calculate "$(seconds "$tptp" parse p.p) + $(seconds "$tptp" parse s.s)")
    "$tptp" verify p.p s.s log > report || true
    accepted=$(grep -c " ok $rule\$" report || true)
    echo "$rule: $accepted of 10000 lines accepted, $(calculate "10000 / $time") a second, $(calculate "$time / $half") times the time of half as many, $(calculate "$time / $parsed") times that of parsing"
done
