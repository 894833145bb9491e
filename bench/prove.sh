#!/bin/sh
# Measures `tptp prove` on the problems of bench/problems.txt, among 1,000 clauses, and where that is not enough among
# 10,000, for 100 seconds at most: what is said, the processor's seconds, the bytes of the derivation, then what `verify`
# says of it, in how many seconds, and what `check` says of its log. How many are proved, verified and checked comes last.
#
#     bench/prove.sh [PROGRAM]
#
# The program is the one that LLVM makes, if none is named.
set -eu
. "$(dirname "$0")/common.sh"
tptp=$(realpath "${1:-$(program_of tptp_tool verify data/pq.p data/pq.s)}")
program=timeout
cd "$folder"
awk '/^= / { name = $2; next } name { print > (name ".p") }' "$top/bench/problems.txt"

# What is said, the first word of the line on the status where a derivation is printed.
said() {
    sed -n '1s/^% SZS status \([A-Za-z]*\).*/\1/; 1p' "$1" | grep . || echo "no answer"
}

# Searches for a proof of the problem of this name under this limit.
search() {
    time=$(processor 100 "$tptp" --limit "$2" prove "$1.p" || true)
    mv answer "$1.s"
    printf '%-4s %6d  %-20s %7.2f s' "$1" "$2" "$(said "$1.s")" "$time"
}

# Verifies the derivation of the problem of this name, and checks its log.
verify() {
    time=$(processor 100 "$tptp" verify "$1.p" "$1.s" "$1.log" || true)
    verdict=$(tail -n 1 answer)
    checked=$("$tptp" check "$1.p" "$1.log" || true)
    printf '  %8d bytes  %-20s %7.2f s  %s\n' "$(wc -c < "$1.s")" "$verdict" "$time" "$checked"
    proved=$((proved + 1))
    case "$verdict" in "verified: "*) verified=$((verified + 1)) ;; esac
    case "$checked" in "refuted: "*) refuted=$((refuted + 1)) ;; esac
}

count=0
proved=0
verified=0
refuted=0
for name in $(sed -n 's/^= //p' "$top/bench/problems.txt"); do
    count=$((count + 1))
    for limit in 1000 10000; do
        search "$name" "$limit"
        case "$(said "$name.s")" in "not proved: full") echo ;; *) break ;; esac
    done
    if grep -q '^% SZS output start' "$name.s"; then verify "$name"; else echo; fi
done
echo "$proved of $count proved, $verified verified, $refuted checked"
[ "$proved" = "$verified" ] && [ "$proved" = "$refuted" ]
