#!/bin/sh
# Measures lines by the rule `norm`: each is its parent denied twice, so that the normal forms of both are made, and the proofs from
# the parent to its normal form and from there to the line. The parents are conjunctions of 1,000 and of 10,000 literals and of
# literals denied twice, 200 quantifiers around such a conjunction of 100 and of 1,000, whose variables are not used or the
# outermost of which is used in each literal, and 200 implications inside each other. Times are the processor's, beside
# `tptp parse` on both files. At most 12 times the time is wanted for ten times the literals, and well under a second for a
# conjunction of 10,000 literals and for 200 levels. A proof through quantifiers names the formula inside at each of them, so
# 200 quantifiers around so many literals are 200 times as much work. At last a line that has the quantifiers of 100 and 200
# members, one for each, outside of the conjunction or disjunction, or where the parent has them there each at its member,
# and the bytes of its log.
#
#     bench/norm.sh [PROGRAM]
#
# The program is the one that LLVM makes, if none is named.
set -eu
. "$(dirname "$0")/common.sh"
program=$(realpath "${1:-$(program_of tptp_tool verify data/pq.p data/pq.s)}")
cd "$folder"

# The formula of this kind and size.
formula() {
    awk -v kind="$1" -v size="$2" '
    function repeated(text, times, between, all, i) {
        for (i = 0; i < times; i++) all = all (i ? between : "") text
        return all
    }
    BEGIN {
        for (i = 0; i < 200; i++) variables = variables (i ? "," : "") "X" i
        if (kind == "literals") print repeated("~ p", size, " & ")
        if (kind == "denials") print repeated("~ ~ p", size, " & ")
        if (kind == "unused") print "! [" variables "] : ( " repeated("~ p", size, " & ") " )"
        if (kind == "outermost") print "! [" variables "] : ( " repeated("q(X0)", size, " & ") " )"
        if (kind == "implications") print repeated("( p => ", size, "") "p" repeated(" )", size, "")
    }'
}

# The milliseconds that a line of this kind and size takes, of so many.
line() {
    formula "$1" "$2" > formula
    { echo "fof(a,axiom,"; cat formula; echo ")."; } > p.p
    for i in $(seq "$3"); do
        echo "fof(l$i,plain,~ ~ ("
        cat formula
        echo "),inference(step,[],[a]))."
    done > s.s
    parsed=$(calculate_to 2 "$(processor parse p.p) + $(processor parse s.s)")
    # It ends with status 1, since no line is $false.
    whole=$(processor verify p.p s.s || true)
    test "$(grep -c ' ok norm$' answer)" = "$3"
    calculate_to 2 "1000 * ($whole - $parsed) / $3"
}

for kind in literals denials; do
    small=$(line $kind 1000 20)
    large=$(line $kind 10000 2)
    echo "10,000 $kind: $large ms, $(calculate "$large / ($small + 0.001)") times the time for 1,000"
done
for kind in unused outermost; do
    small=$(line $kind 100 10)
    large=$(line $kind 1000 1)
    echo "1,000 $kind: $large ms, $(calculate "$large / ($small + 0.001)") times the time for 100"
done
echo "200 implications: $(line implications 200 10) ms"

# Members of a node, with a quantifier each at the member or all outside.
members() {
    awk -v where="$1" -v between="$2" -v size="$3" '
    BEGIN {
        for (i = 0; i < size; i++) {
            text = text (i ? between : "") (where == "inside" ? "(![X" i "]:" : "") "(p" i "(X" i ")|q" i "(X" i "))" \
                (where == "inside" ? ")" : "")
            variables = variables (i ? "," : "") "X" i
        }
        print where == "inside" ? text : "![" variables "]:(" text ")"
    }'
}

# The milliseconds that a line takes that has them elsewhere than its parent.
moved() {
    { echo "fof(a,axiom,("; members "$1" "$3" "$4"; echo "))."; } > p.p
    { echo "fof(l,plain,("; members "$2" "$3" "$4"; echo "),inference(step,[],[a]))."; } > s.s
    whole=$(processor verify p.p s.s x.log || true)
    test "$(grep -c ' ok norm$' answer)" = 1
    calculate_to 0 "1000 * $whole"
}

for between in "&" "|"; do
    for places in "inside outside" "outside inside"; do
        small=$(moved $places "$between" 100)
        large=$(moved $places "$between" 200)
        echo "200 quantifiers of members of $between moved from $places: $large ms," \
            "$(calculate "$large / ($small + 1)") times the time for 100, a log of $(wc -c < x.log) bytes"
    done
done
