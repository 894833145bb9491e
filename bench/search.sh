#!/bin/sh
# Measures lines that a search or a decision shows: for each input (search.awk says which) and size what is said of the
# line, the processor's seconds of `verify`, how they grow from half the size, and its peak memory; the entries of the
# log, its bytes, and how many times they are the text of what inferences show (facts.awk); and the processor's seconds of
# `check`.
#
#     bench/search.sh [PROGRAM]
#
# The program is the one that LLVM makes, if none is named.
set -eu
. "$(dirname "$0")/common.sh"
program=$(realpath "${1:-$(program_of tptp_tool verify data/pq.p data/pq.s)}")
cd "$folder"

# The problem and the derivation of an input of this size.
write() {
    awk -v input="$1" -v size="$2" -f "$top/bench/search.awk" > x.p
    awk -v input="$1" -v size="$2" -v derivation=1 -f "$top/bench/search.awk" > x.s
}

# The processor's seconds that `verify` takes on them; it may end with status 1.
verifying() {
    processor --limit "$limit" verify x.p x.s x.log || true
}

while read -r input size limit; do
    write "$input" $((size / 2))
    half=$(verifying)
    write "$input" "$size"
    time=$(verifying)
    memory=$(memory_taken)
    said=$(head -n 1 answer)
    checked=-
    case "$said" in "l ok "*) checked=$(processor check x.p x.log) ;; esac
    bytes=$(wc -c < x.log)
    text=$(awk -f "$top/bench/facts.awk" x.log)
    printf '%-8s %5d  %-22s %7.2f s  x%4.1f  %5d MB  %7d entries %9d bytes, x%4.1f  check %s s\n' \
        "$input" "$size" "$said" "$time" "$(calculate "$time / ($half + 0.01)")" "$memory" $(($(wc -l < x.log) - 1)) "$bytes" \
        "$(calculate "$bytes / ($text + 0.01) * ($text > 0)")" "$checked"
done << END
chain 500 10000
chain 1000 10000
chain 2000 10000
deep 60 1000
deep 120 1000
sets 20 1000
sets 40 1000
pigeons 2 1000
pigeons 3 1000
lattice 2 200
laws 2 1000
group 2 1000
END
