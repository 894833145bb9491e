#!/bin/sh
# Measures `tptp parse` on problems of about 10 MB and 20 MB, and on problems of 50,000 and 100,000 symbols, half of them
# declared by type lines: its speed, its peak memory, and how its time grows, all in one run.
set -eu
. "$(dirname "$0")/common.sh"
measure parse

# A problem of so many symbols, in the file of this name.
symbols() {
    awk -v count="$1" 'BEGIN {
        for (i = 0; i < count / 2; i++) printf "tff(type_%d,type,declared_%d: $i > $o).\n", i, i
        for (i = 0; i < count / 2; i++) printf "tff(axiom_%d,axiom,declared_%d(constant_%d)).\n", i, i, i
    }' > "$2"
}
symbols 50000 "$folder/few.p"
symbols 100000 "$folder/many.p"
bytes=$(wc -c < "$folder/many.p")
few=$(seconds "$tptp" parse "$folder/few.p")
many=$(seconds "$tptp" parse "$folder/many.p")
memory=$(peak "$tptp" parse "$folder/many.p")
echo "symbols      100,000 in $bytes bytes"
echo "speed        $(calculate "$bytes / 1000000 / $many") MB/s"
echo "growth       $(calculate "$many / $few") times the time for twice the symbols"
echo "peak memory  $(calculate "$memory / $bytes") bytes a byte of text"
