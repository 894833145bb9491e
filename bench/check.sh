#!/bin/sh
# Measures `tptp check` on logs of 10,000 and 100,000 lemmas, each of which cites the one before: its speed, its peak memory, how
# its time grows, and its time as a ratio to that of `sha256sum` on the same log, all in one run. The logs refute nothing, and
# end with status 1. bench/verify.sh has logs that `verify` writes.
#
#     bench/check.sh [PROGRAM]
#
# The program is the one that LLVM makes, if none is named.
set -eu
. "$(dirname "$0")/common.sh"
tptp=$(realpath "${1:-$(program_of tptp_tool verify data/pq.p data/pq.s)}")
: > "$folder/empty.p"

# The log of so many lemmas behind the first, which says that the predicate p implies itself.
lemmas() {
    awk -v count="$1" 'BEGIN {
        print "tptp-log 1\nD p \047p\047 0\nL impi a 0 0 hyp 0"
        for (i = 0; i < count; i++) print "L impe impi > a 0 0 a 0 0 hyp 0 line " i
    }'
}

# Checks the log of this name.
check() {
    "$tptp" check "$folder/empty.p" "$folder/$1.log" || test $? -eq 1
}

lemmas 10000 > "$folder/few.log"
lemmas 100000 > "$folder/many.log"
bytes=$(wc -c < "$folder/many.log")
test "$(check many)" = "not refuted"
few=$(seconds check few)
many=$(seconds check many)
memory=$(peak sh -c "\"$tptp\" check \"$folder/empty.p\" \"$folder/many.log\" || test \$? -eq 1")

echo "log          $bytes bytes"
echo "speed        $(calculate "$bytes / 1000000 / $many") MB/s"
echo "growth       $(calculate "$many / $few") times the time for ten times the lemmas"
echo "sha256sum    $(calculate "$many / $(seconds sha256sum "$folder/many.log")") times its time"
echo "peak memory  $(calculate "$memory / $bytes") bytes a byte of log"
