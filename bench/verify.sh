#!/bin/sh
# Measures `tptp verify` with a log on chains of 5,000, 10,000 and 20,000 implications and their refutations by resolution: its
# time and its peak memory, how both grow, and its time as a ratio to that of `tptp parse` on the two files and of writing the
# log, and `tptp check` on the log, and `tptp make` on chains of the same lengths, all in one run.
set -eu
. "$(dirname "$0")/common.sh"
tptp=$(program_of tptp_tool verify data/pq.p data/pq.s)
cd "$folder"

# The problem and the derivation of so many implications.
chain() {
    awk -v count="$1" -f "$top/bench/chain.awk" > "$1.p"
    awk -v count="$1" -v derivation=1 -v name="$1.p" -f "$top/bench/chain.awk" > "$1.s"
}

# The time and the peak memory of a command on so many implications, and how its time grew from half as many.
grown() {
    count=$1
    shift
    time=$(seconds "$@")
    memory=$(peak "$@")
    growth=
    test "$count" = 5000 || growth=", $(calculate "$time / $before") times that of half as many"
    echo "$time s, $(calculate "$memory / 1000000") MB$growth"
    before=$time
}

for count in 5000 10000 20000; do
    printf 'make %s  ' $count
    grown $count "$tptp" make $count
    said=$("$tptp" make $count)
    test "$said" = "make $count: $((2 * count + 3)) lines, $((count + 2)) norm, $((count + 1)) resolution, verified" || {
        echo "make $count says: $said"
        exit 1
    }
done

for count in 5000 10000 20000; do
    chain $count
    printf 'chain of %s  ' $count
    grown $count "$tptp" verify $count.p $count.s $count.log
done

parsed=$(calculate "1000 * ($(seconds "$tptp" parse 20000.p) + $(seconds "$tptp" parse 20000.s))")
copied=$(calculate "1000 * $(seconds sh -c 'cat 20000.log > copy.log')")
checked=$(seconds "$tptp" check 20000.p 20000.log)
bytes=$(wc -c < 20000.log)
echo "parsing and copying the log  $parsed ms and $copied ms; verifying takes $(calculate "1000 * $time / ($parsed + $copied)") times that"
echo "checking the log             $(calculate "$bytes / 1000000 / $checked") MB/s, $(calculate "$checked / $time") times the time of verifying"
