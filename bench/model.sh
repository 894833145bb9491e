#!/bin/sh
# Measures `tptp model` on groups of 10 to 60 elements, a latin square of 30 and a graph of 300 nodes with three
# colours: how many atoms it evaluates in a second, how fast it reads a model, and its peak memory. Associativity in a
# group of 60 has 216,000 cases.
set -eu
. "$(dirname "$0")/common.sh"
tptp=$(program_of tptp_tool verify data/pq.p data/pq.s)

# Makes a problem and its model, of this kind and this size.
make() {
    awk -v kind="$1" -v size="$2" -v problem="$folder/$1$2.p" -v model="$folder/$1$2.m" -f "$top/bench/model.awk"
}

# Measures this kind at this size, with so many atoms.
measure_model() {
    make "$1" "$2"
    time=$(seconds "$tptp" model "$folder/$1$2.p" "$folder/$1$2.m")
    bytes=$(wc -c < "$folder/$1$2.m")
    memory=$(peak "$tptp" model "$folder/$1$2.p" "$folder/$1$2.m")
    echo "$1 $2     $time s, $(calculate "$3 / 1000000 / $time") million atoms a second with reading, $(calculate "$bytes / 1000000 / $time") MB/s, $(calculate "$memory / 1000000") MB"
}

for size in 10 20 30 40 50 60; do
    measure_model group "$size" "$((size * size * size + 3 * size))"
done
measure_model square 30 "$((4 * 30 * 30 * 30))"
measure_model colouring 300 "$((300 * 300))"

# A model without its last value: the missing one is found in time linear in the table.
make group 60
sed '/^f("e59","e59")/d; s/^\(f("e59","e58") = "e57"\) &$/\1)./' "$folder/group60.m" > "$folder/less.m"
time=$(seconds sh -c "\"$tptp\" model \"$folder/group60.p\" \"$folder/less.m\" || test \$? -eq 1")
echo "one value missing of 3,600: $time s"
