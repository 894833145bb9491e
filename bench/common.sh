# What the scripts of this folder share. They are run from anywhere.
top=$(cd "$(dirname "$0")/.." && pwd)
folder=$(mktemp -d)
trap 'rm -rf "$folder"' EXIT

# Builds the program of a crate, and names it.
program_of() {
    (cd "$top/crates/$1" && shift && rt run -- "$@" > /dev/null)
    echo "$top/crates/$1/out/$1"
}

# A problem of about so many bytes, in the file of this name.
problem() {
    awk -v bytes="$1" -f "$top/bench/problem.awk" > "$2"
}

# The seconds that a command takes.
seconds() {
    start=$(date +%s%N)
    "$@" > /dev/null
    end=$(date +%s%N)
    awk "BEGIN { printf \"%.6f\", ($end - $start) / 1000000000 }"
}

# The processor's seconds that $program takes on these words. What it prints is left in the file answer.
processor() {
    /usr/bin/time -f "%U %S %M" -o "$folder/processor" "$program" "$@" > "$folder/answer"
    # A status other than 0 has a line of its own before.
    tail -n 1 "$folder/processor" | awk '{ printf "%.2f", $1 + $2 }'
}

# The most memory that the last of these took, in megabytes.
memory_taken() {
    tail -n 1 "$folder/processor" | awk '{ printf "%d", $3 / 1000 }'
}

# The most memory that a command takes, in bytes.
peak() {
    /usr/bin/time -f %M -o "$folder/peak" "$@" > /dev/null
    echo $(($(cat "$folder/peak") * 1024))
}

# What awk makes of an expression, with so many digits behind the point.
calculate_to() {
    awk "BEGIN { printf \"%.$1f\", ($2) }"
}
calculate() {
    calculate_to 1 "$1"
}

# Measures a command of `tptp` on problems of about 10 MB and 20 MB: its speed, how its time grows, and its peak memory. The
# larger problem is left in whole.p, and the seconds for it in $whole.
measure() {
    tptp=$(program_of tptp_tool verify data/pq.p data/pq.s)
    problem 10000000 "$folder/half.p"
    problem 20000000 "$folder/whole.p"
    bytes=$(wc -c < "$folder/whole.p")
    half=$(seconds "$tptp" "$1" "$folder/half.p")
    whole=$(seconds "$tptp" "$1" "$folder/whole.p")
    memory=$(peak "$tptp" "$1" "$folder/whole.p")
    echo "text         $bytes bytes"
    echo "speed        $(calculate "$bytes / 1000000 / $whole") MB/s"
    echo "growth       $(calculate "$whole / $half") times the time for twice the text"
    echo "peak memory  $(calculate "$memory / $bytes") bytes a byte of text"
}
