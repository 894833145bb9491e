#!/bin/sh
# Measures how fast a problem of about 20 MB is cut into tokens: its speed, its peak memory, and its time as a ratio to that of
# `wc -l` and of `sha256sum` on the same text, all in one run. A text is read and cut as a whole before `tptp parse` says what
# is wrong with its first token, so the text begins with one that is impossible.
#
#     bench/lex.sh [PROGRAM]
#
# The program is the one that LLVM makes, if none is named.
set -eu
. "$(dirname "$0")/common.sh"
tptp=$(realpath "${1:-$(program_of tptp_tool verify data/pq.p data/pq.s)}")
cd "$folder"
problem 20000000 whole.p
{ echo ')'; cat whole.p; } > text.p
bytes=$(wc -c < text.p)

# Cuts the text, and ends with status 1 where something else is said of it.
cut() {
    "$tptp" parse text.p > said || true
    test "$(cat said)" = "text.p:1:1: unexpected token"
}

time=$(seconds cut)
memory=$(peak sh -c '"$1" parse text.p || true' sh "$tptp")
echo "text         $bytes bytes"
echo "speed        $(calculate "$bytes / 1000000 / $time") MB/s"
echo "wc -l        $(calculate "$time / $(seconds wc -l text.p)") times its time"
echo "sha256sum    $(calculate "$time / $(seconds sha256sum text.p)") times its time"
echo "peak memory  $(calculate "$memory / $bytes") bytes a byte of text"
