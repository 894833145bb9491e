#!/bin/sh
# Tries the edits of crates/NAME/edits/, which turn a meaning, so that the prover must refuse each: those of the crates
# that are named, or of all. The gate does not try them: run this when a crate's contracts change. It works on a copy of
# the repository, prints what was refused and a count, and ends with status 1 where an edit was not refused.
set -eu
. "$(dirname "$0")/common.sh"
cd "$top/crates"
test $# -gt 0 || set -- $(ls -d ./*/edits | cut -d / -f 2)

# The crates with what earlier checks made of them as libraries, and the edits where `rt must-fail` looks for them.
mkdir "$folder/crates"
cp ../crates.txt "$folder"
for part in */src */specs */proofs */out/rlib; do
    test ! -d "$part" || { mkdir -p "$folder/crates/$(dirname "$part")" && cp -R "$part" "$folder/crates/$part"; }
done
for name in "$@"; do cp -R "$name/edits" "$folder/crates/$name/must-fail"; done

cd "$folder"
rt must-fail "$@" | tee said
tried=$(find crates/*/must-fail -name '*.edit' | wc -l)
refused=$(grep -c ': refused, as it must be' said || true)
echo "$refused of $tried edits refused"
test "$refused" -eq "$tried"
