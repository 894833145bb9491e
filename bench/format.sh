#!/bin/sh
# Measures `tptp format` on problems of about 10 MB and 20 MB: its speed, its peak memory, how its time grows, and its time
# as a ratio to that of `cat`, of `wc -l` and of `sha256sum` on the same file, all in one run.
set -eu
. "$(dirname "$0")/common.sh"
measure format
for other in cat "wc -l" sha256sum; do
    plain=$(seconds $other "$folder/whole.p")
    printf '%-12s %s times its time\n' "$other" "$(calculate "$whole / $plain")"
done
