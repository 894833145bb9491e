#!/bin/sh
# Copies the proved program to PREFIX/bin/tptp, the tools beside it, and the man page to PREFIX/share/man/man1.
#
#     sh install.sh [PREFIX]        PREFIX is /usr/local where it is not given
set -eu
top=$(cd "$(dirname "$0")" && pwd)
prefix=${1:-/usr/local}
program=$top/crates/tptp_tool/out/tptp_tool

if ! test -x "$program"; then
    echo "install.sh: there is no program yet; make it first:" >&2
    echo "    (cd crates/tptp_tool && rt run -- verify data/soc.p data/soc.s)" >&2
    exit 1
fi

mkdir -p "$prefix/bin" "$prefix/share/man/man1"
install -m 755 "$program" "$prefix/bin/tptp"
for tool in tally explain draw lines from-e; do
    install -m 755 "$top/tools/tptp-$tool" "$prefix/bin/tptp-$tool"
done
install -m 644 "$top/docs/tptp.1" "$prefix/share/man/man1/tptp.1"
echo "installed $prefix/bin/tptp"
