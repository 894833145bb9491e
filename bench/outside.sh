#!/bin/sh
# Runs `tptp` over files that are no usual ones: without an end, gone, in the way of the log, changing while they are
# read, and an output that takes nothing. Each line names a run, the status that is wanted, or those that may come, and
# the one that came. The last line counts those that differ. The program is the one that LLVM makes; a name on the
# command line is that of another.
set -eu
. "$(dirname "$0")/common.sh"
tptp=$(realpath "${1:-$(program_of tptp_tool verify data/pq.p data/pq.s)}")
cd "$folder"
wrong=0

# Says what came of a run of this name, which is to end with one of the statuses behind it, and to have printed no more
# than so many bytes to the file out.
say() {
    name=$1 wanted=$2 most=$3 bytes=0
    test ! -e out || bytes=$(wc -c < out)
    echo "$name: $wanted $status"
    case " $wanted " in
        *" $status "*) test "$bytes" -le "$most" || status=-1 ;;
        *) status=-1 ;;
    esac
    test $status -ge 0 || wrong=$((wrong + 1))
    rm -f out
}

# Runs the program on the words behind the name, the statuses, and the most bytes of output.
run() {
    name=$1 wanted=$2 most=$3 status=0
    shift 3
    timeout 60 "$tptp" "$@" > out || status=$?
    say "$name" "$wanted" "$most"
}

cp "$top"/crates/tptp_tool/data/* .
run "an empty file" 0 99 parse /dev/null
run "zeros without an end" 7 99 parse /dev/zero
run "random bytes without an end" 7 99 parse /dev/urandom
run "a derivation without an end" 7 99 verify pq.p /dev/zero
run "a log without an end" 7 99 check pq.p /dev/zero
run "a folder" 4 0 parse .
run "a folder as a derivation" 4 0 verify pq.p .
run "a name through a file" 4 0 parse pq.p/x
run "a name that is too long" 4 0 parse "$(awk 'BEGIN { for (i = 0; i < 5000; i++) printf "x" }')"
run "a word that is no text" 2 999 parse "$(printf '\377')"
run "a file that is not there" 3 99 parse none.p
run "a file of another process" 4 0 parse /proc/1/mem
run "a log in a folder that is not there" 5 0 verify pq.p pq.s none/x.log
run "a log that is a folder" 5 0 verify pq.p pq.s .
run "a log that takes nothing" 5 0 verify pq.p pq.s /dev/full

# A pipe has no places.
mkfifo pipe
timeout 60 sh -c 'cat pq.p > pipe' &
run "a pipe" 4 0 parse pipe
wait $! || true

# A log is emptied before the other files are read.
cp pq.p x.p
run "a log that is the problem" 3 99 verify x.p pq.s x.p
cp pq.s x.s
run "a log that is the derivation" 1 99 verify pq.p x.s x.s

# Outputs.
status=0
"$tptp" verify soc.p soc.s > /dev/full || status=$?
say "an output that takes nothing" 5 0
status=0
"$tptp" verify soc.p soc.s >&- || status=$?
say "an output that is closed" 5 0
status=0
"$tptp" verify soc.p soc.s soc.log >&- || status=$?
say "an output that is closed, and a log" 5 0
status=0
"$tptp" check soc.p soc.log > out || status=$?
say "that log, which is cut" 1 99

# A file that grows while it is read, and one that is cut and written anew.
change() {
    while test -e pq.p; do "$@"; done
}
grow() { cat pq.p >> x.p; }
anew() { : > x.p; cat pq.p soc.p pq.p > x.p; }
for way in grow anew; do
    cp pq.p x.p
    change $way 2> /dev/null &
    for turn in 1 2 3 4 5 6 7 8 9 10; do run "$way, time $turn" "0 3 7" 99 parse x.p; done
    kill $!
    wait $! 2> /dev/null || true
done
# Where there is `strace`, each call of the system by which a file is read, and each by which one is written, fails in
# turn: four of each, and a fifth that is not made.
fail() {
    call=$1 time=$2
    status=0
    strace -o /dev/null -e inject="$call:error=EIO:when=$time" "$tptp" verify pq.p pq.s x.log > out || status=$?
    say "$call $time fails" "$3" "$4"
}
if command -v strace > /dev/null; then
    for time in 1 2 3 4; do
        fail lseek $time 4 0
        fail write $time 5 0
    done
    fail lseek 5 0 99
    fail write 5 0 99
fi
echo "$wrong runs differ"
test "$wrong" -eq 0
