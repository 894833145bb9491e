#!/bin/sh
# Tries whether what nests deepest runs in 2 MB of stack, or in as many KB as STACK says: `check` on logs whose proofs and
# formulas nest 4,000 deep, one for each way in which they may, and `verify` on derivations whose formulas nest 250 deep.
# Each line names a run, the status that is wanted, and the one that came, which is over 128 where a signal ended the run.
# The last line counts those that differ. The program is the one that LLVM makes; a name on the command line is that of
# another.
set -eu
. "$(dirname "$0")/common.sh"
tptp=${1:-$(program_of tptp_tool verify data/pq.p data/pq.s)}
stack=${STACK:-2048}
wrong=0

# So many times the first text, then the second, and so many times the third.
nested() {
    awk -v times="$1" -v before="$2" -v within="$3" -v behind="${4-}" 'BEGIN {
        for (i = 0; i < times; i++) printf "%s", before
        printf "%s", within
        for (i = 0; i < times; i++) printf "%s", behind
    }'
}

# Runs the program on the words behind the name and the status that is wanted.
run() {
    name=$1 wanted=$2
    shift 2
    status=0
    (ulimit -c 0; ulimit -s "$stack"; exec "$tptp" "$@" > "$folder/answer" 2> /dev/null) || status=$?
    echo "$name: $wanted $status"
    test "$status" -eq "$wanted" || wrong=$((wrong + 1))
}

# Checks a log of one lemma, whose proof is so many times the first text around the second. It refutes nothing.
lemma() {
    { echo "tptp-log 1"; printf 'L '; nested "$2" "$3" "$4" "${5-}"; echo; } > "$folder/p.log"
    run "$1" 1 check "$folder/p.p" "$folder/p.log"
}

# Verifies that the formula, so many times the first text around the second, follows from itself. No line is $false.
formula() {
    form=$(nested "$2" "$3" "$4" "$5")
    echo "fof(a,axiom,$form)." > "$folder/d.p"
    echo "fof(a,axiom,$form,file('d.p',a))." > "$folder/d.s"
    echo "fof(b,plain,$form,inference(nnf,[],[a]))." >> "$folder/d.s"
    run "$1" 1 verify "$folder/d.p" "$folder/d.s" "$folder/d.log"
}

echo "cnf(a,axiom,p)." > "$folder/p.p"
lemma "conjunctions taken apart" 3999 "ande 0 " "line 0"
lemma "conjunctions of proofs" 3999 "andi 1 " "line 0"
lemma "right sides, the implication first" 3999 "impe " "line 0" " line 0"
lemma "right sides, the left side last" 3999 "impe line 0 " "line 0"
lemma "falsehoods" 3999 "note " "line 0" " line 0"
lemma "implications" 3999 "impi a 0 0 " "hyp 0"
lemma "implications, the first hypothesis" 3999 "impi a 0 0 " "hyp 3998"
lemma "denials" 3999 "noti a 0 0 " "line 0"
lemma "by contradiction" 3999 "raa a 0 0 " "line 0"
lemma "disjunctions" 3999 "ori 1 a 0 0 0 " "line 0"
lemma "cases, the disjunction first" 3999 "ore a 0 0 " "line 0" " 0"
lemma "cases, in a case" 3996 "ore a 0 0 ori 1 a 0 0 0 line 0 1 " "hyp 0"
lemma "for all" 3999 "alli 0 " "line 0"
lemma "equivalences" 3999 "iffi a 0 0 a 0 0 " "line 0" " line 0"
lemma "over variables" 3999 "inhabit 0 a 0 0 " "line 0"
lemma "a formula of negations" 3996 "impi ~ " "a 0 0 hyp 0"
for word in '~' '& 1' '| 1' '! 0' '? 0'; do
    lemma "a formula of $word" 1 "impi $(nested 3997 "$word " "a 0 0") " "hyp 0"
    lemma "a formula of $word, under a variable" 1 "impi $(nested 3997 "$word " "a 0 0") alli 0 " "hyp 0"
    lemma "an instance of $word" 1 "alli 0 alle v 0 alli 0 impi $(nested 3994 "$word " "a 0 0") " "hyp 0"
done
lemma "a formula of implications" 1 "impi $(nested 3997 "> a 0 0 " "a 0 0") " "hyp 0"
formula "implications to the right" 249 "p => ( " "p => q" " )"
formula "implications to the left" 249 "( " "p => q" " ) => p"
formula "equivalences to the right" 12 "p <=> ( " "p <=> q" " )"
formula "negations" 125 "~ ( " "p" " )"
formula "quantifiers" 83 "! [X] : ? [Y] : ( " "p" " )"
echo "$wrong runs differ in $stack KB of stack"
test "$wrong" -eq 0
