#!/bin/sh
# Runs `tptp` on texts that are made to hurt. Each line names a text, and has the number of its parts, the status of its
# run, the processor's seconds, their growth from half as many parts, the peak memory in MB, the bytes of its files, and
# the last line that was printed. Behind it stands whether the peak is over 2 GB, and the status that is wanted, if
# another one came. The last line counts those.
#
#     bench/hurt.sh [PROGRAM]
#
# The program is the one that LLVM makes, if none is named. SCALE divides the numbers of parts, and ONLY names the texts
# that are tried. A run that takes more than WAIT of the processor's seconds is ended, with status 152. It gets no more
# than MEMORY KB of addresses, which is status 6, and STACK KB of stack: 8 MB are not enough for formulas of a log that
# nest 100,000 deep. docs/RULES.md, docs/LOG.md and docs/USING.md say what may take long, or much memory, and why.
set -eu
. "$(dirname "$0")/common.sh"
tptp=$(realpath "${1:-$(program_of tptp_tool verify data/pq.p data/pq.s)}")
cd "$folder"
scale=${SCALE:-1} only=${ONLY:-} limit=${WAIT:-600} memory=${MEMORY:-16000000} stack=${STACK:-65536}
wrong=0

# A text, so many times.
repeated() {
    awk -v text="$1" -v times="$2" 'BEGIN {
        ORS = ""
        for (; times >= 1; times = int(times / 2)) {
            if (times % 2) print text
            text = text text
        }
    }'
}

# Lines of a text, so many times, with the number of the time, from 0 on, in place of each `@`, and the next one in
# place of each `#`.
numbered() {
    awk -v text="$1" -v times="$2" 'BEGIN {
        for (; match(text, /[@#]/); text = substr(text, RSTART + 1)) {
            before[++marks] = substr(text, 1, RSTART - 1)
            next_one[marks] = substr(text, RSTART, 1) == "#"
        }
        for (i = 0; i < times; i++) {
            line = ""
            for (mark = 1; mark <= marks; mark++) line = line before[mark] (i + next_one[mark])
            print line text
        }
    }'
}

# The same without line feeds.
joined() {
    numbered "$1" "$2" | tr -d '\n'
}

# Runs the program on the words. The status is left in $status, the processor's seconds in $time, and the KB of memory
# in $peak.
run() {
    status=0
    (
        ulimit -c 0
        ulimit -v "$memory"
        ulimit -s "$stack"
        ulimit -t "$limit"
        exec /usr/bin/time -f '%U %S %M' -o measured "$tptp" "$@" > answer 2> /dev/null
    ) || status=$?
    set -- $(tail -n 1 measured)
    time=$(awk "BEGIN { print $1 + $2 }") peak=$3
}

# Runs the program on the words behind the status that is wanted, on the text of this name of half so many parts, and
# then of so many. A function of the name writes the text's files.
hurt() {
    name=$1 parts=$(($2 / scale)) wanted=$3
    shift 3
    case " ${only:-$name} " in *" $name "*) ;; *) return 0 ;; esac
    rm -f x.*
    "$name" $((parts / 2))
    run "$@"
    half=$time
    rm -f x.*
    "$name" "$parts"
    bytes=$(cat x.* | wc -c)
    run "$@"
    fault=
    test "$peak" -le 2000000 || fault="  over 2 GB"
    test "$status" -eq "$wanted" || { fault="$fault  wanted $wanted" && wrong=$((wrong + 1)); }
    printf '%-20s %9d  %3d %8.2f s  x%4.1f %6d MB %9d bytes  %s%s\n' "$name" "$parts" "$status" "$time" \
        "$(calculate "$time / ($half + 0.001)")" $((peak / 1000)) "$bytes" "$(tail -n 1 answer | cut -c 1-60)" "$fault"
}

# Texts of few tokens.
one_word() { repeated a "$1" > x.p; }
one_number() { repeated 1 "$1" > x.p; }
one_quote() { (printf "'"; repeated a "$(($1 - 2))"; printf "'") > x.p; }
open_quote() { (printf "'"; repeated a "$(($1 - 1))") > x.p; }
one_comment() { (printf %%; repeated a "$(($1 - 1))") > x.p; }
one_block() { (printf '/*'; repeated '*' "$(($1 - 3))"; printf /) > x.p; }
open_block() { (printf '/*'; repeated '*' "$(($1 - 2))") > x.p; }
line_feeds() { repeated '\n' "$1" > x.p; }
long_name() { (printf 'cnf('; repeated a "$1"; echo ',axiom,p).') > x.p; }
long_symbol() { (printf 'cnf(a,axiom,'; repeated p "$1"; echo ').') > x.p; }
hurt one_word 67108864 3 parse x.p
hurt one_number 67108864 3 parse x.p
hurt one_quote 67108864 3 parse x.p
hurt open_quote 67108864 3 parse x.p
hurt one_comment 67108864 0 parse x.p
hurt one_block 67108864 0 parse x.p
hurt open_block 67108864 3 parse x.p
hurt line_feeds 67108864 0 parse x.p
hurt long_name 60000000 0 parse x.p
hurt long_name 60000000 0 format x.p
hurt long_symbol 60000000 0 parse x.p
hurt long_symbol 60000000 0 format x.p

# Texts of many small parts.
parentheses() { repeated '(' "$1" > x.p; }
formula_of_parentheses() { (printf 'fof(a,axiom,'; repeated '(' "$1") > x.p; }
short_comments() { repeated '%\n' "$1" > x.p; }
short_formulas() { repeated 'cnf(a,axiom,p).\n' "$1" > x.p; }
short_literals() { (printf 'cnf(a,axiom,'; repeated 'p|' "$1"; echo 'p).') > x.p; }
short_terms() { (printf 'cnf(a,axiom,p('; repeated 'c,' "$1"; echo 'c)).') > x.p; }
short_variables() { (printf 'cnf(a,axiom,p('; repeated 'X,' "$1"; echo 'X)).') > x.p; }
short_sources() { (printf 'cnf(a,axiom,p,['; repeated 'a,' "$1"; echo 'a]).') > x.p; }
many_symbols() { numbered 'cnf(a,axiom,p@).' "$1" > x.p; }
many_variables() {
    (printf 'cnf(a,axiom,'; repeated "p($(joined 'X@,' 249)X249)|" "$1"; echo 'q).') > x.p
}
hurt parentheses 67108864 3 parse x.p
hurt formula_of_parentheses 67108852 7 parse x.p
hurt short_comments 33554432 0 parse x.p
hurt short_comments 33554432 0 format x.p
hurt short_formulas 4194304 0 parse x.p
hurt short_formulas 4194304 0 format x.p
hurt short_literals 33554000 0 parse x.p
hurt short_literals 33554000 0 format x.p
hurt short_terms 33554000 0 parse x.p
hurt short_variables 33554000 0 parse x.p
hurt short_sources 33554000 0 parse x.p
hurt many_symbols 2900000 0 parse x.p
hurt many_variables 50000 0 parse x.p

# Includes: of an empty file, and of a file of which many formulas are selected.
many_includes() { repeated "include('x.ax').\n" "$1" > x.p; : > x.ax; }
selected() {
    (printf "include('x.ax',["; joined 'n@,' "$1"; echo 'n0]).') > x.p
    numbered 'cnf(n@,axiom,p).' "$1" > x.ax
}
hurt many_includes 3900000 0 parse x.p
hurt selected 2400000 0 parse x.p

# Derivations: lines that all wait for the last one, each for the next one, long names, many parents.
one_clause() { echo 'cnf(a,axiom,p).' > x.p; }
waiting_for_the_last() {
    one_clause
    (numbered 'cnf(l@,plain,p,inference(r,[],[z])).' "$1"; echo "cnf(z,plain,p,file('x.p',a)).") > x.s
}
waiting_for_the_next() {
    one_clause
    (numbered 'cnf(l@,plain,p,inference(r,[],[l#])).' "$1"; echo "cnf(l$1,plain,p,file('x.p',a)).") > x.s
}
waiting_in_a_circle() {
    one_clause
    (numbered 'cnf(l@,plain,p,inference(r,[],[l#])).' "$1"; echo "cnf(l$1,plain,p,inference(r,[],[l0])).") > x.s
}
long_parent() {
    long_name "$1"
    (printf "cnf(c,plain,p,file('x.p',"; repeated a "$1"; echo ')).') > x.s
}
new_symbol() {
    one_clause
    (printf 'fof(d,plain,'; repeated q "$1"; echo ' <=> p,introduced(definition,[])).') > x.s
}
parents_of_one() {
    numbered 'cnf(a@,axiom,p@).' "$1" > x.p
    (printf 'cnf(c,plain,p%d,inference(r,[],[' $(($1 - 1)); joined 'a@,' "$1"; echo 'a0])).') > x.s
}
parents_of_none() {
    numbered 'cnf(a@,axiom,p@).' "$1" > x.p
    (printf 'cnf(c,plain,q,inference(r,[],['; joined 'a@,' "$1"; echo 'a0])).') > x.s
}
hurt waiting_for_the_last 1048575 1 verify x.p x.s x.log
hurt waiting_for_the_next 1048575 1 verify x.p x.s x.log
hurt waiting_in_a_circle 1048575 3 verify x.p x.s x.log
hurt long_parent 60000000 1 verify x.p x.s x.log
hurt new_symbol 60000000 1 verify x.p x.s x.log
hurt parents_of_one 10000 1 verify x.p x.s x.log
hurt parents_of_none 10000 1 verify x.p x.s x.log

# Logs.
notes() { one_clause; (echo 'tptp-log 1'; printf 'L '; repeated 'note ' "$1"; echo) > x.log; }
entries() {
    (echo 'cnf(a,axiom,p).'; echo 'cnf(b,axiom,~p).') > x.p
    (echo 'tptp-log 1'; repeated 'L note line 1 line 0\n' "$1") > x.log
}
many_members() { one_clause; (echo 'tptp-log 1'; printf 'L andi %d' "$1"; repeated ' line 0' "$1"; echo) > x.log; }
declared() { one_clause; (echo 'tptp-log 1'; numbered "D p 'q@' 0" "$1") > x.log; }
long_declaration() { one_clause; (echo 'tptp-log 1'; printf "D p '"; repeated q "$1"; echo "' 0") > x.log; }
copies() {
    (printf 'cnf(a,axiom,'; repeated 'p|' "$1"; echo 'p).') > x.p
    (echo 'tptp-log 1'; repeated 'L line 0\n' "$1") > x.log
}
doubled() { one_clause; (echo 'tptp-log 1'; numbered 'L andi 2 line @ line @' "$1") > x.log; }
nested_further() {
    one_clause
    (echo 'tptp-log 1'; numbered "L $(repeated 'impi a 0 0 ' 3999)line @" "$1") > x.log
}
hurt notes 12000000 1 check x.p x.log
hurt entries 3195000 0 check x.p x.log
hurt many_members 9500000 1 check x.p x.log
hurt declared 4000000 1 check x.p x.log
hurt long_declaration 60000000 1 check x.p x.log
hurt copies 2000 1 check x.p x.log
hurt doubled 20 1 check x.p x.log
hurt nested_further 32 1 check x.p x.log

# Steps whose rules cost more than their size: docs/RULES.md says why.
clause_of() { joined "$1@|" "$2"; }
literals_resolved() {
    (printf 'cnf(a,axiom,'; clause_of p "$1"; echo 'r).'; printf 'cnf(b,axiom,'; clause_of q "$1"; echo '~r).') > x.p
    (printf 'cnf(c,plain,'; clause_of p "$1"; clause_of q "$1"; echo "q0,inference(r,[],[a,b])).") > x.s
}
literals_of_none() {
    (printf 'cnf(a,axiom,'; clause_of p "$1"; echo 'r).'; printf 'cnf(b,axiom,'; clause_of '~p' "$1"; echo 'q).') > x.p
    echo 'cnf(c,plain,s,inference(r,[],[a,b])).' > x.s
}
deep_terms() {
    (printf 'cnf(a,axiom,p('; joined 'X@,' 249; repeated 'f(' "$1"; printf X0; repeated ')' "$1"; echo ')).'
    printf 'cnf(b,axiom,~p('; joined 'X@,' 249; repeated 'f(' "$1"; printf X0; repeated ')' "$1"; echo ')).') > x.p
    echo 'cnf(c,plain,$false,inference(r,[],[a,b])).' > x.s
}
images() {
    (printf 'cnf(a,axiom,g('; joined 'X@,' "$1"; printf "X$1) != g("; joined 'f(X#,X#),' "$1"; echo 'c)).') > x.p
    echo 'cnf(c,plain,$false,inference(r,[],[a])).' > x.s
}
large_parent() {
    (printf 'cnf(a,axiom,'; repeated 'p|' "$1"; echo 'p).') > x.p
    numbered 'cnf(l@,plain,p,inference(r,[],[a])).' "$1" > x.s
}
parts_turned() {
    (echo 'fof(a,axiom,$true'; numbered ' & ( p@ | q@ )' "$1"; echo ').') > x.p
    (echo 'fof(l,plain,$true'; numbered ' & ( q@ | p@ )' "$1" | tac; echo ',inference(r,[],[a])).') > x.s
}
growing_terms() {
    echo 'cnf(u,axiom,p(c)).' > x.p
    (printf 'cnf(t,axiom,~p(X)|p('; repeated 'f(' 240; printf X; repeated ')' 240; echo ')).') >> x.p
    (printf 'cnf(h,axiom,r('; repeated 'c,' "$((120 * $1))"; echo 'c)).') >> x.p
    echo 'cnf(e,plain,$false,inference(r,[],[u,t,h])).' > x.s
}
colours() {
    awk -v count="$1" 'BEGIN {
        printf "cnf(a,axiom,"
        for (i = 0; i <= count; i++) for (j = 0; j < i; j++) printf "%sp(X%d,X%d)", (i > 1 ? "|" : ""), i, j
        print ")."
    }' > x.p
    awk -v count="$1" 'BEGIN {
        printf "cnf(c,plain,"
        for (i = 0; i < count; i++) for (j = 0; j < count; j++)
            if (i != j) printf "%sp(c%d,c%d)", (some++ ? "|" : ""), i, j
        print ",inference(r,[],[a]))."
    }' > x.s
}
pigeons() {
    awk -v input=pigeons -v size="$1" -f "$top/bench/sat.awk" > x.p
    echo 'cnf(e,plain,$false,inference(r,[],[a])).' > x.s
}
hurt literals_resolved 1250 1 verify x.p x.s x.log
hurt literals_of_none 100000 1 verify x.p x.s x.log
hurt deep_terms 245 0 verify x.p x.s x.log
hurt images 16 0 verify x.p x.s x.log
hurt large_parent 2000 1 verify x.p x.s x.log
hurt parts_turned 10000 1 verify x.p x.s x.log
hurt growing_terms 12 1 verify x.p x.s x.log
hurt colours 8 1 verify x.p x.s x.log
hurt pigeons 8 0 --limit 1 verify x.p x.s x.log
echo "$wrong are wrong"
test "$wrong" -eq 0
