#!/bin/sh
# Runs the built gs over real folders with real programs, and compares status, standard output, standard error and
# files byte by byte. Usage: sh checks/real.sh [the built program]
top=$(cd "$(dirname "$0")/.." && pwd)
gs=${1:-$top/crates/gs/out/gs}
[ -x "$gs" ] || { echo "no built program at $gs: run 'rt run' in crates/gs first"; exit 2; }
gs=$(cd "$(dirname "$gs")" && pwd)/$(basename "$gs")
failed=0

fresh() {
    folder=$(mktemp -d)
    cp "$top"/examples/join/* "$folder"
    cd "$folder" || exit 2
}

# case NAME STATUS LINE WORDS..: the status, the line on standard error, nothing on standard output
case_of() {
    what=$1; want=$2; line=$3; shift 3
    "$gs" "$@" > .out 2> .err
    status=$?
    printf '%s' "$line" > .want
    if [ $status -ne "$want" ] || ! cmp -s .err .want || [ -s .out ]; then
        echo "FAILED $what: status $status, wanted $want; standard error: $(cat .err)"
        failed=1
    else
        echo "ok $what"
    fi
}

# same NAME FILE TEXT: the file reads like this
same() {
    printf '%s' "$3" > .want
    cmp -s "$2" .want || { echo "FAILED $1: $2 is '$(cat "$2" 2>&1)'"; failed=1; }
}

gone() {
    [ ! -e "$2" ] || { echo "FAILED $1: $2 is there"; failed=1; }
}

run="run k.idl p.c w.txt"
lf='
'
fresh; case_of "two files are joined" 0 "" $run; same joined C xy
fresh; case_of "no words" 2 "gs: usage: word 0$lf"; gone usage C
fresh; case_of "a word too few" 2 "gs: usage: word 3$lf" run k.idl p.c; gone usage C
fresh; case_of "a name that begins with a dot" 2 "gs: usage: word 1$lf" run .k p.c w.txt
fresh; rm k.idl; case_of "no IDL" 3 "gs: no text: k.idl$lf" $run; gone "no IDL" C
fresh; rm w.txt; case_of "no worker list" 3 "gs: no text: w.txt$lf" $run; gone "no list" C
fresh; printf ' // end' >> p.c; case_of "a comment behind the program" 0 "" $run; same comment C xy
fresh; printf '}' >> p.c; case_of "a brace behind the program" 4 "gs: bad text: p.c:6: Unexpected$lf" $run; gone brace C
fresh; printf 'main() { int n; GS_On(); GS_Off(0); }' > p.c; case_of "a program that declares and calls nothing" 0 "" $run; gone declares C
fresh; rm B; case_of "a file that isn't there" 7 "gs: program fault: line 3: NoFile$lf" $run; gone "no B" C
fresh; printf 'exit 1\n' > join; printf old > C; case_of "a program that ends with 1" 9 "gs: task lost: 1$lf" $run; same "ends with 1" C old
fresh; printf 'exit 0\n' > join; case_of "an output left out" 9 "gs: task lost: 1$lf" $run; gone "left out" C
fresh; printf 'w1 2 ./absent *\n' > w.txt; case_of "a program that doesn't exist" 9 "gs: task lost: 1$lf" $run; gone absent C
fresh; printf 'kill -9 $$\n' > join; case_of "a program that is killed" 9 "gs: task lost: 1$lf" $run; gone killed C
fresh; mkdir C; case_of "a folder under the output's name" 10 "gs: disk fault$lf" $run; same disk A ""
fresh; mkdir -p .gs.stage; printf stale > .gs.stage/1.3; printf 'exit 0\n' > join
case_of "a stale staging file is no result" 9 "gs: task lost: 1$lf" $run; gone stale C

# names with every byte that a name may have
fresh
odd=ABCDEFGHIJKLMNOPQRSTUVWXYZabcdefghijklmnopqrstuvwxyz0123456789._-
printf 'odd' > "$odd"
sed "s/\"A\"/\"$odd\"/; s/\"C\"/\"-$odd\"/" p.c > q && mv q p.c
case_of "names with every byte" 0 "" $run; same odd "./-$odd" oddxy

fresh; printf 'main() { GS_On(); while (1) { } GS_Off(0); }' > p.c; case_of "an endless loop" 8 "gs: fuel out: 10000000$lf" $run

# a program that loops, prints, and reads what tasks left
fresh
printf 'interface K { void add(inout File f, in string s, in int n); void count(in File f, out int n); };' > k.idl
printf 'main() { int i; int n; char *s; FILE *f; GS_On(); for (i = 0; i < 3; i++) { sprintf(s, "<%%d>", i); add("A", s, i); }\ncount("A", &n); printf("%%d bytes\\n", n); f = GS_FOpen("A", R); i = fgetline(f, s); GS_FClose(f); printf("%%s\\n", s); GS_Off(0); }' > p.c
printf 'printf "%%s%%s" "$2" "$3" >> "$1"\n' > add
printf 'printf %%s "$(wc -c < "$1")" > "$2"\n' > count
"$gs" $run > .out 2> .err
if [ $? -eq 0 ] && [ "$(cat .out)" = "12 bytes
<0>0<1>1<2>2" ] && [ ! -s .err ]; then echo "ok a program that loops and prints"; else echo "FAILED a program that loops and prints: $(cat .out .err)"; failed=1; fi
same loops A "<0>0<1>1<2>2"
"$gs" $run > /dev/full 2> .err
if [ $? -eq 11 ] && [ "$(cat .err)" = "gs: sink fault" ]; then echo "ok a run whose output fails"; else echo "FAILED a run whose output fails: $(cat .err)"; failed=1; fi
same "output fails" A "<0>0<1>1<2>2"

# the record: a run that is over prints its text again and starts nothing; other texts; tries
rm add count; "$gs" $run > .out 2> .err
if [ $? -eq 0 ] && [ "$(head -1 .out)" = "12 bytes" ] && [ ! -s .err ]; then echo "ok a run that is over"; else echo "FAILED a run that is over: $(cat .out .err)"; failed=1; fi
printf ' ' >> p.c; case_of "a run of another text" 5 "gs: other run: program text$lf" $run
case_of "a removal of a run that is over" 0 "" clean; gone over .gs.log; same over A "<0>0<1>1<2>2"
fresh; printf 'mkdir -p n; echo >> n/l; [ $(wc -l < n/l) -ge 3 ] || exit 1; cat "$1" "$2" > "$3"\n' > join
case_of "a program that works at its third start" 0 "" $run; same third C xy
fresh; printf 'exit 1\n' > join; case_of "a worker that fails five times" 9 "gs: workers lost: 1$lf" $run --tries 100; gone five C
printf 'cat "$1" "$2" > "$3"\n' > join; case_of "a run that goes on" 0 "" $run; same on C xy

# the command check: one case of each status
fresh; "$gs" check k.idl p.c > .out 2> .err
if [ $? -eq 0 ] && cat k.idl p.c | cmp -s - .out && [ ! -s .err ]; then echo "ok a check prints both texts"; else echo "FAILED a check prints both texts: $(cat .out .err)"; failed=1; fi
gone check C
fresh; case_of "a check with a word too many" 2 "gs: usage: word 3$lf" check k.idl p.c w.txt
fresh; rm p.c; case_of "a check without a program" 3 "gs: no text: p.c$lf" check k.idl p.c
fresh; printf 'interface K { void f(inout int n); };' > k.idl; case_of "a check of a wrong IDL" 4 "gs: bad text: k.idl:1: BadCombination$lf" check k.idl p.c
fresh; rm k.idl; ln -s k.idl k.idl; case_of "a check of an IDL that can't be opened" 10 "gs: disk fault$lf" check k.idl p.c
fresh; "$gs" check k.idl p.c > /dev/full 2> .err
if [ $? -eq 11 ] && [ "$(cat .err)" = "gs: sink fault" ]; then echo "ok a check whose output fails"; else echo "FAILED a check whose output fails: $(cat .err)"; failed=1; fi

# more steps than are given, and as many
fresh; printf 'main() { int i; GS_On(); while (i < 3) { i = i + 1; } GS_Off(0); }' > p.c
case_of "a run of one step too few" 8 "gs: fuel out: 8$lf" $run --fuel 8; case_of "a run of enough steps" 0 "" $run --fuel 9
fresh; case_of "an option without its number" 2 "gs: usage: word 5$lf" $run --fuel; gone usage C

# the commands report, clean and plan: over no store, a bad one, and one whose run has ended
begun='\001\026\000\000\000\001\001\001\000\000\000i\002\000\000\000ab\001\000\000\000p\000\000\000\000'
gate='\001\026\000\000\000\003\000\000\000\000\000\000\000\000\000\000\000\000\000\000\000\000\001\000\000\000\006'
told() {
    what=$1; text=$2; shift 2
    "$gs" "$@" > .out 2> .err
    if [ $? -eq 0 ] && [ "$(cat .out)" = "$text" ] && [ ! -s .err ]; then echo "ok $what"; else echo "FAILED $what: $(cat .out .err)"; failed=1; fi
}
fresh; told "a report without a store" "stage fresh" report; case_of "a removal without a store" 0 "" clean
: > d; case_of "a plan without a run" 15 "gs: no run$lf" plan 2 d; case_of "a plan without its file" 3 "gs: no text: e$lf" plan 2 e
: > .gs.on; case_of "a log that is absent" 6 "gs: bad store: log at 0$lf" report
printf '\001\001\000\000\000\005\000' > .gs.log; case_of "a record that is none" 6 "gs: bad store: record 0$lf" plan 2 d
case_of "a removal of a bad store" 0 "" clean; gone removal .gs.on; gone removal .gs.log; same removal B xy
: > .gs.on; printf "$begun$gate\000" > .gs.log
told "a report of a run that has ended" "stage gated${lf}run i p${lf}actions 1${lf}text 0" report
case_of "a removal of results that aren't handed over" 13 "gs: gated$lf" clean
case_of "a plan of an interface that doesn't read" 6 "gs: bad store: record 0$lf" plan 2 d
"$gs" report > /dev/full 2> .err
if [ $? -eq 11 ] && [ "$(cat .err)" = "gs: sink fault" ]; then echo "ok a report whose output fails"; else echo "FAILED a report whose output fails: $(cat .err)"; failed=1; fi

# an input of the limit's length, and one byte more
fresh
: > B
head -c 16777216 /dev/urandom > A
case_of "an input of 16,777,216 bytes" 0 "" $run
cmp -s A C || { echo "FAILED the long input: C differs"; failed=1; }
fresh
head -c 16777217 /dev/zero > A
case_of "an input of one byte more" 7 "gs: program fault: line 3: FileTooLong$lf" $run; gone long C

[ $failed -eq 0 ] && echo "all ok"
exit $failed
