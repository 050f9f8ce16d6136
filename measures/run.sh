#!/bin/sh
# Measures the built gs over real folders and child programs: the time and the peak memory of 1,000 and of 10,000 tasks
# side by side, of 300 in a chain, and by strace the calls of the system for each task at 100 and at 1,000 tasks. 10,000
# tasks are to take at most twelve times the time of 1,000 and 64 MiB beside the largest files. The record of a task with
# one file takes four syncs, and its file one more as it is brought back. It is no check of the gate, since it prints
# times. Usage: sh measures/run.sh [the built program]
top=$(cd "$(dirname "$0")/.." && pwd)
gs=${1:-$top/crates/gs/out/gs}
[ -x "$gs" ] || { echo "no built program at $gs: run 'sh build.sh gs' first"; exit 2; }
gs=$(cd "$(dirname "$gs")" && pwd)/$(basename "$gs")
LC_ALL=C
export LC_ALL
work=$(mktemp -d)
trap 'rm -rf "$work"' EXIT
failed=0

# laid NAME STATEMENT: a new folder in which a program does the statement so many times
laid() {
    rm -rf "$work/folder"
    mkdir "$work/folder" && cd "$work/folder" || exit 2
    echo 'interface K { void make(in File a, out File c); };' > k.idl
    printf 'main() { int i; char *s; GS_On();\n    for (i = 0; i < %s; i++) { %s } GS_Off(0); }\n' "$1" "$2" > p.c
    echo 'w1 4 sh *' > w.txt
    echo a > A
    echo 'echo a > "$2"' > make
}

side='sprintf(s, "n%d", i); make("A", s);'
chain='make("A", "A");'

# timed TASKS STATEMENT: thousandths of a second, and the peak in KiB
timed() {
    laid "$1" "$2"
    before=$(date +%s%N)
    "$gs" run k.idl p.c w.txt &
    process=$!
    while peak=$(awk '/^VmHWM:/ { print $2 }' "/proc/$process/status" 2> /dev/null) && [ -n "$peak" ]; do
        most=$peak
        sleep 0.05
    done
    wait $process || { echo "FAILED status $?"; failed=1; }
    echo "$((($(date +%s%N) - before) / 1000000)) ${most:-0}"
}

read -r small _ <<END
$(timed 1000 "$side")
END
read -r large peak <<END
$(timed 10000 "$side")
END
read -r long _ <<END
$(timed 300 "$chain")
END
echo "1,000 tasks: $small ms; 10,000: $large ms, peak $peak KiB; 300 in a chain: $long ms"
[ "$large" -le $((small * 12)) ] || { echo "FAILED more than twelve times"; failed=1; }
[ "$peak" -le 65536 ] || { echo "FAILED more than 64 MiB"; failed=1; }
command -v strace > /dev/null || { echo "no strace here"; exit $failed; }

# calls TASKS: each call of the system that gs itself makes, with its number
calls() {
    laid "$1" "$side"
    strace -y -o "$work/trace" "$gs" run k.idl p.c w.txt || exit 1
    # the final files are named n0, n1 and so on
    sed -n -e 's/^fsync([0-9]*<[^>]*\/n[0-9]*>.*/final_fsync()/' -e 's/^\([a-z_0-9]*\)(.*/\1/p' "$work/trace" | sort | uniq -c |
        awk '{ print $2, $1 }'
}

calls 100 > "$work/few"
calls 1000 > "$work/many"
# a call that each task makes is made ten times as often, one that grows with the tasks done more than that
awk 'FNR == NR { few[$1] = $2; next } {
        each = ($2 - few[$1]) / 900
        if (each > 0.01) printf "%s: %.2f for each task\n", $1, each
        if ($2 > 11 * few[$1] && $2 > 1000) { print "FAILED " $1 ": " few[$1] + 0 " at 100 tasks, " $2 " at 1,000"; bad = 1 }
        if ($1 == "fsync" || $1 == "fdatasync") syncs += each
    }
    END { if (syncs > 4.01) { print "FAILED " syncs " syncs for each task"; bad = 1 }; exit bad }' \
    "$work/few" "$work/many" || failed=1
exit $failed
