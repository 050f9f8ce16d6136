#!/bin/sh
# Times gs check over a program of 65,536 bytes and over one of 3,277 bytes of the same shape, a twentieth, and prints the
# means, which are user and system time of the processes, and their quotient, also without the time that a run over
# the least program takes. These are figures alone: the status is always 0.
# Usage: sh checks/linear.sh [the built program [runs]]
top=$(cd "$(dirname "$0")/.." && pwd)
gs=${1:-$top/crates/gs/out/gs}
runs=${2:-300}
[ -x "$gs" ] || { echo "no built program at $gs: run 'rt run' in crates/gs first"; exit 0; }
gs=$(cd "$(dirname "$gs")" && pwd)/$(basename "$gs")
folder=$(mktemp -d) && cd "$folder" || exit 0
trap 'rm -rf "$folder"' EXIT

printf 'interface K { void step(in File a, in int i, out File b); void count(in File a, out int n); };\n' > k.idl

head='int main() {
    int n = 1, m = 2;
    GS_On();
'
calls='    step("in.txt", (n + 3) * 14 - m / 7 + 12345, "out.txt"); // a step
    if (n < m && !(m == 5)) count("out.txt", &n); else m += 2;
'
foot='    GS_Off(0);
    return 0;
}
'
# program FILE BYTES: as many calls as have room, then blanks up to this length
program() {
    left=$(($2 - ${#head} - ${#foot}))
    {
        printf '%s' "$head"
        while [ $left -ge ${#calls} ]; do printf '%s' "$calls"; left=$((left - ${#calls})); done
        printf "%s%${left}s" "$foot" ''
    } > "$1"
}

# spent: the user and system time of all processes that have ended, in milliseconds
spent() {
    times > .times
    sed -n 2p .times | tr 'ms' '  ' | awk '{ printf "%d", ($1 * 60 + $2 + $3 * 60 + $4) * 1000 }'
}

# mean FILE: microseconds of one run
mean() {
    "$gs" check k.idl "$1" > .out 2> .err || { echo "FAILED $1: $(cat .err)" >&2; return; }
    spent > .before
    count=0
    while [ $count -lt "$runs" ]; do "$gs" check k.idl "$1" > .out; count=$((count + 1)); done
    spent > .after
    echo $((($(cat .after) - $(cat .before)) * 1000 / runs))
}

printf 'main() { GS_On(); GS_Off(0); }' > least.c
program short.c 3277
program long.c 65536
mean least.c > .least; mean short.c > .short; mean long.c > .long
least=$(cat .least); short=$(cat .short); long=$(cat .long)
echo "runs of each: $runs"
echo "the least program: $least microseconds"
echo "$(wc -c < short.c | tr -d ' ') bytes: $short microseconds"
echo "$(wc -c < long.c | tr -d ' ') bytes: $long microseconds"
echo "$long $short $least" | awk '{ printf "quotient: %.1f, without the least: %.1f\n", $1 / $2, ($1 - $3) / ($2 - $3) }'
exit 0
