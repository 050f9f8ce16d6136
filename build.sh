#!/bin/sh
# Proves and builds crates of this repository and those that they stand on. Crates that don't stand on each other are
# begun side by side: as many as there are processors, and as memory holds at 3 GB each. A line says each as it is done.
# So far `rt` lets those wait for each other that share a crate below them, since a run keeps all of these to itself.
# Usage: sh build.sh NAME ..
top=$(cd "$(dirname "$0")" && pwd) && cd "$top" || exit 1
[ $# -gt 0 ] || { echo "usage: sh build.sh NAME .., with names of crates.txt"; exit 2; }
work=$(mktemp -d) && mkdir "$work/done" && mkfifo "$work/ended" || exit 1
exec 3<> "$work/ended"
children=
trap 'kill $children 2> /dev/null; exit 1' INT TERM HUP

# the crates that are wanted, a line each, with those of this repository that they stand on, the longest chain first;
# a crate's length is that of its texts in bytes
for crate in crates/*; do
    echo "$(cat "$crate"/src/*.rt $(find "$crate/specs" "$crate/proofs" -name '*.antt' 2> /dev/null) | wc -c) ${crate#crates/}"
done > "$work/lengths"
awk -v wanted="$*" '
    FNR == NR { own[$2] = $1; next }
    { sub(/#.*/, "") }
    NF {
        name = $1; sub(/:.*/, "", name); sub(/^[^:]*:/, "")
        order[++count] = name; below[name] = $0
    }
    function want(name, chain,    parts, total, i) {
        if (!(name in below) || chain + own[name] <= behind[name]) return
        behind[name] = chain + own[name]
        total = split(below[name], parts, " ")
        for (i = 1; i <= total; i++) want(parts[i], behind[name])
    }
    END {
        total = split(wanted, names, " ")
        for (i = 1; i <= total; i++) {
            if (!(names[i] in below)) { print "no crate " names[i] > "/dev/stderr"; exit 1 }
            want(names[i], 0)
        }
        for (i = 1; i <= count; i++) {
            name = order[i]
            if (!(name in behind)) continue
            line = behind[name] " " name
            parts_of = split(below[name], parts, " ")
            for (j = 1; j <= parts_of; j++) if (parts[j] in below) line = line " " parts[j]
            print line
        }
    }' "$work/lengths" crates.txt > "$work/plan" || exit 2
sort -rn "$work/plan" | cut -d ' ' -f 2- > "$work/left"
all=$(wc -l < "$work/left" | tr -d ' ')

free=$(getconf _NPROCESSORS_ONLN 2> /dev/null || echo 1)
room=$(awk '/^MemAvailable:/ { print int($2 / 3000000) }' /proc/meminfo 2> /dev/null)
[ "${room:-$free}" -lt "$free" ] && free=$room
[ "$free" -lt 1 ] && free=1

# build NAME JOBS: proves a crate and builds it. A program is run without words, which it answers by a line.
build() {
    began=$(date +%s)
    cd "$top/crates/$1" || return
    if [ -f src/main.rt ]; then
        rt run --jobs "$2" > "$work/$1.log" 2>&1
        tail -n 1 "$work/$1.log" | grep -q '^gs: usage: word 0$'
    else
        rt lib --jobs "$2" > "$work/$1.log" 2>&1
    fi
    echo "$? $1 $2 $(($(date +%s) - began))" >&3
}

# ready: the crates that are left and of which all that they stand on are done
ready() {
    while read -r name below; do
        for it in $below; do [ -e "$work/done/$it" ] || continue 2; done
        echo "$name"
    done < "$work/left"
}

running=0; count=0; failed=
while [ "$running" -gt 0 ] || { [ -z "$failed" ] && [ -s "$work/left" ]; }; do
    [ -z "$failed" ] && ready > "$work/ready" || : > "$work/ready"
    others=$(wc -l < "$work/ready" | tr -d ' ')
    while [ "$free" -gt 0 ] && read -r name; do
        # processors that no other crate waits for work at this one
        jobs=$((free / others)); others=$((others - 1))
        [ "$jobs" -lt 1 ] && jobs=1
        [ "$jobs" -gt 4 ] && jobs=4
        build "$name" "$jobs" &
        children="$children $!"
        free=$((free - jobs)); running=$((running + 1))
        grep -v "^$name\( \|\$\)" "$work/left" > "$work/others"
        mv "$work/others" "$work/left"
    done < "$work/ready"
    read -r status name jobs seconds <&3
    free=$((free + jobs)); running=$((running - 1))
    if [ "$status" -eq 0 ]; then
        count=$((count + 1)); : > "$work/done/$name"
        echo "$count of $all $name, $seconds s"
    else
        failed="$failed $name"
        tail -n 20 "$work/$name.log"
        echo "FAILED $name: see $work/$name.log"
    fi
done
[ -z "$failed" ] && rm -rf "$work"
[ -z "$failed" ]
