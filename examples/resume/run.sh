#!/bin/sh
# Runs this example in a new folder and checks what it left. Usage: sh run.sh [the program]
set -e
program=$(command -v "${1:-gs}") || { echo "no program ${1:-gs}"; exit 2; }
program=$(cd "$(dirname "$program")" && pwd)/$(basename "$program")
here=$(cd "$(dirname "$0")" && pwd)
folder=$(mktemp -d)
trap 'rm -rf "$folder"' EXIT
cp "$here"/* "$folder"
cd "$folder"
"$program" run study.idl study.c workers.txt > printed &
process=$!
while [ "$(cat started/list 2> /dev/null | wc -l)" -lt 9 ]; do sleep 0.02; done
kill -9 $process
wait $process 2> /dev/null || true
# programs that it had started may still be at work
sleep 2
[ ! -s printed ] && [ ! -s all.txt ] && [ ! -e job.tmp ]
"$program" report | sed -n 's/^done \([0-9]*\) .*/\1/p' > recorded
[ "$(wc -l < recorded)" -ge 1 ] && [ "$(wc -l < recorded)" -lt 18 ]
rm started/list
[ "$("$program" run study.idl study.c workers.txt)" = "6 runs" ]
[ "$(grep -c -x -f recorded started/list)" = 0 ]
[ "$(cat recorded started/list | sort -n | uniq | wc -l)" -eq 18 ]
printf 'r:base 1\nr:base 2\nr:base 3\nr:base 4\nr:base 5\nr:base 6\n' | cmp - all.txt
echo "ok resume"
