#!/bin/sh
# Runs this example in a new folder and checks what it left. Usage: sh run.sh [the program]
set -e
program=$(command -v "${1:-gs}") || { echo "no program ${1:-gs}"; exit 2; }
program=$(cd "$(dirname "$program")" && pwd)/$(basename "$program")
here=$(cd "$(dirname "$0")" && pwd)
folder=$(mktemp -d)
trap 'rm -rf "$folder"' EXIT
cp "$here"/* "$folder"
cd "$folder"
[ "$("$program" run fail.idl fail.c workers.txt --tries 3)" = "done" ]
[ "$(cat result)" = "result of job 7" ]
[ "$(wc -l < starts/list)" -eq 3 ]
"$program" clean
rm -r starts job
echo old > result
for start in 1 2; do
    if said=$("$program" run fail.idl fail.c workers.txt --tries 1 2>&1); then exit 1; fi
    [ "$said" = "gs: task lost: 2" ]
    [ "$(cat result)" = old ]
    [ ! -e job ]
    [ "$("$program" report | sed -n 3p)" = "done 1 2:file:6" ]
done
[ "$("$program" run fail.idl fail.c workers.txt --tries 1)" = "done" ]
[ "$(cat result)" = "result of job 7" ]
echo "ok fail"
