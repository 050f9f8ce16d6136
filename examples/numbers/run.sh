#!/bin/sh
# Runs this example in a new folder and checks what it left. Usage: sh run.sh [the program]
set -e
program=$(command -v "${1:-gs}") || { echo "no program ${1:-gs}"; exit 2; }
program=$(cd "$(dirname "$program")" && pwd)/$(basename "$program")
here=$(cd "$(dirname "$0")" && pwd)
folder=$(mktemp -d)
trap 'rm -rf "$folder"' EXIT
cp "$here"/* "$folder"
cd "$folder"
[ "$("$program" run numbers.idl numbers.c workers.txt)" = "the square of 387 is below the target" ]
"$program" clean
echo 144 > target
[ "$("$program" run numbers.idl numbers.c workers.txt)" = "the square of 12 is equal to the target" ]
echo "ok numbers"
