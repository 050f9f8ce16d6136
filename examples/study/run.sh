#!/bin/sh
# Runs this example in a new folder and checks what it left. Usage: sh run.sh [the program]
set -e
program=$(command -v "${1:-gs}") || { echo "no program ${1:-gs}"; exit 2; }
program=$(cd "$(dirname "$program")" && pwd)/$(basename "$program")
here=$(cd "$(dirname "$0")" && pwd)
folder=$(mktemp -d)
trap 'rm -rf "$folder"' EXIT
cp "$here"/* "$folder"
cd "$folder"
[ "$("$program" run study.idl study.c workers.txt)" = "3 runs" ]
printf 'r:base 1\nr:base 2\nr:base 3\n' | cmp - all.txt
printf 'base 3\n' | cmp - job.tmp
echo "ok study"
