#!/bin/sh
# Runs this example in a new folder and checks what it left. Usage: sh run.sh [the program]
set -e
program=$(command -v "${1:-gs}") || { echo "no program ${1:-gs}"; exit 2; }
program=$(cd "$(dirname "$program")" && pwd)/$(basename "$program")
here=$(cd "$(dirname "$0")" && pwd)
folder=$(mktemp -d)
trap 'rm -rf "$folder"' EXIT
cp "$here"/* "$folder"
cd "$folder"
"$program" run pipeline.idl pipeline.c workers.txt
printf 'day1.log: 2\nday2.log: 0\nday3.log: 3\n' | cmp - report
printf 'disk\nfan\nlink\n' | cmp - scratch
echo "ok pipeline"
