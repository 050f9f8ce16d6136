#!/bin/sh
# Runs this example in a new folder and checks what it left. Usage: sh run.sh [the program]
set -e
program=$(command -v "${1:-gsin}") || { echo "no program ${1:-gsin}"; exit 2; }
program=$(cd "$(dirname "$program")" && pwd)/$(basename "$program")
here=$(cd "$(dirname "$0")" && pwd)
folder=$(mktemp -d)
trap 'rm -rf "$folder"' EXIT
cp "$here"/* "$folder"
cd "$folder"
[ "$("$program" run k.idl p.c w.txt)" = "3 names, 15 bytes" ]
printf 'apple\nfig\npear\n' | cmp - names
echo "ok builtin"
