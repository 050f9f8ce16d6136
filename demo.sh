#!/bin/sh
# Proves and builds gs, runs the example study in a new folder, and shows what it left.
set -e
top=$(cd "$(dirname "$0")" && pwd)
echo "== proving and building: many minutes on a machine where nothing is kept"
sh "$top/build.sh" gs
gs="$top/crates/gs/out/gs"
folder=$(mktemp -d)
cp "$top"/examples/study/* "$folder"
cd "$folder"
echo "== gs check study.idl study.c, in $folder"
"$gs" check study.idl study.c
echo "== gs run study.idl study.c workers.txt"
"$gs" run study.idl study.c workers.txt
echo "== all.txt"
cat all.txt
echo "== the last job.tmp and res.tmp"
cat job.tmp res.tmp
