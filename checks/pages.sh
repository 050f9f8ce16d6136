#!/bin/sh
# Runs each sh block of the pages in a fresh folder, with gs and gsin on the path, and compares what it prints with the
# block behind it that names no language; then the examples, which check themselves; then an installation.
# In a page <!-- new folder --> begins a new folder, and <!-- needs NAME --> passes over the next block where there is
# no such program. Usage: sh checks/pages.sh [a folder with gs and gsin]
top=$(cd "$(dirname "$0")/.." && pwd)
work=$(mktemp -d) && mkdir "$work/bin" || exit 2
trap 'rm -rf "$work"' EXIT
export LC_ALL=C
for program in gs gsin; do
    built=${1:-$top/crates/$program/out}/$program
    [ -x "$built" ] || { echo "no built program at $built: run 'sh build.sh gs gsin' first"; exit 2; }
    cp "$built" "$work/bin/$program"
done
PATH=$work/bin:$PATH
failed=0

# blocks PAGE: block N as N.sh, what it is to print as N.want, its line, what it needs, whether its folder is new
blocks() {
    awk -v at="$work/block." '
        FNR == 1 { fresh = 1 }
        /^<!-- new folder -->$/ { fresh = 1 }
        /^<!-- needs [^ ]+ -->$/ { needs = $3 }
        /^```/ && inside { close(to); inside = 0; next }
        inside { print > to; next }
        /^```sh$/ {
            n++; print FNR, fresh + 0, needs > (at n ".how"); close(at n ".how")
            to = at n ".sh"; printf "" > (at n ".want"); close(at n ".want"); open = 1; inside = 1; fresh = 0; needs = ""; next
        }
        /^```$/ { to = open ? at n ".want" : "/dev/null"; open = 0; inside = 1; next }
        /^```/ { to = "/dev/null"; inside = 1; next }
        /^#/ { open = 0 }
    ' "$1"
}

run_page() {
    rm -f "$work"/block.*
    blocks "$top/$1"
    n=1
    while [ -e "$work/block.$n.sh" ]; do
        read -r line fresh needs < "$work/block.$n.how"
        [ "$fresh" -eq 1 ] && folder=$(mktemp -d "$work/folder.XXXXXX")
        if [ -n "$needs" ] && ! "$needs" --version > /dev/null 2>&1; then
            echo "not run $1:$line, without $needs"
        elif (cd "$folder" && sh "$work/block.$n.sh" > "$work/said" 2>&1; :) && cmp -s "$work/said" "$work/block.$n.want"; then
            echo "ok $1:$line"
        else
            echo "FAILED $1:$line prints:"; cat "$work/said"
            failed=1
        fi
        n=$((n + 1))
    done
}

cd "$top" || exit 2
for page in README.md docs/*.md examples/*/README.md; do run_page "$page"; done
for example in examples/*/; do
    program=gs
    [ "$example" = examples/builtin/ ] && program=gsin
    (cd "$work" && sh "$top/${example}run.sh" "$program") || { echo "FAILED $example"; failed=1; }
done

sh install.sh "$work/prefix" "$work/bin" > "$work/said" 2>&1 || { echo "FAILED install.sh:"; cat "$work/said"; failed=1; }
if "$work/prefix/bin/gs" > /dev/null 2>&1; [ $? -eq 2 ] && cmp -s docs/gs.1 "$work/prefix/share/man/man1/gs.1" \
    && (cd "$work" && sh "$work/prefix/share/gs/examples/join/run.sh" "$work/prefix/bin/gs" > "$work/said" 2>&1); then
    echo "ok install.sh"
else
    echo "FAILED install.sh"; cat "$work/said"
    failed=1
fi
[ $failed -eq 0 ] && echo "all ok"
exit $failed
