#!/bin/sh
# Each link and each file's name of a page is there, each crate is on the map and has its README, and no line is too long.
# A path in code marks is looked for at the top, below crates/ and below the page's own folder; a bare name of a text
# anywhere. Usage: sh checks/names.sh
top=$(cd "$(dirname "$0")/.." && pwd) && cd "$top" || exit 2
export LC_ALL=C
work=$(mktemp -d) || exit 2
trap 'rm -rf "$work"' EXIT
find . -type f -not -path './.git/*' -not -path '*/out/*' > "$work/files"
failed=0
fail() { echo "FAILED $1"; failed=1; }
pages=$(find . -name '*.md' -not -path './.git/*' -not -path '*/out/*' | sed 's/^\.\///' | sort)

# there PAGE NAME
there() {
    for place in . crates "$(dirname "$1")"; do
        [ -e "$place/$2" ] && return
    done
    case $2 in
        */*) return 1 ;;
        *) grep -q "/$2\$" "$work/files" ;;
    esac
}

for page in $pages; do
    for link in $(grep -o '](\([^)]*\))' "$page" | sed 's/^](//; s/)$//; s/#.*//; /^https\{0,1\}:/d'); do
        [ -e "$(dirname "$page")/$link" ] || fail "$page: no $link"
    done
    # outside fences, the words of code marks that are paths or names of files
    awk '/^```/ { fenced = !fenced } !fenced { count = split($0, parts, "`"); for (i = 2; i <= count; i += 2) print parts[i] }' "$page" |
        tr ' ' '\n' | grep -E '^[A-Za-z0-9_.-]+(/[A-Za-z0-9_.-]+)*(/|\.(sh|md|antt|rt|txt|edit))?$' |
        grep -E '^((crates|docs|checks|examples|measures|\.ci|specs|src|proofs|must-fail|gs[a-z_]*)/.+|.+\.(sh|md|antt|rt|edit))$' |
        grep -v '/out$\|/NAME' | sort -u > "$work/names"
    while read -r name; do there "$page" "$name" || fail "$page: no $name"; done < "$work/names"
done

for crate in $(sed 's/#.*//; s/[ :].*//; /^$/d' crates.txt); do
    lines=$(wc -l < "crates/$crate/README.md" 2> /dev/null || echo 0)
    [ "$lines" -ge 15 ] && [ "$lines" -le 65 ] || fail "crates/$crate/README.md has $lines lines"
    grep -q -w "$crate" docs/ARCHITECTURE.md || fail "docs/ARCHITECTURE.md: no $crate"
done

# rows of tables stand on one line each
long() { awk -v most="$2" '!/^\|/ && length($0) > most { print FILENAME ":" FNR ": " length($0) " columns" }' "$1"; }
for page in $pages; do
    most=100; [ "$page" = README.md ] && most=90
    long=$(long "$page" $most); [ -z "$long" ] || fail "$long"
done
[ "$(wc -l < README.md)" -le 100 ] || fail "README.md has $(wc -l < README.md) lines"
[ $failed -eq 0 ] && echo "ok links, names, crates and lines of all pages"
exit $failed
