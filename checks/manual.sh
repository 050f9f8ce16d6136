#!/bin/sh
# Makes the man page of docs/COMMANDS.md and compares docs/gs.1 with it; with --write it writes docs/gs.1. Where there
# is a man command that shows its warnings, the page must give none. Usage: sh checks/manual.sh [--write]
top=$(cd "$(dirname "$0")/.." && pwd) && cd "$top" || exit 2
export LC_ALL=C

# Paragraphs, lists, fences and tables: a row of a table is an entry under its first cell. Code is bold.
made() {
    awk '
    function shown(text,    out, at, rest, parts, count, i) {
        gsub(/\\/, "\\e", text)
        count = split(text, parts, "`")
        for (i = 1; i <= count; i++) {
            if (i % 2 == 0) { gsub(/-/, "\\-", parts[i]); out = out "\\fB" parts[i] "\\fR" }
            else {
                rest = parts[i]
                while (match(rest, /\*[A-Z]+\*/)) {
                    out = out substr(rest, 1, RSTART - 1) "\\fI" substr(rest, RSTART + 1, RLENGTH - 2) "\\fR"
                    rest = substr(rest, RSTART + RLENGTH)
                }
                out = out rest
            }
        }
        if (out ~ /^[.\047]/) out = "\\&" out
        return out
    }
    function paragraph() { if (gap) { print ".PP"; gap = 0 } }
    /^<!--/ { next }
    /^```/ { if (fenced) print ".fi\n.RE"; else print ".PP\n.RS 4\n.nf"; fenced = !fenced; gap = 0; next }
    fenced { gsub(/\\/, "\\e"); gsub(/-/, "\\-"); print /^[.\047]/ ? "\\&" $0 : $0; next }
    /^# / { print ".TH " toupper($2) " 1 \"\" \"" $2 "\" \"Manual of " $2 "\""; next }
    /^## / { sub(/^## /, ""); print ".SH " $0; gap = 0; rows = 0; next }
    /^$/ { gap = !fenced && started; rows = 0; next }
    { started = 1 }
    /^\|/ {
        rows++
        if (rows <= 2) next
        sub(/^\| */, ""); sub(/ *\|$/, "")
        count = split($0, cells, / *\| */)
        print ".TP\n" shown(cells[1])
        text = ""
        for (i = 2; i <= count; i++) if (cells[i] != "") { if (text != "") print ".br"; text = shown(cells[i]); print text }
        gap = 0
        next
    }
    /^- / { sub(/^- /, ""); print ".IP \\(bu 2"; print shown($0); gap = 0; next }
    { sub(/^  /, ""); paragraph(); print shown($0) }
    ' docs/COMMANDS.md
}

if [ "$1" = --write ]; then
    made > docs/gs.1
    exit
fi
failed=0
made | cmp - docs/gs.1 && echo "ok docs/gs.1 is made of docs/COMMANDS.md" \
    || { echo "FAILED docs/gs.1: sh checks/manual.sh --write makes it anew"; failed=1; }
if man --version > /dev/null 2>&1; then
    said=$(MANWIDTH=100 man --warnings -l docs/gs.1 2>&1 > /dev/null)
    [ -z "$said" ] && echo "ok man shows docs/gs.1 without warnings" || { echo "FAILED man: $said"; failed=1; }
fi
exit $failed
