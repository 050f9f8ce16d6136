#!/bin/sh
# Compares the operations of the built gsin with the commands of this machine that mean the same (head, tail, sort, uniq,
# tac, awk, grep, sha256sum) on 200 random files, each of whose lines is closed, and then the time that gsin takes to sort
# 16 MiB with that of sort with one thread: at most three times as long. It is no check of the gate, since it rests on
# these commands. Usage: sh measures/filters.sh [the built program]
top=$(cd "$(dirname "$0")/.." && pwd)
gsin=${1:-$top/crates/gsin/out/gsin}
[ -x "$gsin" ] || { echo "no built program at $gsin: run 'rt run' in crates/gsin first"; exit 2; }
gsin=$(cd "$(dirname "$gsin")" && pwd)/$(basename "$gsin")
LC_ALL=C
export LC_ALL
folder=$(mktemp -d)
trap 'rm -rf "$folder"' EXIT
cd "$folder" || exit 2
failed=0

cat > k.idl <<'IDL'
interface TEXT {
    void copy(in File a, out File b);
    void cat(in File a, in File b, out File c);
    void append(inout File a, in File b);
    void put(in string s, out File a);
    void head(in File a, in int n, out File b);
    void tail(in File a, in int n, out File b);
    void split(in File a, in int n, out File b, out File c);
    void starts(in File a, in string s, out File b);
    void sorted(in File a, out File b);
    void merge(in File a, in File b, out File c);
    void uniq(in File a, out File b);
    void reverse(in File a, out File b);
    void number(in File a, out File b);
    void column(in File a, in int k, out File b);
    void count(in File a, out int lines, out int bytes);
    void digest(in File a, out string s);
};
IDL
echo 'w1 1 inside *' > w.txt

# program N K: all operations on the file F, at the N-th line and the K-th word
program() {
    cat > p.c <<PROGRAM
main() {
    int lines;
    int bytes;
    char *s;
    GS_On();
    copy("F", "copy");
    cat("F", "E", "cat");
    copy("E", "append");
    append("append", "F");
    put("ab c", "put");
    head("F", $1, "head");
    tail("F", $1, "tail");
    split("F", $1, "front", "others");
    starts("F", "a", "starts");
    sorted("F", "sorted");
    merge("F", "E", "merge");
    uniq("F", "uniq");
    uniq("sorted", "once");
    reverse("F", "reverse");
    number("F", "number");
    column("F", $2, "column");
    count("F", lines, bytes);
    digest("F", s);
    printf("%d %d\n%s\n", lines, bytes, s);
    GS_Off(0);
}
PROGRAM
}

# random SEED: lines of few different bytes, blanks, carriage returns and bytes past 127 among them
random() {
    awk -v seed="$1" 'BEGIN {
        srand(seed); letters = "aab bc \t\r\351"; count = int(rand() * 40)
        for (i = 0; i < count; i++) {
            line = ""; length_of_line = int(rand() * 9)
            for (j = 0; j < length_of_line; j++) line = line substr(letters, int(rand() * length(letters)) + 1, 1)
            print line
        }
    }'
}

same() {
    if ! cmp -s "$1" want; then
        echo "FAILED $1 of file $seed"
        failed=1
    fi
}

seed=0
while [ $seed -lt 200 ]; do
    seed=$((seed + 1))
    random $seed > F
    random $((seed + 1000)) > E
    n=$((seed % 45))
    k=$((seed % 4 + 1))
    program $n $k
    "$gsin" run k.idl p.c w.txt > out || { echo "FAILED file $seed: status $?"; failed=1; continue; }
    cp F want; same copy
    cat F E > want; same cat
    cat E F > want; same append
    echo 'ab c' > want; same put
    head -n $n F > want; same head; same front
    tail -n $n F > want; same tail
    tail -n +$((n + 1)) F > want; same others
    grep -a '^a' F > want; same starts
    sort F > want; same sorted
    sort F E > want; same merge
    uniq F > want; same uniq
    sort -u F > want; same once
    tac F > want; same reverse
    awk '{ printf "%d\t%s\n", NR, $0 }' F > want; same number
    awk -v k=$k '{ print $k }' F > want; same column
    { echo "$(($(wc -l < F))) $(($(wc -c < F)))"; sha256sum < F | cut -c1-64; } > want; same out
    rm -f copy cat append put head tail front others starts sorted merge uniq once reverse number column
    "$gsin" clean || { echo "FAILED clean after file $seed"; failed=1; }
done
[ $failed -eq 0 ] && echo "200 files alike"

# The least of three times in thousandths of a second.
least() {
    best=
    for turn in 1 2 3; do
        rm -f sorted
        "$gsin" clean || failed=1
        before=$(date +%s%N)
        "$@" || failed=1
        taken=$((($(date +%s%N) - before) / 1000000))
        if [ -z "$best" ] || [ $taken -lt "$best" ]; then best=$taken; fi
    done
    echo "$best"
}

head -c 16777216 /dev/urandom | base64 -w 30 | head -c 16777210 | sed '$d' > F
printf 'main() { GS_On(); sorted("F", "sorted"); GS_Off(0); }\n' > p.c
ours=$(least "$gsin" run k.idl p.c w.txt)
sort F > want; same sorted
theirs=$(least sort --parallel=1 -S 1G -o sorted F)
echo "$(wc -c < F) bytes, $(wc -l < F) lines: gsin $ours ms, sort with one thread $theirs ms"
[ "$ours" -le $((theirs * 3)) ] || { echo "FAILED more than three times"; failed=1; }
exit $failed
