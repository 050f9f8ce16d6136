#!/bin/sh
# Runs the built gs over texts right and wrong, and compares status, standard error and standard output byte by byte
# with what the formats say. Usage: sh checks/readers.sh [the built program]
top=$(cd "$(dirname "$0")/.." && pwd)
gs=${1:-$top/crates/gs/out/gs}
[ -x "$gs" ] || { echo "no built program at $gs: run 'rt run' in crates/gs first"; exit 2; }
gs=$(cd "$(dirname "$gs")" && pwd)/$(basename "$gs")
folder=$(mktemp -d) && cd "$folder" || exit 2
trap 'rm -rf "$folder"' EXIT
failed=0
export LC_ALL=C
: > .print

# case_of NAME STATUS LINE WORDS..: the status, the line on standard error, and on standard output what .print holds
case_of() {
    what=$1; want=$2; line=$3; shift 3
    "$gs" "$@" > .out 2> .err
    status=$?
    printf "${line:+%s\n}" "$line" > .want
    if [ $status -eq "$want" ] && cmp -s .err .want && cmp -s .out .print; then
        printf 'ok %s\n' "$what"
    else
        printf 'FAILED %s: status %s, wanted %s %s; standard error: %s%s\n' "$what" $status "$want" "$line" "$(cat .err)" "$(cmp .out .print 2>&1)"
        failed=1
    fi
    : > .print
}

# repeat N FORMAT; numbered N FORMAT, whose %d is the number from 1 on; wide N, so many blanks; letters N, so many letters;
# nest N OPEN LEAF CLOSE; pad FILE N, with blanks up to this length
repeat() { count=$1; while [ "$count" -gt 0 ]; do printf "$2"; count=$((count - 1)); done; }
numbered() { count=1; while [ $count -le "$1" ]; do printf "$2" $count; count=$((count + 1)); done; }
wide() { printf "%$1s" ''; }
letters() { wide "$1" | tr ' ' a; }
nest() { repeat "$1" "$2"; printf "$3"; repeat "$1" "$4"; }
size() { wc -c < "$1" | tr -d ' '; }
pad() { wide $(($2 - $(size "$1"))) >> "$1"; }

# Three lines, then five, that stand before the texts, so that lines are counted over comments, CR, tabs and #include.
notes='/* one\n * two\r\n */\t// three /* "\n'
front=$notes'#include <a.h>\r\n\t # \tinclude "b /* c\n'
ops='interface K {
    void join(in File a, in File b, out File c);
    void grow(inout File f, in string s);
    void count(in File f, out int n);
    void name(in int i, out string s);
    void two(out File a, out File b);
    void pair(out int a, out int b);
};
'
head='main() {\nint n, m;\nchar *s, *t;\nFILE *f, *g;\nGS_On();\n'
printed='main() {\n    int n;\n    int m;\n    char *s;\n    char *t;\n    FILE *f;\n    FILE *g;\n    GS_On();\n'
one='interface K {\n    void f(in File a);\n};\n'
none='main() {\n    GS_On();\n    GS_Off(0);\n}\n'
idl() { printf "$1" > k.idl; }
program() { printf '%s' "$ops" > k.idl; printf "$1" > p.c; }
body() { program "$front$head$1\nGS_Off(0);\n}\n"; }

# What is refused, and where: bad_idl LINE KIND TEXT.., with the texts from line 4 on; bad_program, from line 6 on;
# bad_body, with the statements from line 11 on, over two variables of each kind
refused() { case_of "$3 at $1:$2, $4" 4 "gs: bad text: $1:$2: $3" check k.idl p.c; }
short() { printf '%s' "$1" | tr '\n' ' ' | cut -c1-80; }
each() {
    write=$1; front_of=$2; file=$3; at=$4; kind=$5; shift 5
    for text; do $write "$front_of$text"; refused "$file" "$at" "$kind" "$(short "$text")"; done
}
bad_idl() { printf "$none" > p.c; each idl "$notes" k.idl "$@"; }
bad_program() { each program "$front" p.c "$@"; }
bad_body() { each body '' p.c "$@"; }

# What is accepted and how it is printed; the printed texts are printed in the same way again
accepted() {
    cp .print .twice
    case_of "$1" 0 "" check k.idl p.c
    sed '/^main() {$/,$d' .twice > again.idl
    sed -n '/^main() {$/,$p' .twice > again.c
    [ "$(size again.c)" -gt 65536 ] && return
    mv .twice .print
    case_of "$1, read back" 0 "" check again.idl again.c
}
good_idl() { printf "$none" > p.c; idl "$2"; printf "$3$none" > .print; accepted "IDL: $1"; }
good_program() { program "$2"; { printf '%s' "$ops"; printf "$3"; } > .print; accepted "$1"; }
good_body() { good_program "$1" "$front$head$2\nGS_Off(0);\n}\n" "$printed$3    GS_Off(0);\n}\n"; }

# The words, and texts that are absent
usage() { number=$1; shift; case_of "words: $(short "$*")" 2 "gs: usage: word $number" "$@"; }
absent() { name=$1; shift; case_of "absent: $(short "$*")" 3 "gs: no text: $name" "$@"; }
program "$none"
usage 0; usage 0 checks k.idl p.c; usage 1 check; usage 2 check k.idl; usage 3 check k.idl p.c w.txt; usage 3 check k.idl p.c --fuel 1
usage 1 check .k p.c; usage 2 check k.idl ./p.c; usage 1 check '' p.c; usage 2 check k.idl ''; usage 1 check "$(letters 201)" p.c
absent "$(letters 200)" check "$(letters 200)" p.c; absent --fuel check k.idl --fuel
absent a.idl check a.idl p.c; absent a.c check k.idl a.c; absent a.idl check a.idl a.c
idl "interface K {\n@"
absent a.c check k.idl a.c
case_of "two wrong texts under one name" 4 "gs: bad text: k.idl:2: BadByte" check k.idl k.idl
wide 65537 > k.idl
absent a.idl check a.idl k.idl
case_of "no program beside an IDL that is too long" 4 "gs: bad text: k.idl:0: TooLong" check k.idl a.c
idl '@'; wide 65537 > p.c; refused p.c 0 TooLong "beside a wrong IDL"
if [ -c /dev/full ]; then
    program "$none"
    "$gs" check k.idl p.c > /dev/full 2> .err
    if [ $? -eq 11 ] && [ "$(cat .err)" = "gs: sink fault" ]; then echo "ok an output that fails"; else echo "FAILED an output that fails"; failed=1; fi
fi

# The IDL's form
good_idl "blanks and comments everywhere" 'interface/**/K//\n{\rvoid\tf(in/* , */File a,inout File b,out File c,in int d,in string e,out int f,out string g);}' \
    'interface K {\n    void f(in File a, inout File b, out File c, in int d, in string e, out int f, out string g);\n};\n'
good_idl "the form's words are identifiers" 'interface interface { void in(in File in, out File File); void File(in int void, in string string); void string(out int int); };' \
    'interface interface {\n    void in(in File in, out File File);\n    void File(in int void, in string string);\n    void string(out int int);\n};\n'
good_idl "keywords name interface and parameters" 'interface main { void f(in int main, in File GS_On, in File R, in int f); void _aZ9_(in int f); }' \
    'interface main {\n    void f(in int main, in File GS_On, in File R, in int f);\n    void _aZ9_(in int f);\n};\n'
n64=$(letters 64)
good_idl "names of 64 bytes" "interface $n64 { void $n64(in File $n64); };" "interface $n64 {\n    void $n64(in File $n64);\n};\n"
good_idl "comments of stars, and one at the end" "/**/ /***/ /*/*/ $one/* // */// end" "$one"
many=$(numbered 64 '    void o%d(in File a);\\n')
sixteen=$(numbered 15 'in File p%d, ')'in File p16'
good_idl "64 operations" "interface K {\n$many}" "interface K {\n$many};\n"
good_idl "16 parameters" "interface K { void f($sixteen); };" "interface K {\n    void f($sixteen);\n};\n"
program "$none"; idl "$one"; pad k.idl 65536
printf "$one$none" > .print; accepted "IDL: 65,536 bytes"
idl "$one"; pad k.idl 65537; refused k.idl 0 TooLong "65,537 bytes"
idl '@'; pad k.idl 65537; refused k.idl 0 TooLong "before a fault"

# Each byte in a block comment, and each but LF in a line comment: two lines
count=0
while [ $count -le 255 ]; do printf "\\$(printf '%03o' $count)"; count=$((count + 1)); done > .bytes
{ printf '/*'; cat .bytes; printf '*/ //'; tr -d '\n' < .bytes; printf '\n'; } > .comments
{ cat .comments; printf "$one"; cat .comments; } > k.idl
cp k.idl .idl; { cat .comments; printf "$none"; cat .comments; } > p.c
printf "$one$none" > .print; accepted "each byte in comments of both texts"
{ cat .comments; printf '}'; } > k.idl; refused k.idl 3 Unexpected "behind comments with each byte"
cp .idl k.idl; { cat .comments; printf '}'; } > p.c; refused p.c 3 Unexpected "behind comments with each byte"

# Faults of reading the IDL
f='void f(in File a);'
bad_idl 4 BadByte "#include \"a\"\ninterface K { $f };" '= 1'
bad_idl 5 BadByte 'interface K {\nvoid f(in File 1); };' 'interface K {\nvoid "f"(in File a); };' "interface K {\n/ $f };"
bad_idl 6 BadByte "/* a\n/* b */\n*/ interface K { $f };" "interface K { $f };\n\n=" "interface K { $f // @ /*\n\n@ };"
for byte in 000 001 013 014 041 052 055 056 072 077 100 133 134 140 176 177 200 303 377; do bad_idl 5 BadByte "interface K {\n\\$byte"; done
bad_idl 4 OpenComment '/*\n**\n*\n/' '/*/'
bad_idl 6 OpenComment "interface K { $f };\n\n/*/\n\n" "interface K {\n\n$f /* a\n// b\n"
bad_idl 5 LongName "interface\n${n64}b { $f };" "interface K {\n${n64}b f(in File a); };" "interface K { $f\n$n64$n64"
bad_idl 6 LongName "interface K {\nvoid\n${n64}b(in File a); };" "interface K {\nvoid f(in File\n${n64}b); };"
idl ''; refused k.idl 1 Unexpected "an empty text"
bad_idl 4 Unexpected '' 'Interface K { void f(in File a); };' "interface K { $f"
bad_idl 5 Unexpected 'interface K {\n};' 'interface K { void f(in\nfloat a); };' 'interface K { void f(\nFile a); };' 'interface K {\nint f(in File a); };' \
    'interface K { void f(in File a)\n};' "interface K { $f };\ninterface L { $f };" "interface K { $f }\n}" 'interface K { void f\n{};\n@'
bad_idl 6 Unexpected 'interface K {\nvoid f(\n); };' 'interface K {\nvoid f(in File a,\n); };' "interface K { $f }\n;\n;" "interface K {\n$f\n" 'interface K {\nvoid f(in File a\nin File b); };'
bad_idl 8 Unexpected "interface K {\n$f\n// c\n/* d\n*/"
bad_idl 5 BadCombination 'interface K { void f(in File a, inout // x\n/* y */ string s); };' 'interface K { void f(inout\nint\n); };'
bad_idl 6 BadCombination 'interface K {\nvoid f(inout\nint n); };' "interface K {\n$f void g(in File a, in int b, inout\nstring b); };"
bad_idl 69 TooMany "interface K {\n${many}void main(in File a); };" "interface K {\n${many}void o1(in File a); };"
bad_idl 70 TooMany "interface K {\n${many}void\no65(in File a); };" "interface K {\n${many}void\no65"
bad_idl 6 TooMany "interface K {\nvoid f($sixteen,\nin\nFile p17); };" "interface K { void f(in int i);\nvoid g($sixteen,\nin int\np1); };"
bad_idl 5 Twice "interface K { $f void\nf(\n); };" 'interface K { void f(in File a, in int b, out File\na); };'
bad_idl 6 Twice "interface K { $f\nvoid g(in File a); void\nf(in File a); };" "interface K { $f\nvoid g(in int b,\nin int b); };"
for word in main int char FILE void if else while for return GS_On GS_Off GS_Barrier GS_FOpen GS_FClose printf fprintf sprintf \
    fgetline atoi strcmp R W A; do
    bad_idl 5 Reserved "interface K { void\n$word(in File a); };"
    bad_program 6 Unexpected "main() { int\r $word; GS_On(); GS_Off(0); }"
done

# The program's heads and comments, and how each construct is printed
good_program "a short head" 'main(){GS_On();GS_Off(0);}' "$none"
good_program "void main, return" 'void main ( void ) { GS_On ( ) ; GS_Off ( 0 ) ; return 0 ; }' "$none"
good_program "includes" '\r# \t\rinclude\n#includefoo "/*\n\t#include // */ @\nint main() {\n#include "}\nGS_On();GS_Off(0);}//' "$none"
good_program "declarations and initial assignments" 'int main() { int a = 1, b = a + 2; char *s = "x", *t; FILE *f, *g; int c; b = 3; t = s; GS_On(); GS_Off(0); }' \
    'main() {\n    int a;\n    int b;\n    char *s;\n    char *t;\n    FILE *f;\n    FILE *g;\n    int c;\n    a = 1;\n    b = (a + 2);\n    s = "x";\n    b = 3;\n    t = s;\n    GS_On();\n    GS_Off(0);\n}\n'
good_body "assignments" 'n=0;n=- 1;n =- 9223372036854775807 - 1;n++;n--;n+=m*2;n-=m-1;s=t;' \
    '    n = 0;\n    n = (-1);\n    n = ((-9223372036854775807) - 1);\n    n = (n + 1);\n    n = (n - 1);\n    n = (n + (m * 2));\n    n = (n - (m - 1));\n    s = t;\n'
good_body "calls" 'join ( "A" , s , "B" ) ; count("F", & n); count(s,n); name((n)+1,&s); pair((n),m); two(s,t);' \
    '    join("A", s, "B");\n    count("F", &n);\n    count(s, n);\n    name((n + 1), &s);\n    pair(n, m);\n    two(s, t);\n'
good_body "handles" 'f=GS_FOpen("A",R);g=GS_FOpen((s),W);f=GS_FOpen(t,A);n=fgetline(f,s);GS_FClose(f);GS_Barrier();' \
    '    f = GS_FOpen("A", R);\n    g = GS_FOpen(s, W);\n    f = GS_FOpen(t, A);\n    n = fgetline(f, s);\n    GS_FClose(f);\n    GS_Barrier();\n'
good_body "prints" 'printf("%%d%%s%%%%",n,s);printf("%%%%d");fprintf(f,"%%s","%%");sprintf(s,"%%d",(1)+n);' \
    '    printf("%%d%%s%%%%", n, s);\n    printf("%%%%d");\n    fprintf(f, "%%s", "%%");\n    sprintf(s, "%%d", (1 + n));\n'
good_body "the five escapes and a tab" 'printf("\\n\\t\\r\\\\\\"\t//\\\\n/*");' '    printf("\\n\\t\\r\\\\\\"\\t//\\\\n/*");\n'
plain=' !#$%%&()*+,-./0123456789:;<=>?@ABCDEFGHIJKLMNOPQRSTUVWXYZ[]^_`abcdefghijklmnopqrstuvwxyz{|}~'"'"
good_body "each byte of a string" "s = \"$plain\";" "    s = \"$plain\";\n"
good_body "statements" ';{;{}}{{n=1;}}if(n)n=1;if(n)n=1;else n=2;while(n<1)n++;' \
    '    ;\n    {\n        ;\n        {\n        }\n    }\n    {\n        {\n            n = 1;\n        }\n    }\n'\
'    if (n) {\n        n = 1;\n    }\n    if (n) {\n        n = 1;\n    } else {\n        n = 2;\n    }\n    while ((n < 1)) {\n        n = (n + 1);\n    }\n'
good_body "bodies" 'if(n){}else{}if(n){{}}else;while(n){;;}' \
    '    if (n) {\n    } else {\n    }\n    if (n) {\n        {\n        }\n    } else {\n        ;\n    }\n    while (n) {\n        ;\n        ;\n    }\n'
good_body "loops" 'for(;;){}for(n=0;n<9;n++);for(n+=1;;)n=1;for(;n;){}for(;;n--){{}}' \
    '    for (; ; ) {\n    }\n    for (n = 0; (n < 9); n = (n + 1)) {\n        ;\n    }\n    for (n = (n + 1); ; ) {\n        n = 1;\n    }\n    for (; n; ) {\n    }\n    for (; ; n = (n - 1)) {\n        {\n        }\n    }\n'
good_body "an else goes with the nearest if" 'if (n) if (m) n = 1; else n = 2;' \
    '    if (n) {\n        if (m) {\n            n = 1;\n        } else {\n            n = 2;\n        }\n    }\n'
good_body "else past a while, and past a block" 'if (n) while (m) if (n) ; else ; else { if (m) ; } if (n) { if (m) ; } else ;' \
    '    if (n) {\n        while (m) {\n            if (n) {\n                ;\n            } else {\n                ;\n            }\n        }\n    } else {\n        if (m) {\n            ;\n        }\n    }\n'\
'    if (n) {\n        if (m) {\n            ;\n        }\n    } else {\n        ;\n    }\n'
good_body "operators group to the left" 'n=1-2-3;n=8/4/2;n=7%%5*2;n=1<2<3;n=1==2!=3;n=1&&2&&3;n=1||2||3;n=1-(2-3);' \
    '    n = ((1 - 2) - 3);\n    n = ((8 / 4) / 2);\n    n = ((7 %% 5) * 2);\n    n = ((1 < 2) < 3);\n    n = ((1 == 2) != 3);\n    n = ((1 && 2) && 3);\n    n = ((1 || 2) || 3);\n    n = (1 - (2 - 3));\n'
good_body "what binds tighter" 'n=1||2&&3==4<5+6*-7;n=1*2+3>4!=5&&6||7;n=n||m&&n;n=1&&2||3;n=1<=2;n=1>=2;n=!n==m;n=-n-m;n=!!n;n=- -n;' \
    '    n = (1 || (2 && (3 == (4 < (5 + (6 * (-7)))))));\n    n = ((((((1 * 2) + 3) > 4) != 5) && 6) || 7);\n'\
'    n = (n || (m && n));\n    n = ((1 && 2) || 3);\n    n = (1 <= 2);\n    n = (1 >= 2);\n    n = ((!n) == m);\n    n = ((-n) - m);\n    n = (!(!n));\n    n = (-(-n));\n'
good_body "calls in expressions" 'n=atoi(s)+strcmp("a",(t))*-atoi("1");' '    n = (atoi(s) + (strcmp("a", t) * (-atoi("1"))));\n'
good_program "variables of 64 bytes" "main() { int $n64; GS_On(); $n64 = 1; GS_Off(0); }" "main() {\n    int $n64;\n    GS_On();\n    $n64 = 1;\n    GS_Off(0);\n}\n"
n1024=$(letters 1024)
good_body "a string of 1,024 bytes" "s = \"$n1024\";" "    s = \"$n1024\";\n"
good_body "a string of 1,024 escapes" "s = \"$(repeat 512 '\\\\n\\\\"')\";" "    s = \"$(repeat 512 '\\\\n\\\\"')\";\n"
all=$(numbered 128 '    int v%d;\\n')
good_program "128 variables" "main() {\n$all GS_On(); GS_Off(0); }" "main() {\n$all    GS_On();\n    GS_Off(0);\n}\n"
program "$none"; pad p.c 65536
{ printf '%s' "$ops"; printf "$none"; } > .print; accepted "65,536 bytes"
program "$none"; pad p.c 65537; refused p.c 0 TooLong "65,537 bytes"
program '@'; pad p.c 65537; refused p.c 0 TooLong "before a fault"

# Two examples: the short program, and the study, whose IDL is in its printed form
short_ops='interface KIT {\n    void join(in File a, in File b, out File c);\n    void grow(inout File f, in string s);\n    void count(in File f, out int n);\n};\n'
idl "$short_ops"; printf 'main(){int n;GS_On();if(n<1)count("F",&n);GS_Off(0);}' > p.c
printf "$short_ops"'main() {\n    int n;\n    GS_On();\n    if ((n < 1)) {\n        count("F", &n);\n    }\n    GS_Off(0);\n}\n' > .print
accepted "the short program"
cp "$top/examples/check/study.idl" k.idl; cp "$top/examples/check/study.c" p.c
{
    cat k.idl
    printf 'main() {\n    int i;\n    GS_On();\n    for (i = 1; (i <= 3); i = (i + 1)) {\n        subst("base.cfg", i, "job.tmp");\n'
    printf '        simulate("job.tmp", "res.tmp");\n        post("res.tmp", "all.txt");\n    }\n    GS_Off(0);\n}\n'
} > .print
accepted "the study"

# Faults of reading the program
for byte in 000 001 013 014 043 044 047 056 072 077 100 133 134 135 136 140 174 176 177 200 303 377; do bad_body 13 BadByte "\nn = 1;\n\t\\$byte"; done
bad_body 11 BadByte 'n = 1 #include "a"\n;' '/**/ #include "a"'
bad_body 12 BadByte '/*\n*/ #include "a"\n' '\n#\ninclude "a"' '\n# /**/ include "a"' '\n#define X' 'n = 1\n| 2;' "printf(\n\"$n1024\001\");"
for byte in 000 001 015 177 200 377; do bad_body 12 BadByte "printf(\n\"a\\${byte}b\");"; done
bad_body 12 OpenComment '\n/* a\n// *\n/' '\n/*/'
bad_program 7 OpenComment 'main() { GS_On(); GS_Off(0); }\n/*/\n\n'
bad_body 12 OpenString '\nprintf("a\nb");' "printf(\n\"$n1024\n\");" 'printf(\n"a\\\nb");'
bad_program 7 OpenString 'main() { GS_On();\nprintf("a' 'main() { GS_On();\nprintf("a\\'
bad_body 12 BadEscape '\nprintf("\\x");' 'printf(\n"\\0");' 'printf(\n"\\\r\n");' 'printf(\n"\\a\001\n");' "printf(\n\"\\\\'\");"
bad_body 12 StringTooLong "printf(\n\"${n1024}a\");" "printf(\n\"$(repeat 1025 '\\\\n')\");" "printf(\n\"$n1024\\\\n\");" "printf(\n\"$n1024\\\\x\");"
bad_program 8 LongName "main() {\nint\n${n64}b; GS_On(); GS_Off(0); }"
bad_body 12 LongName "\n${n64}b();" "n\n${n64}b"
bad_body 12 BadNumber 'n =\n00;' 'n =\n08;' 'n = -\n09223372036854775808;'
bad_body 12 WideNumber 'n =\n9223372036854775808;' 'n = -\n9223372036854775808;' 'n =\n18446744073709551617;' "n =\n$(repeat 1024 7);"
program 'main() { grow("A", "x"); GS_On(); GS_Off(0); }'; refused p.c 1 Unexpected "a call before GS_On"
program ''; refused p.c 1 Unexpected "an empty text"; bad_program 6 Unexpected '' '*'
bad_program 7 Unexpected 'main() { grow\n("A", "x"); GS_On(); GS_Off(0); }' '\nchar main() { GS_On(); GS_Off(0); }' 'main(\nint) { GS_On(); GS_Off(0); }' 'main() {\n}' 'main() { int n; n\n++; GS_On(); GS_Off(0); }' \
    'main() { int\n*n; GS_On(); GS_Off(0); }' 'main() { char\ns; GS_On(); GS_Off(0); }' 'main() { FILE *f\n= 0; GS_On(); GS_Off(0); }' \
    'main() { char *s,\nt; GS_On(); GS_Off(0); }' 'main() { int n; n = 1;\nint m; GS_On(); GS_Off(0); }' 'main() { GS_On();\nint n; GS_Off(0); }' \
    'main() { GS_On(); GS_Off(\n1); }' 'main() { GS_On(); GS_Off(\n); }' 'main() { GS_On(); GS_Off(0);\n; }' 'main() { GS_On(); GS_Off(0); return\n1; }' \
    'main() { GS_On(); GS_Off(0); return 0\n}' 'main() { GS_On(); GS_Off(0); }\n}' 'main() { GS_On(); {\nGS_Off(0); } }' 'main() { GS_On();\nGS_On(); GS_Off(0); }' \
    'main() { GS_On();\n' 'main() { GS_On(); GS_Off(0);\n' 'main() {\nGS_Off(0); }'
bad_body 12 Unexpected '\nelse ;' 'if (1) ; else ;\nelse ;' 'if (1)\nelse ;' 'while (\n) ;' 'if\n1;' 'for (;\n) ;' 'for (;;\n;) ;' 'for (n =\nGS_FOpen("A", R);;) ;' \
    'n\n+ 1;' '\n1;' '\n--n;' 'n = 1\n--1;' 'n = m\n+++m;' 'n =\n;' 'n =\n+ 1;' 'n\n== 1;' 'n = m\n= 1;' 'n = 1\n& 2;' 'n = 1\n2;' 'n = 1\nm;' 'n = (1\n;' 'n = 1\n);' \
    'n +=\nGS_FOpen("A", R);' 'f = GS_FOpen("A",\nn);' 'f = GS_FOpen("A"\n);' 'n = fgetline(f,\n"a");' 'n = 1 +\nfgetline(f, s);' 'GS_FClose(\n"a");' 'GS_FClose(\n);' \
    'GS_Barrier(\n1);' 'printf(\ns);' 'printf("a" \n"b");' 'printf("%%d",\n&n);' 'fprintf(\n"a");' 'sprintf(s,\nt);' 'join("A",\n);' 'join("A"\n"B");' 'count("F", &\n(n));' \
    'count("F", &\n1);' 'count("F", n' '\nR("A");' '\nprintf = 1;' '\nmain();' 'n = atoi(\n);' 'n = atoi("1"\n, "2");' 'n = strcmp("a"\n);' '{ ;' 'n = 1\n, m = 2;' '\nreturn 0;' '\n,'

# Depth: the 64th and the 65th of each kind of nesting, where each stands on a line of its own from line 12 on.
# expression NAME MOST OPEN LEAF CLOSE, and these three as they are printed
expression() {
    good_body "$1, the deepest" "n = $(nest "$2" "$3" "$4" "$5");" "    n = $(nest "$2" "$6" "$7" "$8");\n"
    bad_body $(($2 + 12)) TooDeep "n = $(nest $(($2 + 1)) "$3" "$4" "$5");"
}
expression "parentheses" 64 '\n(' 1 ')' '' 1 ''
expression "minus" 63 '\n-' 1 '' '(-' 1 ')'
expression "not" 63 '\n!' 1 '' '(!' 1 ')'
expression "not before parentheses" 63 '\n!(' 1 ')' '(!' 1 ')'
expression "operators to the left" 63 '' 1 '\n+ 1' '(' 1 ' + 1)'
expression "operators to the right" 63 '1\n+ (' 1 ')' '(1 + ' 1 ')'
good_body "calls, the deepest" "n = $(repeat 62 ' -')atoi(\"1\"); n = $(repeat 62 !)strcmp(\"1\", \"2\");" \
    "    n = $(nest 62 '(-' 'atoi("1")' ')');\n    n = $(nest 62 '(!' 'strcmp("1", "2")' ')');\n"
bad_body 12 TooDeep "n = $(repeat 63 ' -')\natoi(\"1\");" "n = $(repeat 63 !)\nstrcmp(\"1\", \"2\");" "n = $(repeat 64 '(')\n(" "n = - $(repeat 62 '1 * (')-\n- 1" "n = $(repeat 62 ' -')1 * 1\n+ 1;" \
    "n = 1 + $(repeat 62 ' -')1\n* 1;" "n = 1 || 1 && 1 == 1 < 1 + 1 * $(repeat 57 ' -')\n-1;" "n = $(repeat 32 '(')atoi($(repeat 32 '(')\n(\"1\""
good_body "operators of each level, the deepest" "n = 1 || 1 && 1 == 1 < 1 + 1 * $(repeat 57 ' -')1; n = $(repeat 62 !)1 * 1;" \
    "    n = (1 || (1 && (1 == (1 < (1 + (1 * $(nest 57 '(-' 1 ')')))))));\n    n = ($(nest 62 '(!' 1 ')') * 1);\n"
good_body "a right side, the deepest" "n = 1 || 2$(repeat 62 ' + 1');" "    n = (1 || $(nest 62 '(' 2 ' + 1)'));\n"
good_body "a tighter operator behind" "n = 1$(repeat 63 ' + 1') * 1;" "    n = ($(nest 62 '(' 1 ' + 1)') + (1 * 1));\n"
good_body "an addition, the deepest" "n += 1$(repeat 62 ' + 1'); n -= $(repeat 62 !)n;" "    n = (n + $(nest 62 '(' 1 ' + 1)'));\n    n = (n - $(nest 62 '(!' n ')'));\n"
bad_body 12 TooDeep "n = 1 || 2$(repeat 62 ' + 1')\n+ 1;" "n = 1$(repeat 63 ' + 1')\n< 1;" "n += 1$(repeat 62 ' + 1')\n+ 1;" "n -= $(repeat 62 !)\n!n;" \
    "if (1$(repeat 63 ' + 1')\n+ 1) ;" "for (;;n += $(repeat 62 !)\n!n) ;" "printf(\"%%d\", 1$(repeat 63 ' + 1')\n+ 1);" "name(1$(repeat 63 ' + 1')\n+ 1, s);" \
    "f = GS_FOpen($(repeat 64 '(')\n(s" "n = 1$(repeat 63 ' + 1')\n+ @" "n = 1$(repeat 63 ' + 1')\n+ 1; n = zz; @"
# 63 calls in one another are read, and then have the wrong kind
bad_body 74 WrongKind "n = $(nest 63 '\natoi(' '"1"' ')');" "n = $(nest 63 '\nstrcmp(' '"1"' ', "1")');"
bad_body 13 WrongKind "n = $(nest 63 '\nstrcmp("1", ' '"1"' ')');"
bad_body 75 TooDeep "n = $(nest 64 '\natoi(' '"1"' ')');" "n = $(nest 64 '\nstrcmp(' '"1"' ', "1")');" "n = $(nest 64 '\nstrcmp("1", ' '"1"' ')');"

# levels N LINES STATEMENT: N statements in one another around this statement, as they are printed
levels() {
    count=1
    while [ $count -le "$1" ]; do printf "$2" | sed "s/^/$(wide $((4 * count)))/"; count=$((count + 1)); done
    printf "$3" | sed "s/^/$(wide $((4 * count)))/"
    while [ $count -gt 1 ]; do count=$((count - 1)); printf '%s}\n' "$(wide $((4 * count)))"; done
}
# statements NAME OPEN BODY CLOSE LINES: the deepest with an empty body, with a statement at depth 64, at depth 65
statements() {
    good_body "$1, 64 deep" "$(nest 64 "$2" "$3" "$4")" "$(levels 64 "$5" '')\n"
    good_body "$1, a statement at depth 64" "$(nest 63 "$2" '\n;' "$4")" "$(levels 63 "$5" ';\n')\n"
    bad_body 76 TooDeep "$(nest 65 "$2" "$3" "$4")" "$(nest 64 "$2" '\nn = 1;' "$4")" "$(nest 64 "$2" '\n;' "$4")"
}
statements "blocks" '\n{' '' '}' '{\n'
good_body "the head of for is no statement" "$(repeat 63 '\nwhile (1)')\nfor (n = 1; n; n++) {}" \
    "$(levels 63 'while (1) {\n' 'for (n = 1; n; n = (n + 1)) {\n}\n')\n"
bad_body 77 TooDeep "$(nest 63 '\n{' '\n{}\n{\n;}' '}')"
for form in 'if (1)' 'while (1)' 'for (; ; )' 'if (1) {} else'; do
    lines="$form {\n"
    [ "$form" = 'if (1) {} else' ] && lines='if (1) {\n} else {\n'
    statements "$form" "\n$form" '{}' '' "$lines"
    statements "$form {" "\n$form {" '' '}' "$lines"
    bad_body 77 TooDeep "$(repeat 64 "\n$form")\n{\n;}"
done
bad_body 76 TooDeep "$(repeat 63 '\nif (1)')\nif (1) {} else\n;" "$(repeat 63 '\nif (1) {')\n{} {\n;"

# Checks: each kind at its place
bad_program 7 Twice 'main() { int n, m,\nn; GS_On(); GS_Off(0); }' 'main() { FILE *f,\n*join; GS_On(); GS_Off(0); }' 'main() { int n; char *\nn; GS_On(); GS_Off(0); }' 'main() { int n = zz;\nint n; GS_On(); GS_Off(0); }'
bad_body 12 Twice 'pair(n,\nn);' 'pair(n,\n&\nn);' 'pair(&n,\n(\nn));' 'two(s,\ns);'
vars="main() {\n$all"
bad_program 136 TooMany "${vars}int\nv129; GS_On(); GS_Off(0); }" "${vars}int\nv129, v1, v130; n = 1; GS_On(); GS_Off(0); }" "${vars}char *\nv129; GS_On(); GS_Off(0); }"
bad_program 136 Twice "${vars}int\nv128; GS_On(); GS_Off(0); }" "${vars}FILE *\njoin; GS_On(); GS_Off(0); }"
bad_program 7 Unknown 'main() { int n =\nzz; GS_On(); GS_Off(0); }' 'main() { int n;\nzz = n; GS_On(); GS_Off(0); }'
bad_body 12 Unknown '\nK("A", zz);' '\nn("A");' '\nzz = s + 1;' 'n = 1 +\nzz;' 'n = strcmp("a",\nzz);' 'n = atoi(\nzz);' 'GS_FClose(\nzz);' 'fprintf(\nzz, "%%");' \
    'printf("%%d %%s", n,\nzz);' 's =\nzz + 1;' 'n =\njoin;' '\nzz = GS_FOpen(\n1, R);' 'n = fgetline(f,\nzz);' 'for (;\nzz;) ;' 'for (;;n = 1) {\nzz++; }' 'for (;;\nzz++)\nyy = s + 1;'
bad_body 13 Unknown 'count("F",\n&\nzz);' 'name(1 -\n\nzz, n);'
bad_body 11 WrongKind 's = 1 +\nzz;' 'n = s +\n1;' 'f =\n1;' 'f =\nf;' 'n = GS_FOpen(\n"A", R);' 's = fgetline(\nf, s);' 'join(&\nn, "B", "C");' 'n = strcmp(n,\n1);'
bad_body 12 WrongKind 'n =\n"a";' 's =\n1;' 'n = 1 + (2 +\n"a");' 'n =\nf;' 's =\nf;' 'n = !\ns;' 'n = -\n"a";' 'n =\ns == t;' 'n = 1 &&\nf;' 'n +=\ns;' '\ns += 1;' '\ns++;' \
    'if (\ns) ;' 'while (1 <\n"a") ;' 'for (;\n"a";) ;' 'for (n = 0;;n =\ns) ;' 'f = GS_FOpen(\n1, R);' 'f = GS_FOpen(\ng, R);' 'n = fgetline(f,\nn);' 'n = fgetline(\ns, s);' 'GS_FClose(\nn);' \
    'fprintf(\ns, "%%x");' 'sprintf(\nn, "%%x");' 'sprintf(\nf, "a");' 'n = atoi(\n1);' 'n = strcmp("a",\n1);' 'n = strcmp(\nf, s);' 'printf("%%d",\n1 + s);' 'name(-\n"1", s);' \
    'join("A",\n1, "C");' 'grow("F",\nn);' 'grow("F",\n1 + 1);' 'name(\n"1", s);' 'name(\nf, s);' 'join(\nf, "B", "C");' 'two("A",\nn);' 'grow("F",\n(\n1));' \
    'count("F",\ns);' 'count("F",\n"x");' 'count("F",\nf);' 'count("F",\n&\nf);' 'count("F",\n"F" + 1);' 'count("F",\n&\ns);' 'name(\n&s, s);'
bad_body 13 WrongKind 's =\n(\n1);' 'n = atoi(\n(\n1));' 'join("A", "B",\n\n-n);'
bad_program 7 WrongKind 'main() { int n =\n"a"; GS_On(); GS_Off(0); }' 'main() { char *s =\n1 + zz; GS_On(); GS_Off(0); }' 'main() { FILE *f;\nf = f; GS_On(); GS_Off(0); }' \
    'main() { int n = 1; n =\n"a"; GS_On(); zz = 1; GS_Off(0); }'
bad_body 12 WrongCount '\njoin("A",\n"B");' '\njoin();' '\ngrow(zz, 1, &n);' '\ncount(1);' '\npair\n(n, n, n);'
bad_body 12 NotVariable 'count("F",\n1);' 'count("F",\nn + 1);' 'count("F",\n(\nn + zz));' 'count("F",\n-n);' 'count("F",\natoi("1"));' 'join(\n&s, "B", "C");' 'join(\n&\nzz, "B", "C");' \
    'name(\n&n, s);' 'name(1,\n"a");'
bad_body 12 BadFormat 'printf(\n"%%x", n);' 'printf(\n"%%");' 'printf(\n"%%%%%%");' 'printf(\n"%%\\n", n);' 'printf(\n"%% d", n);' 'printf(\n"%%d");' 'printf(\n"a", n);' 'printf(\n"%%%%", n);' 'printf(\n"%%d%%d",\nzz);' \
    'printf(\n"%%d",\ns);' 'printf(\n"%%s",\n1);' 'printf(\n"%%s",\ns + 1);' 'printf(\n"%%d",\nf);' 'printf(\n"%%s",\nf);' 'printf(\n"%%d",\nzz, n);' 'printf(\n"%%d%%s",\ns, n);' \
    'fprintf(f,\n"%%5d", n);' 'fprintf(f,\n"%%d", "a");' 'sprintf(s,\n"%%i", n);' 'sprintf(s,\n"%%s%%s", s);'
good_body "formats, and outputs by & or not" 'printf("%%d%%s", n, "a"); count("F", (n)); name(1, s); name(n, &t); two("F", s); pair(n, &m);' \
    '    printf("%%d%%s", n, "a");\n    count("F", n);\n    name(1, s);\n    name(n, &t);\n    two("F", s);\n    pair(n, &m);\n'

# The first of several faults
bad_body 13 BadByte 'n = "a";\nzz = 1;\n@'
bad_body 12 Unknown '\nzz = 1; join();' 'if (\nzz) n =\n"a";'
bad_body 12 WrongCount '\njoin(); zz = 1;'
program 'main() { int join; GS_On(); @'; idl '\ninterface K { void f(in File a); void f(in File b); };'; refused k.idl 2 Twice "before faults of the program"
[ "$(ls)" = 'again.c
again.idl
k.idl
p.c' ] || { echo "FAILED check left other files: $(ls)"; failed=1; }

# Runs: C is made of A and B, or the program is refused and no C is made
printf xy > B; : > A; printf 'w1 2 sh *\n' > w.txt
printf 'cat "$1" "$2" > "$3"\n' > 'join'
kit='/* the kit\n */ interface KIT { // four operations\n\tvoid join(in File a, in File b, out File c); void two(out File a, out File b);\r\nvoid both(inout File a, out File b); void set(in int i, out File f); void say(in string s, out File f); };'
# run_each STATUS LINE WANTED TEXT..: what C then holds, nothing where it isn't there
run_each() {
    want_status=$1; told=$2; wanted=$3; shift 3
    for text; do
        rm -rf C .gs.*; idl "$kit"; printf "$text" > p.c
        case_of "run: $told $(short "$text")" "$want_status" "$told" run k.idl p.c w.txt
        [ "$(cat C 2> .err)" = "$wanted" ] || { echo "FAILED C is '$(cat C)'"; failed=1; }
    done
}
runs() { run_each 0 '' xy "$@"; }
bad_run() { place=$1; shift; run_each 4 "gs: bad text: $place" '' "$@"; }
call='join("A", "B", "C");'
runs "main() {\n    GS_On();\n    $call\n    GS_Off(0);\n}\n" "main(){GS_On();${call}GS_Off(0);}" \
    "#include <stdio.h>\r\n/* @ */ int main(void) // \"\n{\n\tGS_On ( ) ;\n join\n(\"A\" /* , */\n, \"B\",\"C\" ) ; GS_Off(0); return 0; } //" \
    "main() { GS_On(); $call join(\"B\", \"C\", \"D\"); join(\"A\", \"B\", \"C\"); GS_Off(0); }"
runs "main() { int n;\nGS_On(); $call GS_Off(0); }" "main() { int n = 1; GS_On(); $call GS_Off(0); }" "main() { int n; n = 1; GS_On(); $call GS_Off(0); }" \
    "main() { FILE *f; GS_On(); $call GS_Off(0); }"
# statements behind the call: they run, or are a fault of the program on line 3, and then no C is made
fine() { for text; do runs "main() {\n GS_On(); $call\n$text\nGS_Off(0); }"; done; }
fault_run() { kind=$1; shift; for text; do run_each 7 "gs: program fault: line 3: $kind" '' "main() { char *s; GS_On(); $call\n\n$text\nGS_Off(0); }"; done; }
n201=$(letters 201)
printf 'printf %%s "$1" > "$2"\n' > set; cp set say
fine 'if (1) ;' ';' '{ }' "{ $call }" 'while (0) { }' 'for (; 0; ) { }' 'GS_Barrier();' 'set(1, "D");' 'say("a", "D");'
[ "$(cat D)" = a ] || { echo "FAILED D is '$(cat D)'"; failed=1; }
rm D
fault_run BadName 'join("A/B", "B", "D");' 'join("", "B", "D");' 'join("A", "B", ".D");' 'join("A b", "B", "D");' "join(\"A\", \"B\", \"$n201\");" 'join("A", s, "D");'
fault_run OwnText 'join("A", "B", "k.idl");' 'join("A", "B", "p.c");' 'both("p.c", "D");'
fault_run SameOut 'two("D", "D");' 'both("A", "A");'
fault_run NoFile 'join("A", "none", "D");'
[ ! -e D ] || { echo "FAILED D is there"; failed=1; }
printf 'n=1' > .print
runs "main() { int n = 1; GS_On(); $call printf(\"n=%%d\", n); GS_Off(0); }"
bad_run 'p.c:2: Unexpected' "main() { GS_On();\n+ GS_Off(0); }" "main() {\n$call GS_On(); GS_Off(0); }"
bad_run 'p.c:3: BadEscape' 'main() { GS_On(); /*\n*/\njoin("\\q", "B", "C"); GS_Off(0); }'
bad_run 'p.c:2: Unknown' "main() { GS_On(); $call\njoint(\"A\"); GS_Off(0); }" 'main() { int n; GS_On();\nn = zz; GS_Off(0); }'
bad_run 'p.c:2: WrongCount' "main() { GS_On(); ;\njoin(\"A\"); GS_Off(0); }"
bad_run 'p.c:0: TooLong' "main() { GS_On(); $call GS_Off(0); } $(wide 65536)"
printf 'w1 2 sh\n' > w.txt
bad_run 'w.txt:1: BadLine' "main() { GS_On(); $call GS_Off(0); }"
kit='interface KIT {\nvoid join(inout int n); };'
bad_run 'k.idl:2: BadCombination' "@"
case_of "run: a list that is absent is named before the texts are judged" 3 "gs: no text: x.txt" run k.idl p.c x.txt
kit=$(wide 65537)
bad_run 'k.idl:0: TooLong' "@"

[ $failed -eq 0 ] && echo "all ok"
exit $failed
