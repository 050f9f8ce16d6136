#!/bin/sh
# Puts gs and gsin, their man page and the examples below a folder: PREFIX/bin, PREFIX/share/man/man1 and
# PREFIX/share/gs/examples. Both programs are proved and built first, or taken from a second folder that is named.
# Usage: sh install.sh PREFIX [FOLDER]
set -e
[ $# -eq 1 ] || [ $# -eq 2 ] || { echo "usage: sh install.sh PREFIX [FOLDER]"; exit 2; }
top=$(cd "$(dirname "$0")" && pwd)
[ $# -eq 2 ] || sh "$top/build.sh" gs gsin
mkdir -p "$1/bin" "$1/share/man/man1" "$1/share/gs"
prefix=$(cd "$1" && pwd)
for program in gs gsin; do
    # a program that is being run can't be written, but its name can be given to another
    cp "${2:-$top/crates/$program/out}/$program" "$prefix/bin/.$program.new"
    chmod 755 "$prefix/bin/.$program.new"
    mv "$prefix/bin/.$program.new" "$prefix/bin/$program"
    echo "$prefix/bin/$program"
    cp "$top/docs/gs.1" "$prefix/share/man/man1/$program.1"
    echo "$prefix/share/man/man1/$program.1"
done
rm -rf "$prefix/share/gs/examples"
cp -R "$top/examples" "$prefix/share/gs/examples"
echo "$prefix/share/gs/examples"
case :$PATH: in
    *":$prefix/bin:"*) ;;
    *) echo "to have both on the path: PATH=\"$prefix/bin:\$PATH\"" ;;
esac
