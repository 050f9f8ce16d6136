printf 5 > "$1"
exit 3
