printf 20 > "$1"
