printf +5 > "$1"
