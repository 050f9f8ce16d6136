sleep 2
printf 10 > "$1"
