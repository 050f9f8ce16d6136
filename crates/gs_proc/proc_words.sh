cat "$1" "$2" > "$3"
printf more >> "$2"
printf '%s\n' "$4" > "$5"
printf '%s\n' "$6" > "$7"
