printf "$1" > "$2"
