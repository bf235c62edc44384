# A folder for a script's own files, which is gone when the script ends, also by a signal.
make_room() {
    room=$(mktemp -d) || exit 2
    trap 'rm -rf "$room"' EXIT
    trap 'exit 129' HUP
    trap 'exit 130' INT
    trap 'exit 143' TERM
}
