# Read by run.sh of replay and of compare, at the repository's root: the program, a folder that goes at the end, and what it is held to.
program=$1
folder=$(mktemp -d)
trap 'rm -rf "$folder"' EXIT
bad=0

# want WHAT INPUT OUTPUT: both as printf writes them
want() {
    printf "$2" | "$program" > "$folder/out"
    printf "$3" > "$folder/wanted"
    if ! cmp -s "$folder/out" "$folder/wanted"; then
        echo "$name: $1: wrote '$(head -c 300 "$folder/out")', wanted '$(cat "$folder/wanted")'"
        bad=1
    fi
}

# fails_when_full INPUT: where the output is full the program must end with a failure, or half of what it says would pass for the whole
fails_when_full() {
    if [ ! -c /dev/full ]; then
        echo "$name: a full output is not tried: this machine has no /dev/full"
    elif "$program" < "$1" > /dev/full 2> "$folder/err"; then
        echo "$name: a full output is passed over"
        bad=1
    fi
}
