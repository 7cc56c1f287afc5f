#!/bin/sh
# A short day with the tool: format, frames stored, one looked up, the battery lost in the middle of an update.
# usage: day.sh TOOL [--small | --large]
set -u
tool=$1 chip_option=${2:-}
folder=$(mktemp -d) || exit 1
trap 'rm -rf "$folder"' EXIT
chip=$folder/chip.img
case $chip_option in --large) last=255 ;; *) last=63 ;; esac # the frames that a root at height 1 holds
next=$((last + 1))

run() {
    printf '$ mutree'
    for word in "$@"; do
        [ "$word" = "$chip" ] && word=chip.img
        printf ' %s' "$word"
    done
    printf '\n'
    "$tool" "$@" 2>&1
}

echo "A chip of three blocks is formatted."
# shellcheck disable=SC2086
run format "$chip" 3 $chip_option
echo
echo "$last frames are stored, keys 1 to $last, each at address 1000 + key."
key=1
while [ "$key" -le "$last" ]; do
    "$tool" insert "$chip" "$key" $((1000 + key)) > "$folder/last" || exit 1
    key=$((key + 1))
done
echo "(the last one: $(cat "$folder/last"))"
run lookup "$chip" 40
run show "$chip"
echo
echo "Frame $next needs a collection. What would a battery loss after each of its stores leave?"
run cut "$chip" "$next" $((1000 + next))
echo
echo "The battery is lost after one store."
run insert "$chip" "$next" $((1000 + next)) --allow 1
echo "The index is whole, with the old map:"
run lookup "$chip" "$last"
run lookup "$chip" "$next"
echo "The insert is made again:"
run insert "$chip" "$next" $((1000 + next))
run lookup "$chip" "$next"
run show "$chip"
