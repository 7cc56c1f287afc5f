# The entries between two keys: what is printed, the count, the edges, mistakes, and the way back through apply.
tab=$(printf '\t')

# listed WANT WORDS..: what list prints on the chip, tabs shown as blanks and lines parted by commas
listed() {
    wanted=$1
    shift
    out=$(limited list "$chip" "$@" 2>&1)
    status=$?
    shown=$(echo "$out" | tr "$tab\n" ' ,')
    { [ "$status" -eq 0 ] && [ "${shown%,}" = "$wanted" ]; } || fail "'mutree list $*' printed '$shown' with status $status, wanted '$wanted'"
}

fresh
listed ""
listed 0 --count
for pair in "7 70" "0 4294967295" "4294967295 0" "20 5" "21 5"; do
    # shellcheck disable=SC2086
    "$tool" insert "$chip" $pair > /dev/null
done
keep "$chip"
listed "0 4294967295,7 70,20 5,21 5,4294967295 0"
listed "0 4294967295,7 70,20 5,21 5,4294967295 0" 0 4294967295
listed "7 70,20 5" 7 20
listed "7 70" 1 19
listed "20 5" 20 20
listed "" 8 19
listed "" 21 20
listed "" 4294967295 0
listed "4294967295 0" 22 4294967295
listed "4294967295 0" 4294967295 4294967295
listed "0 4294967295" 0 0
listed 5 --count
listed 2 7 --count 20
listed 0 8 19 --count
listed 0 20 7 --count
listed "7 70,20 5" 7 20 "$said"
[ "$("$tool" list "$chip" 7 7)" = "7${tab}70" ] || fail "list does not part key and address by a tab"

# mistakes: told, and nothing on standard output
for words in "7" "7 8 9" "7 x" "x 7" "07 8" "7 4294967296" "-1 7" "7 8 --force" "7 8 --allow 1" "7 8 --cont"; do
    # shellcheck disable=SC2086
    out=$(limited list "$chip" $words 2> err)
    status=$?
    { [ "$status" -eq 64 ] && [ -z "$out" ] && [ -s err ]; } || fail "'mutree list $words' ended with $status: $out $(cat err)"
done
want 64 "usage: mutree list FILE [LOW HIGH]" list "$chip" 7
want 64 "usage: mutree list FILE [LOW HIGH]" list
want 64 "low key 'x' is no number" list "$chip" x 7
want 64 "high key '08' has a leading zero" list "$chip" 7 08
want 64 "'list'" lst "$chip"
want 66 "cannot open" list none.img
head -c 100 "$chip" > short.img
want 1 "LENGTH" list short.img
head -c "$three" /dev/zero > zeros.img
for words in "" "1 2" "2 1" "--count"; do
    # shellcheck disable=SC2086
    want 2 "DAMAGED: R1 is broken on page 0" list zeros.img $words "$said"
    # shellcheck disable=SC2086
    [ -z "$("$tool" list zeros.img $words "$said" 2> /dev/null)" ] || fail "list of a damaged index prints on standard output"
done
same "$chip" "a list"

# the way back: the lines of a list, each with insert before it, give an index with the same map
fresh "$chip" 4
key=1
while [ "$key" -le 300 ]; do
    echo "insert $((key * 7919 % 100003)) $((key * 65537 % 4294967296))"
    key=$((key + 1))
done > commands
echo "delete 7919" >> commands
"$tool" apply "$chip" < commands > /dev/null || fail "apply of 300 keys"
"$tool" list "$chip" > pairs || fail "list of 299 keys"
[ "$(wc -l < pairs)" -eq 299 ] || fail "list printed $(wc -l < pairs) lines for 299 keys"
sed '$d; s/^insert //' commands | grep -v '^7919 ' | sort -n | tr ' ' '\t' > wanted
cmp -s pairs wanted || fail "list of 299 keys prints other pairs than were inserted, or not in rising order"
sed 's/^/insert /' pairs > commands
fresh other.img 3
"$tool" apply other.img < commands > /dev/null || fail "apply of a list"
"$tool" list other.img > again
cmp -s pairs again || fail "a list turned into inserts gives another map"

# parts of it, one after the other, are the whole
: > joined
for low in 0 20000 40000 60000 80000; do
    "$tool" list "$chip" "$low" $((low + 19999)) >> joined
done
"$tool" list "$chip" 100000 4294967295 >> joined
cmp -s pairs joined || fail "lists of parts are not the whole list"

if [ -c /dev/full ]; then
    for words in "" "--count" "0 50000"; do
        # shellcheck disable=SC2086
        "$tool" list "$chip" $words > /dev/full 2> err
        status=$?
        { [ "$status" -eq 74 ] && has "$(cat err)" "cannot print"; } || fail "'mutree list $words' on a full device ended with $status: $(cat err)"
    done
else
    left_out "a full device, there is no /dev/full here"
fi
