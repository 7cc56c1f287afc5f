# An index carried from one file to another as a text: what is written and read, mistakes, and what must not be overwritten or half made.
tab=$(printf '\t')

# records FIRST LAST [STEP]: so many lines of a text
records() {
    key=$1
    while [ "$key" -le "$2" ]; do
        printf '%s\t%s\n' "$key" $((key * 65537 % 4294967296))
        key=$((key + ${3:-1}))
    done
}

# refused STATUS WORDS TEXT: an import of the text, given as printf takes it, that must be refused with these words and make no file
refused() {
    # shellcheck disable=SC2059
    printf "$3" > bad.txt
    # shellcheck disable=SC2086
    want "$1" "$2" import none.img bad.txt 3 $option
    # shellcheck disable=SC2086
    out=$(limited import none.img - 3 $option < bad.txt 2>&1)
    [ $? -eq "$1" ] || fail "an import of '$3' from standard input: $out"
    [ ! -e none.img ] || fail "a refused import of '$3' made a file"
    no_leftover "a refused import"
}

# the way there and back
records 0 400 > text
printf '4294967294\t0\n4294967295\t4294967295\n' >> text
# shellcheck disable=SC2086
want 0 "DONE: 403 records, " import "$chip" text 3 $option
want 0 "3 blocks, $kind, sound; " show "$chip"
want 0 "403 entries" show "$chip"
want 0 "0" lookup "$chip" 4294967294
"$tool" export "$chip" > again || fail "export to standard output"
cmp -s text again || fail "an export of what an import made is another text"
"$tool" export "$chip" - > again || fail "export to -"
cmp -s text again || fail "an export to - is another text"
want 0 "DONE: 403 records, $(wc -c < text) bytes" export "$chip" again.txt
cmp -s text again.txt || fail "an export to a file is another text"
"$tool" list "$chip" > listed
cmp -s text listed || fail "list and export differ"

# to the other chip and back: after updates, so that the images differ
want 0 "DONE" delete "$chip" 17
want 0 "DONE" insert "$chip" 17000 5
"$tool" export "$chip" > text
case $said in --small) other=--large ;; *) other=--small ;; esac
"$tool" export "$chip" | limited import other.img - 5 "$other" > out 2>&1 || fail "export into import: $(cat out)"
want 0 "${other#--} pages, sound" show other.img
"$tool" export other.img | cmp -s - text || fail "the other chip holds another map"
# shellcheck disable=SC2086
"$tool" export other.img | limited import back.img - 4 $option > out 2>&1 || fail "the way back: $(cat out)"
"$tool" export back.img | cmp -s - text || fail "the way back changed the map"

# nothing to carry
fresh
[ -z "$("$tool" export "$chip")" ] || fail "an empty index is not an empty text"
want 0 "DONE: 0 records, 0 bytes" export "$chip" empty.txt
[ -e empty.txt ] || fail "an export of an empty index makes no file"
[ ! -s empty.txt ] || fail "an empty text has bytes"
# shellcheck disable=SC2086
want 0 "DONE: 0 records, 1 programmed, 3 erased; a chip with $kind, $three bytes" import new.img empty.txt 3 $option
cmp -s new.img "$chip" || fail "an import of nothing is not a format"

# what stands in a file is not overwritten
records 1 5 > text
keep text
fresh
want 0 "DONE" insert "$chip" 7 1000
keep "$chip"
# shellcheck disable=SC2086
want 64 "3 blocks, $kind, with 1 entry ($three bytes); --force" import "$chip" text 3 $option
echo "a letter" > letter.txt
keep letter.txt
want 64 "letter.txt is there (9 bytes); --force replaces it" export "$chip" letter.txt
# shellcheck disable=SC2086
want 64 "no index (9 bytes); --force" import letter.txt text 3 $option
same letter.txt "a refused export or import"
want 66 "index itself" export "$chip" "$chip" --force
want 66 "index itself" export "$chip" ./"$chip"
ln -s "$chip" link.img
want 66 "index itself" export "$chip" link.img --force
ln -s text link.txt
# shellcheck disable=SC2086
want 66 "text itself" import text text 3 $option --force
# shellcheck disable=SC2086
want 66 "text itself" import link.txt text 3 $option --force
# shellcheck disable=SC2086
out=$(limited import text - 3 $option --force < text 2>&1)
{ [ $? -eq 66 ] && has "$out" "text itself"; } || fail "an import over its own text on standard input: $out"
same text "a refused import"
same "$chip" "a refused export or import"
rm link.img link.txt
want 66 "no regular file; write -" export "$chip" /dev/null
mkdir place
want 66 "no regular file" export "$chip" place --force
# shellcheck disable=SC2086
want 66 "a directory" import place text 3 $option --force
want 66 "cannot make" export "$chip" none/text.txt
chmod 444 letter.txt
want 66 "read-only" export "$chip" letter.txt --force
chmod 644 letter.txt
want 0 "DONE: 1 record, 7 bytes" export "$chip" letter.txt --force
[ "$(cat letter.txt)" = "7${tab}1000" ] || fail "an export with --force left '$(cat letter.txt)'"
# shellcheck disable=SC2086
want 0 "DONE: 5 records, " import "$chip" text 3 $option --force
want 4 "ABSENT" lookup "$chip" 7
want 0 "5 entries" show "$chip"
filled erased.img "$three" 377
# shellcheck disable=SC2086
want 0 "DONE: 5 records, 6 programmed, 3 erased; a chip with $kind, $three bytes" import erased.img text 3 $option
rm -f text.kept

# lines that do not fit: named, lowest first, and no file is made
refused 9 "TEXT: line 1 of" 'x'
refused 9 "line 1 of bad.txt: it does not end with a line feed (byte 10)" '1\t2'
refused 9 "line 3 of bad.txt: it does not end" '1\t2\n3\t4\n5\t6'
refused 9 "line 2 of bad.txt: it is empty" '1\t2\n\n3\t4\n'
refused 9 "line 1 of bad.txt: it is empty" '\n'
refused 9 "line 1 of bad.txt: it has a carriage return" '1\t2\r\n3\t4\r\n'
refused 9 "line 2 of bad.txt: it should be KEY, one tab, ADDRESS" '1\t2\n3 4\n'
refused 9 "line 2 of bad.txt: it should be KEY, one tab, ADDRESS" '1\t2\n3\t4\t\n'
refused 9 "line 2 of bad.txt: it should be KEY, one tab, ADDRESS" '1\t2\ninsert 3 4\n'
refused 9 "line 1 of bad.txt: key '07' has a leading zero" '07\t2\n'
refused 9 "line 1 of bad.txt: address '00' has a leading zero" '7\t00\n'
refused 9 "line 1 of bad.txt: key '' is no number" '\t2\n'
refused 9 "line 1 of bad.txt: address '' is no number" '1\t\n'
refused 9 "line 2 of bad.txt: key '4294967296' is no number from 0 to 4294967295" '1\t2\n4294967296\t2\n'
refused 9 "line 2 of bad.txt: address '4294967296' is no number" '1\t2\n3\t4294967296\n'
refused 9 "line 2 of bad.txt: key '99999999999999999999' is no number" '1\t2\n99999999999999999999\t2\n'
refused 9 "line 2 of bad.txt: key '18446744073709551619' is no number" '1\t2\n18446744073709551619\t2\n'
refused 9 "line 1 of bad.txt: key '-1' is no number" '\0551\t2\n'
refused 9 "line 1 of bad.txt: key '+1' is no number" '+1\t2\n'
refused 9 "line 1 of bad.txt: key ' 1' is no number" ' 1\t2\n'
refused 9 "line 1 of bad.txt: address '2 ' is no number" '1\t2 \n'
refused 9 "line 1 of bad.txt: address '2?' is no number" '1\t2\000\n'
refused 9 "line 2 of bad.txt: key 7 is not above the one before, 7" '7\t2\n7\t3\n8\t4\n'
refused 9 "line 3 of bad.txt: key 7 is not above the one before, 8" '7\t2\n8\t3\n7\t4\n'
refused 9 "line 2 of bad.txt: key 4294967295 is not above" '4294967295\t2\n4294967295\t3\n'
refused 9 "line 2 of" '1\t2\n1\t2\n07\t4\nx\n'
head -c 300000 /dev/zero > zeros.txt
# shellcheck disable=SC2086
want 9 "line 1 of zeros.txt: it is longer than any record" import none.img zeros.txt 3 $option
[ ! -e none.img ] || fail "a refused import of zeros made a file"

# a refused text leaves an index alone, with --force too
keep "$chip"
printf '1\t2\n1\t3\n' > bad.txt
# shellcheck disable=SC2086
want 9 "nothing was changed" import "$chip" bad.txt 3 $option --force
same "$chip" "a refused text"

# 4,096 records, and one more
if have seq; then
    seq 1 4097 | sed "s/\$/${tab}7/" > many
    head -n 4096 many > most
    # shellcheck disable=SC2086
    want 9 "line 4097 of many: there are too many lines; nothing was changed" import none.img many 12 $option
    has "$out" "head -n 4096 TEXT | mutree import NEW - BLOCKS" || fail "a text of 4,097 lines: no word of what to do: $out"
    # shellcheck disable=SC2086
    want 0 "DONE: 4096 records" import most.img most 12 $option
    # on so many blocks the entries are inserted by a record; the same bytes as a format and the inserts
    fresh inserted.img 12
    sed 's/^/insert /' most | limited apply inserted.img > out 2>&1 || fail "4,096 inserts: $(cat out)"
    cmp -s most.img inserted.img || fail "an import on many blocks leaves other bytes than a format and its inserts"
    rm -f inserted.img
    # what the tool says is to be done with more
    # shellcheck disable=SC2086
    head -n 4096 many | limited import many.img - 12 $option > out 2>&1 || fail "the first 4,096 lines: $(cat out)"
    tail -n +4097 many | sed 's/^/insert /' | limited apply many.img > out 2>&1 || fail "the lines after 4,096: $(cat out)"
    "$tool" export many.img > again 2> err || fail "an export of 4,097 records"
    cmp -s many again || fail "more than 4,096 records were not carried as the tool says"
    has "$(cat err)" "one import takes 4096 records" || fail "an export of 4,097 records printed '$(cat err)'"
    want 0 "DONE: 4097 records" export many.img many.txt
    "$tool" export most.img 2>&1 | cmp -s - most || fail "an export of 4,096 records is another text, or warns"
    # too few blocks: nothing is left, and how many would do
    if [ "$said" = --small ]; then
        head -n 529 many > text
        want 6 "ROOM: 528 of 529 records fit on 3 blocks with small pages; nothing was changed" import none.img text 3
        has "$out" "4 blocks take them all" || fail "an import that is ROOM printed '$out'"
        keep "$chip"
        want 6 "ROOM" import "$chip" text 3 --force
        same "$chip" "an import that is ROOM"
        want 0 "DONE: 529 records" import none.img text 4
        want 6 "10 blocks take them all" import other.img most 9 --force
    else
        want 0 "DONE: 4096 records" import none.img most 3 --large
    fi
    [ ! -e none.img ] || rm none.img
else
    left_out "4,096 records, there is no seq here"
fi

# words
printf '1\t2\n' > text
for words in "" "none.img" "none.img text" "none.img text 3 4" "none.img text x" "none.img text 03" "none.img text 3 --allow 1"; do
    # shellcheck disable=SC2086
    want 64 "mutree" import $words
done
want 1 "3 to 1024 blocks, not 2" import none.img text 2
want 1 "3 to 1024 blocks, not 1025" import none.img text 1025
want 66 "cannot open" import none.img missing.txt 3
want 66 "cannot read" import none.img place 3
want 66 "cannot open" export none.img
want 64 "usage: mutree export FILE [TEXT]" export
want 64 "one word too many" export "$chip" a b
want 64 "'export'" exprot "$chip"
want 64 "'import'" inport "$chip"
head -c 100 "$chip" > short.img
want 1 "LENGTH" export short.img text
head -c "$three" /dev/zero > zeros.img
want 2 "DAMAGED: R1 is broken on page 0" export zeros.img "$said"
[ -z "$("$tool" export zeros.img "$said" 2> /dev/null)" ] || fail "an export of a damaged index prints on standard output"
want 2 "DAMAGED" export zeros.img new.txt "$said"
[ ! -e new.txt ] || fail "a refused export made a file"
[ ! -e none.img ] || fail "a refused import made a file"

if [ -c /dev/full ]; then
    for words in "" -; do
        # shellcheck disable=SC2086
        "$tool" export "$chip" $words > /dev/full 2> err
        status=$?
        { [ "$status" -eq 74 ] && has "$(cat err)" "cannot print"; } || fail "'mutree export $words' on a full device ended with $status: $(cat err)"
    done
else
    left_out "a full device, there is no /dev/full here"
fi

# no room for the new file: the old one stays, a new one is not left
keep "$chip"
# shellcheck disable=SC2086
out=$( (ulimit -f 20 && "$tool" import "$chip" text 3 $option --force) 2>&1)
{ [ $? -eq 66 ] && has "$out" "left as it was"; } || fail "an import without room for the file: $out"
same "$chip" "an import without room for the file"
# shellcheck disable=SC2086
out=$( (ulimit -f 20 && "$tool" import none.img text 3 $option) 2>&1)
[ ! -e none.img ] || fail "an import without room for the file left one: $out"
no_leftover "an import without room for the file"
