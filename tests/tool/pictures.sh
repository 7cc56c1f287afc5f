# Pictures of small and large chips.
# lines_of WORDS..: how many lines the tool prints
lines_of() {
    "$tool" "$@" 2> /dev/null | wc -l
}

# drawing FILE MOST: a whole SVG picture with its parts, at most so many bytes, near 3:2
drawing() {
    rm -f chip.svg
    "$tool" show "$1" "$said" --svg chip.svg > /dev/null 2>&1
    for text in "<title>" "</svg>" "erased pages:" "a row is a block of $row pages" " blocks, $kind, "; do
        grep -q "$text" chip.svg || fail "the picture of $1 lacks $text"
    done
    size=$(wc -c < chip.svg)
    [ "$size" -le "$2" ] || fail "the picture of $1 has $size bytes"
    width=$(sed -n "1s/.* width='\([0-9]*\)'.*/\1/p" chip.svg)
    height=$(sed -n "1s/.* height='\([0-9]*\)'.*/\1/p" chip.svg)
    { [ $((100 * width)) -ge $((120 * height)) ] && [ $((100 * width)) -le $((190 * height)) ]; } \
        || fail "the picture of $1 is $width by $height"
    rightmost=$(sed -n "s/.*<text x='\([0-9]*\)'.*/\1/p" chip.svg | sort -n | tail -n 1)
    [ "$rightmost" -lt $((width - 20)) ] || fail "the picture of $1 is $width wide and has a text at $rightmost"
}

fresh
want 0 "DONE" insert "$chip" 1 1
drawing "$chip" 20000
grep -q "1 entry, height 1" chip.svg || fail "the picture does not tell the entries"
grep -q "level $top:" chip.svg || fail "the picture of $kind does not tell of level $top"
! grep -q "level $((top + 1)):" chip.svg || fail "the picture of $kind tells of level $((top + 1))"
want 0 "1 to $top lowest live level" show "$chip"
[ "$(lines_of show "$chip")" -eq 6 ] || fail "show of 3 blocks prints $(lines_of show "$chip") lines"
fresh "$chip" 64
[ "$(lines_of show "$chip")" -eq 67 ] || fail "show of 64 blocks prints $(lines_of show "$chip") lines"
drawing "$chip" 50000
fresh "$chip" 65
[ "$(lines_of show "$chip")" -le 10 ] || fail "show of 65 blocks prints $(lines_of show "$chip") lines"
[ "$(lines_of show "$chip" --pages)" -eq 68 ] || fail "show --pages of 65 blocks prints $(lines_of show "$chip" --pages) lines"
fresh "$chip" 1024
want 0 "R..............................................................." show "$chip"
[ "$(lines_of show "$chip")" -le 24 ] || fail "show of 1,024 blocks prints $(lines_of show "$chip") lines"
[ "$(lines_of show "$chip" --pages)" -eq 1027 ] || fail "show --pages of 1,024 blocks prints $(lines_of show "$chip" --pages) lines"
drawing "$chip" 100000

# no two neighbouring pages alike: an erased page and one of zeros, again and again
filled pages "$page" 377
head -c "$page" /dev/zero >> pages
for doubled in 1 2 3 4 5 6 7 8 9 10 11 12 13 14; do
    cat pages pages > twice
    mv twice pages
done
drawing pages 500000
want 2 "$kind, DAMAGED" show pages "$said"
want 2 "16384 programmed, 16384 erased" show pages "$said"
