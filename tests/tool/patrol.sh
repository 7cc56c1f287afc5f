# Flipped bits: what patrol finds by page and half, its status, that it writes with --mend alone, and what check and page say of them.

# at PAGE HALF: where a half stands in the file
at() {
    echo $(($1 * page + 256 * $2))
}

# code_at PAGE HALF: where its code stands
code_at() {
    echo $(($1 * page + main + first_code + 3 * $2))
}

all=$((3 * row * halves))
last=$((halves - 1))

# summary DATA CODE BEYOND: the last line of a patrol
summary() {
    echo "$((all - $1 - $2 - $3)) halves clean, $1 with a flipped data bit, $2 with a flipped code bit, $3 beyond repair"
}

# unmended TEXT..: what patrol finds and leaves: status 65, each text is printed, and the file stays
unmended() {
    keep "$chip"
    want 65 "the file is left as it is" patrol "$chip" "$said"
    for text in "mutree patrol $chip $said --mend" "$@"; do
        has "$out" "$text" || fail "patrol printed '$out', wanted '$text'"
    done
    same "$chip" "patrol without --mend"
}

# mended TEXT..: the same with --mend: status 0, and the chip is the whole one again
mended() {
    want 0 "the flipped bits are mended in the file" patrol "$chip" "$said" --mend
    for text in "$@"; do
        has "$out" "$text" || fail "patrol --mend printed '$out', wanted '$text'"
    done
    cmp -s "$chip" whole.img || fail "patrol --mend did not put the chip right"
    no_leftover "patrol --mend"
    want 0 "$(summary 0 0 0)" patrol "$chip" "$said"
}

fresh whole.img
for key in 1 2 3 4 5; do
    "$tool" insert whole.img "$key" $((1000 + key)) > /dev/null
done

# ---- nothing found: nothing is written, and a file that may not be written is taken
cp whole.img "$chip"
want 0 "$(summary 0 0 0)" patrol "$chip"
before=$(ls -i "$chip")
want 0 "$(summary 0 0 0)" patrol "$chip" --mend
[ "$(ls -i "$chip")" = "$before" ] || fail "patrol --mend replaced a file in which nothing was found"
! has "$out" "page" || fail "a clean patrol names a page: $out"
chmod 444 "$chip"
want 0 "$(summary 0 0 0)" patrol "$chip"
want 66 "read-only" patrol "$chip" --mend
chmod 644 "$chip"

# ---- one bit: of a half, of a code, of an erased page, at both ends
flip "$(at 5 0)" 100
unmended "page 5, half 0: data bit 100 flipped (bit 4 of byte 12 of the half)" "$(summary 1 0 0); the file is left"
want 2 "R1 is broken on page 5" check "$chip" "$said"
for text in "Pages with codes that do not fit: 5
" "mutree patrol $chip $said" "half 0: its code does not fit: data bit 100 flipped"; do
    has "$out" "$text" || fail "check of a chip with a flipped bit printed '$out', wanted '$text'"
done
want 2 "half 0: its code does not fit: data bit 100 flipped" page "$chip" 5 "$said"
mended "page 5, half 0: data bit 100 flipped" "$(summary 1 0 0); the flipped bits are mended"
want 0 "1003" lookup "$chip" 3
flip "$(code_at 5 "$last")" 23
unmended "page 5, half $last: code bit 23 flipped" "$(summary 0 1 0)"
mended "page 5, half $last: code bit 23 flipped" "$(summary 0 1 0)"
flip "$(at $((3 * row - 1)) "$last")" 2047
flip "$(at 0 0)" 0
unmended "page 0, half 0: data bit 0 flipped" "page $((3 * row - 1)), half $last: data bit 2047 flipped" "$(summary 2 0 0)"
mended "$(summary 2 0 0)"

# ---- pages in a row, and others
for number in 1 2 3 5; do
    flip "$(at "$number" 0)" 9
done
want 2 "R1 is broken on page 1" check "$chip" "$said"
has "$out" "Pages with codes that do not fit: 1-3 5
" || fail "check of a chip with four flipped bits printed '$out'"
mended "$(summary 4 0 0)"

# ---- two bits of a half: beyond repair, and left; a half beside it is mended all the same
flip "$(at 4 1)" 7 8
keep "$chip"
for mend in '' --mend; do
    # shellcheck disable=SC2086
    want 65 "page 4, half 1: beyond repair" patrol "$chip" "$said" $mend
    has "$out" "$(summary 0 0 1)" || fail "patrol of two flipped bits printed '$out'"
done
same "$chip" "patrol of what is beyond repair"
flip "$(at 2 0)" 70
want 65 "$(summary 1 0 1); the flipped bits are mended in the file" patrol "$chip" "$said" --mend
want 65 "$(summary 0 0 1)" patrol "$chip" "$said"
flip "$(at 4 1)" 7 8
cmp -s "$chip" whole.img || fail "patrol --mend beside a half beyond repair did not mend the other one"

# ---- an index made before there were codes
number=0
while [ "$number" -le 5 ]; do
    half=0
    while [ "$half" -lt "$halves" ]; do
        poke "$(code_at "$number" "$half")" 255 255 255
        half=$((half + 1))
    done
    number=$((number + 1))
done
want 2 "version before 0.5.0" check "$chip" "$said"
has "$out" "R1 is broken on page " || fail "check of an index without codes printed '$out'"
want 2 "DAMAGED: R1" lookup "$chip" 3 "$said"
cp whole.img "$chip"

# ---- mistakes
want 64 "usage: mutree patrol FILE" patrol
want 64 "usage: mutree patrol FILE" patrol "$chip" 1
want 64 "no option '--mend'" check "$chip" --mend
want 66 "cannot open" patrol none.img
want 66 "cannot open" patrol none.img --mend
want 1 "LENGTH" patrol "$here/patrol.sh"
want 1 "LENGTH" patrol "$here/patrol.sh" --mend
[ ! -e none.img ] || fail "patrol --mend made a file"
