# Damaged images, one for each rule and clause, made by byte edits of an erased chip and, but for R1, given fitting codes: what check says, which page it shows, that every
# other command names rule and page, and what page prints.

# program PAGE NUMBER HEIGHT: the spare bytes of a page without entries
program() {
    counts=
    for level in 1 2 3 4 5 6 7; do
        [ "$level" -gt "$top" ] || counts="$counts 0"
    done
    # shellcheck disable=SC2086
    poke $(($1 * page + main)) "$2" 0 0 0 "$3" $counts
}

# slot PAGE LEVEL ENTRY: where an entry stands in the file
slot() {
    echo $(($1 * page + main - (main >> ($2 - 1)) + 8 * $3))
}

# entry PAGE LEVEL ENTRY KEY ADDRESS: an entry, the last one of its node
entry() {
    poke "$(slot "$1" "$2" "$3")" "$4" 0 0 0 "$5" 0 0 0
    poke $(($1 * page + main + 4 + $2)) $(($3 + 1))
}

# tree: a sound image: the leaf of key 10 on page 0, the leaf of key 20 and the root above both on page 1
tree() {
    filled "$chip" "$three" 377
    program 0 1 0
    entry 0 1 0 10 110
    program 1 2 2
    entry 1 1 0 20 120
    entry 1 2 0 10 0
    entry 1 2 1 20 1
    fit
}

# high: the same a level higher, the nodes on pages 0 and 1, their leaves on pages 1 and 2, the root on page 3. Page 1 has a leaf and a
# node that does not name it, which breaks R6 alone.
high() {
    filled "$chip" "$three" 377
    program 0 1 0
    program 1 2 0
    program 2 3 0
    program 3 4 3
    entry 0 2 0 10 1
    entry 1 2 0 20 2
    entry 1 1 0 10 110
    entry 2 1 0 20 120
    entry 3 3 0 10 0
    entry 3 3 1 20 1
}

# place PAGE: the line that print_page begins with
place() {
    echo "page $1: block $(($1 / row)), page $(($1 % row)) of the block, bytes $(($1 * page)) to $((($1 + 1) * page - 1)) of the file"
}

# others WORDS: what every other command says of the chip, and that it leaves it alone
others() {
    keep "$chip"
    want 2 "DAMAGED: $1" lookup "$chip" 20 "$said"
    want 2 "mutree check $chip $said" lookup "$chip" 20 "$said"
    want 2 "DAMAGED: $1" insert "$chip" 20 1 "$said"
    want 2 "DAMAGED: $1" delete "$chip" 20 "$said"
    want 2 "DAMAGED: $1" cut "$chip" 20 1 "$said"
    want 2 "3 blocks, $kind, DAMAGED: $1" show "$chip" "$said"
    want 2 "mutree check $chip $said" show "$chip" "$said"
    out=$(echo "insert 20 1" | limited apply "$chip" "$said" 2>&1)
    { [ $? -eq 2 ] && has "$out" "line 1: insert 20: DAMAGED: $1; nothing was changed" && has "$out" "mutree check $chip $said"; } \
        || fail "apply to a damaged chip: $out"
    same "$chip" "a command on a damaged chip"
}

# broken RULE PAGE TEXT..: what check says where a rule is broken on a page, and texts that it shows there
broken() {
    rule=$1 at=$2
    shift 2
    [ "$rule" -eq 1 ] || fit
    want 2 "3 blocks, $kind, DAMAGED: R$rule is broken on page $at," check "$chip" "$said"
    for text in "R$rule asks: " "It is broken on page $at." "$(place "$at")" "$@"; do
        has "$out" "$text" || fail "check of a chip that breaks R$rule on page $at printed '$out', wanted '$text'"
    done
    others "R$rule is broken on page $at"
}

# broken_whole RULE: the same for a rule of the whole image
broken_whole() {
    fit
    want 2 "3 blocks, $kind, DAMAGED: R$1 is broken," check "$chip" "$said"
    has "$out" "R$1 asks: " || fail "check does not say what R$1 asks: $out"
    has "$out" "whole image, so no page is named" || fail "check of a chip that breaks R$1 printed '$out'"
    ! has "$out" "of the block" || fail "check shows a page where R$1 names none: $out"
    others "R$1 is broken"
}

# ---- sound
tree
want 0 "3 blocks, $kind, sound; height 2, 2 entries, root on page 1" check "$chip" "$said"
want 0 "pages: 2 live, 0 dead, $((3 * row - 2)) erased" check "$chip"
want 0 "Every rule of a sound index holds, R1 to R8." check "$chip"
want 1 "LENGTH" check "$here/damage.sh"
want 66 "cannot open" check none.img
want 64 "usage: mutree check FILE" check "$chip" 1
want 64 "usage: mutree page FILE N" page "$chip"

# ---- each rule
tree
poke $((main + 4)) $((top + 1))
broken 1 0 "lowest page" "The codes of all pages fit." "height $((top + 1)), and the greatest is $top" "level 1, from slot 0: 1 entry"
if [ "$chip_name" = large ]; then # on the small chip codes stand up to the last spare byte
    tree
    poke $((2 * page - 1)) 0
    broken 1 1 "lowest page" "spare byte $((page - main - 1)) is 0, and should be 255" "The codes of all pages fit."
fi
tree
poke $((page + main)) 0
broken 1 1 "sequence number 0, which no page may have"

tree
program 4 3 0
broken 2 2 "first erased page that stands before a programmed one" "erased: all its $page bytes are 255"
tree
program $((2 * row)) 3 0
broken 2 $((2 * row)) "first programmed page of the second block that has both" "sequence number 3, height 0, it carries no root"

tree
program 2 3 0
program 3 2 0
program 4 1 0
broken 3 3 "It has the sequence number of page 1," "sequence number 2"

tree
poke $((page + main + 4)) 0
broken_whole 4

tree
poke "$(slot 1 2 0)" 30
broken 5 1 "first node" "level 2, a root, from slot $((main / 16)): 2 entries" "30          0
          20          1  the key does not rise"
tree
poke $(($(slot 1 2 0) + 4)) $((3 * row))
broken 5 1 "$((3 * row))  there is no such page"
tree
poke $(($(slot 1 2 0) + 4)) 9
broken 5 1 "9  this page is erased"
tree
poke $((main + 5)) 250
broken 5 0 "250 entries, and at most $((main / 16)) may stand here"
high
poke "$(slot 2 1 0)" 5
broken 5 2 "bounds that the entries above its node set"
poke "$(slot 1 2 0)" 15 # the node above that leaf, on page 1
broken 5 1 "first node"

high
broken 6 1 "lowest page" "entries by level, from 1 on: 1 1 0"

# no erased page, a live one in every block
filled "$chip" "$three" 377
at=0
while [ "$at" -lt $((3 * row)) ]; do
    program "$at" $((at + 1)) 0
    at=$((at + 1))
done
entry 0 1 0 10 110
entry "$row" 1 0 20 120
poke $((3 * row * page - page + main + 4)) 2
entry $((3 * row - 1)) 2 0 10 0
entry $((3 * row - 1)) 2 1 20 "$row"
broken_whole 7

# a leaf on every page of the first block, two nodes and the root on the next pages: three live pages too many
filled "$chip" "$three" 377
for at in 0 1 2; do
    program $((row + at)) $((row + at + 1)) 0
done
at=0
while [ "$at" -lt "$row" ]; do
    program "$at" $((at + 1)) 0
    entry "$at" 1 0 "$at" 0
    entry $((row + at / (row / 2))) 2 $((at % (row / 2))) "$at" "$at"
    at=$((at + 1))
done
poke $(((row + 2) * page + main + 4)) 3
entry $((row + 2)) 3 0 0 "$row"
entry $((row + 2)) 3 1 $((row / 2)) $((row + 1))
broken_whole 8

# ---- page
tree
program 2 3 0
fit
want 0 "$(place 1)" page "$chip" 1
for text in "sequence number 2, height 2, it carries a root" "live: reached from the root at level 1 2; the root stands here" \
    "entries by level, from 1 on: 1 2 0" "          10          0
          20          1
level 1, from slot 0: 1 entry" "          20        120"; do
    has "$out" "$text" || fail "page 1 of the tree is printed as '$out', wanted '$text'"
done
want 0 "live: reached from the root at level 1
" page "$chip" 0
want 0 "dead: no node here is reached from the root" page "$chip" 2 "$said"
want 0 "$(place $((2 * row + 1)))
erased: all its $page bytes are 255" page "$chip" $((2 * row + 1))
for bad_page in $((3 * row)) 4294967295; do
    want 64 "page '$bad_page' is not there; the pages of $chip are 0 to $((3 * row - 1)), name one of these" page "$chip" "$bad_page"
done
for bad_page in one -1 4294967296 ""; do
    want 64 "page '$bad_page' is no number from 0 to 4294967295; the pages of $chip are 0 to $((3 * row - 1))" page "$chip" "$bad_page"
done
want 64 "leading zero" page "$chip" 01
poke $((page + main + 4)) 0
want 2 "live or dead: that can't be told, the image is DAMAGED" page "$chip" 0 "$said"
want 2 "mutree check $chip $said" page "$chip" 0 "$said"
want 2 "erased: all its $page bytes are 255" page "$chip" 3 "$said"
